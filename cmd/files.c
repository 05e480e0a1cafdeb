/* Which files are judged: those that are named, and those in folders. */
#include "command.h"

#include <dirent.h>
#include <errno.h>
#include <stdlib.h>
#include <string.h>
#include <sys/stat.h>

/* Adds a file, whose name it keeps, or frees where memory ends. */
static bool add(struct files *f, char *name, int error)
{
    if (name != NULL && f->count == f->room) {
        size_t room = f->room == 0 ? 64 : f->room * 2;
        struct file *items = realloc(f->items, room * sizeof *items);
        if (items == NULL) {
            free(name);
            return false;
        }
        f->items = items;
        f->room = room;
    }
    if (name == NULL)
        return false;
    f->items[f->count++] = (struct file){name, error};
    return true;
}

static int by_name(const struct dirent **a, const struct dirent **b)
{
    return strcmp((*a)->d_name, (*b)->d_name);
}

static int is_entry(const struct dirent *e)
{
    return strcmp(e->d_name, ".") != 0 && strcmp(e->d_name, "..") != 0;
}

/* The name of a folder's entry. */
static char *join(const char *folder, const char *entry)
{
    size_t length = strlen(folder), room = length + strlen(entry) + 2;
    char *name = malloc(room);
    if (name != NULL)
        snprintf(name, room, "%s%s%s", folder, length > 0 && folder[length - 1] == '/' ? "" : "/", entry);
    return name;
}

static bool add_folder(struct files *f, const char *folder);

/* Adds what an entry of a folder is: a folder's files, but not those of a link to one; a file; nothing for a pipe or a device. */
static bool add_entry(struct files *f, char *name)
{
    struct stat s;
    bool is_link, good;
    if (name == NULL)
        return false;
    if (lstat(name, &s) != 0)
        return add(f, name, errno);
    is_link = S_ISLNK(s.st_mode);
    if (is_link && stat(name, &s) != 0)
        return add(f, name, errno);
    if (S_ISREG(s.st_mode))
        return add(f, name, 0);
    good = is_link || !S_ISDIR(s.st_mode) || add_folder(f, name);
    free(name);
    return good;
}

static bool add_folder(struct files *f, const char *folder)
{
    struct dirent **entries;
    int count = scandir(folder, &entries, is_entry, by_name);
    bool good = true;
    if (count < 0)
        return errno != ENOMEM && add(f, strdup(folder), errno);
    for (int i = 0; i < count; i++) {
        good = good && add_entry(f, join(folder, entries[i]->d_name));
        free(entries[i]);
    }
    free(entries);
    return good;
}

bool add_files(struct files *f, const char *name, bool is_deep)
{
    struct stat s;
    if (is_standard(name) || stat(name, &s) != 0 || !S_ISDIR(s.st_mode))
        return add(f, strdup(name), 0);
    return is_deep ? add_folder(f, name) : add(f, strdup(name), EISDIR);
}

void free_files(struct files *f)
{
    for (size_t i = 0; i < f->count; i++)
        free(f->items[i].name);
    free(f->items);
}
