/* What the command writes to a file: a new one beside the old one, which takes its name once it is wholly written. */
#include "command.h"

#include <errno.h>
#include <fcntl.h>
#include <poll.h>
#include <signal.h>
#include <stdlib.h>
#include <string.h>
#include <sys/stat.h>
#include <unistd.h>
#ifdef __linux__
#include <sys/xattr.h>
#endif

/*
 * Where a file is put: the path, with no link at its end, the folder, with its slash, and the file there, if any; and
 * whether it is the folder that keeps it from being put there.
 */
struct place {
    char *path;
    char folder[4200];
    bool is_new;
    bool is_shut;
    struct stat old;
};

/* What the new file could not be given: the error, or 0; and whether the old one had bits that no rewritten file gets. */
struct lost {
    int owner;
    int group;
    int list;
    int mode;
    bool special;
};

/* What became of it. Where it failed, errno says why. */
enum outcome { DONE, FILE_FAILED, FOLDER_FAILED };

bool write_all(int fd, const uint8_t *bytes, size_t count)
{
    while (count > 0) {
        ssize_t n = write(fd, bytes, count);
        if (n < 0 && is_ready(fd, POLLOUT))
            continue;
        if (n < 0)
            return false;
        bytes += n;
        count -= (size_t)n;
    }
    return true;
}

/* Gives the new file the access list of the old one, where there are such beside the mode. Gives the error, or 0. */
static int keep_list(int fd, const char *path)
{
#ifdef __linux__
    static const char name[] = "system.posix_acl_access";
    char list[8192];
    ssize_t size = getxattr(path, name, list, sizeof list);
    if (size >= 0)
        return fsetxattr(fd, name, list, (size_t)size, 0) == 0 ? 0 : errno;
    if (errno == ENODATA)
        return fremovexattr(fd, name) == 0 || errno == ENODATA ? 0 : errno;
    return errno == EOPNOTSUPP || errno == ENOSYS ? 0 : errno;
#else
    (void)fd;
    (void)path;
    return 0;
#endif
}

/*
 * Gives the new file the owner, the group, the access list and the mode of the old one, as far as it may. Without the
 * group or the list the mode's bits for group and others would let in people whom they shut out before: they go.
 */
static bool keep_access(int fd, const struct place *p, struct lost *lost)
{
    struct stat made;
    mode_t mode = p->old.st_mode & 0777;
    if (fstat(fd, &made) != 0)
        return false;
    if (made.st_uid != p->old.st_uid && fchown(fd, p->old.st_uid, (gid_t)-1) != 0)
        lost->owner = errno;
    if (made.st_gid != p->old.st_gid && fchown(fd, (uid_t)-1, p->old.st_gid) != 0)
        lost->group = errno;
    else
        lost->list = keep_list(fd, p->path);
    if (lost->group != 0 || lost->list != 0)
        mode &= 0700;
    if (fchmod(fd, mode) != 0)
        lost->mode = errno;
    lost->special = (p->old.st_mode & 07000) != 0;
    return true;
}

/* Gives a wholly new file what the mask leaves. */
static bool set_mode(int fd, struct lost *lost)
{
    mode_t mask = umask(0);
    umask(mask);
    if (fchmod(fd, 0666 & ~mask) != 0)
        lost->mode = errno;
    return true;
}

/* Whether the bytes are on the disk, as far as the file system has a way to say so. */
static bool is_synced(int fd)
{
    return fsync(fd) == 0 || errno == ENOSYS || errno == EOPNOTSUPP || errno == EINVAL;
}

/* Fills the temporary file, which its maker alone may use until then, and closes it. */
static bool fill(int fd, const struct place *p, const uint8_t *bytes, size_t count, struct lost *lost)
{
    bool good = write_all(fd, bytes, count) && (p->is_new ? set_mode(fd, lost) : keep_access(fd, p, lost)) &&
                is_synced(fd);
    int error = errno;
    if (close(fd) != 0 && good)
        return false;
    errno = error;
    return good;
}

/* Whether no signal waits that is to end the command. */
static bool goes_on(void)
{
    static const int numbers[] = {SIGHUP, SIGINT, SIGQUIT, SIGTERM};
    sigset_t waiting;
    struct sigaction action;
    if (sigpending(&waiting) != 0)
        return false;
    for (size_t i = 0; i < sizeof numbers / sizeof *numbers; i++) {
        if (sigismember(&waiting, numbers[i]) != 1)
            continue;
        if (sigaction(numbers[i], NULL, &action) == 0 && action.sa_handler == SIG_IGN)
            continue;
        errno = EINTR;
        return false;
    }
    return true;
}

static enum outcome replace_blocked(const struct place *p, const uint8_t *bytes, size_t count, struct lost *lost)
{
    char temporary[sizeof p->folder + sizeof ".uff-XXXXXX"];
    bool filled;
    int fd, error;
    snprintf(temporary, sizeof temporary, "%s.uff-XXXXXX", p->folder);
    fd = mkstemp(temporary);
    if (fd < 0)
        return FOLDER_FAILED;
    filled = fill(fd, p, bytes, count, lost);
    if (filled && goes_on() && rename(temporary, p->path) == 0)
        return DONE;
    error = errno;
    unlink(temporary);
    errno = error;
    return filled && (error == EACCES || error == EPERM || error == EROFS) ? FOLDER_FAILED : FILE_FAILED;
}

/*
 * Puts the bytes at the place. All signals wait in the meantime: one that ends the command does so with the old file or
 * the new one in place and nothing beside it.
 */
static enum outcome replace(const struct place *p, const uint8_t *bytes, size_t count, struct lost *lost)
{
    sigset_t all, before;
    enum outcome outcome;
    int error;
    sigfillset(&all);
    if (sigprocmask(SIG_BLOCK, &all, &before) != 0)
        return FILE_FAILED;
    outcome = replace_blocked(p, bytes, count, lost);
    error = errno;
    sigprocmask(SIG_SETMASK, &before, NULL);
    errno = error;
    return outcome;
}

/* Makes sure that the new name lasts; where a folder cannot be synced the file stands all the same. */
static void sync_folder(const char *folder)
{
    int fd = open(folder, O_RDONLY | O_DIRECTORY | O_CLOEXEC);
    if (fd < 0)
        return;
    fsync(fd);
    close(fd);
}

/* Finds the place of a file. Gives what is wrong with it, or NULL. */
static const char *find_place(const char *name, struct place *p)
{
    bool is_link;
    p->is_new = lstat(name, &p->old) != 0;
    p->is_shut = p->is_new && errno == EACCES;
    if (p->is_new && errno != ENOENT && !p->is_shut)
        return strerror(errno);
    is_link = !p->is_new && S_ISLNK(p->old.st_mode);
    p->path = is_link ? realpath(name, NULL) : strdup(name);
    if (p->path == NULL || (is_link && stat(p->path, &p->old) != 0))
        return strerror(errno);
    if (p->is_new)
        return NULL;
    if (S_ISDIR(p->old.st_mode))
        return strerror(EISDIR);
    if (!S_ISREG(p->old.st_mode))
        return "Not a regular file";
    if (access(p->path, W_OK) == 0)
        return NULL;
    p->is_shut = errno == EROFS;
    return p->is_shut ? NULL : strerror(errno);
}

/* Finds the folder of the path. Gives what is wrong with it, or NULL. */
static const char *find_folder(struct place *p)
{
    const char *slash = strrchr(p->path, '/');
    int length = slash == NULL ? 2 : (int)(slash - p->path) + 1;
    snprintf(p->folder, sizeof p->folder, "%.*s", length, slash == NULL ? "./" : p->path);
    return (size_t)length < sizeof p->folder ? NULL : strerror(ENAMETOOLONG);
}

/* Puts the bytes at a place that was found, and says what went wrong. Gives the exit status. */
static int put(const char *name, const struct place *p, const uint8_t *bytes, size_t count)
{
    struct lost lost = {0, 0, 0, 0, false};
    enum outcome outcome;
    if (p->is_shut) {
        tell(p->folder, "the folder cannot be written", p->is_new ? EACCES : EROFS);
        return TROUBLE;
    }
    outcome = replace(p, bytes, count, &lost);
    if (outcome == FILE_FAILED)
        return trouble(name, strerror(errno));
    if (outcome == FOLDER_FAILED) {
        tell(p->folder, "the folder cannot be written", errno);
        return TROUBLE;
    }
    sync_folder(p->folder);
    if (lost.owner != 0)
        tell(name, "the owner is not kept", lost.owner);
    if (lost.group != 0)
        tell(name, "the group is not kept, and group and others may not use the file", lost.group);
    if (lost.list != 0)
        tell(name, "the access list is not kept, and group and others may not use the file", lost.list);
    if (lost.mode != 0)
        tell(name, "the mode is not set", lost.mode);
    if (lost.special)
        tell(name, "set-user-ID, set-group-ID and sticky are not kept", 0);
    return ACCEPTED;
}

int save(const char *name, const uint8_t *bytes, size_t count)
{
    struct place p = {.path = NULL};
    const char *wrong = find_place(name, &p);
    int status;
    if (wrong == NULL)
        wrong = find_folder(&p);
    signal(SIGXFSZ, SIG_IGN);
    status = wrong == NULL ? put(name, &p, bytes, count) : trouble(name, wrong);
    free(p.path);
    return status;
}
