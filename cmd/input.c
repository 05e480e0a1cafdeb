/* What the command reads: files and standard input. */
#include "command.h"

#include <errno.h>
#include <fcntl.h>
#include <poll.h>
#include <stdlib.h>
#include <string.h>
#include <unistd.h>

bool is_standard(const char *name)
{
    return strcmp(name, "-") == 0;
}

const char *shown_name(const char *name)
{
    return is_standard(name) ? "standard input" : name;
}

int open_input(const char *name)
{
    return is_standard(name) ? STDIN_FILENO : open(name, O_RDONLY | O_CLOEXEC);
}

void close_input(const char *name, int fd)
{
    if (!is_standard(name))
        close(fd);
}

bool is_ready(int fd, short event)
{
    struct pollfd one = {fd, event, 0};
    if (errno == EINTR)
        return true;
    return (errno == EAGAIN || errno == EWOULDBLOCK) && (poll(&one, 1, -1) > 0 || errno == EINTR);
}

ssize_t read_some(int fd, uint8_t *to, size_t room)
{
    ssize_t n;
    do
        n = read(fd, to, room);
    while (n < 0 && is_ready(fd, POLLIN));
    return n;
}

static bool grow(struct text *t)
{
    size_t room = t->room == 0 ? BURST : t->room * 2;
    uint8_t *bytes;
    if (room > MOST)
        room = MOST;
    bytes = realloc(t->bytes, room);
    if (bytes == NULL)
        return false;
    t->bytes = bytes;
    t->room = room;
    return true;
}

/* Reads to the end, or up to MOST bytes. */
static bool read_from(int fd, struct text *t)
{
    t->count = 0;
    while (t->count < MOST) {
        ssize_t n;
        if (t->count == t->room && !grow(t))
            return false;
        n = read_some(fd, t->bytes + t->count, t->room - t->count);
        if (n < 0)
            return false;
        if (n == 0)
            return true;
        t->count += (size_t)n;
    }
    return true;
}

bool read_file(const char *name, struct text *t)
{
    int fd = open_input(name);
    bool good = fd >= 0 && read_from(fd, t);
    int error = errno;
    if (fd >= 0)
        close_input(name, fd);
    if (good)
        return true;
    free(t->bytes);
    *t = (struct text){NULL, 0, 0};
    trouble(shown_name(name), strerror(error));
    errno = error;
    return false;
}

bool parse_number(const char *word, uint32_t *out)
{
    uint64_t n = 0;
    if (*word == '\0')
        return false;
    for (; *word != '\0'; word++) {
        if (*word < '0' || *word > '9')
            return false;
        n = n * 10 + (uint64_t)(*word - '0');
        if (n > UINT32_MAX)
            return false;
    }
    *out = (uint32_t)n;
    return true;
}

uint64_t number_in(const uint8_t *bytes, int count)
{
    uint64_t n = 0;
    while (count-- > 0)
        n = n << 8 | bytes[count];
    return n;
}
