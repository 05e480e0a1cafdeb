/* Document 01's example, read from its file, and the texts that are made of its lines. */
#include "canaries.h"

#include <stdio.h>
#include <string.h>

const char *example[LINES];

void read_example(const char *path)
{
    static char bytes[1024];
    FILE *from = fopen(path, "rb");
    char *at = bytes, *past;
    name = path;
    if (from == NULL)
        differs("it cannot be read");
    past = bytes + fread(bytes, 1, sizeof bytes, from);
    fclose(from);
    for (int i = 0; i < LINES; i++) {
        char *end = memchr(at, '\n', (size_t)(past - at));
        if (end == NULL)
            differs("a line of the example is missing");
        *end = '\0';
        example[i] = at;
        at = end + 1;
    }
    if (at != past)
        differs("it has more lines than the example");
}

static void add_bytes(struct text *t, const char *bytes, size_t count)
{
    if (t->count + count > sizeof t->bytes)
        differs("the case is typed wrong: too long");
    memcpy(t->bytes + t->count, bytes, count);
    t->count += count;
}

void add(struct text *t, const char *more)
{
    add_bytes(t, more, strlen(more));
}

void add_text(struct text *t, struct text more)
{
    add_bytes(t, more.bytes, more.count);
}

struct text with(int from, int to, int n, const char *line)
{
    struct text t = {{0}, 0};
    for (int i = from; i <= to; i++) {
        const char *now = i == n ? line : example[i - 1];
        if (now != NULL) {
            add(&t, now);
            add(&t, "\n");
        }
    }
    return t;
}

struct text whole(void)
{
    return with(1, LINES, 0, NULL);
}

struct text padded(void)
{
    return with(1, LINES, 21, "  7.00000E-01" PADDING);
}

struct text with_data(const char *line_7, const char *data)
{
    struct text t = with(7, 19, 15, line_7);
    add(&t, data);
    add(&t, "    -1\n");
    return t;
}
