/* The rewriter. */
#include "canaries.h"

static void rewrite(const char *what, struct text t, size_t room, uint64_t number)
{
    struct text due = whole();
    struct lent file = lend(t.bytes, t.count), out = lend(NULL, room);
    name = what;
    check_reply(uff_rewrite(file.at, t.count, out.at, room), number, number == 0 ? 672 : 0);
    take_back(&file, NULL, 0);
    take_back(&out, due.bytes, number == 0 ? 672 : 0);
}

void try_rewrite(void)
{
    struct text untidy = {{0}, 0};
    add(&untidy, "  \r\n");
    for (int i = 0; i < LINES; i++) {
        add(&untidy, i == 7 ? "+00058" : example[i]);
        add(&untidy, i % 2 == 0 ? "\r\n" : i == 13 ? "\n" : i == 9 ? "  \n" : " \r\n");
    }
    add(&untidy, "\n");
    rewrite("a plain file", whole(), 672, 0);
    rewrite("a plain file, more room", whole(), 1000, 0);
    rewrite("an untidy file", untidy, 672, 0);
    rewrite("room of 671", untidy, 671, 20);
    rewrite("a file with padding", padded(), 672, 0);
    rewrite("a file with padding, its own length", padded(), 737, 0);
    rewrite("a file with padding, room of 671", padded(), 671, 20);
    rewrite("no room", whole(), 0, 20);
}
