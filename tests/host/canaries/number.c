/* The reader of stored numbers. */
#include "canaries.h"

/* A question for a number of a file; `due` are its bytes, or null where it is refused. */
static void ask_of(struct text t, const char *what, uint32_t set, uint32_t index, size_t room, uint64_t refusal, const char *due)
{
    struct lent file = lend(t.bytes, t.count), out = lend(NULL, room);
    name = what;
    check_reply(uff_number(file.at, t.count, set, index, out.at, room), refusal, due != NULL ? 20 : 0);
    take_back(&file, NULL, 0);
    take_back(&out, due, due != NULL ? UFF_NUMBER_BYTES : 0);
}

/* The same of the example. */
static void ask_number(const char *what, uint32_t set, uint32_t index, size_t room, uint64_t refusal, const char *due)
{
    ask_of(whole(), what, set, index, room, refusal, due);
}

/* Bytes 572 to 585, 100000 (186a0 in base 16), scale -6; and so on. */
#define FIRST "\x3c\x02\0\0\x49\x02\0\0\xa0\x86\x01\0\0\0\0\0\xfa\xff\0\0"
#define SECOND "\x49\x02\0\0\x56\x02\0\0\x40\x0d\x03\0\0\0\0\0\xfa\xff\x01\0"
#define LAST "\x8b\x02\0\0\x98\x02\0\0\x60\xae\x0a\0\0\0\0\0\xfa\xff\0\0"

void try_number(void)
{
    ask_number("number 0", 2, 0, 20, 0, FIRST);
    ask_number("number 0, more room", 2, 0, 33, 0, FIRST);
    ask_number("number 1", 2, 1, 20, 0, SECOND);
    ask_number("number 6", 2, 6, 20, 0, LAST);
    ask_number("number 7", 2, 7, 20, 18, NULL);
    ask_number("number 4294967295", 2, 4294967295u, 20, 18, NULL);
    ask_number("set 0", 0, 0, 20, 18, NULL);
    ask_number("a 164", 1, 0, 20, 18, NULL);
    ask_number("set 3", 3, 0, 20, 18, NULL);
    ask_number("set 4294967295", 4294967295u, 0, 20, 18, NULL);
    ask_number("room of 19", 2, 0, 19, 20, NULL);
    ask_number("no room", 2, 0, 0, 20, NULL);
    ask_number("number 7 and no room", 2, 7, 0, 18, NULL);
    ask_of(padded(), "the last number before padding", 2, 6, 20, 0, LAST);
    ask_of(padded(), "a padding number", 2, 7, 20, 18, NULL);
    ask_of(padded(), "the last padding number", 2, 11, 20, 18, NULL);
}
