/* Buffers lent in four ways: between canaries, on the heap in just their length, before and after a page that is shut. */
#define _DEFAULT_SOURCE

#include "canaries.h"

#include <signal.h>
#include <stdlib.h>
#include <string.h>
#include <sys/mman.h>
#include <unistd.h>

#define GUARD 64

static void on_fault(int number)
{
    static const char what[] = ": a call touched memory that was not lent\n";
    (void)number;
    if (write(STDERR_FILENO, "canaries: ", 10) < 0 || write(STDERR_FILENO, name, strlen(name)) < 0 ||
        write(STDERR_FILENO, what, sizeof what - 1) < 0)
        _exit(1);
    _exit(1);
}

void catch_faults(void)
{
    signal(SIGSEGV, on_fault);
    signal(SIGBUS, on_fault);
}

void *need(void *p)
{
    if (p == NULL || p == MAP_FAILED)
        differs("no memory");
    return p;
}

/* Bits of doubles: quiet NaNs of both signs, signalling ones, with payloads and with the least, and what is no NaN. */
static const uint64_t doubles[] = {
    0x7ff8000000000000, 0xfff8000000000000, 0x7ff0000000000001, 0xfff0000000000001, 0x7ff4a5a55a5a0137, 0xfff4a5a55a5a0137,
    0x7ffca5a55a5a0137, 0xfffca5a55a5a0137, 0x7ff7ffffffffffff, 0xffffffffffffffff, 0x7ff0000000000000, 0x8000000000000000,
    0x180a11181f262d34,
};

/* Byte i of the pattern: those doubles in turn, with other low bits each time they come again. */
static uint8_t pattern(size_t i)
{
    size_t count = sizeof doubles / sizeof *doubles, n = i / 8;
    uint64_t bits = doubles[n % count] ^ n / count;
    uint8_t bytes[8];
    memcpy(bytes, &bits, 8);
    return bytes[i % 8];
}

static void place_between_canaries(struct lent *l)
{
    l->piece_size = l->size + 2 * GUARD;
    l->piece = need(malloc(l->piece_size));
    for (size_t i = 0; i < GUARD; i++)
        l->piece[i] = l->piece[GUARD + l->size + i] = pattern(i);
    l->at = l->piece + GUARD;
}

static void place_on_heap(struct lent *l)
{
    l->piece_size = l->size;
    l->piece = l->size == 0 ? NULL : need(malloc(l->size));
    l->at = l->piece;
}

static void place_at_page(struct lent *l)
{
    size_t page = (size_t)sysconf(_SC_PAGESIZE), inside = (l->size / page + 1) * page;
    l->piece_size = inside + page;
    l->piece = need(mmap(NULL, l->piece_size, PROT_READ | PROT_WRITE, MAP_PRIVATE | MAP_ANONYMOUS, -1, 0));
    l->at = way == BEFORE_PAGE ? l->piece + inside - l->size : l->piece + page;
    if (mprotect(way == BEFORE_PAGE ? l->piece + inside : l->piece, page, PROT_NONE) != 0)
        differs("no page without access");
}

struct lent lend(const void *bytes, size_t size)
{
    struct lent l = {NULL, size, NULL, 0, need(malloc(size + 1))};
    for (size_t i = 0; i < size; i++)
        l.before[i] = bytes != NULL ? ((const uint8_t *)bytes)[i] : pattern(i);
    if (way == GUARDED)
        place_between_canaries(&l);
    else if (way == HEAP)
        place_on_heap(&l);
    else
        place_at_page(&l);
    if (size > 0)
        memcpy(l.at, l.before, size);
    return l;
}

void take_back(struct lent *l, const void *due, size_t due_size)
{
    if (due_size > l->size)
        differs("the case is typed wrong: the answer is longer than the buffer");
    if (due_size > 0 && memcmp(l->at, due, due_size) != 0)
        differs("the answer's bytes");
    if (l->size > due_size && memcmp(l->at + due_size, l->before + due_size, l->size - due_size) != 0)
        differs("bytes past the answer, or of a refusal, were touched");
    if (way == GUARDED)
        for (size_t i = 0; i < GUARD; i++)
            if (l->piece[i] != pattern(i) || l->piece[GUARD + l->size + i] != pattern(i))
                differs("a canary was touched");
    free(l->before);
    if (way == GUARDED || way == HEAP)
        free(l->piece);
    else
        munmap(l->piece, l->piece_size);
}
