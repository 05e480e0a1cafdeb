/* The lister. */
#include "canaries.h"

#include <stdlib.h>
#include <string.h>

#define ROW_BYTES (UFF_ROW_NUMBERS * sizeof(uint32_t))

/* The rows of a file with two sets. */
typedef uint32_t two_rows[2][UFF_ROW_NUMBERS];
static const two_rows example_rows = {{1, 164, 0, 0, 164, 0, 0}, {7, 58, 7, 164, 672, 572, 0}};
static const two_rows padded_rows = {{1, 164, 0, 0, 164, 0, 0}, {7, 58, 7, 164, 737, 572, 5}};

static void list(const char *what, struct text t, const two_rows due, size_t places, uint64_t number, uint64_t place)
{
    struct lent file = lend(t.bytes, t.count), rows = lend(NULL, places * sizeof(uint32_t));
    name = what;
    check_reply(uff_list(file.at, t.count, (uint32_t *)(void *)rows.at, places), number, place);
    take_back(&file, NULL, 0);
    take_back(&rows, due, number == 0 ? sizeof(two_rows) : 0);
}

static void rooms(struct text t, const two_rows due)
{
    list("room for two rows", t, due, 14, 0, 2);
    list("a place more", t, due, 15, 0, 2);
    list("100 places", t, due, 100, 0, 2);
    list("a place too few", t, due, 13, 17, 0);
    list("six places a set", t, due, 12, 17, 0);
    list("no places", t, due, 0, 17, 0);
}

/* Sets of one plain set each, 21 bytes in three lines. */
static uint8_t *plain_sets(size_t sets)
{
    uint8_t *bytes = need(malloc(sets * 21));
    for (size_t i = 0; i < sets; i++)
        memcpy(bytes + i * 21, "    -1\n   999\n    -1\n", 21);
    return bytes;
}

/* The rows of so many of them. */
static uint32_t *plain_rows(uint32_t sets)
{
    uint32_t *rows = need(malloc(sets * ROW_BYTES));
    for (uint32_t i = 0; i < sets; i++) {
        const uint32_t row[UFF_ROW_NUMBERS] = {3 * i + 1, 999, 0, 21 * i, 21 * i + 21, 0, 0};
        memcpy(rows + UFF_ROW_NUMBERS * i, row, ROW_BYTES);
    }
    return rows;
}

static void most_sets(void)
{
    const size_t count = UFF_SETS * 21, places = UFF_SETS * UFF_ROW_NUMBERS, size = UFF_SETS * ROW_BYTES;
    uint8_t *bytes = plain_sets(UFF_SETS + 1);
    uint32_t *due = plain_rows(UFF_SETS);
    struct lent file = lend(bytes, count), rows = lend(NULL, size), few = lend(NULL, size - sizeof *due);
    name = "4,096 sets";
    check_reply(uff_judge(file.at, count), 0, 12288);
    check_reply(uff_list(file.at, count, (uint32_t *)(void *)rows.at, places), 0, 4096);
    check_reply(uff_list(file.at, count, (uint32_t *)(void *)few.at, places - 1), 17, 0);
    take_back(&file, NULL, 0);
    take_back(&rows, due, size);
    take_back(&few, NULL, 0);
    name = "4,097 sets";
    refuse_all(bytes, count + 21, 15, 12289, 1);
    free(bytes);
    free(due);
}

/* As many sets 58 of one value, each with five padding numbers: 15 lines, and its data line begins 86 bytes before its end. */
static void most_padded(void)
{
    const struct text one = with_data(EVEN("2", "1"), "  1.00000E-01" PADDING "\n");
    const size_t places = UFF_SETS * UFF_ROW_NUMBERS, size = UFF_SETS * ROW_BYTES;
    const uint32_t length = (uint32_t)one.count;
    uint8_t *bytes = need(malloc(UFF_SETS * one.count));
    uint32_t *due = need(malloc(size));
    for (uint32_t i = 0; i < UFF_SETS; i++) {
        const uint32_t past = (i + 1) * length;
        const uint32_t row[UFF_ROW_NUMBERS] = {15 * i + 1, 58, 1, i * length, past, past - 86, 5};
        memcpy(bytes + i * one.count, one.bytes, one.count);
        memcpy(due + UFF_ROW_NUMBERS * i, row, ROW_BYTES);
    }
    struct lent file = lend(bytes, UFF_SETS * one.count), rows = lend(NULL, size), few = lend(NULL, size - sizeof *due);
    name = "4,096 sets with padding";
    check_reply(uff_list(file.at, UFF_SETS * one.count, (uint32_t *)(void *)rows.at, places), 0, 4096);
    check_reply(uff_list(file.at, UFF_SETS * one.count, (uint32_t *)(void *)few.at, places - 1), 17, 0);
    take_back(&file, NULL, 0);
    take_back(&rows, due, size);
    take_back(&few, NULL, 0);
    free(bytes);
    free(due);
}

void try_list(void)
{
    rooms(whole(), example_rows);
    rooms(padded(), padded_rows);
    most_sets();
    most_padded();
}
