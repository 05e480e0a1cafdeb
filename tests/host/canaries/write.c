/* The writer. */
#include "canaries.h"

#include <stdlib.h>
#include <string.h>

/* Writes the header with these numbers; the set due is the example's second, bytes 164 to 672. */
static void write_set(const char *what, struct text header, const int64_t *coefficients, size_t coefficient_count,
                      size_t scale_count, size_t room, uint64_t number, uint64_t place, uint64_t column)
{
    static const int16_t scale[8] = {-1, -1, -1, -3, -5, -1, -6, 0};
    struct text due = whole();
    struct lent h = lend(header.bytes, header.count), c = lend(coefficients, coefficient_count * 8);
    struct lent s = lend(scale, scale_count * 2), out = lend(NULL, room);
    name = what;
    check_refusal(uff_write(h.at, header.count, (int64_t *)(void *)c.at, coefficient_count, (int16_t *)(void *)s.at, scale_count,
                            out.at, room),
                  number, place, column);
    take_back(&h, NULL, 0);
    take_back(&c, NULL, 0);
    take_back(&s, NULL, 0);
    take_back(&out, due.bytes + 164, number == 0 ? 508 : 0);
}

void try_write(void)
{
    static const int64_t good[8] = {1, -2, 3, -400, 50000, -6, 700000, 0};
    static const int64_t long_one[7] = {1, -2, 3, -1234567, 50000, -6, 700000};
    struct text header = with(9, 19, 0, NULL), none = {{0}, 0};
    struct text blank = with(9, 19, 15, "         2                   1  0.00000E+00  1.00000E-03  0.00000E+00");
    write_set("a set", header, good, 7, 7, 508, 0, 508, 0);
    write_set("a set, more room", header, good, 7, 7, 600, 0, 508, 0);
    write_set("room of 507", header, good, 7, 7, 507, 20, 0, 0);
    write_set("no room", header, good, 7, 7, 0, 20, 0, 0);
    write_set("seven digits", header, long_one, 7, 7, 508, 19, 3, 0);
    write_set("seven digits and no room", header, long_one, 7, 7, 0, 19, 3, 0);
    write_set("a scale too few", header, good, 7, 6, 508, 22, 0, 0);
    write_set("a coefficient too few", header, good, 6, 7, 508, 22, 0, 0);
    write_set("eight numbers", header, good, 8, 8, 508, 22, 0, 0);
    write_set("no numbers", header, NULL, 0, 0, 508, 22, 0, 0);
    write_set("a blank count", blank, good, 7, 7, 508, 24, 7, 11);
    write_set("ten lines", with(9, 18, 0, NULL), good, 7, 7, 508, 7, 11, 1);
    write_set("twelve lines", with(9, 20, 0, NULL), good, 7, 7, 508, 8, 12, 1);
    write_set("no header", none, good, 7, 7, 508, 7, 1, 1);
    name = "null pointers";
    check_refusal(uff_write(NULL, 0, NULL, 0, NULL, 0, NULL, 0), 7, 1, 1);
}

void try_far_column(void)
{
    uint8_t *bytes = need(malloc(LAST_COLUMN + 1));
    memset(bytes, 'x', LAST_COLUMN + 1);
    bytes[LAST_COLUMN] = '\t';
    name = "a bad byte in column 33,554,432 of a header";
    check_refusal(uff_write(bytes, LAST_COLUMN + 1, NULL, 0, NULL, 0, NULL, 0), 2, 1, LAST_COLUMN);
    name = "a bad byte in column 33,554,431 of a header";
    check_refusal(uff_write(bytes + 1, LAST_COLUMN, NULL, 0, NULL, 0, NULL, 0), 2, 1, LAST_COLUMN);
    name = "a bad byte in column 33,554,430 of a header";
    check_refusal(uff_write(bytes + 2, LAST_COLUMN - 1, NULL, 0, NULL, 0, NULL, 0), 2, 1, LAST_COLUMN - 1);
    free(bytes);
}
