/* The reader of values. */
#include "canaries.h"

#include <string.h>

void spell(uint8_t *bytes, const double *numbers, size_t count)
{
    for (size_t i = 0; i < count; i++) {
        uint64_t bits;
        memcpy(&bits, &numbers[i], 8);
        for (int k = 0; k < 8; k++)
            bytes[8 * i + (size_t)k] = (uint8_t)(bits >> (8 * k));
    }
}

/* A question for value `index` of set 1; the kind and its doubles, or a refusal with kind 0. */
static void ask_value(const char *what, struct text t, uint32_t index, size_t room, uint64_t refusal, uint64_t kind,
                      const double *due, size_t count)
{
    struct lent file = lend(t.bytes, t.count), out = lend(NULL, room);
    uint8_t bytes[UFF_VALUE_BYTES];
    spell(bytes, due, count);
    name = what;
    check_reply(uff_value(file.at, t.count, 1, index, out.at, room), refusal, kind);
    take_back(&file, NULL, 0);
    take_back(&out, bytes, 8 * count);
}

void try_value(void)
{
    struct text real = with_data(EVEN("2", "2"), "  1.00000E-01 -0.00000E+00\n");
    struct text pair = with_data(EVEN("5", "2"), "  1.00000E+00 -2.50000E+00  3.00000E+00  4.00000E+00\n");
    struct text uneven = with_data(UNEVEN("2", "2"), "  1.00000E-01  2.00000E+00  2.00000E-01  5.00000E+00\n");
    struct text all = with_data(UNEVEN("6", "2"), "  5.00000E-01  1.500000000000E+00 -2.500000000000E+00\n"
                                                  "  7.50000E-01  3.000000000000E+00  4.000000000000E+00\n");
    struct text far = with_data(EVEN("2", "2"), "  1.00000E+27  1.00000E+28\n");
    const double tenth[] = {0.1}, minus_zero[] = {-0.0}, first_pair[] = {1, -2.5}, second_pair[] = {3, 4};
    const double at[] = {0.2, 5}, three[] = {0.5, 1.5, -2.5}, edge[] = {1e27};
    ask_value("a real", real, 0, 8, 0, 1, tenth, 1);
    ask_value("a real, more room", real, 0, 9, 0, 1, tenth, 1);
    ask_value("minus zero", real, 1, 8, 0, 1, minus_zero, 1);
    ask_value("no such value", real, 2, 8, 18, 0, NULL, 0);
    ask_value("a real in 7 bytes", real, 0, 7, 20, 0, NULL, 0);
    ask_value("a pair", pair, 0, 16, 0, 2, first_pair, 2);
    ask_value("the second pair", pair, 1, 24, 0, 2, second_pair, 2);
    ask_value("a third pair", pair, 2, 24, 18, 0, NULL, 0);
    ask_value("a pair in 15 bytes", pair, 0, 15, 20, 0, NULL, 0);
    ask_value("abscissa and real", uneven, 1, 16, 0, 3, at, 2);
    ask_value("abscissa and real in 15 bytes", uneven, 1, 15, 20, 0, NULL, 0);
    ask_value("abscissa and pair", all, 0, 24, 0, 4, three, 3);
    ask_value("abscissa and pair in 23 bytes", all, 0, 23, 20, 0, NULL, 0);
    ask_value("scale 22", far, 0, 8, 0, 1, edge, 1);
    ask_value("scale 23", far, 1, 8, 21, 0, NULL, 0);
    ask_value("scale 23 and no room", far, 1, 0, 21, 0, NULL, 0);
}
