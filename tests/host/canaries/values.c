/* The reader of all values of a set. */
#include "canaries.h"

#include <stdio.h>
#include <stdlib.h>
#include <string.h>

/* A question for all values of a set; their doubles, or a refusal and none. */
static void ask_values(const char *what, struct text t, uint32_t set, size_t places, uint64_t refusal, const double *due,
                       size_t count)
{
    struct lent file = lend(t.bytes, t.count), out = lend(NULL, places * 8);
    name = what;
    check_reply(uff_values(file.at, t.count, set, (double *)(void *)out.at, places), refusal, count);
    take_back(&file, NULL, 0);
    take_back(&out, due, count * 8);
}

/* The reader of values gives the same doubles index by index, and 18 past the last. */
static void ask_each(struct text t, uint32_t set, uint64_t kind, const double *due, size_t count)
{
    static const size_t widths[] = {0, 1, 2, 2, 3};
    size_t width = widths[kind], past = count / width;
    struct lent file = lend(t.bytes, t.count);
    for (size_t i = 0; i <= past; i++) {
        struct lent out = lend(NULL, UFF_VALUE_BYTES);
        uint8_t bytes[UFF_VALUE_BYTES];
        size_t n = i < past ? width : 0;
        spell(bytes, due + i * width, n);
        check_reply(uff_value(file.at, t.count, set, (uint32_t)i, out.at, UFF_VALUE_BYTES), n > 0 ? 0 : 18,
                    n > 0 ? kind : 0);
        take_back(&out, bytes, 8 * n);
    }
    take_back(&file, NULL, 0);
}

/* A set whose values these are: room that is just enough, more, one place short and none; and the same one by one. */
static void give_values(const char *what, struct text t, uint32_t set, uint64_t kind, const double *due, size_t count)
{
    ask_values(what, t, set, count, 0, due, count);
    ask_values(what, t, set, count + 1, 0, due, count);
    ask_values(what, t, set, count + 50, 0, due, count);
    ask_values(what, t, set, count - 1, 20, NULL, 0);
    ask_values(what, t, set, 0, 20, NULL, 0);
    check_reply(uff_values((const uint8_t *)t.bytes, t.count, set, NULL, 0), 20, 0);
    ask_each(t, set, kind, due, count);
}

/* Set 1 has numbers outside the range: 21 for all its values at once, whatever the room. `far` marks those values with x. */
static void far_values(const char *what, struct text t, size_t count, const char *far)
{
    ask_values(what, t, 1, 50, 21, NULL, 0);
    ask_values(what, t, 1, count, 21, NULL, 0);
    ask_values(what, t, 1, 0, 21, NULL, 0);
    check_reply(uff_values((const uint8_t *)t.bytes, t.count, 1, NULL, 0), 21, 0);
    ask_values(what, t, 0, 50, 18, NULL, 0);
    ask_values(what, t, 2, 50, 18, NULL, 0);
    for (uint32_t i = 0; far[i] != '\0'; i++) {
        uint8_t out[UFF_VALUE_BYTES];
        uint64_t reply = uff_value((const uint8_t *)t.bytes, t.count, 1, i, out, sizeof out);
        if (UFF_NUMBER(reply) != (far[i] == 'x' ? 21 : 0))
            differs("a single value is 21 where it should not be, or the other way round");
        cases++;
    }
}

/* Cases 1 to 4 of document 01's table, each with a last line that is not full. */
static void single_values(void)
{
    const double case_1[] = {0.1, -0.0, 3, -0.025, 1.234567e22, -1.234567e-9, 1.23456e10};
    const double case_2[] = {0, 1, 0.1, -2, 0.2, 3, 0.4, -0.0};
    const double case_3[] = {1, -2.5, 3, 4, -0.5, 0.6, -7, 8};
    const double case_4[] = {0.001, 1, -2, 0.002, 3, -4, 0.005, -5, 6};
    give_values("case 1",
                with_data(EVEN("2", "7"),
                          "  1.00000E-01 -0.00000E+00      +3.E+00     -.25D-01 1.234567e+22-1.234567E-09\n"
                          " 1.23456E+010\n"),
                1, 1, case_1, 7);
    give_values("case 1 with padding",
                with_data(EVEN("2", "7"),
                          "  1.00000E-01 -0.00000E+00      +3.E+00     -.25D-01 1.234567e+22-1.234567E-09\n"
                          " 1.23456E+010" PADDING "\n"),
                1, 1, case_1, 7);
    give_values("case 2",
                with_data(UNEVEN("2", "4"),
                          "  0.00000E+00  1.00000E+00  1.00000E-01 -2.00000E+00  2.00000E-01  3.00000E+00\n"
                          "  4.00000E-01 -0.00000E+00\n"),
                1, 3, case_2, 8);
    give_values("case 3",
                with_data(EVEN("5", "4"),
                          "  1.00000E+00 -2.50000E+00  3.00000E+00  4.00000E+00 -5.00000E-01  6.00000E-01\n"
                          " -7.00000E+00  8.00000E+00\n"),
                1, 2, case_3, 8);
    give_values("case 4",
                with_data(UNEVEN("5", "3"),
                          "  1.00000E-03  1.00000E+00 -2.00000E+00  2.00000E-03  3.00000E+00 -4.00000E+00\n"
                          "  5.00000E-03 -5.00000E+00  6.00000E+00\n"),
                1, 4, case_4, 9);
}

/* Cases 5 to 8, where fields touch too. */
static void double_values(void)
{
    const double case_5[] = {0.1, -1.2345678901234, 123456789012345, -0.0, 0.5};
    const double case_6[] = {0.1, 1, 0.2, -0.23456789012345, 0.3, 3};
    const double case_7[] = {1, -2.5, 3, 0.4, -5, 0};
    const double case_8[] = {0.5, 1.5, -2.5, 0.75, 3, 4};
    give_values("case 5",
                with_data(EVEN("4", "5"),
                          "  1.000000000000E-01-1.2345678901234E+00123456789012345.E+00 -0.000000000000E+00\n"
                          "  5.000000000000E-01\n"),
                1, 1, case_5, 5);
    give_values("case 6",
                with_data(UNEVEN("4", "3"),
                          "  1.00000E-01  1.000000000000E+00  2.00000E-01-2.3456789012345E-01\n"
                          "  3.00000E-01  3.000000000000E+00\n"),
                1, 3, case_6, 6);
    give_values("case 7",
                with_data(EVEN("6", "3"),
                          "  1.000000000000E+00 -2.500000000000E+00  3.000000000000E+00  4.000000000000E-01\n"
                          " -5.000000000000E+00  0.000000000000E+00\n"),
                1, 2, case_7, 6);
    give_values("case 8",
                with_data(UNEVEN("6", "2"),
                          "  5.00000E-01  1.500000000000E+00 -2.500000000000E+00\n"
                          "  7.50000E-01  3.000000000000E+00  4.000000000000E+00\n"),
                1, 4, case_8, 6);
}

/* Sets before and after the one asked for, line ends, one value, and sets that are not there. */
static void sets_of_values(void)
{
    const double seven[] = {0.1, -0.2, 0.3, -0.4, 0.5, -0.6, 0.7}, one[] = {2.5}, two[] = {0.25, 1, 0.5, -1};
    struct text example_text = whole();
    struct text three = with_data(UNEVEN("2", "2"), "  2.50000E-01  1.00000E+00  5.00000E-01 -1.00000E+00  \r\n");
    add(&three, " \n");
    add_text(&three, example_text);
    give_values("the example's values", example_text, 2, 1, seven, 7);
    give_values("the first of three sets", three, 1, 3, two, 4);
    give_values("the third of three sets", three, 3, 1, seven, 7);
    give_values("one value", with_data(EVEN("2", "1"), "  2.50000E+00\n"), 1, 1, one, 1);
    ask_values("all of set 0", example_text, 0, 7, 18, NULL, 0);
    ask_values("all of a 164", example_text, 1, 7, 18, NULL, 0);
    ask_values("all of set 3", example_text, 3, 7, 18, NULL, 0);
    ask_values("all of set 4294967295", example_text, 4294967295u, 7, 18, NULL, 0);
    ask_values("all of set 3 and no room", example_text, 3, 0, 18, NULL, 0);
    name = "all of a 164 and a null pointer";
    check_reply(uff_values((const uint8_t *)example_text.bytes, example_text.count, 1, NULL, 0), 18, 0);
}

/* Scales of -22 and 22, and of -23 and 23: 1.00000E+27 has the scale 22. */
static void ranges_of_values(void)
{
    const double edge[] = {1e27, -1e-17, 0}, two[] = {1, 2};
    struct text first = with_data(EVEN("2", "2"), "  1.00000E+28  1.00000E+00\n"), both = first;
    add_text(&both, with_data(EVEN("2", "2"), "  1.00000E+00  2.00000E+00\n"));
    give_values("scales of 22", with_data(EVEN("2", "3"), "  1.00000E+27 -1.00000E-17  0.00000E+27\n"), 1, 1, edge, 3);
    far_values("the first is too far", first, 2, "x.");
    far_values("the last is too far",
               with_data(EVEN("2", "7"),
                         "  1.00000E+00  1.00000E+00  1.00000E+00  1.00000E+00  1.00000E+00  1.00000E+00\n"
                         "  1.00000E+28\n"),
               7, "......x");
    far_values("a scale of -23", with_data(EVEN("2", "3"), "  1.00000E+00 -1.00000E-18  1.00000E+00\n"), 3, ".x.");
    far_values("zero with a scale of 23", with_data(EVEN("2", "2"), "  1.00000E+00  0.00000E+28\n"), 2, ".x");
    far_values("an abscissa is too far",
               with_data(UNEVEN("2", "2"), "  1.00000E+00  2.00000E+00  3.00000E+28  4.00000E+00\n"), 4, ".x");
    far_values("an imaginary part is too far",
               with_data(EVEN("5", "2"), "  1.00000E+00  2.00000E+28  3.00000E+00  4.00000E+00\n"), 4, "x.");
    far_values("too far in double precision",
               with_data(UNEVEN("6", "2"),
                         "  5.00000E-01  1.500000000000E+00 -2.500000000000E-11\n"
                         "  7.50000E-01  3.000000000000E+00  4.000000000000E+00\n"),
               6, "x.");
    give_values("too far in another set", both, 2, 1, two, 2);
    ask_values("too far in the first set of two", both, 1, 2, 21, NULL, 0);
}

/* A 58 with the most values, of three numbers each: i, -(i + 0.5) and 2 i for value i. It has 3.5 MB, and is made once. */
static struct {
    uint8_t *bytes;
    size_t count;
    double due[UFF_DOUBLES];
} most;

void make_most(void)
{
    struct text head = with(7, 19, 15, "         6     65536         0  0.00000E+00  0.00000E+00  0.00000E+00");
    char *at = need(malloc(head.count + 65536 * 54 + 8));
    most.bytes = (uint8_t *)at;
    memcpy(at, head.bytes, head.count);
    at += head.count;
    for (int i = 0; i < 65536; i++) {
        const double three[] = {i, -(i + 0.5), 2.0 * i};
        at += sprintf(at, "%13.5E%20.12E%20.12E\n", three[0], three[1], three[2]);
        memcpy(most.due + 3 * i, three, sizeof three);
    }
    at += sprintf(at, "    -1\n");
    most.count = (size_t)((uint8_t *)at - most.bytes);
}

void free_most(void)
{
    free(most.bytes);
}

static void most_values(void)
{
    uint8_t last[UFF_VALUE_BYTES];
    struct lent file = lend(most.bytes, most.count), out = lend(NULL, sizeof last);
    struct lent exact = lend(NULL, UFF_DOUBLES * 8), few = lend(NULL, UFF_DOUBLES * 8 - 8);
    name = "65,536 values of three numbers";
    check_reply(uff_values(file.at, most.count, 1, (double *)(void *)exact.at, UFF_DOUBLES), 0, UFF_DOUBLES);
    check_reply(uff_values(file.at, most.count, 1, (double *)(void *)few.at, UFF_DOUBLES - 1), 20, 0);
    check_reply(uff_value(file.at, most.count, 1, 65535, out.at, sizeof last), 0, 4);
    spell(last, most.due + UFF_DOUBLES - 3, 3);
    take_back(&file, NULL, 0);
    take_back(&exact, most.due, UFF_DOUBLES * 8);
    take_back(&few, NULL, 0);
    take_back(&out, last, sizeof last);
}

void try_values(void)
{
    single_values();
    double_values();
    sets_of_values();
    ranges_of_values();
    most_values();
}
