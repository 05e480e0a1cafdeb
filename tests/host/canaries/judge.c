/* The judge, and what the calls that judge first refuse. */
#include "canaries.h"

#include <stdlib.h>
#include <string.h>

void refuse_all(const void *bytes, size_t count, uint64_t number, uint64_t line, uint64_t column)
{
    struct lent file = lend(bytes, count), rows = lend(NULL, 64 * 4), out = lend(NULL, 1000);
    check_refusal(uff_judge(file.at, count), number, line, column);
    check_refusal(uff_list(file.at, count, (uint32_t *)(void *)rows.at, 64), number, line, column);
    check_refusal(uff_number(file.at, count, 1, 0, out.at, 1000), number, line, column);
    check_refusal(uff_value(file.at, count, 1, 0, out.at, 1000), number, line, column);
    check_refusal(uff_values(file.at, count, 1, (double *)(void *)out.at, 125), number, line, column);
    check_refusal(uff_rewrite(file.at, count, out.at, 1000), number, line, column);
    take_back(&file, NULL, 0);
    take_back(&rows, NULL, 0);
    take_back(&out, NULL, 0);
}

static void refuse_text(const char *what, struct text t, uint64_t number, uint64_t line, uint64_t column)
{
    name = what;
    refuse_all(t.bytes, t.count, number, line, column);
}

/* The example with another line n, or without it, is refused at that line. */
static void refuse_line(const char *what, int n, const char *line, uint64_t number, uint64_t column)
{
    refuse_text(what, with(1, LINES, n, line), number, (uint64_t)n, column);
}

static void accept(const char *what, const void *bytes, size_t count, uint64_t lines)
{
    struct lent file = lend(bytes, count);
    name = what;
    check_reply(uff_judge(file.at, count), 0, lines);
    take_back(&file, NULL, 0);
}

static void accept_line(const char *what, int n, const char *line)
{
    struct text t = with(1, LINES, n, line);
    accept(what, t.bytes, t.count, LINES);
}

/* Line 6 of a 58 with this function type and these two directions. */
#define LINE_6(type, from, to) type "         1    0         0 NONE               7" from " NONE               0" to

static void judge_lines(void)
{
    struct text t = whole();
    accept("the example", t.bytes, t.count, LINES);
    accept_line("80 columns", 9, EIGHTY);
    refuse_line("81 columns", 9, EIGHTY "1", 3, 1);
    refuse_line("a tab", 9, "Drive\tend", 2, 6);
    refuse_line("byte 127 past column 80", 9, EIGHTY "\x7f", 2, 81);
    refuse_line("a CR inside", 9, "Drive\rend", 2, 6);
    refuse_line("two tabs past column 80", 9, EIGHTY "123\t\t", 2, 84);
    refuse_line("two CR before LF", 9, "Drive end\r\r", 2, 10);
    accept_line("a CR before LF", 9, "Drive end\r");
    refuse_line("a text outside sets", 1, "x", 5, 1);
    refuse_line("dataset number 0", 2, "     0", 6, 1);
    refuse_line("a delimiter for a number line", 8, "    -1", 6, 1);
    refuse_line("without line 21", 21, NULL, 7, 1);
    refuse_line("a line too many", 22, "  1.00000E-01", 8, 1);
    refuse_line("a blank text", 9, "   ", 9, 1);
    refuse_line("a delimiter as text", 9, "    -1", 7, 1);
    refuse_line("an integer that ends early", 15, "         2        7          1  0.00000E+00  1.00000E-03  0.00000E+00", 10, 11);
    refuse_line("a blank integer", 15, "                   7         1  0.00000E+00  1.00000E-03  0.00000E+00", 24, 1);
    refuse_line("count 65,537", 15, "         2     65537         1  0.00000E+00  1.00000E-03  0.00000E+00", 11, 11);
    refuse_line("ordinate type 3", 15, "         3         7         1  0.00000E+00  1.00000E-03  0.00000E+00", 11, 1);
    accept_line("function type 28", 14, LINE_6("   28", "   3", "   0"));
    refuse_line("function type 29", 14, LINE_6("   29", "   3", "   0"), 11, 1);
    accept_line("direction -6", 14, LINE_6("    1", "  -6", "   0"));
    refuse_line("direction -7", 14, LINE_6("    1", "   3", "  -7"), 11, 77);
    refuse_line("thirteen blanks", 20, "  1.00000E-01 -2.00000E-01              -4.00000E-01  5.00000E-01 -6.00000E-01", 25, 27);
    refuse_line("a real without a point", 20, "  1.00000E-01        2E-01  3.00000E-01 -4.00000E-01  5.00000E-01 -6.00000E-01", 12, 14);
    accept_line("padding", 21, "  7.00000E-01" PADDING);
    refuse_line("a byte past the numbers that count", 21, "  7.00000E-01 x", 12, 14);
    refuse_line("a number past them", 21, "  7.00000E-01  8.00000E-01", 25, 27);
    refuse_line("blanks, then a number", 21, "  7.00000E-01               8.00000E-01", 25, 14);
    refuse_line("a byte past the full line", 21, "  7.00000E-01                                                                 x", 13, 79);
    refuse_line("a byte past padding", 21, "  7.00000E-01" PADDING " x", 13, 80);
    refuse_line("a byte between fields", 14, "    1         1    0         0.NONE               7   3.NONE               0   0", 13, 31);
    refuse_line("uneven, minimum and increment not zero", 15, "         2         7         0  1.00000E-03  1.00000E-03  0.00000E+00", 14, 31);
    refuse_line("uneven, increment not zero", 15, "         2         7         0  0.00000E+00  1.00000E-03  0.00000E+00", 14, 44);
    refuse_line("a factor of zero", 4, "  1.00000000000000000D+00  0.00000000000000000D+00  1.00000000000000000D+00", 14, 26);
}

static void judge_ends(void)
{
    struct text t = whole();
    name = "no bytes";
    refuse_all("", 0, 16, 0, 0);
    name = "a null pointer with count 0";
    check_reply(uff_judge(NULL, 0), 16, 0);
    check_reply(uff_list(NULL, 0, NULL, 0), 16, 0);
    check_reply(uff_number(NULL, 0, 1, 0, NULL, 0), 16, 0);
    check_reply(uff_value(NULL, 0, 1, 0, NULL, 0), 16, 0);
    check_reply(uff_values(NULL, 0, 1, NULL, 0), 16, 0);
    check_reply(uff_rewrite(NULL, 0, NULL, 0), 16, 0);
    name = "blank lines only";
    refuse_all("\n  \n", 4, 16, 0, 0);
    name = "the last LF is missing";
    refuse_all(t.bytes, t.count - 1, 4, 22, 1);
    name = "cut after line 20";
    refuse_text(name, with(1, 20, 0, NULL), 7, 21, 1);
    name = "cut inside a plain set";
    refuse_all("    -1\n   999\nx\n", 16, 7, 4, 1);
}

static void too_long(void)
{
    uint8_t *bytes = need(malloc(UFF_LONGEST + 1));
    memset(bytes, '\n', UFF_LONGEST + 1);
    name = "a byte too many";
    refuse_all(bytes, UFF_LONGEST + 1, 1, 0, 0);
    free(bytes);
}

void try_judge(void)
{
    judge_lines();
    judge_ends();
    too_long();
}

void try_last_column(void)
{
    uint8_t *bytes = need(malloc(UFF_LONGEST));
    memset(bytes, ' ', UFF_LONGEST);
    bytes[UFF_LONGEST - 1] = '\t';
    name = "a bad byte in column 16,777,216";
    check_refusal(uff_judge(bytes, UFF_LONGEST), 2, 1, 16777216);
    free(bytes);
}
