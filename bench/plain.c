/*
 * A plain strict reader of Universal Files, from the papers alone: every line is checked, every field of a 58 too, and all
 * values of all 58 are read in one pass, by strtod. Sets of other numbers are kept as plain lines, and no padding is taken.
 */
#include "plain.h"

#include <stdbool.h>
#include <stdlib.h>
#include <string.h>

#define COLUMNS 80

/* What is read: the bytes left, and the present line, filled with blanks. */
struct input {
    const char *at;
    const char *past;
    char line[COLUMNS + 1];
    int length;
};

/* The next line. False at the end and for a line that is not allowed. */
static bool next_line(struct input *in)
{
    const char *end = memchr(in->at, '\n', (size_t)(in->past - in->at));
    ptrdiff_t length;
    if (end == NULL)
        return false;
    length = end - in->at;
    if (length > 0 && end[-1] == '\r')
        length--;
    if (length > COLUMNS)
        return false;
    for (ptrdiff_t i = 0; i < length; i++)
        if (in->at[i] < 32 || in->at[i] > 126)
            return false;
    memcpy(in->line, in->at, (size_t)length);
    memset(in->line + length, ' ', COLUMNS - (size_t)length);
    in->length = (int)length;
    in->at = end + 1;
    return true;
}

static bool is_blank(const char *text, int width)
{
    for (int i = 0; i < width; i++)
        if (text[i] != ' ')
            return false;
    return true;
}

static bool is_delimiter(const char *line)
{
    return memcmp(line, "    -1", 6) == 0 && is_blank(line + 6, COLUMNS - 6);
}

/* An integer field within a range. */
static bool read_integer(const char *text, int width, long least, long most, long *out)
{
    int i = 0;
    long n = 0;
    bool negative;
    while (i < width && text[i] == ' ')
        i++;
    negative = i < width && text[i] == '-';
    if (i < width && (text[i] == '-' || text[i] == '+'))
        i++;
    if (i == width)
        return false;
    for (; i < width; i++) {
        if (text[i] < '0' || text[i] > '9' || n > 2147483648L)
            return false;
        n = n * 10 + (text[i] - '0');
    }
    n = negative ? -n : n;
    *out = n;
    return n >= -2147483648L && n <= 2147483647L && n >= least && n <= most;
}

static bool is_digit(char c)
{
    return c >= '0' && c <= '9';
}

/* The exponent of a real: a letter, a sign and two or three digits, or a sign and three digits. */
static bool is_exponent(const char *text, int width)
{
    bool letter = width > 0 && (*text == 'E' || *text == 'e' || *text == 'D' || *text == 'd');
    text += letter;
    width -= letter;
    if (width < 1 || (*text != '+' && *text != '-') || (width != 4 && !(letter && width == 3)))
        return false;
    for (int i = 1; i < width; i++)
        if (!is_digit(text[i]))
            return false;
    return true;
}

/* A real field. strtod takes neither the letter D nor an exponent without a letter, so it is given a spelling that it takes. */
static bool read_real(const char *text, int width, double *out)
{
    char spelled[32];
    int i = 0, n = 0, digits = 0, points = 0;
    while (i < width && text[i] == ' ')
        i++;
    if (i < width && (text[i] == '-' || text[i] == '+'))
        spelled[n++] = text[i++];
    for (; i < width && (is_digit(text[i]) || text[i] == '.'); i++) {
        digits += text[i] != '.';
        points += text[i] == '.';
        spelled[n++] = text[i];
    }
    if (points != 1 || digits < 1 || digits > 18 || !is_exponent(text + i, width - i))
        return false;
    spelled[n++] = 'E';
    i += text[i] != '+' && text[i] != '-';
    memcpy(spelled + n, text + i, (size_t)(width - i));
    spelled[n + width - i] = '\0';
    *out = strtod(spelled, NULL);
    return true;
}

/* Line 6: 2(I5,I10), 2(1X,10A1,I10,I4). */
static bool check_line_6(const char *line)
{
    long n;
    bool good = read_integer(line, 5, 0, 28, &n) && read_integer(line + 5, 10, -2147483648L, 2147483647L, &n) &&
                read_integer(line + 15, 5, -2147483648L, 2147483647L, &n) &&
                read_integer(line + 20, 10, -2147483648L, 2147483647L, &n);
    for (int at = 30; good && at < 80; at += 25)
        good = line[at] == ' ' && read_integer(line + at + 11, 10, -2147483648L, 2147483647L, &n) &&
               read_integer(line + at + 21, 4, -6, 6, &n);
    return good;
}

/* Lines 8 to 11: I10,3I5,2(1X,20A1). */
static bool check_axis(const char *line)
{
    static const bool listed[20] = {1, 1, 1, 1, 0, 1, 1, 0, 1, 1, 0, 1, 1, 1, 0, 1, 1, 1, 1, 1};
    long n;
    if (!read_integer(line, 10, 0, 19, &n) || !listed[n])
        return false;
    for (int at = 10; at < 25; at += 5)
        if (!read_integer(line + at, 5, -2147483648L, 2147483647L, &n))
            return false;
    return line[25] == ' ' && line[46] == ' ' && is_blank(line + 67, COLUMNS - 67);
}

/* What line 7 declares: the widths of the fields of a full data line, and how many numbers there are. */
struct layout {
    int widths[6];
    int fields;
    size_t numbers;
};

/* Line 7: 3I10,3E13.5. */
static bool read_line_7(const char *line, struct layout *l)
{
    long type, count, spacing;
    double least, step, z;
    bool is_double, is_complex;
    if (!read_integer(line, 10, 2, 6, &type) || type == 3 || !read_integer(line + 10, 10, 1, 65536, &count) ||
        !read_integer(line + 20, 10, 0, 1, &spacing) || !read_real(line + 30, 13, &least) ||
        !read_real(line + 43, 13, &step) || !read_real(line + 56, 13, &z) || !is_blank(line + 69, COLUMNS - 69))
        return false;
    if (spacing == 0 && (least != 0 || step != 0))
        return false;
    is_double = type == 4 || type == 6;
    is_complex = type >= 5;
    l->numbers = (size_t)count * (size_t)(1 + is_complex + (spacing == 0));
    l->fields = !is_double ? 6 : spacing == 1 || !is_complex ? 4 : 3;
    for (int i = 0; i < l->fields; i++)
        l->widths[i] = is_double && (spacing == 1 || i % (1 + is_complex + 1) != 0) ? 20 : 13;
    return true;
}

static bool read_header(struct input *in, struct layout *l)
{
    for (int n = 1; n <= 11; n++) {
        if (!next_line(in) || is_delimiter(in->line))
            return false;
        if (n <= 5 ? is_blank(in->line, COLUMNS)
                   : n == 6 ? !check_line_6(in->line) : n == 7 ? !read_line_7(in->line, l) : !check_axis(in->line))
            return false;
    }
    return true;
}

/* The data lines. Past the last number the last line is blank. */
static bool read_data(struct input *in, const struct layout *l, double *out)
{
    for (size_t n = 0; n < l->numbers;) {
        int at = 0;
        if (!next_line(in))
            return false;
        for (int i = 0; i < l->fields && n < l->numbers; at += l->widths[i++])
            if (!read_real(in->line + at, l->widths[i], &out[n++]))
                return false;
        if (in->length > at && !is_blank(in->line + at, COLUMNS - at))
            return false;
    }
    return true;
}

/* A set after its opening delimiter. Gives how many numbers it has, or -1. */
static long read_set(struct input *in, double *out, size_t room)
{
    struct layout l = {.numbers = 0};
    long number;
    if (!next_line(in) || !read_integer(in->line, 6, 1, 999999, &number) || !is_blank(in->line + 6, COLUMNS - 6))
        return -1;
    if (number != 58) {
        do
            if (!next_line(in))
                return -1;
        while (!is_delimiter(in->line));
        return 0;
    }
    if (!read_header(in, &l) || l.numbers > room || !read_data(in, &l, out) || !next_line(in) || !is_delimiter(in->line))
        return -1;
    return (long)l.numbers;
}

long read_plainly(const char *file, size_t count, double *out, size_t room)
{
    struct input in = {.at = file, .past = file + count};
    size_t total = 0, sets = 0;
    while (in.at < in.past) {
        long numbers;
        if (!next_line(&in))
            return -1;
        if (is_blank(in.line, COLUMNS))
            continue;
        if (!is_delimiter(in.line) || ++sets > 4096)
            return -1;
        numbers = read_set(&in, out + total, room - total);
        if (numbers < 0)
            return -1;
        total += (size_t)numbers;
    }
    return sets > 0 && count <= 16777216 ? (long)total : -1;
}
