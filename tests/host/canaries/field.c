/* The reader by FORMAT. */
#include "canaries.h"

#include <stdlib.h>
#include <string.h>

/* A question: FORMAT, line, field, and the room lent. */
struct question {
    const char *format;
    const char *line;
    uint32_t field;
    size_t room;
};

/* A question that is answered by this kind and these bytes. */
static void shows(const char *what, struct question q, uint64_t kind, const char *due, size_t due_size)
{
    size_t format_count = strlen(q.format), line_count = strlen(q.line);
    struct lent format = lend(q.format, format_count), line = lend(q.line, line_count), out = lend(NULL, q.room);
    name = what;
    check_reply(uff_field(format.at, format_count, line.at, line_count, q.field, out.at, q.room), 0, kind);
    take_back(&format, NULL, 0);
    take_back(&line, NULL, 0);
    take_back(&out, due, due_size);
}

/* A question that is refused, with line and column or without. */
static void refuses(const char *what, struct question q, uint64_t number, uint64_t place, uint64_t column)
{
    size_t format_count = strlen(q.format), line_count = strlen(q.line);
    struct lent format = lend(q.format, format_count), line = lend(q.line, line_count), out = lend(NULL, q.room);
    name = what;
    check_refusal(uff_field(format.at, format_count, line.at, line_count, q.field, out.at, q.room), number, place, column);
    take_back(&format, NULL, 0);
    take_back(&line, NULL, 0);
    take_back(&out, NULL, 0);
}

#define FORM "3I10,3E13.5"
#define LINE_7 "         2         7         1  0.00000E+00  1.00000E-03  0.00000E+00"

/* Bytes 10 to 20; bytes 26 to 46; bytes 43 to 56, 100000 (186a0 in base 16), scale -8; bytes 13 to 26, 200000, scale -6, negative. */
#define COUNT "\x0a\0\0\0\x14\0\0\0"
#define LABEL "\x1a\0\0\0\x2e\0\0\0"
#define INCREMENT "\x2b\0\0\0\x38\0\0\0\xa0\x86\x01\0\0\0\0\0\xf8\xff\0\0"
#define NEGATIVE "\x0d\0\0\0\x1a\0\0\0\x40\x0d\x03\0\0\0\0\0\xfa\xff\x01\0"

/* Every room that matters. */
static void try_rooms(void)
{
    static const size_t rooms[] = {0, 1, 7, 8, 9, 19, 20, 21, 40};
    for (size_t i = 0; i < sizeof rooms / sizeof *rooms; i++) {
        size_t room = rooms[i];
        struct question count = {FORM, LINE_7, 1, room}, increment = {FORM, LINE_7, 4, room};
        struct question label = {"I10,3I5,2(1X,20A1)", "        17    0    0    0 Time                 s", 4, room};
        if (room >= 8) {
            shows("an integer", count, 2, COUNT, 8);
            shows("a text", label, 1, LABEL, 8);
        } else {
            refuses("an integer, room too short", count, 20, 0, 0);
            refuses("a text, room too short", label, 20, 0, 0);
        }
        if (room >= 20)
            shows("a real", increment, 3, INCREMENT, 20);
        else
            refuses("a real, room too short", increment, 20, 0, 0);
        refuses("a FORMAT that is malformed", (struct question){FORM ",", LINE_7, 0, room}, 26, 0, 0);
        refuses("a FORMAT that is too large", (struct question){FORM ",2I6", LINE_7, 0, room}, 27, 0, 0);
        refuses("a malformed integer", (struct question){"7I10", LINE_7, 0, room}, 10, 1, 31);
        refuses("a field that is not there", (struct question){FORM, LINE_7, 6, room}, 18, 0, 0);
    }
}

void try_field(void)
{
    try_rooms();
    shows("a negative real", (struct question){"1P6E13.5", example[19], 1, 20}, 3, NEGATIVE, 20);
    shows("a text past the line's end", (struct question){"26X,A20", "", 0, 8}, 1, LABEL, 8);
    refuses("an empty FORMAT", (struct question){"", "", 0, 20}, 26, 0, 0);
    refuses("an empty line", (struct question){"X,I5", "", 0, 20}, 24, 1, 2);
    refuses("no field at all", (struct question){"80X", "", 0, 20}, 18, 0, 0);
    refuses("the last field that can be asked", (struct question){"80A1", EIGHTY, 4294967295u, 20}, 18, 0, 0);
    refuses("81 columns", (struct question){"80A1", EIGHTY "1", 0, 20}, 3, 1, 1);
    refuses("LF at the line's end", (struct question){"80A1", EIGHTY "\n", 0, 20}, 2, 1, 81);
    refuses("CR at the line's end", (struct question){"I5", "    1\r", 0, 20}, 2, 1, 6);
    refuses("a blank real", (struct question){"6E13.5", example[20], 0, 20}, 25, 1, 14);
    refuses("a malformed real", (struct question){"4E20.12", example[19], 0, 20}, 12, 1, 1);
    refuses("a byte outside the fields", (struct question){"I6", "    -1 x", 0, 20}, 13, 1, 8);
}

void try_far_line(void)
{
    static const uint8_t format[] = "I5";
    uint8_t *bytes = need(malloc(LAST_COLUMN + 1));
    memset(bytes, ' ', LAST_COLUMN + 1);
    bytes[LAST_COLUMN] = '\t';
    name = "a bad byte in column 33,554,432 of a line";
    check_refusal(uff_field(format, 2, bytes, LAST_COLUMN + 1, 0, NULL, 0), 2, 1, LAST_COLUMN);
    name = "a bad byte in column 33,554,431 of a line";
    check_refusal(uff_field(format, 2, bytes + 1, LAST_COLUMN, 0, NULL, 0), 2, 1, LAST_COLUMN);
    name = "a bad byte in column 33,554,430 of a line";
    check_refusal(uff_field(format, 2, bytes + 2, LAST_COLUMN - 1, 0, NULL, 0), 2, 1, LAST_COLUMN - 1);
    free(bytes);
}
