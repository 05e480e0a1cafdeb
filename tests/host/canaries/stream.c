/* A file judged while it arrives: start, bursts and the end. */
#include "canaries.h"

#include <stdlib.h>
#include <string.h>

/*
 * Which of the record's numbers is the refusal's, which says that the end was asked, and which, the last that is used, is
 * the column: the refusal's, or while there is none that of the open line's first byte not allowed.
 */
#define REFUSAL 8
#define MARK 11
#define COLUMN 12
#define USED_NUMBERS (COLUMN + 1)

/* Of the line, 80 columns and the last byte are used. */
#define USED_LINE (80 + 1)

/* A record whose buffers have so many places. */
struct record {
    struct lent numbers, line;
    size_t number_count, line_count;
};

static struct record lend_record(size_t number_count, size_t line_count)
{
    struct record r = {lend(NULL, number_count * sizeof(uint64_t)), lend(NULL, line_count), number_count, line_count};
    return r;
}

static uint64_t *numbers_of(struct record *r)
{
    return (uint64_t *)(void *)r->numbers.at;
}

static uint64_t start(struct record *r)
{
    return uff_start(numbers_of(r), r->number_count, r->line.at, r->line_count);
}

static uint64_t burst(struct record *r, const uint8_t *bytes, size_t count)
{
    return uff_burst(numbers_of(r), r->number_count, r->line.at, r->line_count, bytes, count);
}

static uint64_t end(struct record *r)
{
    return uff_end(numbers_of(r), r->number_count, r->line.at, r->line_count);
}

/* What the record holds. */
static struct uff_stream contents(const struct record *r)
{
    struct uff_stream now;
    memcpy(now.numbers, r->numbers.at, sizeof now.numbers);
    memcpy(now.line, r->line.at, sizeof now.line);
    return now;
}

/* Does the record hold this? */
static bool holds(const struct record *r, const struct uff_stream *due)
{
    return memcmp(r->numbers.at, due->numbers, sizeof due->numbers) == 0 &&
           memcmp(r->line.at, due->line, sizeof due->line) == 0;
}

/* Takes a record back that was written to: canaries, and the bytes past it. */
static void take_back_record(struct record *r)
{
    struct uff_stream now = contents(r);
    take_back(&r->numbers, now.numbers, sizeof now.numbers);
    take_back(&r->line, now.line, sizeof now.line);
}

static void short_record(const char *what, size_t number_count, size_t line_count)
{
    struct record r = lend_record(number_count, line_count);
    struct lent bytes = lend("    -1\n", 7);
    name = what;
    check_reply(start(&r), 20, 0);
    check_reply(burst(&r, bytes.at, 7), 20, 0);
    check_reply(end(&r), 20, 0);
    take_back(&r.numbers, NULL, 0);
    take_back(&r.line, NULL, 0);
    take_back(&bytes, NULL, 0);
}

static void rooms(void)
{
    static const struct uff_stream zeros;
    struct record r = lend_record(UFF_STREAM_NUMBERS + 1, UFF_STREAM_LINE + 8);
    name = "a start with more room";
    check_reply(start(&r), 0, 0);
    take_back(&r.numbers, zeros.numbers, sizeof zeros.numbers);
    take_back(&r.line, zeros.line, sizeof zeros.line);
    short_record("a number too few", UFF_STREAM_NUMBERS - 1, UFF_STREAM_LINE);
    short_record("a byte too few", UFF_STREAM_NUMBERS, UFF_STREAM_LINE - 1);
    short_record("no record", 0, 0);
    name = "null pointers";
    check_reply(uff_start(NULL, 0, NULL, 0), 20, 0);
    check_reply(uff_burst(NULL, 0, NULL, 0, NULL, 0), 20, 0);
    check_reply(uff_end(NULL, 0, NULL, 0), 20, 0);
}

/* A refusal that is due, or 0 and the lines where the file is accepted. */
struct due {
    uint64_t number, place, column;
};

static void check_due(uint64_t reply, struct due due)
{
    check_refusal(reply, due.number, due.place, due.column);
}

/* Sends the text in bursts of `size`: so far until line `bad` has come, then its refusal. */
static void send(struct record *r, struct text t, size_t size, uint64_t bad, struct due due)
{
    uint64_t lines = 0;
    for (size_t at = 0; at < t.count; at += size) {
        size_t n = t.count - at < size ? t.count - at : size;
        struct lent bytes = lend(t.bytes + at, n);
        for (size_t i = 0; i < n; i++)
            lines += t.bytes[at + i] == '\n';
        if (bad != 0 && lines >= bad)
            check_due(burst(r, bytes.at, n), due);
        else
            check_reply(burst(r, bytes.at, n), 127, lines);
        take_back(&bytes, NULL, 0);
    }
}

/* The end's reply, twice, and 23 in between. The end changes the record's mark alone, 23 nothing. */
static void ask_end(struct record *r, struct due due)
{
    struct uff_stream marked = contents(r);
    marked.numbers[MARK] = 1;
    check_due(end(r), due);
    if (!holds(r, &marked))
        differs("the end changed more of the record than its mark");
    check_reply(burst(r, (const uint8_t *)"x", 1), 23, 0);
    check_due(end(r), due);
    if (!holds(r, &marked))
        differs("23 changed the record");
}

/* The text in bursts of `size`, of which line `bad` is the first bad one that has its LF; and the end's reply. */
static void stream(const char *what, struct text t, size_t size, uint64_t bad, struct due due)
{
    struct record r = lend_record(UFF_STREAM_NUMBERS, UFF_STREAM_LINE);
    name = what;
    check_reply(start(&r), 0, 0);
    check_reply(burst(&r, NULL, 0), 127, 0);
    send(&r, t, size, bad, due);
    ask_end(&r, due);
    take_back_record(&r);
}

/* The example with another line 9, or without it, is refused there, in bursts of `size`. */
static void stream_line(const char *what, const char *line, size_t size, uint64_t number, uint64_t column)
{
    stream(what, with(1, LINES, 9, line), size, 9, (struct due){number, 9, column});
}

/* Line 9 with a TAB in this column and another two columns on, in bursts of `size`. */
static void stream_tabs(size_t column, size_t size)
{
    char line[100];
    memset(line, 'x', sizeof line);
    line[column - 1] = line[column + 1] = '\t';
    line[column + 2] = '\0';
    stream_line("two tabs in bursts", line, size, 2, column);
}

static void streams(void)
{
    static const size_t sizes[] = {1, 7, 79, 80, 81, 82, 83, 84, 512, 4096};
    for (size_t i = 0; i < sizeof sizes / sizeof *sizes; i++) {
        struct text none = {{0}, 0}, cut = whole();
        cut.count -= 1;
        stream("the example in bursts", whole(), sizes[i], 0, (struct due){0, 22, 0});
        stream("nothing in bursts", none, sizes[i], 0, (struct due){16, 0, 0});
        stream("cut in bursts", cut, sizes[i], 0, (struct due){4, 22, 1});
        stream("without line 21 in bursts", with(1, LINES, 21, NULL), sizes[i], 21, (struct due){7, 21, 1});
        stream("stopped in bursts", with(1, 20, 0, NULL), sizes[i], 0, (struct due){7, 21, 1});
        stream("a blank real in bursts", with(1, LINES, 20, "  1.00000E-01"), sizes[i], 20, (struct due){25, 20, 14});
        stream_line("81 columns in bursts", EIGHTY "1", sizes[i], 3, 1);
        stream_line("161 columns and a CR in bursts", EIGHTY EIGHTY "1\r", sizes[i], 3, 1);
        stream_line("a bad byte in bursts", EIGHTY EIGHTY "\x01", sizes[i], 2, 161);
        stream_line("bad bytes in bursts", EIGHTY EIGHTY "\x01" EIGHTY "\x01", sizes[i], 2, 161);
        stream_line("two CR in bursts", EIGHTY EIGHTY "\r\r", sizes[i], 2, 161);
        for (size_t column = 78; column <= 86; column++)
            stream_tabs(column, sizes[i]);
    }
}

/* Any contents of a record are safe. */
static void wild_records(void)
{
    for (unsigned k = 0; k < 64; k++) {
        struct record r = lend_record(UFF_STREAM_NUMBERS, UFF_STREAM_LINE);
        uint64_t *places = numbers_of(&r);
        struct text t = whole();
        name = "a record of any contents";
        for (int i = 0; i < UFF_STREAM_NUMBERS; i++)
            places[i] = k & 1 ? UINT64_MAX >> (k % 60) : (uint64_t)k * (uint64_t)i;
        places[MARK] = 0;
        burst(&r, (const uint8_t *)t.bytes, t.count);
        end(&r);
        take_back_record(&r);
        cases++;
    }
}

/* What the record does not use is laid as 0, whatever stood there. */
static void unused_stay(void)
{
    static const struct uff_stream zeros;
    struct record r = lend_record(UFF_STREAM_NUMBERS, UFF_STREAM_LINE);
    name = "what a record does not use";
    check_reply(start(&r), 0, 0);
    memset(numbers_of(&r) + USED_NUMBERS, 0xff, (UFF_STREAM_NUMBERS - USED_NUMBERS) * sizeof(uint64_t));
    memset(r.line.at + USED_LINE, 0xff, UFF_STREAM_LINE - USED_LINE);
    check_reply(burst(&r, (const uint8_t *)"    -1\n    ", 11), 127, 1);
    if (memcmp(numbers_of(&r) + USED_NUMBERS, zeros.numbers, (UFF_STREAM_NUMBERS - USED_NUMBERS) * sizeof(uint64_t)) != 0 ||
        memcmp(r.line.at + USED_LINE, zeros.line, UFF_STREAM_LINE - USED_LINE) != 0)
        differs("a number or byte that is not used is not 0");
    check_refusal(end(&r), 4, 2, 1);
    take_back_record(&r);
}

/* A record with this refusal number and column, which no bursts gave: what it answers. */
static void made_up(uint64_t refusal, uint64_t column, struct due due)
{
    struct record r = lend_record(UFF_STREAM_NUMBERS, UFF_STREAM_LINE);
    check_reply(start(&r), 0, 0);
    numbers_of(&r)[REFUSAL] = refusal;
    numbers_of(&r)[COLUMN] = column;
    check_due(burst(&r, (const uint8_t *)"\n", 1), due);
    check_due(end(&r), due);
    take_back_record(&r);
}

/* A refusal number that is neither 0 nor one that a line can have counts as past the limit. */
static void refusal_numbers(void)
{
    static const uint64_t others[] = {1, 16, 17, 20, 23, 26, 126, 127, 128, 129, 255, 256, 258, 280, 281, 384, 4294967298, UINT64_MAX};
    name = "a record with a made-up refusal number";
    for (size_t i = 0; i < sizeof others / sizeof *others; i++)
        made_up(others[i], 27, (struct due){1, 0, 0});
    for (uint64_t n = 2; n <= 15; n++)
        made_up(n, 27, (struct due){n, 1, 27});
    made_up(24, 27, (struct due){24, 1, 27});
    made_up(25, 27, (struct due){25, 1, 27});
    name = "a record with a made-up column";
    made_up(5, 0, (struct due){5, 1, 0});
    made_up(5, 33554431, (struct due){5, 1, 33554431});
    made_up(5, 33554432, (struct due){5, 1, 33554431});
    made_up(5, UINT64_MAX, (struct due){5, 1, 33554431});
}

/*
 * The column of a record that bursts grew: while the line is open that of its first byte not allowed, then the refusal's;
 * where the bad byte is a CR that the LF makes part of the line's end, none.
 */
static void columns_kept(void)
{
    struct record r = lend_record(UFF_STREAM_NUMBERS, UFF_STREAM_LINE);
    name = "the column that a record keeps";
    check_reply(start(&r), 0, 0);
    check_reply(burst(&r, (const uint8_t *)EIGHTY EIGHTY "\t", 161), 127, 0);
    check_reply(burst(&r, (const uint8_t *)EIGHTY "\t", 81), 127, 0);
    if (numbers_of(&r)[REFUSAL] != 0 || numbers_of(&r)[COLUMN] != 161)
        differs("not the first bad byte's column");
    check_refusal(burst(&r, (const uint8_t *)"\n", 1), 2, 1, 161);
    if (numbers_of(&r)[REFUSAL] != 2 || numbers_of(&r)[COLUMN] != 161)
        differs("not the refusal's column");
    check_refusal(burst(&r, (const uint8_t *)"\t\n", 2), 2, 1, 161);
    check_reply(start(&r), 0, 0);
    check_reply(burst(&r, (const uint8_t *)"    -1\r", 7), 127, 0);
    check_reply(burst(&r, (const uint8_t *)"\n", 1), 127, 1);
    if (numbers_of(&r)[COLUMN] != 0)
        differs("the column of a CR that ended its line");
    take_back_record(&r);
}

void try_stream(void)
{
    rooms();
    streams();
    wild_records();
    unused_stay();
    refusal_numbers();
    columns_kept();
}

/* 1 replaces the refusal of line 1. */
void try_long_stream(void)
{
    static struct uff_stream record;
    uint8_t *bytes = need(malloc(UFF_LONGEST));
    memset(bytes, ' ', UFF_LONGEST);
    bytes[0] = 'x';
    bytes[1] = '\n';
    name = "a stream that grows too long";
    check_reply(uff_stream_start(&record), 0, 0);
    check_refusal(uff_stream_burst(&record, bytes, UFF_LONGEST), 5, 1, 1);
    check_refusal(uff_stream_burst(&record, bytes, 0), 5, 1, 1);
    check_reply(uff_stream_burst(&record, bytes, 1), 1, 0);
    check_reply(uff_stream_end(&record), 1, 0);
    check_reply(uff_stream_burst(&record, bytes, 1), 23, 0);
    free(bytes);
}
