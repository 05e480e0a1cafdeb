/* `uff field`: the fields of one line of a file, by a FORMAT. */
#include "command.h"

#include <stdlib.h>
#include <string.h>

/* The kinds of fields, as uff_field answers them. */
static const char *const kinds[] = {"", "text", "integer", "real"};

/* A line and the FORMAT that it is read by. */
struct question {
    const struct choices *o;
    const char *format;
    size_t format_count;
    const char *name;
    struct text text;
    uint32_t number;
    struct line line;
};

static uint64_t ask(const struct question *q, uint32_t field, uint8_t answer[UFF_FIELD_BYTES])
{
    return uff_field((const uint8_t *)q->format, q->format_count, q->line.bytes, q->line.count, field, answer,
                     UFF_FIELD_BYTES);
}

/* How many fields the FORMAT has, where the line is good. */
static uint32_t count_fields(const struct question *q)
{
    uint8_t answer[UFF_FIELD_BYTES];
    uint32_t fields = 0;
    while (UFF_NUMBER(ask(q, fields, answer)) == UFF_ACCEPTED)
        fields++;
    return fields;
}

/* Prints what stands in a field's columns, if anything, without the blanks before a number and after a text. */
static void print_columns(const struct line *line, size_t first, size_t past, bool is_text)
{
    if (past > line->count)
        past = line->count;
    while (past > first && line->bytes[past - 1] == ' ')
        past--;
    while (!is_text && first < past && line->bytes[first] == ' ')
        first++;
    if (first < past)
        printf(" %.*s", (int)(past - first), (const char *)line->bytes + first);
}

static void print_field(const struct question *q, uint32_t field, uint32_t kind, const uint8_t *answer)
{
    uint32_t first = (uint32_t)number_in(answer, 4), past = (uint32_t)number_in(answer + 4, 4);
    printf("%u %s %u %u", field, kinds[kind], first, past);
    print_columns(&q->line, first, past, kind == 1);
    if (kind == 3) {
        fputs(" = ", stdout);
        print_exact(answer);
    }
    putchar('\n');
}

/* Says why nothing is shown. A line's own refusal is that of a line lent alone, so the line's place in the file follows. */
static int refuse(const struct question *q, uint64_t reply)
{
    struct verdict v = {reply, "line", ""};
    if (UFF_NUMBER(reply) == 18) {
        uint32_t fields = count_fields(q);
        if (fields == 0)
            snprintf(v.note, sizeof v.note, "the FORMAT has no field");
        else
            snprintf(v.note, sizeof v.note, "the FORMAT has %u field%s, from 0", fields, plural(fields));
    }
    print_reason(stdout, &v);
    if (UFF_PLACE(reply) != 0) {
        printf(" (line %u of ", q->number);
        print_name(stdout, shown_name(q->name));
        putchar(')');
    }
    putchar('\n');
    if (is_line_shown(stdout, q->o, true))
        print_shown(stdout, reply - UFF_PLACE(reply) + q->number, &q->text);
    return REFUSED;
}

/* Shows the fields from one on, and before another. */
static int show(const struct question *q, uint32_t from, uint32_t past)
{
    uint8_t answer[UFF_FIELD_BYTES];
    uint64_t reply = ask(q, from, answer);
    if (UFF_NUMBER(reply) != UFF_ACCEPTED)
        return refuse(q, reply);
    puts("field kind first past value");
    for (uint32_t field = from; UFF_NUMBER(reply) == UFF_ACCEPTED; reply = ask(q, field, answer)) {
        print_field(q, field, UFF_PLACE(reply), answer);
        if (++field == past)
            break;
    }
    return ACCEPTED;
}

/* Finds the line. Where it is not there, or goes on past what is read of a file, says so. */
static bool take_line(struct question *q)
{
    bool found = find_line(&q->text, q->number, &q->line);
    uint64_t lines = count_lines(q->text.bytes, q->text.count, true);
    char what[96];
    if (q->text.count == MOST && (!found || q->number == lines))
        snprintf(what, sizeof what, "line %u is not within the first %u bytes", q->number, UFF_LONGEST);
    else if (!found)
        snprintf(what, sizeof what, "there is no line %u: it has %llu line%s", q->number, (unsigned long long)lines,
                 plural(lines));
    else
        return true;
    trouble(shown_name(q->name), what);
    return false;
}

int run_field(const struct choices *o, int count, char **words)
{
    struct question q = {.o = o, .format = words[0], .format_count = strlen(words[0]), .name = words[1]};
    uint32_t field = 0;
    int status = TROUBLE;
    if (!parse_number(words[2], &q.number) || q.number == 0)
        return misused("LINE is not a number from 1 to 4294967295", words[2]);
    if (count == 4 && !parse_number(words[3], &field))
        return misused("N is not a number from 0 to 4294967295", words[3]);
    if (!read_file(q.name, &q.text))
        return TROUBLE;
    if (take_line(&q))
        status = show(&q, field, count == 4 ? field + 1 : 0);
    free(q.text.bytes);
    return status;
}
