/* `uff list` and `uff number`: the sets of a file, and a stored number. */
#include "command.h"

#include <stdlib.h>

/* Room for what the lister gives of any file. */
static uint32_t rows[UFF_SETS * UFF_ROW_NUMBERS];

uint64_t list_sets(const struct text *t)
{
    return uff_list(t->bytes, t->count, rows, UFF_SETS * UFF_ROW_NUMBERS);
}

const uint32_t *row_of(uint32_t set)
{
    return rows + (size_t)(set - 1) * UFF_ROW_NUMBERS;
}

struct text own_bytes(const struct text *t, uint32_t set)
{
    const uint32_t *row = row_of(set);
    return (struct text){t->bytes + row[3], row[4] - row[3], 0};
}

struct verdict no_such_set(uint32_t set, uint32_t sets)
{
    struct verdict v = {(uint64_t)18 << 57, "set", ""};
    if (set > sets)
        snprintf(v.note, sizeof v.note, "the file has %u set%s", sets, plural(sets));
    else
        snprintf(v.note, sizeof v.note, "set %u is a %u", set, row_of(set)[1]);
    return v;
}

static void print_row(uint32_t set)
{
    const uint32_t *row = row_of(set);
    printf("%u %u %u %u\n", set, row[0], row[1], row[2]);
}

static void print_json_row(const char *name, uint32_t set)
{
    static const char *const names[UFF_ROW_NUMBERS] = {"line", "dataset", "values", "first", "past", "data", "padding"};
    const uint32_t *row = row_of(set);
    print_json_file(stdout, name);
    printf(", \"number\": 0, \"set\": %u", set);
    for (int i = 0; i < UFF_ROW_NUMBERS; i++)
        printf(", \"%s\": %u", names[i], row[i]);
    fputs("}\n", stdout);
}

/* Prints the sets of an accepted file; for people a heading and the verdict too. */
static int print_sets(const struct choices *o, const char *name, const struct verdict *v)
{
    if (!o->is_json)
        printf("set line dataset values\n");
    for (uint32_t set = 1; set <= UFF_PLACE(v->reply); set++)
        if (o->is_json)
            print_json_row(name, set);
        else
            print_row(set);
    if (!o->is_json)
        print_words(stdout, v);
    return ACCEPTED;
}

int run_list(const struct choices *o, int count, char **words)
{
    struct text t = {NULL, 0, 0};
    struct verdict v;
    int status;
    (void)count;
    if (!read_file(words[0], &t))
        return print_json_unread(o, words[0]);
    v = verdict_on_text(list_sets(&t), &t);
    v.unit = "set";
    if (UFF_NUMBER(v.reply) == UFF_ACCEPTED)
        status = print_sets(o, words[0], &v);
    else
        status = print_verdict(stdout, o, words[0], &v, &t);
    free(t.bytes);
    return status;
}

static int scale_in(const uint8_t *number)
{
    int bits = (int)number_in(number + 16, 2);
    return bits < 32768 ? bits : bits - 65536;
}

void print_exact(const uint8_t *number)
{
    printf("%s%llu x 10^%d", number[18] ? "-" : "", (unsigned long long)number_in(number + 8, 8), scale_in(number));
}

static void print_number(const uint8_t *answer, uint32_t set, uint32_t index)
{
    uint64_t first = number_in(answer, 4), past = number_in(answer + 4, 4), coefficient = number_in(answer + 8, 8);
    printf("first past sign coefficient scale\n%llu %llu %c %llu %d\n", (unsigned long long)first, (unsigned long long)past,
           answer[18] ? '-' : '+', (unsigned long long)coefficient, scale_in(answer));
    printf("Number %u of set %u is ", index, set);
    print_exact(answer);
    puts(".");
}

/* How many stored numbers a set 58 has: its values times one, two or three. */
static uint32_t count_numbers(const struct text *t, uint32_t set)
{
    struct text own = own_bytes(t, set);
    uint8_t answer[UFF_NUMBER_BYTES];
    uint32_t count = row_of(set)[2];
    while (UFF_NUMBER(uff_number(own.bytes, own.count, 1, count, answer, sizeof answer)) == UFF_ACCEPTED)
        count += row_of(set)[2];
    return count;
}

/* The verdict on a number that is not there: what is there. */
static struct verdict no_such_number(const struct text *t, uint32_t set)
{
    uint32_t sets = UFF_PLACE(list_sets(t));
    struct verdict v = no_such_set(set, sets);
    if (set <= sets && row_of(set)[2] != 0)
        snprintf(v.note, sizeof v.note, "set %u has the numbers 0 to %u", set, count_numbers(t, set) - 1);
    return v;
}

int run_number(const struct choices *o, int count, char **words)
{
    struct text t = {NULL, 0, 0};
    uint8_t answer[UFF_NUMBER_BYTES];
    uint32_t set, index;
    struct verdict v;
    int status = ACCEPTED;
    (void)count;
    if (!parse_number(words[1], &set) || set == 0)
        return misused("SET is not a number from 1 to 4294967295", words[1]);
    if (!parse_number(words[2], &index))
        return misused("INDEX is not a number from 0 to 4294967295", words[2]);
    if (!read_file(words[0], &t))
        return TROUBLE;
    v = verdict_on_text(uff_number(t.bytes, t.count, set, index, answer, sizeof answer), &t);
    if (UFF_NUMBER(v.reply) == 18)
        v = no_such_number(&t, set);
    if (UFF_NUMBER(v.reply) == UFF_ACCEPTED)
        print_number(answer, set, index);
    else
        status = print_verdict(stdout, o, words[0], &v, &t);
    free(t.bytes);
    return status;
}
