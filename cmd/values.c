/* `uff values`: the values of the sets 58 of a file. */
#include "command.h"

#include <stdlib.h>

/* What a value is made of, by the kind that the reader answers. */
static const char *const kinds[] = {"", "real", "real imaginary", "abscissa real", "abscissa real imaginary"};

/* The kind of a set whose values, of so many numbers each, were read. Only of two numbers is it asked: which they are. */
static const char *kind_of(const struct text *own, uint32_t width)
{
    uint8_t value[UFF_VALUE_BYTES];
    if (width != 2)
        return kinds[width == 1 ? 1 : 4];
    return kinds[UFF_PLACE(uff_value(own->bytes, own->count, 1, 0, value, sizeof value)) == 2 ? 2 : 3];
}

/* Prints the values one a line. How many numbers a value has is found by division. */
static void print_values(const double *numbers, uint32_t count, uint32_t values)
{
    uint32_t width = count / values;
    char spelled[DOUBLE_ROOM];
    for (uint32_t i = 0; i < count; i++) {
        int length = spell_double(spelled, numbers[i]);
        spelled[length] = (i + 1) % width == 0 ? '\n' : ' ';
        fwrite(spelled, 1, (size_t)length + 1, stdout);
    }
}

/* A file whose sets are shown, and how. */
struct shown {
    const struct choices *o;
    const char *name;
    struct text text;
    uint32_t sets;
    bool is_headed;
    bool is_alone;
};

/* Says why the values of a set are not shown: where it is asked for alone, in their place; otherwise on standard error. */
static int refuse_set(const struct shown *s, uint32_t set, const struct verdict *v)
{
    if (s->is_alone)
        return print_verdict(stdout, s->o, s->name, v, &s->text);
    if (s->is_headed)
        printf("# set %u: no values, refused %u\n", set, UFF_NUMBER(v->reply));
    flush_output();
    fputs("uff: ", stderr);
    print_name(stderr, shown_name(s->name));
    fprintf(stderr, ": set %u: ", set);
    print_words(stderr, v);
    return REFUSED;
}

/* Shows the values of a set, which is read from its own bytes. */
static int show_set(const struct shown *s, uint32_t set)
{
    static double numbers[UFF_DOUBLES];
    struct verdict v = no_such_set(set, s->sets);
    struct text own;
    uint32_t values;
    if (set > s->sets || row_of(set)[2] == 0)
        return refuse_set(s, set, &v);
    own = own_bytes(&s->text, set);
    v = verdict_on(uff_values(own.bytes, own.count, 1, numbers, UFF_DOUBLES), own.count, 0);
    if (UFF_NUMBER(v.reply) != UFF_ACCEPTED)
        return refuse_set(s, set, &v);
    values = row_of(set)[2];
    if (s->is_headed)
        printf("# set %u: %u value%s, %s\n", set, values, plural(values), kind_of(&own, UFF_PLACE(v.reply) / values));
    print_values(numbers, UFF_PLACE(v.reply), values);
    return ACCEPTED;
}

/* Shows every set 58. A file that has none is refused as one that lacks the set asked for. */
static int show_all(const struct shown *s)
{
    struct verdict v = no_such_set(s->sets + 1, s->sets);
    int status = ACCEPTED;
    bool found = false;
    for (uint32_t set = 1; set <= s->sets; set++) {
        if (row_of(set)[2] == 0)
            continue;
        found = true;
        if (show_set(s, set) != ACCEPTED)
            status = REFUSED;
    }
    if (found)
        return status;
    snprintf(v.note, sizeof v.note, "the file has %u set%s, and no 58", s->sets, plural(s->sets));
    return print_verdict(stdout, s->o, s->name, &v, &s->text);
}

/* Shows the sets asked for, in that order. */
static int show_some(const struct shown *s, int count, char **words)
{
    int status = ACCEPTED;
    for (int i = 0; i < count; i++) {
        uint32_t set = 0;
        if (parse_number(words[i], &set) && show_set(s, set) != ACCEPTED)
            status = REFUSED;
    }
    return status;
}

int run_values(const struct choices *o, int count, char **words)
{
    struct shown s = {o, words[0], {NULL, 0, 0}, 0, !o->is_bare && (count != 2 || o->is_named), count == 2};
    struct verdict v;
    int status;
    for (int i = 1; i < count; i++) {
        uint32_t set;
        if (!parse_number(words[i], &set) || set == 0)
            return misused("SET is not a number from 1 to 4294967295", words[i]);
    }
    if (!read_file(words[0], &s.text))
        return TROUBLE;
    v = verdict_on_text(list_sets(&s.text), &s.text);
    s.sets = UFF_PLACE(v.reply);
    if (UFF_NUMBER(v.reply) != UFF_ACCEPTED)
        status = print_verdict(stdout, o, words[0], &v, &s.text);
    else
        status = count == 1 ? show_all(&s) : show_some(&s, count - 1, words + 1);
    free(s.text.bytes);
    return status;
}
