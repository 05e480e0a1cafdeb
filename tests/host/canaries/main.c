/*
 * Every exported call on accepted and refused inputs, against replies typed by hand from document 01; the path of its
 * example is the only argument. Each case is run with its buffers lent in four ways (lent.c): between canaries, as
 * pieces of the heap of just their length (for valgrind), before a page that may not be touched, and after one. What is
 * lent to be filled, and the canaries, hold NaNs of every sort among other bits. No byte outside a lent buffer, and none
 * past the answer, may differ afterwards. The first difference ends the program with 1; its last line counts the cases.
 */
#include "canaries.h"

#include <stdio.h>
#include <stdlib.h>
#include <string.h>

const char *name = "no case yet";
int way;
unsigned cases;

void differs(const char *what)
{
    fprintf(stderr, "canaries: %s, lent in way %d: %s\n", name, way, what);
    exit(1);
}

void check_refusal(uint64_t reply, uint64_t number, uint64_t line, uint64_t column)
{
    if (reply != (number << 57 | column << 32 | line)) {
        fprintf(stderr, "reply %u at %u, column %u, due %u at %u, column %u\n", UFF_NUMBER(reply), UFF_PLACE(reply),
                UFF_COLUMN(reply), (unsigned)number, (unsigned)line, (unsigned)column);
        differs("the reply");
    }
    if (UFF_NUMBER(reply) != number || UFF_PLACE(reply) != line || UFF_COLUMN(reply) != column)
        differs("the macros that take a reply apart");
    cases++;
}

void check_reply(uint64_t reply, uint64_t number, uint64_t place)
{
    check_refusal(reply, number, place, 0);
}

static void check_texts(void)
{
    name = "the table of texts";
    for (unsigned i = 0; i < 128; i++) {
        bool in_table = i <= 27 || i == 127;
        if ((strcmp(uff_text(i), uff_text(99)) != 0) != in_table)
            differs("a number without a text of its own");
        cases++;
    }
}

static void (*const calls[])(void) = {
    try_judge, try_list, try_number, try_field, try_value, try_values, try_rewrite, try_alone, try_write, try_stream,
};

int main(int count, char **words)
{
    if (count != 2) {
        fprintf(stderr, "usage: canaries EXAMPLE\n");
        return 1;
    }
    catch_faults();
    read_example(words[1]);
    check_texts();
    make_most();
    for (way = 0; way < WAYS; way++)
        for (size_t i = 0; i < sizeof calls / sizeof *calls; i++)
            calls[i]();
    free_most();
    try_last_column();
    try_far_column();
    try_far_line();
    try_long_stream();
    printf("%u cases\n", cases);
    return 0;
}
