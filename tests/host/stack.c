/*
 * Runs every call on a stack of 16 KB of its own, above a page that may not be touched, and finds by a pattern laid into it
 * beforehand how much of it was used. The files given as arguments are asked, and the first one's lines 9 to 19 are the
 * writer's header. Prints the most that a call used, its C caller included, and the most that uff_field did on the deepest FORMATs.
 */
#define _GNU_SOURCE
#include <stdio.h>
#include <stdlib.h>
#include <string.h>
#include <sys/mman.h>
#include <ucontext.h>
#include <unistd.h>

#include "uff.h"

#define STACK (16 * 1024)
#define PATTERN 0xa5

static uint8_t file[1 << 16], plain[1 << 16];
static size_t file_len, header_from, header_len;
static uint32_t rows[UFF_SETS * UFF_ROW_NUMBERS];
static double doubles[UFF_DOUBLES];
static uint8_t out[UFF_VALUE_BYTES];
static const int64_t coefficients[7] = {1, -2, 3, -4, 5, -6, 7};
static const int16_t scales[7] = {-1, -1, -1, -1, -1, -1, -1};
static struct uff_stream record;
static uint64_t reply;

static void judge(void) { reply = uff_judge(file, file_len); }
static void list(void) { reply = uff_list(file, file_len, rows, UFF_SETS * UFF_ROW_NUMBERS); }
static void number(void) { reply = uff_number(file, file_len, 2, 6, out, sizeof out); }
static void value(void) { reply = uff_value(file, file_len, 2, 6, out, sizeof out); }
static void values(void) { reply = uff_values(file, file_len, 2, doubles, UFF_DOUBLES); }
static void rewrite(void) { reply = uff_rewrite(file, file_len, plain, sizeof plain); }
static void start(void) { reply = uff_stream_start(&record); }
static void burst(void) { reply = uff_stream_burst(&record, file, file_len / 2); }
static void next_burst(void) { reply = uff_stream_burst(&record, file + file_len / 2, file_len - file_len / 2); }
static void end(void) { reply = uff_stream_end(&record); }
static void write_set(void)
{
    reply = uff_write(file + header_from, header_len, coefficients, 7, scales, 7, plain, sizeof plain);
}

static void (*const calls[])(void) = {judge, list, number, value, values, rewrite, write_set, start, burst, next_burst, end};

/* FORMATs as deep as 120 bytes can be: brackets, a list of one-column items, and one inside the other. */
static uint8_t format[UFF_FORMAT_LONGEST];

static void field(void) { reply = uff_field(format, sizeof format, file, 0, 0, out, sizeof out); }

static uint8_t *repeat(const char *text)
{
    for (size_t i = 0; i < sizeof format; i++)
        format[i] = (uint8_t)text[i % strlen(text)];
    return format;
}

static void fail(const char *what)
{
    perror(what);
    exit(1);
}

/* Runs a call on a stack of so many bytes, and answers how much of it was used. */
static size_t used(uint8_t *stack, size_t size, void (*call)(void))
{
    static ucontext_t here, there;
    memset(stack, PATTERN, size);
    if (getcontext(&there) != 0)
        fail("getcontext");
    there.uc_stack.ss_sp = stack;
    there.uc_stack.ss_size = size;
    there.uc_link = &here;
    makecontext(&there, call, 0);
    if (swapcontext(&here, &there) != 0)
        fail("swapcontext");
    size_t free_bytes = 0;
    while (free_bytes < size && stack[free_bytes] == PATTERN)
        free_bytes++;
    return size - free_bytes;
}

static void read_file(const char *name)
{
    FILE *in = fopen(name, "rb");
    if (in == NULL)
        fail(name);
    file_len = fread(file, 1, sizeof file, in);
    fclose(in);
}

/* Where lines 9 to 19 stand. */
static void find_header(void)
{
    size_t line = 1;
    for (size_t i = 0; i < file_len && line < 20; i++)
        if (file[i] == '\n' && ++line == 9)
            header_from = i + 1;
        else if (line < 20 && line >= 9)
            header_len = i + 2 - header_from;
}

/* The most that uff_field uses on the deepest FORMATs, each with its reply. */
static size_t field_used(uint8_t *stack)
{
    static const struct {
        const char *text, *end;
        uint32_t number;
    } deep[] = {{"(", "(", 26}, {"(X,", "X", 26}, {"X,", "I1", 24}, {"I1,", "I11", 24}, {"1P", "", 26}};
    size_t most = 0;
    for (size_t k = 0; k < sizeof deep / sizeof *deep; k++) {
        size_t end = strlen(deep[k].end), now;
        memcpy(repeat(deep[k].text) + sizeof format - end, deep[k].end, end);
        now = used(stack, STACK, field);
        most = now > most ? now : most;
        if (UFF_NUMBER(reply) != deep[k].number) {
            fprintf(stderr, "FORMAT %zu: refused %u\n", k, UFF_NUMBER(reply));
            exit(1);
        }
    }
    return most;
}

int main(int count, char **words)
{
    size_t page = (size_t)sysconf(_SC_PAGESIZE), most = 0;
    uint8_t *below = mmap(NULL, page + STACK, PROT_READ | PROT_WRITE, MAP_PRIVATE | MAP_ANONYMOUS, -1, 0);
    if (below == MAP_FAILED || mprotect(below, page, PROT_NONE) != 0)
        fail("no stack");
    for (int i = 1; i < count; i++) {
        read_file(words[i]);
        if (i == 1)
            find_header();
        for (size_t k = 0; k < sizeof calls / sizeof *calls; k++) {
            size_t now = used(below + page, STACK, calls[k]);
            most = now > most ? now : most;
            if (i == 1 && UFF_NUMBER(reply) != UFF_ACCEPTED && UFF_NUMBER(reply) != UFF_SO_FAR) {
                fprintf(stderr, "call %zu: refused %u at %u\n", k, UFF_NUMBER(reply), UFF_PLACE(reply));
                return 1;
            }
        }
    }
    printf("%zu %zu\n", most, field_used(below + page));
    return 0;
}
