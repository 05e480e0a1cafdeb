/*
 * All values of all sets of a file: each set by its place in the whole file, each by its own bytes, and by a plain reader;
 * then by commands in the same three ways. The words are the command, and the one that is timed set by set. With the word
 * `plain` and a name it is the plain reader's command.
 */
#define _XOPEN_SOURCE 700
#include "plain.h"
#include "uff.h"

#include <fcntl.h>
#include <stdio.h>
#include <stdlib.h>
#include <string.h>
#include <sys/resource.h>
#include <sys/wait.h>
#include <unistd.h>

#define ROUNDS 9
/* The most numbers of a file: a number takes 13 bytes. */
#define NUMBERS (UFF_LONGEST / 13)

static char file[UFF_LONGEST];
static double numbers[NUMBERS], other[NUMBERS];
static uint32_t rows[UFF_SETS * UFF_ROW_NUMBERS];

static void fail(const char *what)
{
    fprintf(stderr, "bench: %s\n", what);
    exit(1);
}

/* Seconds of the processor that this program and the commands that it ran have used: on a busy machine too. */
static double used(void)
{
    double seconds = 0;
    for (int i = 0; i < 2; i++) {
        struct rusage u;
        if (getrusage(i == 0 ? RUSAGE_SELF : RUSAGE_CHILDREN, &u) != 0)
            fail("no times");
        seconds += (double)(u.ru_utime.tv_sec + u.ru_stime.tv_sec) + (double)(u.ru_utime.tv_usec + u.ru_stime.tv_usec) / 1e6;
    }
    return seconds;
}

/* Adds a set of case 1 with so many values, whose digits, signs and exponents vary. */
static size_t add_set(size_t at, int count)
{
    static const char head[] = "    -1\n    58\nDrive end bearing\nNONE\nNONE\nNONE\nNONE\n"
                               "    1         1    0         0 NONE               7   3 NONE               0   0\n"
                               "         2%10d         1  0.00000E+00  1.00000E-03  0.00000E+00\n"
                               "        17    0    0    0 Time                 s\n"
                               "        12    0    0    0 Acceleration         m/s2\n"
                               "         0    0    0    0 NONE                 NONE\n"
                               "         0    0    0    0 NONE                 NONE\n";
    static uint32_t seed = 58;
    at += (size_t)sprintf(file + at, head, count);
    for (int i = 0; i < count; i++) {
        seed = seed * 1664525 + 1013904223;
        at += (size_t)sprintf(file + at, " %c%u.%05uE%c%02u%s", seed >> 31 ? '-' : ' ', 1 + (seed >> 8) % 9, (seed >> 9) % 100000,
                              seed >> 30 & 1 ? '-' : '+', (seed >> 4) % 5, i % 6 == 5 || i + 1 == count ? "\n" : "");
    }
    return at + (size_t)sprintf(file + at, "    -1\n");
}

/* The sets that are read one by one, where all would take too long: the seconds are multiplied. */
static uint32_t step_of(uint32_t sets)
{
    return sets > 64 ? 64 : 1;
}

/* Seconds for every set by its place in the whole file. */
static double time_by_place(size_t count, uint32_t sets)
{
    double start = used();
    for (uint32_t k = 1; k <= sets; k += step_of(sets))
        if (UFF_NUMBER(uff_values((uint8_t *)file, count, k, other, NUMBERS)) != UFF_ACCEPTED)
            fail("a set is refused");
    return (used() - start) * step_of(sets);
}

/* Reads all sets by their own bytes. Gives how many numbers that are, or -1. */
static long read_by_rows(size_t count, double *out)
{
    uint64_t sets = uff_list((uint8_t *)file, count, rows, UFF_SETS * UFF_ROW_NUMBERS);
    long total = 0;
    for (uint32_t k = 0; k < UFF_PLACE(sets); k++) {
        const uint32_t *row = rows + k * UFF_ROW_NUMBERS;
        uint64_t reply = uff_values((uint8_t *)file + row[3], row[4] - row[3], 1, out + total, (size_t)(NUMBERS - total));
        if (UFF_NUMBER(reply) != UFF_ACCEPTED)
            return -1;
        total += UFF_PLACE(reply);
    }
    return total;
}

static void print_row(const char *name, size_t count, const double *best)
{
    printf("| %s | %zu | %.0f | %.1f | %.1f | %.0f | %.2f |\n", name, count, best[0] * 1e3, best[1] * 1e3, best[2] * 1e3,
           best[0] / best[1], best[2] / best[1]);
}

/* The best of some rounds, each way in each. */
static void time_calls(const char *name, size_t count, uint32_t sets)
{
    double best[3] = {time_by_place(count, sets), 1e9, 1e9};
    long read = read_by_rows(count, numbers);
    for (int round = 0; round < ROUNDS; round++)
        for (int i = 1; i < 3; i++) {
            double start = used(), took;
            long again = i == 1 ? read_by_rows(count, other) : read_plainly(file, count, other, NUMBERS);
            took = used() - start;
            if (again != read || read < 0 || memcmp(numbers, other, (size_t)read * sizeof *other) != 0)
                fail("the readers differ");
            best[i] = took < best[i] ? took : best[i];
        }
    print_row(name, count, best);
}

/* Runs a command with its output thrown away. */
static void run(const char *program, const char *a, const char *b, const char *c)
{
    int status;
    pid_t child = fork();
    if (child == 0) {
        int fd = open("/dev/null", O_WRONLY);
        if (fd < 0 || dup2(fd, STDOUT_FILENO) < 0)
            _exit(3);
        execl(program, program, a, b, c, (char *)NULL);
        _exit(3);
    }
    if (child < 0 || waitpid(child, &status, 0) != child || status != 0)
        fail("a command fails");
}

/* Seconds for every set by a command of its own. */
static double time_each(const char *path, uint32_t sets, const char *uff)
{
    double start = used();
    for (uint32_t k = 1; k <= sets; k += step_of(sets)) {
        char set[16];
        snprintf(set, sizeof set, "%u", k);
        run(uff, "values", path, set);
    }
    return (used() - start) * step_of(sets);
}

/* Every set by a command of its own, all by one, and the plain reader. */
static void time_commands(const char *name, size_t count, uint32_t sets, const char *const *programs)
{
    double best[3] = {1e9, 1e9, 1e9};
    char path[] = "/tmp/uff-bench-XXXXXX";
    int fd = mkstemp(path);
    if (fd < 0 || write(fd, file, count) != (ssize_t)count || close(fd) != 0)
        fail("no temporary file");
    best[0] = time_each(path, sets, programs[0]);
    for (int round = 0; round < ROUNDS; round++)
        for (int i = 1; i < 3; i++) {
            double start = used(), took;
            run(programs[i], i == 1 ? "values" : "plain", path, NULL);
            took = used() - start;
            best[i] = took < best[i] ? took : best[i];
        }
    unlink(path);
    print_row(name, count, best);
}

/* The plain command: all numbers, one a line. */
static int print_plainly(const char *path)
{
    FILE *in = fopen(path, "rb");
    size_t count = in == NULL ? 0 : fread(file, 1, sizeof file, in);
    long total = read_plainly(file, count, numbers, NUMBERS);
    for (long i = 0; i < total; i++)
        printf("%.17g\n", numbers[i]);
    return total < 0 || fflush(stdout) != 0;
}

/* Lays out a file of so many sets, all of so many values but the last. Gives its length. */
static size_t lay_out(uint32_t sets, int values, int last)
{
    size_t count = 0;
    for (uint32_t i = 1; i <= sets; i++)
        count = add_set(count, i < sets ? values : last);
    return count;
}

int main(int words, char **word)
{
    const char *uff = words > 1 ? word[1] : "target/uff";
    const char *const programs[3] = {words > 2 ? word[2] : uff, uff, word[0]};
    if (words == 3 && strcmp(word[1], "plain") == 0)
        return print_plainly(word[2]);
    puts("| calls | bytes | each set in the whole file ms | own bytes ms | plain C ms | before/after | plain/after |");
    puts("|---|---|---|---|---|---|---|");
    time_calls("16 MB, 20 sets", lay_out(20, 65536, 26000), 20);
    time_calls("2 MB, 4,096 sets", lay_out(UFF_SETS, 6, 6), UFF_SETS);
    puts("\n| command | bytes | a command for each set ms | one command ms | plain C ms | before/after | plain/after |");
    puts("|---|---|---|---|---|---|---|");
    time_commands("16 MB, 20 sets", lay_out(20, 65536, 26000), 20, programs);
    time_commands("2 MB, 4,096 sets", lay_out(UFF_SETS, 6, 6), UFF_SETS, programs);
    return 0;
}
