/* What the command prints of names, files and words typed. */
#include "command.h"

#include <errno.h>
#include <stdlib.h>
#include <string.h>
#include <time.h>
#include <unistd.h>

int64_t now(void)
{
    struct timespec t;
    clock_gettime(CLOCK_MONOTONIC, &t);
    return (int64_t)t.tv_sec * 1000 + t.tv_nsec / 1000000;
}

/* Room for a file's report: the longest name that opens, each byte of it shown by up to six, a reply and the line it names. */
#define REPORT (6 * 4096 + 1024)

void prepare_outputs(void)
{
    static char output[REPORT], errors[REPORT];
    setvbuf(stdout, output, _IOFBF, sizeof output);
    setvbuf(stderr, errors, _IOLBF, sizeof errors);
}

size_t character(const unsigned char *at)
{
    size_t count = at[0] < 0x80 ? 1 : at[0] < 0xc2 ? 0 : at[0] < 0xe0 ? 2 : at[0] < 0xf0 ? 3 : at[0] < 0xf5 ? 4 : 0;
    for (size_t i = 1; i < count; i++)
        if ((at[i] & 0xc0) != 0x80)
            return 0;
    if ((at[0] == 0xe0 && at[1] < 0xa0) || (at[0] == 0xed && at[1] > 0x9f))
        return 0;
    if ((at[0] == 0xf0 && at[1] < 0x90) || (at[0] == 0xf4 && at[1] > 0x8f))
        return 0;
    return count;
}

/* Whether a byte, or what stands for one as a character, commands a terminal. */
static bool is_control(unsigned byte)
{
    return byte < 32 || (byte > 126 && byte < 160);
}

/* Prints a byte that is no part of a longer character. */
static void print_byte(FILE *to, unsigned byte)
{
    static const char bytes[] = "\n\r\t\\", letters[] = "nrt\\";
    const char *at = strchr(bytes, (int)byte);
    if (at != NULL)
        fprintf(to, "\\%c", letters[at - bytes]);
    else if (is_control(byte))
        fprintf(to, "\\x%02x", byte);
    else
        putc((int)byte, to);
}

void print_name(FILE *to, const char *name)
{
    const unsigned char *at = (const unsigned char *)name;
    while (*at != '\0') {
        size_t count = character(at);
        if (count < 2)
            print_byte(to, *at);
        else if (*at == 0xc2 && is_control(at[1]))
            fprintf(to, "\\x%02x\\x%02x", (unsigned)at[0], (unsigned)at[1]);
        else
            fwrite(at, 1, count, to);
        at += count == 0 ? 1 : count;
    }
}

static struct {
    bool on;
    bool shown;
    int64_t next;
} progress;

void start_progress(void)
{
    progress.on = isatty(STDERR_FILENO);
}

void show_progress(size_t done, size_t all)
{
    if (!progress.on || now() < progress.next)
        return;
    fprintf(stderr, "\r%zu of %zu files", done, all);
    fflush(stderr);
    progress.shown = true;
    progress.next = now() + 100;
}

void clear_progress(void)
{
    if (!progress.shown)
        return;
    fputs("\r\033[K", stderr);
    fflush(stderr);
    progress.shown = false;
}

void tell(const char *name, const char *what, int error)
{
    clear_progress();
    fflush(stdout);
    fputs("uff: ", stderr);
    print_name(stderr, name);
    fprintf(stderr, ": %s%s%s\n", what, error ? ": " : "", error ? strerror(error) : "");
}

int trouble(const char *name, const char *what)
{
    tell(name, what, 0);
    return TROUBLE;
}

/* The command that was typed, if it is one. */
static const char *command = "";

void set_command(const char *name)
{
    command = name;
}

int misused(const char *what, const char *word)
{
    fprintf(stderr, "uff: %s%s", what, *word ? ": " : "");
    print_name(stderr, word);
    fprintf(stderr, "\nTry 'uff help%s%s'.\n", *command ? " " : "", command);
    return TROUBLE;
}

const char *plural(uint64_t count)
{
    return count == 1 ? "" : "s";
}

void flush_output(void)
{
    if (fflush(stdout) != 0)
        exit(trouble("standard output", strerror(errno)));
}
