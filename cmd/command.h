/* What the files of the command `uff` share. It stands before all other headers. */
#ifndef COMMAND_H
#define COMMAND_H

#define _XOPEN_SOURCE 700

#include <stdbool.h>
#include <stdio.h>
#include <sys/types.h>

#include "uff.h"

enum { ACCEPTED = 0, REFUSED = 1, TROUBLE = 2 };

/* One byte more than a file may have is enough to see that it is too long. */
#define MOST ((size_t)UFF_LONGEST + 1)
#define BURST 65536

/* The options that were typed. */
struct choices {
    bool is_named;      /* -H */
    bool is_json;       /* -j */
    bool is_bare;       /* -n */
    bool is_quiet;      /* -q */
    bool is_deep;       /* -r */
    bool is_shown;      /* -v */
    bool is_awaited;    /* -w */
    bool is_helped;     /* -h */
    int64_t quiet_time; /* -t, in milliseconds */
};

/* say.c: what is printed of names, files and words typed. */

/* Milliseconds on a clock that never goes back. */
int64_t now(void);

/* Gives both outputs room for a file's report, so that it is one write, and several processes may share a file or a pipe. */
void prepare_outputs(void);

/* The bytes of the UTF-8 character that begins here, or 0 where none does: no longer spelling than needed, no surrogate. */
size_t character(const unsigned char *at);

/*
 * Prints a name or a typed word so that it can neither end the line nor command a terminal: the characters below 32 and
 * from 127 to 159, in UTF-8 or as one byte, and the backslash, as \n, \x1b, \xc2\x9b, \\ and the like. All else as it is.
 */
void print_name(FILE *to, const char *name);

/* Progress over many files, on standard error where that is a terminal. */
void start_progress(void);
void show_progress(size_t done, size_t all);
void clear_progress(void);

/* Says something of a file on standard error; why, where `error` is not 0. */
void tell(const char *name, const char *what, int error);

/* Says what is wrong with a file. Gives TROUBLE. */
int trouble(const char *name, const char *what);

/* Says what is wrong with the words typed, and where help for the command is. Gives TROUBLE. */
void set_command(const char *name);
int misused(const char *what, const char *word);

/* Nothing, or the s of more than one. */
const char *plural(uint64_t count);

/* Writes what was printed in one piece; where that fails there is nothing left to do. */
void flush_output(void);

/* input.c: what is read. */

/* The bytes of a file; the room is kept for the next one. */
struct text {
    uint8_t *bytes;
    size_t count;
    size_t room;
};

bool is_standard(const char *name);
const char *shown_name(const char *name);
int open_input(const char *name);
void close_input(const char *name, int fd);

/* After a read or a write that failed: whether it is to be tried again. Where it would have had to wait, this waits. */
bool is_ready(int fd, short event);
ssize_t read_some(int fd, uint8_t *to, size_t room);

/* Reads a file, or says what is wrong with it, which errno then is too, and keeps no room. */
bool read_file(const char *name, struct text *t);

/* A word that is a number from 0 to 4294967295. */
bool parse_number(const char *word, uint32_t *out);

/* A number of so many bytes, lowest first. */
uint64_t number_in(const uint8_t *bytes, int count);

/* files.c: which files are judged. */

/* A file, or a folder that could not be read, and why. */
struct file {
    char *name;
    int error;
};

struct files {
    struct file *items;
    size_t count;
    size_t room;
};

/* Adds a file, or with `is_deep` those of a folder and of its folders in order of name. False where memory ends. */
bool add_files(struct files *f, const char *name, bool is_deep);
void free_files(struct files *f);

/* reply.c: what is said of a reply. */

/* A reply, what its place counts where it is accepted, and what more is known, if anything. */
struct verdict {
    uint64_t reply;
    const char *unit;
    char note[128];
};

/* The lines in some bytes; one that is open at their end counts if `open`. */
uint64_t count_lines(const uint8_t *bytes, size_t count, bool open);

/* The verdict on a file of so many bytes and lines, or on one that was read whole. */
struct verdict verdict_on(uint64_t reply, size_t bytes, uint64_t lines);
struct verdict verdict_on_text(uint64_t reply, const struct text *t);

/* Prints a verdict in a line of words: the paper's number first, line and column where there are, the reason. */
void print_words(FILE *to, const struct verdict *v);

/* The same without the end of the line. */
void print_reason(FILE *to, const struct verdict *v);

/* A line of a file, without its end; past that it reads as blanks. */
struct line {
    const uint8_t *bytes;
    size_t count;
};

/* Finds a line, counted from 1. Gives whether it is there. */
bool find_line(const struct text *t, uint32_t number, struct line *line);

/* Prints the line that a verdict names with a caret under the column, where there is one. */
void print_shown(FILE *to, uint64_t reply, const struct text *t);

/* Prints a verdict on the only file: as JSON, or in words and, on a terminal or if asked, with the line. Gives the exit status. */
int print_verdict(FILE *to, const struct choices *o, const char *name, const struct verdict *v, const struct text *t);

/* Whether a refusal in this output shows its line: if asked, or if it is of one file and on a terminal. */
bool is_line_shown(FILE *to, const struct choices *o, bool is_one);

/* json.c: the same for programs, an object a line. */

/* Prints the name of an object's first field, `file`, and its value; `raw` follows where the name is no UTF-8. */
void print_json_file(FILE *to, const char *name);
void print_json_text(FILE *to, const char *text);
void print_json_verdict(FILE *to, const char *name, const struct verdict *v);

/* What is told of a file and has no number. */
void print_json_note(FILE *to, const char *name, const char *what, const char *why);

/* The object of the only file, which could not be read for the reason in errno, where JSON is asked for. Gives TROUBLE. */
int print_json_unread(const struct choices *o, const char *name);

/* lister.c: the sets of a file. */

/* The file's sets as the lister gives them; of an accepted reply the place is how many there are. */
uint64_t list_sets(const struct text *t);
const uint32_t *row_of(uint32_t set);

/* A set's own bytes, which are a file of that set alone. */
struct text own_bytes(const struct text *t, uint32_t set);

/* Prints what a number means, as uff_number and uff_field lay it: -200000 x 10^-6. */
void print_exact(const uint8_t *number);

/* The verdict 18 for a set of a file of so many sets that is not there or is not a 58. */
struct verdict no_such_set(uint32_t set, uint32_t sets);

/* save.c: what is written. */

bool write_all(int fd, const uint8_t *bytes, size_t count);

/* Puts the bytes in a file, or says what is wrong with it and leaves what stands there. Gives the exit status. */
int save(const char *name, const uint8_t *bytes, size_t count);

/*
 * OUT was replaced. The exit status of `rewrite` says whether it was, so it stays 0 where the line about it cannot be
 * printed.
 */
extern bool out_stands;

/* double.c: the shortest digits that read back as the same double. */

#define DOUBLE_ROOM 32

/* Spells it, and gives how many bytes that are. */
int spell_double(char *to, double x);

/* The word after -t. Gives whether it is right. */
bool parse_seconds(const char *word, int64_t *milliseconds);

/* The commands. Each takes the options and the other words, and gives the exit status. */
int run_judge(const struct choices *o, int count, char **words);
int run_list(const struct choices *o, int count, char **words);
int run_number(const struct choices *o, int count, char **words);
int run_field(const struct choices *o, int count, char **words);
int run_values(const struct choices *o, int count, char **words);
int run_rewrite(const struct choices *o, int count, char **words);
int run_watch(const struct choices *o, int count, char **words);

#endif
