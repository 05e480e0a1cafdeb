/* The command `uff`: the calls of uff.h for people at a terminal. It holds no rule of the format. */
#include "command.h"

#include <errno.h>
#include <fcntl.h>
#include <string.h>
#include <unistd.h>

/* A command: its name, its words and options as help shows them, what it does in short and at length; and how it is run. */
struct command {
    const char *name;
    const char *words;
    const char *summary;
    const char *more;
    const char *options;
    int least;
    int most;
    int (*run)(const struct choices *o, int count, char **words);
};

#define SHOWS_LINE "show the line of a refusal with a caret under the column, as on a terminal\n"

/* The letter of each option that a command has; one with a word after it is followed by a colon. */
static const struct command commands[] = {
    {"judge", "[-Hjqrv] FILE...", "say whether each is a Universal File",
     "Prints accepted and the number of lines, or refused with the number of the\n"
     "reason, line, column and reason of the earliest bad line. With several files\n"
     "each line begins with the name, and a total ends the report.\n"
     "  -H  names and a total for one file too\n"
     "  -j  a JSON object for each file: file, number, line, column, text\n"
     "  -q  only files that are refused or cannot be read, and no total\n"
     "  -r  go through folders, in order of name, and judge every file there, whatever\n"
     "      it is called; links to folders in them are not followed\n"
     "  -v  show the line of each refusal with a caret under the column, as for one\n"
     "      file on a terminal\n",
     "Hjqrv", 1, 1 << 30, run_judge},
    {"list", "[-jv] FILE", "list its sets",
     "Prints a line for each set: its place from 1, opening line, dataset number, and\n"
     "the values that a set 58 declares (0 for other sets).\n"
     "  -j  a JSON object for each set, which has its bytes and padding too\n"
     "  -v  " SHOWS_LINE,
     "jv", 1, 1, run_list},
    {"number", "[-v] FILE SET INDEX", "show a stored number of a set 58",
     "SET is counted from 1, INDEX from 0. Prints the first byte of its columns and\n"
     "the byte past them, sign, coefficient and scale, and what it means, exactly.\n"
     "  -v  " SHOWS_LINE,
     "v", 3, 3, run_number},
    {"field", "[-v] FORMAT FILE LINE [N]", "show the fields of a line by a FORMAT",
     "Reads line LINE, counted from 1, alone and without its end, by a FORMAT as the\n"
     "data sheets print it, such as '3I10,3E13.5' or '(I10,3I5,2(1X,20A1))'. Prints\n"
     "each field, or field N, counted from 0: its number, its kind (text, integer or\n"
     "real), the first byte of its columns and the byte past them, from 0 in the\n"
     "line, and what stands there; of a real what it means, exactly. The file is not\n"
     "judged. A refusal is of line 1, as the line is read alone; its place in the\n"
     "file follows.\n"
     "  -v  " SHOWS_LINE,
     "v", 3, 4, run_field},
    {"values", "[-Hnv] FILE [SET...]", "show all values of its sets 58",
     "One value a line, of the sets that are asked for, counted from 1, or of all.\n"
     "Before each set stands a line such as '# set 2: 4096 values, abscissa real', but\n"
     "not where one SET is asked for. Each number has the shortest digits that read\n"
     "back as the same double. A set with a number that one operation does not give\n"
     "exactly is refused with 21, and the other sets are shown; 'uff number' shows\n"
     "such a number.\n"
     "  -H  that line for one SET too\n"
     "  -n  no such lines\n"
     "  -v  " SHOWS_LINE,
     "Hnv", 1, 1 << 30, run_values},
    {"rewrite", "[-v] IN OUT", "write IN to OUT in plain form",
     "LF ends, no blanks at line ends, no lines outside sets, no padding, delimiters\n"
     "and dataset numbers spelled plainly, and all else as it was. OUT is replaced\n"
     "once the new bytes are wholly written, and may be IN. An OUT of - is standard\n"
     "output.\n"
     "  -v  " SHOWS_LINE,
     "v", 2, 2, run_rewrite},
    {"watch", "[-jvw] [-t SECONDS] FILE", "judge FILE while it arrives",
     "Prints the finished lines so far once a second at most, a refusal at once, and\n"
     "the verdict at the end.\n"
     "  -j  a JSON object a line: file, number, line, column, text\n"
     "  -t SECONDS\n"
     "      a file has ended when nothing has come for so long, 10 if not given;\n"
     "      with 0 its present end is its end. A pipe and standard input end at\n"
     "      their end, whatever SECONDS are.\n"
     "  -v  " SHOWS_LINE
     "  -w  wait for a file that is not there yet\n",
     "jt:vw", 1, 1, run_watch},
};

#define COMMANDS (sizeof commands / sizeof *commands)

/* Help. */

static void print_synopsis(FILE *to, const char *before, const struct command *c)
{
    int width = fprintf(to, "%s uff %s %s", before, c->name, c->words);
    fprintf(to, "%*s%s\n", width < 43 ? 43 - width : 1, "", c->summary);
}

static void print_usage(FILE *to)
{
    for (size_t i = 0; i < COMMANDS; i++)
        print_synopsis(to, i == 0 ? "usage:" : "      ", &commands[i]);
    fputs("       uff help [COMMAND] | --help | -h    show this, or what a command does\n"
          "       uff version | --version | -V        show the version\n"
          "'uff COMMAND -h' is 'uff help COMMAND', and has its options. They may stand\n"
          "after other words too; after -- no word is one.\n"
          "A FILE of - is standard input, an OUT of - standard output.\n"
          "Exit status: 0 accepted, 1 refused (the file, or what was asked of it),\n"
          "2 wrong usage or trouble with a file.\n",
          to);
}

static int print_help(const struct command *c)
{
    print_synopsis(stdout, "usage:", c);
    fputs(c->more, stdout);
    return ACCEPTED;
}

/* The longest word that is compared with the names of the commands. */
#define LONGEST_WORD 15

static size_t least(size_t a, size_t b)
{
    return a < b ? a : b;
}

/* How many letters are left out, put in, changed or swapped with the next one between two words. */
static size_t distance(const char *a, const char *b)
{
    size_t d[LONGEST_WORD + 1][LONGEST_WORD + 1], m = strlen(a), n = strlen(b);
    for (size_t i = 0; i <= m; i++)
        for (size_t k = 0; k <= n; k++) {
            if (i == 0 || k == 0) {
                d[i][k] = i + k;
                continue;
            }
            d[i][k] = least(d[i - 1][k], d[i][k - 1]) + 1;
            d[i][k] = least(d[i][k], d[i - 1][k - 1] + (a[i - 1] != b[k - 1]));
            if (i > 1 && k > 1 && a[i - 1] == b[k - 2] && a[i - 2] == b[k - 1])
                d[i][k] = least(d[i][k], d[i - 2][k - 2] + 1);
        }
    return d[m][n];
}

/* The command whose name is nearest to a word, or begins with it. NULL where none is near. */
static const char *nearest(const char *word)
{
    const char *found = NULL;
    size_t best = 3;
    if (*word == '\0' || strlen(word) > LONGEST_WORD)
        return NULL;
    for (size_t i = 0; i < COMMANDS + 2; i++) {
        const char *name = i < COMMANDS ? commands[i].name : i == COMMANDS ? "help" : "version";
        size_t far = strncmp(word, name, strlen(word)) == 0 ? 0 : distance(word, name);
        if (far < best && far * 2 <= strlen(name)) {
            best = far;
            found = name;
        }
    }
    return found;
}

/* Says that there is no such command, and what may have been meant. */
static int refuse_command(const char *word)
{
    const char *near = nearest(word);
    fputs("uff: no such command: ", stderr);
    print_name(stderr, word);
    if (near != NULL)
        fprintf(stderr, " (the nearest is %s)", near);
    else if (access(word, F_OK) == 0)
        fputs(" (to judge a file: uff judge FILE)", stderr);
    fputs("\nTry 'uff help'.\n", stderr);
    return TROUBLE;
}

static const struct command *find_command(const char *word)
{
    for (size_t i = 0; i < COMMANDS; i++)
        if (strcmp(word, commands[i].name) == 0)
            return &commands[i];
    return NULL;
}

static bool is_one_of(const char *word, const char *a, const char *b, const char *c)
{
    return strcmp(word, a) == 0 || strcmp(word, b) == 0 || strcmp(word, c) == 0;
}

static bool is_help(const char *word)
{
    return is_one_of(word, "help", "--help", "-h");
}

static bool is_version(const char *word)
{
    return is_one_of(word, "version", "--version", "-V");
}

/* Help for a command, or for all, which has what there is to say of help and version. */
static int run_help(int count, char **words)
{
    const struct command *c;
    if (count > 1)
        return misused("too many words after", "help");
    if (count == 0 || is_help(words[0]) || is_version(words[0])) {
        print_usage(stdout);
        return ACCEPTED;
    }
    c = find_command(words[0]);
    return c != NULL ? print_help(c) : refuse_command(words[0]);
}

static int run_version(int count)
{
    if (count > 0)
        return misused("too many words after", "version");
    puts("uff " UFF_VERSION);
    return ACCEPTED;
}

/* Options. */

/* What an option without a word sets. */
static bool *flag_of(struct choices *o, char letter)
{
    switch (letter) {
    case 'H': return &o->is_named;
    case 'j': return &o->is_json;
    case 'n': return &o->is_bare;
    case 'q': return &o->is_quiet;
    case 'r': return &o->is_deep;
    case 'v': return &o->is_shown;
    case 'w': return &o->is_awaited;
    default: return &o->is_helped;
    }
}

/* Whether a command has this option; `word` is whether a word follows it. Each has -h. */
static bool has_option(const struct command *c, char letter, bool *word)
{
    const char *at = letter == ':' ? NULL : strchr(c->options, letter);
    *word = at != NULL && at[1] == ':';
    return at != NULL || letter == 'h';
}

/* Takes the word of -t, the one option that has any. Gives how many words it used, or 0 after saying what is wrong. */
static int take_seconds(struct choices *o, const char *rest, const char *next)
{
    const char *word = *rest != '\0' ? rest : next;
    if (word == NULL) {
        misused("too few words after", "-t");
        return 0;
    }
    if (parse_seconds(word, &o->quiet_time))
        return word == rest ? 1 : 2;
    misused("SECONDS is not a number from 0 to 4294967295, such as 10 or 0.5", word);
    return 0;
}

/* Takes the options in one word, such as -r, -rq, -t5, or -t and the next. Gives as take_seconds does. */
static int take_options(const struct command *c, struct choices *o, const char *word, const char *next)
{
    bool is_long = strcmp(word, "--help") == 0;
    for (const char *at = is_long ? "h" : word + 1; *at != '\0'; at++) {
        bool has_word;
        if (!has_option(c, *at, &has_word)) {
            misused("no such option", word);
            return 0;
        }
        if (has_word)
            return take_seconds(o, at + 1, next);
        *flag_of(o, *at) = true;
    }
    return 1;
}

/*
 * Takes the options and moves the other words to the front; -- ends the options. Gives how many those are, or -1 after
 * saying what is wrong. A word that begins with a minus is never taken for a name before --.
 */
static int sort_words(const struct command *c, struct choices *o, int count, char **words)
{
    int kept = 0, used;
    bool ended = false;
    for (int i = 0; i < count; i += used) {
        used = 1;
        if (ended || words[i][0] != '-' || words[i][1] == '\0')
            words[kept++] = words[i];
        else if (strcmp(words[i], "--") == 0)
            ended = true;
        else
            used = take_options(c, o, words[i], i + 1 < count ? words[i + 1] : NULL);
        if (used == 0)
            return -1;
    }
    return kept;
}

static int run_command(const struct command *c, int count, char **words)
{
    struct choices o = {.quiet_time = 10000};
    set_command(c->name);
    count = sort_words(c, &o, count, words);
    if (count < 0)
        return TROUBLE;
    if (o.is_helped)
        return print_help(c);
    if (count < c->least)
        return misused("too few words after", c->name);
    if (count > c->most)
        return misused("too many words after", c->name);
    return c->run(&o, count, words);
}

static int run(int count, char **words)
{
    const struct command *c;
    if (count <= 0) {
        print_usage(stderr);
        return TROUBLE;
    }
    if (is_help(words[0]))
        return run_help(count - 1, words + 1);
    if (is_version(words[0]))
        return count == 2 && is_help(words[1]) ? run_help(1, words) : run_version(count - 1);
    c = find_command(words[0]);
    return c != NULL ? run_command(c, count - 1, words + 1) : refuse_command(words[0]);
}

/*
 * Opens what is closed of the three standard descriptors, so that no file that is opened takes its place. Reading and
 * writing them fails as before.
 */
static bool fill_standard(void)
{
    for (int fd = STDIN_FILENO; fd <= STDERR_FILENO; fd++)
        if (fcntl(fd, F_GETFD) < 0 && open("/dev/null", fd == STDIN_FILENO ? O_WRONLY : O_RDONLY) != fd)
            return false;
    return true;
}

/* Whether all that was printed is written; says what is wrong where it is not. */
static bool end_output(void)
{
    bool failed = ferror(stdout) != 0;
    errno = 0;
    if (fclose(stdout) == 0 && !failed)
        return true;
    fprintf(stderr, "uff: standard output: %s\n", errno ? strerror(errno) : "not wholly written");
    return false;
}

int main(int count, char **words)
{
    int status;
    if (!fill_standard())
        return trouble("/dev/null", strerror(errno));
    prepare_outputs();
    status = run(count - 1, words + 1);
    return end_output() || out_stands ? status : TROUBLE;
}
