/* What the command says of a reply: in words, and with the line itself. */
#include "command.h"

#include <string.h>
#include <unistd.h>

/*
 * The columns that a line is shown in, which a full line of a file fills; those left before it where there is room; and
 * where it is cut, what marks that and the most columns between the mark and the caret.
 */
#define SHOWN 80
#define INDENT 2
#define MARK "..."
#define MARK_WIDTH (sizeof MARK - 1)
#define BEFORE 40

uint64_t count_lines(const uint8_t *bytes, size_t count, bool open)
{
    uint64_t lines = 0;
    const uint8_t *at = bytes, *past = bytes + count;
    while (at < past) {
        const uint8_t *end = memchr(at, '\n', (size_t)(past - at));
        if (end == NULL)
            return lines + (open ? 1 : 0);
        lines++;
        at = end + 1;
    }
    return lines;
}

struct verdict verdict_on(uint64_t reply, size_t bytes, uint64_t lines)
{
    struct verdict v = {reply, "line", ""};
    const char *note = "";
    if (UFF_NUMBER(reply) == 4)
        note = "the file is cut short";
    else if (UFF_NUMBER(reply) == 7 && UFF_PLACE(reply) > lines)
        note = "the file is cut short: it ends before that line";
    else if (UFF_NUMBER(reply) == 16 && bytes == 0)
        note = "it is empty";
    else if (UFF_NUMBER(reply) == 21)
        note = "one operation does not give it exactly; 'uff number' shows each number exactly";
    snprintf(v.note, sizeof v.note, "%s", note);
    return v;
}

struct verdict verdict_on_text(uint64_t reply, const struct text *t)
{
    return verdict_on(reply, t->count, count_lines(t->bytes, t->count, true));
}

void print_reason(FILE *to, const struct verdict *v)
{
    unsigned number = UFF_NUMBER(v->reply);
    uint32_t place = UFF_PLACE(v->reply);
    if (number == UFF_ACCEPTED)
        fprintf(to, "accepted, %u %s%s", place, v->unit, plural(place));
    else if (number == UFF_SO_FAR)
        fprintf(to, "so far %u", place);
    else {
        fprintf(to, "refused %u", number);
        if (place != 0)
            fprintf(to, " at line %u: column %u", place, UFF_COLUMN(v->reply));
        fprintf(to, ": %s%s%s%s", uff_text(number), *v->note ? " (" : "", v->note, *v->note ? ")" : "");
    }
}

void print_words(FILE *to, const struct verdict *v)
{
    print_reason(to, v);
    putc('\n', to);
}

bool find_line(const struct text *t, uint32_t number, struct line *line)
{
    const uint8_t *at = t->bytes, *past = t->bytes + t->count, *end = NULL;
    if (number == 0)
        return false;
    for (;; at = end + 1) {
        if (at == past)
            return false;
        end = memchr(at, '\n', (size_t)(past - at));
        if (--number == 0)
            break;
        if (end == NULL)
            return false;
    }
    *line = (struct line){at, (size_t)((end == NULL ? past : end) - at)};
    if (end != NULL && line->count > 0 && line->bytes[line->count - 1] == '\r')
        line->count--;
    return true;
}

static unsigned byte_at(const struct line *line, size_t i)
{
    return i < line->count ? line->bytes[i] : ' ';
}

/* How a byte of a line is shown: as it is, or escaped, so that it takes known columns and commands no terminal. */
static int spell_byte(char to[5], unsigned byte)
{
    static const char bytes[] = "\n\r\t", letters[] = "nrt";
    const char *at = byte == 0 ? NULL : strchr(bytes, (int)byte);
    if (at != NULL)
        return snprintf(to, 5, "\\%c", letters[at - bytes]);
    return snprintf(to, 5, byte < 32 || byte > 126 ? "\\x%02x" : "%c", byte);
}

static size_t width_at(const struct line *line, size_t i)
{
    char spelled[5];
    return (size_t)spell_byte(spelled, byte_at(line, i));
}

/* The columns of a line and of the byte at `aim`; where they are too many, some number that is too. */
static size_t whole_width(const struct line *line, size_t aim)
{
    size_t width = 0, last = aim < line->count ? line->count : aim + 1;
    for (size_t i = 0; i < last && width <= SHOWN; i++)
        width += width_at(line, i);
    return width;
}

/* The first byte that is shown of a line that is cut, so that the one at `aim` is. */
static size_t first_shown(const struct line *line, size_t aim)
{
    size_t i, width = 0;
    for (i = aim; i > 0 && width + width_at(line, i - 1) <= BEFORE; i--)
        width += width_at(line, i - 1);
    return i;
}

void print_shown(FILE *to, uint64_t reply, const struct text *t)
{
    struct line line;
    size_t i = 0, aim = UFF_COLUMN(reply) - (size_t)1, width = 0, room = SHOWN, whole, caret;
    char spelled[5];
    if (UFF_COLUMN(reply) == 0 || !find_line(t, UFF_PLACE(reply), &line))
        return;
    whole = whole_width(&line, aim);
    if (whole > SHOWN) {
        i = first_shown(&line, aim);
        room -= 2 * MARK_WIDTH;
    }
    caret = i > 0 ? MARK_WIDTH : whole + INDENT <= SHOWN ? INDENT : 0;
    fprintf(to, "%*s", (int)caret, i > 0 ? MARK : "");
    for (; i < line.count && width + width_at(&line, i) <= room; i++) {
        spell_byte(spelled, byte_at(&line, i));
        fputs(spelled, to);
        width += width_at(&line, i);
        caret += i < aim ? width_at(&line, i) : 0;
    }
    caret += i < aim ? aim - i : 0;
    fprintf(to, "%s\n%*s^\n", i < line.count ? MARK : "", (int)caret, "");
}

bool is_line_shown(FILE *to, const struct choices *o, bool is_one)
{
    return o->is_shown || (is_one && isatty(fileno(to)));
}

int print_verdict(FILE *to, const struct choices *o, const char *name, const struct verdict *v, const struct text *t)
{
    if (o->is_json)
        print_json_verdict(to, name, v);
    else
        print_words(to, v);
    if (UFF_NUMBER(v->reply) == UFF_ACCEPTED)
        return ACCEPTED;
    if (!o->is_json && is_line_shown(to, o, true))
        print_shown(to, v->reply, t);
    return REFUSED;
}
