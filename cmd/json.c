/* What the command says to programs: a JSON object a line. */
#include "command.h"

#include <errno.h>
#include <string.h>

static bool is_utf8(const char *text)
{
    const unsigned char *at = (const unsigned char *)text;
    while (*at != '\0') {
        size_t count = character(at);
        if (count == 0)
            return false;
        at += count;
    }
    return true;
}

/* Prints a string. Where it is raw every byte from 128 on is a character by its number; a character that commands a terminal always is. */
static void print_string(FILE *to, const char *text, bool raw)
{
    const unsigned char *at = (const unsigned char *)text;
    putc('"', to);
    for (; *at != '\0'; at++) {
        if (*at == '"' || *at == '\\')
            fprintf(to, "\\%c", *at);
        else if (*at < 32 || *at == 127 || (raw && *at > 127))
            fprintf(to, "\\u%04x", (unsigned)*at);
        else if (*at == 0xc2 && at[1] < 0xa0)
            fprintf(to, "\\u%04x", (unsigned)*++at);
        else
            putc(*at, to);
    }
    putc('"', to);
}

void print_json_text(FILE *to, const char *text)
{
    print_string(to, text, false);
}

void print_json_file(FILE *to, const char *name)
{
    bool raw = !is_utf8(name);
    fputs("{\"file\": ", to);
    print_string(to, name, raw);
    if (raw)
        fputs(", \"raw\": true", to);
}

/* Prints a field that is a number, and null where that is 0. */
static void print_field(FILE *to, const char *name, uint32_t number)
{
    fprintf(to, ", \"%s\": ", name);
    if (number == 0)
        fputs("null", to);
    else
        fprintf(to, "%u", number);
}

void print_json_verdict(FILE *to, const char *name, const struct verdict *v)
{
    unsigned number = UFF_NUMBER(v->reply);
    print_json_file(to, name);
    fprintf(to, ", \"number\": %u", number);
    print_field(to, "line", UFF_PLACE(v->reply));
    print_field(to, "column", UFF_COLUMN(v->reply));
    fprintf(to, ", \"text\": \"%s%s%s%s\"}\n", uff_text(number), *v->note ? " (" : "", v->note, *v->note ? ")" : "");
}

void print_json_note(FILE *to, const char *name, const char *what, const char *why)
{
    char text[256];
    snprintf(text, sizeof text, "%s: %s", what, why);
    print_json_file(to, name);
    fputs(", \"number\": null, \"line\": null, \"column\": null, \"text\": ", to);
    print_json_text(to, text);
    fputs("}\n", to);
}

int print_json_unread(const struct choices *o, const char *name)
{
    if (o->is_json)
        print_json_note(stdout, name, "not read", strerror(errno));
    return TROUBLE;
}
