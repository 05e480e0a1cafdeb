/* `uff judge`: whether files are Universal Files. */
#include "command.h"

#include <errno.h>
#include <stdlib.h>
#include <string.h>

/* How the files are reported, and how many there were of each status. */
struct report {
    const struct choices *o;
    bool is_named;
    bool is_one;
    size_t seen[3];
};

/* Whether standard input is named more than once. */
static bool is_read_twice(int count, char **words)
{
    int times = 0;
    for (int i = 0; i < count; i++)
        times += is_standard(words[i]);
    return times > 1;
}

/* Why a file was not read. */
static const char *reason(int error)
{
    return error == EISDIR ? "Is a directory (-r goes through folders)" : strerror(error);
}

/* Reports a file that could not be read, which was told on standard error too. */
static void report_unread(struct report *r, const char *name, int error)
{
    r->seen[TROUBLE]++;
    if (r->o->is_json)
        print_json_note(stdout, name, "not read", reason(error));
    else if (r->is_named) {
        print_name(stdout, name);
        printf(": not read: %s\n", reason(error));
    }
}

static void report_verdict(struct report *r, const char *name, const struct verdict *v, const struct text *t)
{
    bool is_good = UFF_NUMBER(v->reply) == UFF_ACCEPTED;
    r->seen[is_good ? ACCEPTED : REFUSED]++;
    if (is_good && r->o->is_quiet)
        return;
    if (r->o->is_json) {
        print_json_verdict(stdout, name, v);
        return;
    }
    if (r->is_named) {
        print_name(stdout, name);
        fputs(": ", stdout);
    }
    print_words(stdout, v);
    if (!is_good && is_line_shown(stdout, r->o, r->is_one))
        print_shown(stdout, v->reply, t);
}

static void judge_file(struct report *r, const struct file *f, struct text *t)
{
    int error = f->error;
    if (error != 0)
        trouble(f->name, reason(error));
    else if (!read_file(f->name, t))
        error = errno;
    if (error != 0)
        report_unread(r, f->name, error);
    else {
        struct verdict v = verdict_on_text(uff_judge(t->bytes, t->count), t);
        clear_progress();
        report_verdict(r, f->name, &v, t);
    }
    flush_output();
}

static int judge_all(struct report *r, const struct files *f)
{
    struct text t = {NULL, 0, 0};
    if (f->count > 1)
        start_progress();
    for (size_t i = 0; i < f->count; i++) {
        show_progress(i, f->count);
        judge_file(r, &f->items[i], &t);
    }
    clear_progress();
    free(t.bytes);
    if (r->is_named && !r->o->is_json && !r->o->is_quiet)
        printf("%zu file%s: %zu accepted, %zu refused, %zu not read\n", f->count, plural(f->count), r->seen[ACCEPTED],
               r->seen[REFUSED], r->seen[TROUBLE]);
    return r->seen[TROUBLE] ? TROUBLE : r->seen[REFUSED] ? REFUSED : ACCEPTED;
}

int run_judge(const struct choices *o, int count, char **words)
{
    struct report r = {o, o->is_named || o->is_deep || count > 1, false, {0, 0, 0}};
    struct files f = {NULL, 0, 0};
    bool good = true;
    int status;
    if (is_read_twice(count, words))
        return misused("standard input is read once only", "-");
    for (int i = 0; good && i < count; i++)
        good = add_files(&f, words[i], o->is_deep);
    r.is_one = f.count == 1;
    status = good ? judge_all(&r, &f) : trouble(words[0], strerror(ENOMEM));
    free_files(&f);
    return status;
}
