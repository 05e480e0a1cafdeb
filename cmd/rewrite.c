/* `uff rewrite`: a file in plain form. */
#include "command.h"

#include <errno.h>
#include <signal.h>
#include <stdlib.h>
#include <string.h>
#include <unistd.h>

bool out_stands;

/* Writes a file in plain form, and says so; where it goes to standard output, on standard error. */
static int put_rewritten(const char *name, const uint8_t *bytes, uint32_t count)
{
    int status;
    if (is_standard(name)) {
        if (!write_all(STDOUT_FILENO, bytes, count))
            return trouble("standard output", strerror(errno));
        fprintf(stderr, "accepted, %u byte%s\n", count, plural(count));
        return ACCEPTED;
    }
    signal(SIGPIPE, SIG_IGN);
    status = save(name, bytes, count);
    out_stands = status == ACCEPTED;
    if (out_stands) {
        printf("accepted, %u byte%s written to ", count, plural(count));
        print_name(stdout, name);
        putchar('\n');
    }
    return status;
}

int run_rewrite(const struct choices *o, int count, char **words)
{
    struct text t = {NULL, 0, 0};
    struct verdict v;
    uint8_t *out;
    int status;
    (void)count;
    if (!read_file(words[0], &t))
        return TROUBLE;
    out = malloc(UFF_LONGEST);
    if (out == NULL) {
        free(t.bytes);
        return trouble(words[1], strerror(ENOMEM));
    }
    v = verdict_on_text(uff_rewrite(t.bytes, t.count, out, UFF_LONGEST), &t);
    if (UFF_NUMBER(v.reply) == UFF_ACCEPTED)
        status = put_rewritten(words[1], out, UFF_PLACE(v.reply));
    else
        status = print_verdict(is_standard(words[1]) ? stderr : stdout, o, words[0], &v, &t);
    free(t.bytes);
    free(out);
    return status;
}
