/* What the files of `canaries` share: the case at hand, buffers lent, replies taken apart, texts put together. */
#ifndef CANARIES_H
#define CANARIES_H

#include <stdbool.h>
#include <stddef.h>
#include <stdint.h>

#include "uff.h"

/* The case at hand: its name, the way its buffers are lent, and how many there were. */
enum { GUARDED, HEAP, BEFORE_PAGE, AFTER_PAGE, WAYS };
extern const char *name;
extern int way;
extern unsigned cases;

/* Says what differs in the case at hand, and ends the program. */
void differs(const char *what);

/* The reply is this number, this line and this column, by its bits and by the header's macros. */
void check_refusal(uint64_t reply, uint64_t number, uint64_t line, uint64_t column);

/* The same for a reply that has no column: this number and this place. */
void check_reply(uint64_t reply, uint64_t number, uint64_t place);

/* lent.c: buffers lent to a call. */

/* A lent buffer, the piece of memory that it stands in, and its bytes as they were. */
struct lent {
    uint8_t *at;
    size_t size;
    uint8_t *piece;
    size_t piece_size;
    uint8_t *before;
};

/* A call that touches a page that it was not lent ends the program. */
void catch_faults(void);

/* Memory, which is there. */
void *need(void *p);

/* Lends a copy of these bytes, or the pattern where there are none. */
struct lent lend(const void *bytes, size_t size);

/* Takes a buffer back: these bytes stand at its start, and all else is as it was. */
void take_back(struct lent *l, const void *due, size_t due_size);

/* text.c: document 01's example, and files made of its lines. */

#define LINES 22
extern const char *example[LINES];

void read_example(const char *path);

/* Some bytes that are put together. */
struct text {
    char bytes[4096];
    size_t count;
};

void add(struct text *t, const char *more);
void add_text(struct text *t, struct text more);

/* The example's lines `from` to `to`; line `n` is another one, or left out where that is null. */
struct text with(int from, int to, int n, const char *line);

/* The example. */
struct text whole(void);

/* A 58 alone with this line 7 and these data lines. */
struct text with_data(const char *line_7, const char *data);

/* The example with its last data line full past the count, which is line 21: five padding numbers in 65 columns. */
#define PADDING " -1.00000E-01      -.5E+00     1.0E+999  1.00000-101 -0.00000E+00"
struct text padded(void);

/* A text of 80 columns. */
#define EIGHTY "12345678901234567890123456789012345678901234567890123456789012345678901234567890"

/* Line 7 of a 58 for this ordinate type and a count of one digit. */
#define EVEN(ordinate, count) "         " ordinate "         " count "         1  0.00000E+00  1.00000E-03  0.00000E+00"
#define UNEVEN(ordinate, count) "         " ordinate "         " count "         0  0.00000E+00  0.00000E+00  0.00000E+00"

/* A file for each call, tried once in each way. */
void try_judge(void);
void try_list(void);
void try_number(void);
void try_field(void);
void try_value(void);
void try_values(void);
void try_rewrite(void);
void try_alone(void);
void try_write(void);
void try_stream(void);

/* judge.c: the judge, and the calls that judge first: all refuse alike and touch nothing. */
void refuse_all(const void *bytes, size_t count, uint64_t number, uint64_t line, uint64_t column);

/* value.c: doubles as the reader of values gives them, 8 bytes each, lowest first. */
void spell(uint8_t *bytes, const double *numbers, size_t count);

/* values.c: the set of the most values, which is made once. */
void make_most(void);
void free_most(void);

/* judge.c: the largest column of a file, tried once. */
void try_last_column(void);

/* The largest column that a reply has. */
#define LAST_COLUMN 33554431

/* write.c and field.c: a column of a header, and of a line lent alone, that the reply has no room for, tried once. */
void try_far_column(void);
void try_far_line(void);

/* stream.c: more bytes than a file has, tried once. */
void try_long_stream(void);

#endif
