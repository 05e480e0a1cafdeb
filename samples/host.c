/*
 * A host of the library: judges a capture while its bytes arrive, lists its sets, reads all values of each set 58 from the
 * set's own bytes, and writes the capture in plain form.
 *
 *     cc -o host host.c $(pkg-config --cflags --libs uff)
 *     ./host bearing.uff plain.uff
 *
 * IN may be - for standard input. Exits with 0 where the capture is accepted, with 1 where it is refused, and with 2 where a
 * file cannot be read or written. C99.
 */
#include <stdio.h>
#include <string.h>
#include <uff.h>

/* A burst, as a line or a socket may bring it. */
#define BURST 512

/* Room for every file there is: no call allocates. One byte more than a file may have is kept of one that is too long. */
static uint8_t file[UFF_LONGEST + 1];
static size_t file_len;
static uint32_t rows[UFF_SETS * UFF_ROW_NUMBERS];
static double values[UFF_DOUBLES];
static uint8_t plain[UFF_LONGEST];

/* Prints a refusal: its number, its line and column where it has them, and why. */
static void print_refusal(const char *when, uint64_t reply)
{
    unsigned number = UFF_NUMBER(reply);
    printf("%s: refused %u", when, number);
    if (UFF_COLUMN(reply) != 0)
        printf(" at line %u, column %u", (unsigned)UFF_PLACE(reply), (unsigned)UFF_COLUMN(reply));
    printf(": %s\n", uff_text(number));
}

/* Judges the bytes while they arrive, and keeps them. A refusal is printed as soon as it is known. The reply is the end's. */
static uint64_t receive(FILE *in)
{
    struct uff_stream record;
    int told = 0;
    uff_stream_start(&record);
    while (file_len < sizeof file) {
        size_t room = sizeof file - file_len;
        size_t count = fread(file + file_len, 1, room < BURST ? room : BURST, in);
        if (count == 0)
            break;
        uint64_t reply = uff_stream_burst(&record, file + file_len, count);
        file_len += count;
        if (UFF_NUMBER(reply) != UFF_SO_FAR && !told) {
            print_refusal("while it arrives", reply);
            told = 1;
        }
    }
    return uff_stream_end(&record);
}

/* Reads all values of a set 58 from its own bytes, which are a file of one set, and prints the largest real part. */
static void read_set(const uint32_t *row)
{
    const uint8_t *set = file + row[3];
    size_t set_len = row[4] - row[3];
    uint8_t first[UFF_VALUE_BYTES];
    uint64_t reply = uff_values(set, set_len, 1, values, UFF_DOUBLES);
    if (UFF_NUMBER(reply) != UFF_ACCEPTED) {
        print_refusal("its values", reply);
        return;
    }
    /* Kinds 3 and 4 begin with an abscissa; the real part comes next. */
    unsigned kind = UFF_PLACE(uff_value(set, set_len, 1, 0, first, sizeof first));
    size_t each = UFF_PLACE(reply) / row[2], real = kind >= 3;
    double largest = values[real];
    for (size_t i = 1; i < row[2]; i++)
        if (values[i * each + real] > largest)
            largest = values[i * each + real];
    printf("%u values of kind %u, the largest real part is %g\n", (unsigned)row[2], kind, largest);
}

/* Lists the sets of an accepted file, and reads those that are 58. */
static void read_sets(void)
{
    uint64_t sets = uff_list(file, file_len, rows, UFF_SETS * UFF_ROW_NUMBERS);
    for (uint32_t k = 0; k < UFF_PLACE(sets); k++) {
        const uint32_t *row = rows + k * UFF_ROW_NUMBERS;
        printf("set %u, line %u, dataset %u: ", (unsigned)k + 1, (unsigned)row[0], (unsigned)row[1]);
        if (row[1] == 58)
            read_set(row);
        else
            printf("%u bytes\n", (unsigned)(row[4] - row[3]));
    }
}

/* Writes the capture in plain form: 0, or 2 where that fails. */
static int rewrite(const char *name)
{
    uint64_t reply = uff_rewrite(file, file_len, plain, sizeof plain);
    FILE *out = fopen(name, "wb");
    if (out == NULL) {
        perror(name);
        return 2;
    }
    size_t written = fwrite(plain, 1, UFF_PLACE(reply), out);
    if (fclose(out) != 0 || written != UFF_PLACE(reply)) {
        perror(name);
        return 2;
    }
    printf("rewritten: %u bytes\n", (unsigned)UFF_PLACE(reply));
    return 0;
}

int main(int count, char **words)
{
    if (count != 3) {
        fprintf(stderr, "usage: host IN OUT\n");
        return 2;
    }
    FILE *in = strcmp(words[1], "-") == 0 ? stdin : fopen(words[1], "rb");
    if (in == NULL) {
        perror(words[1]);
        return 2;
    }
    uint64_t reply = receive(in);
    if (ferror(in)) {
        perror(words[1]);
        return 2;
    }
    if (UFF_NUMBER(reply) != UFF_ACCEPTED) {
        print_refusal("at its end", reply);
        return 1;
    }
    printf("accepted, %u lines\n", (unsigned)UFF_PLACE(reply));
    read_sets();
    return rewrite(words[2]);
}
