/*
 * All stored numbers of a 58 from their columns, by C's strtod. Nothing is judged: the caller knows where
 * the data lines are, how many numbers they hold and how wide their fields are.
 */
#include <stddef.h>
#include <stdlib.h>
#include <string.h>

/* The widest field, E20.12. */
#define WIDEST 20

void read_by_strtod(const char *data, size_t data_len, const size_t *widths, size_t fields, double *numbers,
                    size_t count);

void read_by_strtod(const char *data, size_t data_len, const size_t *widths, size_t fields, double *numbers,
                    size_t count)
{
    const char *past = data + data_len;
    size_t n = 0;

    while (n < count) {
        const char *end = memchr(data, '\n', (size_t)(past - data));
        for (size_t k = 0; k < fields && n < count; k++) {
            char field[WIDEST + 1];
            memcpy(field, data, widths[k]);
            field[widths[k]] = '\0';
            numbers[n++] = strtod(field, NULL);
            data += widths[k];
        }
        data = end + 1;
    }
}
