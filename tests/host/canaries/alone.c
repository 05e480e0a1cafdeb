/* A set alone: the example is listed once, and each of its sets asked by its own bytes, as the header says. */
#include "canaries.h"

static const uint64_t own_lines[2] = {6, 16};
static const uint32_t own_rows[2][UFF_ROW_NUMBERS] = {{1, 164, 0, 0, 164, 0, 0}, {1, 58, 7, 0, 508, 408, 0}};
static const double own_values[7] = {0.1, -0.2, 0.3, -0.4, 0.5, -0.6, 0.7};

/* Bytes 408 to 421 of the set, 100000 (186a0 in base 16), scale -6. */
static const char own_number[UFF_NUMBER_BYTES] = "\x98\x01\0\0\xa5\x01\0\0\xa0\x86\x01\0\0\0\0\0\xfa\xff\0";

/* Lines, row and text of the set; the example is in plain form. */
static void ask_set(const uint8_t *own, size_t own_len, int k)
{
    struct lent row = lend(NULL, sizeof own_rows[k]), text = lend(NULL, own_len);
    check_reply(uff_judge(own, own_len), 0, own_lines[k]);
    check_reply(uff_list(own, own_len, (uint32_t *)(void *)row.at, UFF_ROW_NUMBERS), 0, 1);
    check_reply(uff_rewrite(own, own_len, text.at, own_len), 0, own_len);
    take_back(&row, own_rows[k], sizeof own_rows[k]);
    take_back(&text, own, own_len);
}

/* Its number 0 and all its values where it is a 58, and 18 where it is not. */
static void ask_numbers(const uint8_t *own, size_t own_len, bool is_58)
{
    struct lent number = lend(NULL, UFF_NUMBER_BYTES), values = lend(NULL, sizeof own_values);
    uint64_t refusal = is_58 ? 0 : 18;
    check_reply(uff_number(own, own_len, 1, 0, number.at, UFF_NUMBER_BYTES), refusal, is_58 ? 20 : 0);
    check_reply(uff_values(own, own_len, 1, (double *)(void *)values.at, 7), refusal, is_58 ? 7 : 0);
    take_back(&number, own_number, is_58 ? UFF_NUMBER_BYTES : 0);
    take_back(&values, own_values, is_58 ? sizeof own_values : 0);
}

void try_alone(void)
{
    struct text t = whole();
    struct lent file = lend(t.bytes, t.count);
    uint32_t rows[2 * UFF_ROW_NUMBERS], *row = rows;
    name = "a set alone";
    check_reply(uff_list(file.at, t.count, rows, 2 * UFF_ROW_NUMBERS), 0, 2);
    for (int k = 0; k < 2; k++, row += UFF_ROW_NUMBERS) {
        ask_set(file.at + row[3], row[4] - row[3], k);
        ask_numbers(file.at + row[3], row[4] - row[3], row[1] == 58);
    }
    take_back(&file, NULL, 0);
}
