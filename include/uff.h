/*
 * Universal Files for C99 and C++11, or later: a judge, a lister, a reader, a writer, a rewriter, a
 * judge of files that are still arriving, and a reader of a line by a printed FORMAT. What a file must
 * look like is in docs/FORMAT.md, which is installed as share/doc/uff/FORMAT.md. Every call is proved
 * for all inputs; no call has a precondition but those of C itself:
 *
 * - A slice is a pointer and a count of elements, and lies in memory that the caller may use. A null
 *   pointer with count 0 is an empty slice.
 * - Lent buffers do not overlap, with each other or with an input.
 *
 * A refusal leaves every lent buffer untouched. A buffer longer than the answer keeps the rest. (The
 * record of the streaming calls is told apart below.) No call allocates, keeps a pointer or has state
 * of its own; calls on separate buffers may run at the same time.
 *
 * 16 KB of stack are enough for every call, measured by running (tests/host/stack), uff_field on the
 * deepest FORMATs, and for every other call also by the archive's instructions for any input.
 *
 * A call takes time in proportion to the bytes that it is given. Each question judges the whole file
 * again before it answers, uff_number and uff_value for one number too: ask for all values of a set at
 * once, and read many sets by their rows ("A set alone", below).
 *
 * Lines, sets and columns are counted from 1; bytes, stored numbers, values and fields from 0.
 */
#ifndef UFF_H
#define UFF_H

#include <stddef.h>
#include <stdint.h>

#define UFF_VERSION "4.1"

/* The most bytes that a file has, the most sets, and the numbers that the lister gives for a set. */
#define UFF_LONGEST 16777216
#define UFF_SETS 4096
#define UFF_ROW_NUMBERS 7

/*
 * The bytes of an answer of uff_number, the most that uff_value gives, the most doubles that uff_values
 * gives, and the most bytes that uff_field gives.
 */
#define UFF_NUMBER_BYTES 20
#define UFF_VALUE_BYTES 24
#define UFF_DOUBLES 196608
#define UFF_FIELD_BYTES 20

/* The most bytes of a FORMAT. */
#define UFF_FORMAT_LONGEST 120

/*
 * The record of the streaming calls: its numbers, and the bytes of its line. Some are not used yet:
 * uff_start and uff_burst lay them as 0.
 */
#define UFF_STREAM_NUMBERS 16
#define UFF_STREAM_LINE 96

/*
 * Every call replies with one word: number * 2^57 + column * 2^32 + place. The number is one of the
 * table below. With number 0 the place is the answer that the call names; with a refusal it is the
 * line, for 19 the index of the number, and 0 where none is named.
 *
 * The column of a refusal that has a line is that of the first such byte for 2 and 13, the first of the
 * field for 10, 11, 12, 14, 24 and 25, and otherwise 1. Every other reply has column 0. Only 2 has a
 * column past 80. No column of a file is over UFF_LONGEST; of a header lent to uff_write or a line lent to
 * uff_field one over 33,554,431, which the word has no room for, is given as 33,554,431.
 */
#define UFF_NUMBER(reply) ((unsigned)((uint64_t)(reply) >> 57))
#define UFF_COLUMN(reply) ((uint32_t)((uint64_t)(reply) >> 32 & 0x1ffffff))
#define UFF_PLACE(reply) ((uint32_t)((uint64_t)(reply) & 0xffffffff))

/* The numbers that a caller compares with most. */
#define UFF_ACCEPTED 0
#define UFF_SO_FAR 127

/* The table of numbers: a short text for each. */
static inline const char *uff_text(unsigned number)
{
    switch (number) {
    case 0: return "accepted";
    case 1: return "the file has more than 16,777,216 bytes";
    case 2: return "a byte is not allowed";
    case 3: return "the line has more than 80 columns";
    case 4: return "the last line does not end in LF";
    case 5: return "a line that is not blank stands outside the sets";
    case 6: return "the dataset number is wrong or missing";
    case 7: return "the set ends while lines are still due";
    case 8: return "another line stands where the closing delimiter is due";
    case 9: return "a text that must not be blank is blank";
    case 10: return "an integer field is malformed";
    case 11: return "an integer is out of range, or its code is not listed";
    case 12: return "a real field is malformed";
    case 13: return "a byte that is not blank stands outside the fields due on the line";
    case 14: return "minimum or increment is not zero with uneven spacing, or a factor is not above zero";
    case 15: return "the file has more than 4,096 sets";
    case 16: return "the file has no set";
    case 17: return "fewer than seven places are lent for each set";
    case 18: return "there is no such set, number, value or field, or the set is not a 58";
    case 19: return "a number cannot be written exactly in its field";
    case 20: return "the buffer lent is too short";
    case 21: return "a number is outside the range that is read exactly";
    case 22: return "coefficients and scales do not agree in count with each other and the header";
    case 23: return "a burst came after the end was asked";
    case 24: return "an integer field is blank";
    case 25: return "a real field is blank";
    case 26: return "the FORMAT is malformed, or has more than 120 bytes";
    case 27: return "the FORMAT has groups more than three deep, or more than 80 columns";
    case 127: return "so far every finished line is good";
    default: return "not a number of this table";
    }
}

#ifdef __cplusplus
extern "C" {
#endif

/*
 * The judge: whether the bytes are a Universal File. The answer is the last line. A refusal, 1 to 16,
 * 24 or 25, is that of the earliest bad line.
 */
uint64_t uff_judge(const uint8_t *file, size_t file_len);

/*
 * The lister: seven numbers for each set, one set after the other: its opening line, dataset number,
 * declared count of values, first byte, byte past its closing line, first byte of its data lines,
 * padding numbers. The third, sixth and seventh are 0 unless it is a 58. The answer is the number of
 * sets. Refused as by the judge, then with 17; UFF_SETS * UFF_ROW_NUMBERS places are enough for every
 * file.
 *
 * Padding is what stands in the last data line of a 58 past the numbers that are counted: a number in
 * every field up to the full line. No other call that takes a file shows it, and the rewriter drops it.
 */
uint64_t uff_list(const uint8_t *file, size_t file_len, uint32_t *rows, size_t rows_len);

/*
 * The reader of stored numbers: number `index` of set `set`, a 58, in 20 bytes, each part with its
 * lowest byte first: first byte of its columns (4 bytes), byte past them (4), coefficient (8), scale
 * (2, two's complement), sign (1: 1 if negative), zero (1). It means coefficient * 10^scale, with that
 * sign. The answer is 20. Refused as by the judge, then with 18, 20.
 */
uint64_t uff_number(const uint8_t *file, size_t file_len, uint32_t set, uint32_t index, uint8_t *out, size_t out_len);

/*
 * The reader of values: value `index` of set `set`, a 58, as one to three doubles (IEEE 754 binary64)
 * of 8 bytes, lowest byte first. The answer is the kind: 1 a real, 2 a real and an imaginary part, 3 an
 * abscissa and a real, 4 an abscissa, a real and an imaginary part. Refused as by the judge, then with
 * 18, 21 (a coefficient above 2^53 or a scale outside -22 to 22, of a zero too), 20.
 */
uint64_t uff_value(const uint8_t *file, size_t file_len, uint32_t set, uint32_t index, uint8_t *out, size_t out_len);

/*
 * The reader of all values of set `set`, a 58, which judges the file once: the doubles that uff_value
 * gives for value 0, then those for value 1, and so on. They are the host's own doubles, which must be
 * IEEE 754 binary64. The answer is the number of doubles. Divided by the declared count (the third
 * number of the set's row from uff_list) it is 1 (a real), 3 (abscissa, real, imaginary) or 2 (a complex
 * pair, or abscissa and real: the kind that uff_value answers for value 0 tells which). Refused as by
 * the judge, then with 18, 21, 20. One number outside the range of uff_value is enough for 21, a zero
 * whose scale is outside -22 to 22 too; uff_value, index by index, tells which value it is. UFF_DOUBLES
 * places are enough for every set.
 */
uint64_t uff_values(const uint8_t *file, size_t file_len, uint32_t set, double *out, size_t places);

/*
 * The rewriter: the file with LF ends, no blanks at line ends, no lines outside sets, no padding,
 * delimiters and dataset numbers spelled plainly, and all else as it was. The answer is its length.
 * Refused as by the judge, then with 20; UFF_LONGEST bytes are enough for every file.
 */
uint64_t uff_rewrite(const uint8_t *file, size_t file_len, uint8_t *out, size_t out_len);

/*
 * A set alone. The bytes of an accepted file from a row's fourth number to its fifth are themselves an
 * accepted file, of that set only: every call above answers of its set 1 as of that set in the whole
 * file, with bytes counted from the row's fourth number and lines from its first. Every call judges all
 * that it is given; so a host that wants every set lists the file once and then gives each set's own
 * bytes, all of them together one pass more:
 *
 *     uint64_t sets = uff_list(file, file_len, rows, UFF_SETS * UFF_ROW_NUMBERS);
 *     if (UFF_NUMBER(sets) == UFF_ACCEPTED)
 *         for (uint32_t k = 0; k < UFF_PLACE(sets); k++) {
 *             const uint32_t *row = rows + k * UFF_ROW_NUMBERS;
 *             uint64_t reply = uff_values(file + row[3], row[4] - row[3], 1, out, UFF_DOUBLES);
 *             ...
 *         }
 */

/*
 * The reader of a line by a FORMAT: field `field` of a line lent alone, without its end. X columns are no
 * fields. Bytes are counted in the line filled with blanks to column 80. The answer is the kind: 1 a
 * text or 2 an integer, in 8 bytes, each part with its lowest byte first: first byte of its columns (4
 * bytes), byte past them (4); 3 a real, in the 20 bytes of uff_number. Integers have any length.
 *
 * A FORMAT is a list of items with one comma between them, in brackets or not, blanks ignored: Iw, Aw,
 * Ew.d, Dw.d, X or a list in brackets, with a count before it or none, and 1P before the count of an E
 * or D. Letters are capitals, numbers have no leading zeros, counts are from 1, widths 1 to 80, decimals
 * at most the width. An A with a count is one text. Groups lie three deep, brackets around the whole
 * not counted.
 *
 * Refused with 26, then 27, then as the line is, which is line 1 (2, a line end in it too, 3, then of
 * its fields from left to right 10, 12, 24 or 25, then 13), whichever field is asked, then with 18, 20.
 */
uint64_t uff_field(const uint8_t *format, size_t format_len, const uint8_t *line, size_t line_len, uint32_t field,
                   uint8_t *out, size_t out_len);

/*
 * The writer: one whole set 58 from its eleven header lines and its stored numbers, each a coefficient
 * and a scale. The header is the lines between the number line and the data lines, each with its end;
 * delimiters and number line are laid out too. The numbers are as many as the header's count of values
 * times one, two or three, in the order in which they are stored. The answer is its length. Refused as
 * the header's lines are, counted from 1, then with 22, 19 (the place is the number's index), 20.
 */
uint64_t uff_write(const uint8_t *header, size_t header_len, const int64_t *coefficients, size_t coefficients_len,
                   const int16_t *scales, size_t scales_len, uint8_t *out, size_t out_len);

/*
 * A file judged while it arrives, in bursts of any size, with a record of UFF_STREAM_NUMBERS numbers and
 * UFF_STREAM_LINE bytes that the caller keeps. Any contents of the record are safe; one that uff_start
 * laid out starts a new file.
 *
 * Of a line that is still open the record keeps its first 80 bytes, its last one, its length and, in
 * numbers[12], the column of its first byte that is not allowed (a CR that came last among them, until
 * its LF comes), or 0. Once a line is refused numbers[12] is the refusal's column. No caller need read
 * it: the replies have it.
 *
 * uff_start lays out such a record. The answer is 0. Refused with 20 where a buffer is shorter.
 */
uint64_t uff_start(uint64_t *numbers, size_t numbers_len, uint8_t *line, size_t line_len);

/*
 * Takes in a burst and brings the record up to date, after a refusal of the file too. The reply is 127
 * with the number of finished lines, or the refusal so far: 1 once the bytes are more than UFF_LONGEST,
 * otherwise that of the earliest bad line whose LF has come. Only 20 (a record too short) and 23 (the
 * end was asked before) leave the record untouched.
 */
uint64_t uff_burst(uint64_t *numbers, size_t numbers_len, uint8_t *line, size_t line_len, const uint8_t *bytes,
                   size_t bytes_len);

/*
 * The end of the file: replies as the judge does for all the bytes that came, and marks in the record
 * that the end was asked; asked again it replies the same. Refused with 20 where the record is too short.
 */
uint64_t uff_end(uint64_t *numbers, size_t numbers_len, const uint8_t *line, size_t line_len);

#ifdef __cplusplus
}
#endif

/* The record as one piece, and the three calls on it. */
struct uff_stream {
    uint64_t numbers[UFF_STREAM_NUMBERS];
    uint8_t line[UFF_STREAM_LINE];
};

static inline uint64_t uff_stream_start(struct uff_stream *record)
{
    return uff_start(record->numbers, UFF_STREAM_NUMBERS, record->line, UFF_STREAM_LINE);
}

static inline uint64_t uff_stream_burst(struct uff_stream *record, const uint8_t *bytes, size_t bytes_len)
{
    return uff_burst(record->numbers, UFF_STREAM_NUMBERS, record->line, UFF_STREAM_LINE, bytes, bytes_len);
}

static inline uint64_t uff_stream_end(struct uff_stream *record)
{
    return uff_end(record->numbers, UFF_STREAM_NUMBERS, record->line, UFF_STREAM_LINE);
}

#endif
