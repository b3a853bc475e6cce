/*
 * Exact totals over lists of binary floating-point numbers: the exact sum of a list, rounded once;
 * every rearrangement of an accepted list without a NaN gives the same whole record.
 *
 * For C99, C++11 and later, with libtotals.a (x86-64 Linux), which ./archive builds. This file has
 * the thirteen functions of the archive, which are proved, and the numbers that they take and give:
 *
 *   totals_sum         totals_dot           a total of values in bytes
 *   totals_sum_biased  totals_dot_biased    the same in a format that names its bias
 *   totals_pence                            the exact sum in whole pence
 *   totals_table                            the sums of the rows and columns of a table
 *   totals_range                            the lower and the upper total of amounts within ranges
 *   totals_page_sum    totals_page_write    a career page: a span of it summed; written
 *   totals_sum_into                         the exact sum, rounded into three formats
 *   totals_sum_within  totals_dot_within    a total within an allowance of passes
 *   totals_contribution                     the least number that brings a sum to a wanted total
 *
 * Most programs call those of totals_calls.h, which take lists of double, float, words or ten-byte
 * values and answer with a record. This file includes it at its end; define TOTALS_NO_CALLS before
 * to have the thirteen alone.
 *
 * docs/LINKING.md has each function with an example, docs/SPECIFICATION.md what each number means,
 * docs/PROMISES.md what is claimed. No function keeps a state; all may be called from several
 * threads.
 */
#ifndef TOTALS_H
#define TOTALS_H

#include <stddef.h>
#include <stdint.h>

/* The version of this header and of the archive that it was written for. */
#define TOTALS_VERSION_MAJOR 0
#define TOTALS_VERSION_MINOR 10
#define TOTALS_VERSION_PATCH 0
#define TOTALS_VERSION "0.10.0"
#define TOTALS_VERSION_NUMBER \
    (TOTALS_VERSION_MAJOR * 10000 + TOTALS_VERSION_MINOR * 100 + TOTALS_VERSION_PATCH)

/*
 * The compiler warns where what a call returns is not looked at, since a refusal would go unseen.
 * Defined as nothing before this file is included, it does not.
 */
#ifndef TOTALS_MUST_USE
#if (defined(__cplusplus) && __cplusplus >= 201703L) \
    || (defined(__STDC_VERSION__) && __STDC_VERSION__ >= 202311L)
#define TOTALS_MUST_USE [[nodiscard]]
#elif defined(__GNUC__)
#define TOTALS_MUST_USE __attribute__((warn_unused_result))
#else
#define TOTALS_MUST_USE
#endif
#endif

#ifdef __cplusplus
extern "C" {
#endif

/* Kind: how infinities, NaNs and zeros are encoded. */
enum {
    TOTALS_IEEE = 0,   /* as in IEEE 754 */
    TOTALS_NO_INF = 1, /* no infinity; a NaN has every bit but the sign set */
    TOTALS_FNUZ = 2,   /* no infinity and no -0, whose pattern is the NaN */
    TOTALS_FINITE = 3, /* neither infinity nor NaN */
    TOTALS_X87 = 4     /* as in IEEE 754, in ten bytes: of TOTALS_EXTENDED alone */
};

/*
 * A format, the first three arguments of a call, as in totals_sum(TOTALS_BINARY64, ...): its kind,
 * the bits of its exponent field, and its width in bits.
 */
#define TOTALS_BINARY64 TOTALS_IEEE, 11, 64
#define TOTALS_BINARY32 TOTALS_IEEE, 8, 32
#define TOTALS_BINARY16 TOTALS_IEEE, 5, 16
#define TOTALS_BFLOAT16 TOTALS_IEEE, 8, 16
#define TOTALS_TF32 TOTALS_IEEE, 8, 19
#define TOTALS_E5M2 TOTALS_IEEE, 5, 8
#define TOTALS_E4M3 TOTALS_NO_INF, 4, 8
#define TOTALS_E5M2_FNUZ TOTALS_FNUZ, 5, 8
#define TOTALS_E4M3_FNUZ TOTALS_FNUZ, 4, 8
#define TOTALS_E3M2 TOTALS_FINITE, 3, 6
#define TOTALS_E2M3 TOTALS_FINITE, 2, 6
#define TOTALS_E2M1 TOTALS_FINITE, 2, 4

/*
 * The 80 bits of the x87, the long double of x86-64: 64 digits. A value takes ten bytes, little end
 * first: the significand in 0..7, its leading digit in the highest bit, and in 8..9 the head, a
 * sign above 15 bits of exponent field. totals_sum and totals_dot have this format, and the calls
 * that end in _x87; anywhere else, and with a named bias, it is TOTALS_NO_SUCH_FORMAT.
 *
 * A field above 0 over a leading digit of 0 stands for nothing: a list with such an encoding has
 * the default NaN for each total, and TOTALS_INVALID, whatever else it holds. A leading digit of 1
 * over a field of 0 is read as its number, which counts as subnormal; no result is written so.
 */
#define TOTALS_EXTENDED TOTALS_X87, 15, 80
#define TOTALS_X87_BYTES 10

/*
 * The bias of a format, two arguments behind its width where a function takes bias_named and bias:
 * the kind's own, or a named one. The kind's own is 2^(exponent_bits - 1) - 1, of TOTALS_FNUZ one
 * more; naming it gives the same answers as naming none. In binary16 0x3c00 is 1, and with
 * TOTALS_BIAS(25) it is 2^-10.
 */
#define TOTALS_OWN_BIAS 0, 0
#define TOTALS_BIAS(bias) 1, (bias)

/* A named bias lies at most so far from 0, on either side. */
#define TOTALS_FARTHEST_BIAS 268435456

/* Rounding: how the exact sum is rounded. */
enum {
    TOTALS_TIES_TO_EVEN = 0,
    TOTALS_TIES_TO_AWAY = 1,
    TOTALS_TIES_TOWARD_ZERO = 2,
    TOTALS_TOWARD_POSITIVE = 3,
    TOTALS_TOWARD_NEGATIVE = 4,
    TOTALS_TOWARD_ZERO = 5,
    TOTALS_AWAY_FROM_ZERO = 6,
    TOTALS_TO_ODD = 7
};

/* Tininess: when a non-zero sum counts as below the least normal number. */
enum {
    TOTALS_BEFORE_ROUNDING = 0,
    TOTALS_AFTER_ROUNDING = 1
};

/* NaN propagation: which NaN of a list is the result. Its bits may depend on the list's order. */
enum {
    TOTALS_SIGNALING_FIRST = 0,
    TOTALS_FIRST_OPERAND = 1,
    TOTALS_LARGER_SIGNIFICAND = 2,
    TOTALS_DEFAULT_NAN = 3
};

/*
 * The eight settings, the arguments behind the format: ties to even, every other 0. In their order
 *
 *   rounding, tininess, nan_propagation     numbers of the three enums above
 *   default_nan_negative, flush_to_zero,
 *   denormals_are_zero, saturate            0 or 1
 *   precision                               the digits to round to, 1 to width - exponent_bits, or
 *                                           0 for the format's
 */
#define TOTALS_DEFAULTS \
    TOTALS_TIES_TO_EVEN, TOTALS_BEFORE_ROUNDING, TOTALS_SIGNALING_FIRST, 0, 0, 0, 0, 0

/* Summand: what of each value is summed. */
enum {
    TOTALS_VALUE = 0,
    TOTALS_MAGNITUDE = 1,
    TOTALS_SQUARE = 2
};

/* Tag: what is known of an amount. */
enum {
    TOTALS_KNOWN = 0,   /* it is the first figure */
    TOTALS_BETWEEN = 1, /* it lies between the first figure and the second, or is one of them */
    TOTALS_MISSING = 2  /* it lies between zero and the ceiling, or is one of them */
};

/* Flags: byte 8 of an answer, of TOTALS_X87 byte 10, is a sum of these. */
enum {
    /* a signaling NaN, infinities of both signs, an infinity times zero, or an encoding of
       TOTALS_X87 that stands for nothing */
    TOTALS_INVALID = 1,
    TOTALS_OVERFLOW = 4,         /* the sum is too large for the format */
    TOTALS_UNDERFLOW = 8,        /* the sum is tiny, and the result is not exact */
    TOTALS_INEXACT = 16,         /* the result is not the exact sum */
    TOTALS_TINY = 32,            /* the sum is not zero and lies below the least normal number */
    TOTALS_ROUNDED_UP = 64,      /* the result's magnitude, not zero, is above that of the sum */
    TOTALS_SUBNORMAL_INPUT = 128 /* a value of the list is subnormal */
};

/*
 * Side: where the result lies beside the exact sum, as numbers. Byte 10 of an answer, of TOTALS_X87
 * byte 11, is one of these.
 */
enum {
    TOTALS_EQUAL = 0,
    TOTALS_BELOW = 1,
    TOTALS_ABOVE = 2,
    TOTALS_NO_COMPARISON = 3 /* there is nothing to compare: a NaN, or an infinity */
};

/*
 * The most elements of a list, pairs of a dot, cells of a table, entries of a range, or values of a
 * page. A list for which a contribution is sought has one less, since that is added. An int cannot
 * hold their bytes.
 */
#define TOTALS_MOST_ELEMENTS 268435456

/*
 * Refusals: in a record, or what TOTALS_REFUSAL makes of the number that a call returned. The
 * lowest that holds is given; but of a table 9 and 10 come before 7, of a page 12 and 13 before 4,
 * within an allowance 16 before 3, and of a contribution 15 before 14.
 */
enum {
    TOTALS_ACCEPTED = 0,
    /* a length in bytes that is not a multiple of 8, of TOTALS_X87 of 10; targets that are not 312
       bytes. A page may have any length */
    TOTALS_UNEVEN_LENGTH = 1,
    /* an answer of fewer bytes than it takes, a pair of fewer than two words, a page of fewer bytes
       than the values need */
    TOTALS_SHORT_BUFFER = 2,
    /* a kind above 3, exponent bits outside 2..28, a width below these + 2 or above 64, a named
       bias beyond TOTALS_FARTHEST_BIAS; TOTALS_X87 where it is not taken; contribution: a kind
       other than TOTALS_IEEE */
    TOTALS_NO_SUCH_FORMAT = 3,
    /* a setting or the summand out of its range; contribution: flush_to_zero or denormals_are_zero
       that is not 0 */
    TOTALS_SETTING_OUT_OF_RANGE = 4,
    /* dot, range: the lists differ in length */
    TOTALS_DIFFERENT_LENGTHS = 5,
    /* over TOTALS_MOST_ELEMENTS; the number that a contribution adds counts as one */
    TOTALS_TOO_MANY_ELEMENTS = 6,
    /* an element, or the wanted total of a contribution, is 2^width or more */
    TOTALS_STRAY_BIT = 7,
    /* pence: a NaN or an infinity in the list, or a figure of magnitude 2^63 or more */
    TOTALS_NO_PENCE = 8,
    /* table: rows times columns, as whole numbers, is not the number of cells */
    TOTALS_BAD_SHAPE = 9,
    /* table: a list of totals is shorter than there are rows, or columns */
    TOTALS_NO_ROOM = 10,
    /* range: a tag above 2, a used figure not finite, a low above its high, or a ceiling that is
       not finite or is below zero, even where no entry is missing */
    TOTALS_BAD_AMOUNT = 11,
    /* page: the bytes are not the page of the values in them, or have over TOTALS_MOST_ELEMENTS */
    TOTALS_NOT_A_PAGE = 12,
    /* page: the span starts above its end, or ends above the number of values */
    TOTALS_BAD_SPAN = 13,
    /* contribution: no finite number brings the sum to the wanted total */
    TOTALS_NO_CONTRIBUTION = 14,
    /* contribution: a NaN or an infinity in the list, or for the wanted total */
    TOTALS_NOT_FINITE = 15,
    /* within an allowance: it is 0 */
    TOTALS_NO_PASS_ALLOWED = 16,
    /* target: more digits than the list's format has, or a NaN or an infinity in the list */
    TOTALS_TARGET_OUT_OF_REACH = 17,
    /* from totals_calls.h alone: NULL for a list, or a page, that is not empty */
    TOTALS_NO_LIST = 254,
    /* from totals_calls.h alone: a long list could not be copied */
    TOTALS_NO_MEMORY = 255
};

#define TOTALS_REFUSAL(code) ((code) % 256)

/*
 * For TOTALS_STRAY_BIT, the index of the first such element; a dot looks into its right list only
 * where the left has none, and for the wanted total of a contribution it is the number of elements.
 * For TOTALS_ACCEPTED, of totals_page_write alone, the length of the page.
 */
#define TOTALS_PLACE(code) ((code) / 256)

/* The bytes of an answer. */
#define TOTALS_ANSWER_BYTES 24
#define TOTALS_X87_ANSWER_BYTES 32
#define TOTALS_INTO_ANSWER_BYTES 96
#define TOTALS_WITHIN_ANSWER_BYTES 144
#define TOTALS_CONTRIBUTION_ANSWER_BYTES 8

/* Three targets, thirteen numbers of eight bytes each. */
#define TOTALS_TARGETS_BYTES 312

/*
 * Of all thirteen: no pointer may be NULL, not even with length or count 0, and what is written
 * lies apart from what is read. A name that ends in _len counts bytes, one that ends in count or
 * room elements. Numbers in bytes lie little end first, those with a sign in two's complement; an
 * array of double, or of uint64_t that holds encodings, can be handed over as (const uint8_t
 * *)array.
 *
 * A call that is refused writes nothing and returns its refusal, for TOTALS_STRAY_BIT plus 256
 * times a place. What lies in a buffer behind what a call writes stays as it was.
 */

/*
 * The sum of the values, of their magnitudes or of their squares. An empty list has +0.
 *
 *   rounding to precision   the eight settings, as at TOTALS_DEFAULTS
 *   summand                 TOTALS_VALUE, TOTALS_MAGNITUDE or TOTALS_SQUARE
 *   values                  eight bytes a value, in TOTALS_EXTENDED ten
 *   answer                  at least 24 bytes, in TOTALS_EXTENDED 32
 *
 * Returns 0 and writes bytes 0 to 23 of the answer: the result in 0..7, the flags in 8, the side in
 * 10, the passes in 16..23, and zeros between them. In TOTALS_EXTENDED the result lies in 0..9, the
 * flags in 10, the side in 11, zeros in 12..23 and the passes in 24..31. Refused by 1 to 4, 6 and
 * 7; in TOTALS_EXTENDED there is no TOTALS_STRAY_BIT.
 */
TOTALS_MUST_USE uint64_t totals_sum(
    uint64_t kind, uint64_t exponent_bits, uint64_t width,
    uint64_t rounding, uint64_t tininess, uint64_t nan_propagation, uint64_t default_nan_negative,
    uint64_t flush_to_zero, uint64_t denormals_are_zero, uint64_t saturate, uint64_t precision,
    uint64_t summand,
    const uint8_t *values, size_t values_len,
    uint8_t *answer, size_t answer_len);

/* The dot product, the sum of the products of the pairs: all else is as in totals_sum, and 5. */
TOTALS_MUST_USE uint64_t totals_dot(
    uint64_t kind, uint64_t exponent_bits, uint64_t width,
    uint64_t rounding, uint64_t tininess, uint64_t nan_propagation, uint64_t default_nan_negative,
    uint64_t flush_to_zero, uint64_t denormals_are_zero, uint64_t saturate, uint64_t precision,
    const uint8_t *left, size_t left_len,
    const uint8_t *right, size_t right_len,
    uint8_t *answer, size_t answer_len);

/*
 * The same two in a format that names its bias, from -TOTALS_FARTHEST_BIAS to TOTALS_FARTHEST_BIAS;
 * one outside is TOTALS_NO_SUCH_FORMAT, and so is TOTALS_X87.
 */
TOTALS_MUST_USE uint64_t totals_sum_biased(
    uint64_t kind, uint64_t exponent_bits, uint64_t width, int64_t bias,
    uint64_t rounding, uint64_t tininess, uint64_t nan_propagation, uint64_t default_nan_negative,
    uint64_t flush_to_zero, uint64_t denormals_are_zero, uint64_t saturate, uint64_t precision,
    uint64_t summand,
    const uint8_t *values, size_t values_len,
    uint8_t *answer, size_t answer_len);

TOTALS_MUST_USE uint64_t totals_dot_biased(
    uint64_t kind, uint64_t exponent_bits, uint64_t width, int64_t bias,
    uint64_t rounding, uint64_t tininess, uint64_t nan_propagation, uint64_t default_nan_negative,
    uint64_t flush_to_zero, uint64_t denormals_are_zero, uint64_t saturate, uint64_t precision,
    const uint8_t *left, size_t left_len,
    const uint8_t *right, size_t right_len,
    uint8_t *answer, size_t answer_len);

/*
 * The pence of a list: a hundred times the exact sum of its values, to the nearest whole number, a
 * half away from zero. Nothing is rounded to the format in between, so a sum that is too large for
 * the format can have pence. There are no settings: subnormal values count as they are. An empty
 * list has 0, and so has a sum nearer to 0 than half a penny.
 *
 *   bias_named, bias   TOTALS_OWN_BIAS, or TOTALS_BIAS(bias) where the format names one
 *   values, count      encodings, one to a word in its low bits, and the number of them
 *   figure             one word
 *
 * Returns 0 and writes the figure. Or returns the first of these that holds:
 *
 *   TOTALS_NO_SUCH_FORMAT      also where bias_named is above 1, or is 0 and bias is not
 *   TOTALS_TOO_MANY_ELEMENTS   zeros count
 *   TOTALS_STRAY_BIT           plus 256 times the index of the first such element
 *   TOTALS_NO_PENCE            of -2^63 pence too, though an int64_t could hold them
 */
TOTALS_MUST_USE uint64_t totals_pence(
    uint64_t kind, uint64_t exponent_bits, uint64_t width, uint64_t bias_named, int64_t bias,
    const uint64_t *values, size_t count,
    int64_t *figure);

/*
 * The plain sums of the rows, of the columns and of all cells of a table. Each is what totals_sum
 * gives for its own cells, a row from left to right, a column from top to bottom. Rows without
 * columns, and columns without rows, are empty: their sum is +0, toward negative too.
 *
 *   bias_named, bias             as in totals_pence
 *   rounding to precision        the eight settings, as at TOTALS_DEFAULTS
 *   cells, count                 encodings, one to a word, row after row, and the number of them
 *   row_totals, row_room         a word for the result of each row; how many words, at least rows
 *   column_totals, column_room   the same for the columns
 *   answer                       at least 24 bytes
 *
 * What is written lies apart from each other and from the cells. Returns 0, writes the first rows
 * words of row_totals, the first columns words of column_totals, and to bytes 0 to 23 of the answer
 * the record of all cells, as totals_sum does. Or returns the first of these that holds:
 *
 *   TOTALS_SHORT_BUFFER
 *   TOTALS_NO_SUCH_FORMAT         also where bias_named is above 1, or is 0 and bias is not
 *   TOTALS_SETTING_OUT_OF_RANGE
 *   TOTALS_TOO_MANY_ELEMENTS      of the cells; rows are not counted
 *   TOTALS_BAD_SHAPE              2^32 rows and 2^32 columns are not 0 cells
 *   TOTALS_NO_ROOM
 *   TOTALS_STRAY_BIT              plus 256 times the lowest index of such a cell
 */
TOTALS_MUST_USE uint64_t totals_table(
    uint64_t kind, uint64_t exponent_bits, uint64_t width, uint64_t bias_named, int64_t bias,
    uint64_t rounding, uint64_t tininess, uint64_t nan_propagation, uint64_t default_nan_negative,
    uint64_t flush_to_zero, uint64_t denormals_are_zero, uint64_t saturate, uint64_t precision,
    uint64_t rows, uint64_t columns,
    const uint64_t *cells, size_t count,
    uint64_t *row_totals, size_t row_room,
    uint64_t *column_totals, size_t column_room,
    uint8_t *answer, size_t answer_len);

/*
 * The lower and the upper total of amounts known within a range: every sum that the entries allow
 * lies on one of the two or between, and of two doubles or infinities that are nearer to each other
 * this is not true. A total of zero is +0; no entries have two. Every order of the entries gives
 * the same pair.
 *
 *   tags, tag_count        TOTALS_KNOWN, TOTALS_BETWEEN or TOTALS_MISSING, one to a word
 *   first, first_count     the first figure of each entry, an encoding of binary64
 *   second, second_count   the second
 *   ceiling                the most that a missing amount can be, in binary64; -0 is one of zero
 *   pair, pair_room        at least two words
 *
 * The figures that an entry does not use may be anything, a NaN too: the second of a known one,
 * both of a missing one. What is written, first, second and pair, lies apart from each other and
 * from the tags.
 *
 * Returns 0 and writes the encodings of the lower and of the upper total to the first two words of
 * the pair. The low of each entry is then left in first and its high in second, so that only
 * figures that are not used change, and the lists stand for the same entries. Or returns the first
 * of these that holds:
 *
 *   TOTALS_SHORT_BUFFER
 *   TOTALS_DIFFERENT_LENGTHS
 *   TOTALS_TOO_MANY_ELEMENTS
 *   TOTALS_BAD_AMOUNT           without a place
 */
TOTALS_MUST_USE uint64_t totals_range(
    const uint64_t *tags, size_t tag_count,
    uint64_t *first, size_t first_count,
    uint64_t *second, size_t second_count,
    uint64_t ceiling,
    uint64_t *pair, size_t pair_room);

/*
 * Career pages: binary64 values in bytes that can be kept, with a summary of each 64 of them:
 *
 *   the values      eight bytes each
 *   the summaries   twelve bytes for each group of 64 values, of which the last may have fewer:
 *                   the positions of the highest and of the lowest set bit of the values that are
 *                   finite and not zero, as signed numbers of four bytes, both 0 where there is no
 *                   such value (a bit worth 2^k has position k); a byte that is the sum of 1 where
 *                   a value is a NaN, 2 where one is an infinity, 4 where one is a zero; three zero
 *                   bytes
 *   the trailer     where the summaries begin, the number of values, 64, and the letters CPG1, four
 *                   bytes each; of more than 1,048,576 values the first two take eight bytes each,
 *                   and the letters are CPG2
 *
 * Bytes open where they are the page of the values in them, to the last bit, and these are at most
 * TOTALS_MOST_ELEMENTS. What totals_page_write writes opens. Every call looks at the whole page,
 * whatever span is asked for.
 *
 * The total of a span, the values from the index start up to the index end, itself left out, is
 * what totals_sum gives for these values as a list of their own. An empty span has +0, toward
 * negative too.
 *
 *   page, page_len          the page, at any address
 *   start, end              indices of values, not of bytes
 *   rounding to precision   the eight settings, as at TOTALS_DEFAULTS
 *   answer                  at least 24 bytes
 *
 * Returns 0 and writes bytes 0 to 23 of the answer, as totals_sum does. Or returns the first of
 * these that holds:
 *
 *   TOTALS_SHORT_BUFFER           of the answer
 *   TOTALS_NOT_A_PAGE             of no bytes too; a page without values has a trailer
 *   TOTALS_BAD_SPAN
 *   TOTALS_SETTING_OUT_OF_RANGE
 */
TOTALS_MUST_USE uint64_t totals_page_sum(
    const uint8_t *page, size_t page_len, size_t start, size_t end,
    uint64_t rounding, uint64_t tininess, uint64_t nan_propagation, uint64_t default_nan_negative,
    uint64_t flush_to_zero, uint64_t denormals_are_zero, uint64_t saturate, uint64_t precision,
    uint64_t summand,
    uint8_t *answer, size_t answer_len);

/*
 * Writes the page of some values.
 *
 *   values, count    encodings of binary64, one to a word, and the number of them
 *   page, page_len   the destination, at any address, and its bytes
 *
 * Returns 256 times the length of the page, which TOTALS_PLACE takes from it, and writes so many
 * bytes. Or returns the first of these that holds:
 *
 *   TOTALS_SHORT_BUFFER        the page would be longer, also where there are too many values
 *   TOTALS_TOO_MANY_ELEMENTS
 */
TOTALS_MUST_USE uint64_t totals_page_write(
    const uint64_t *values, size_t count,
    uint8_t *page, size_t page_len);

/*
 * The exact sum of the values, rounded once into each of three targets. What a target has is what
 * it has alone: one that is refused does not touch the others. The result is an encoding of the
 * target's format. The passes and TOTALS_SUBNORMAL_INPUT are those of the list, and in the list's
 * own format all is as in totals_sum, under the target's settings with this denormals_are_zero. A
 * sum of zero has the sign that the target's rounding gives it.
 *
 *   kind to bias         the list's format, as in totals_pence
 *   denormals_are_zero   0 or 1: how the list is read. That of a target has no effect
 *   targets              312 bytes: of each target the kind, the exponent bits, the width, 1 where
 *                        it names its bias or else 0, the bias, and the eight settings, eight bytes
 *                        each
 *   values               eight bytes a value
 *   answer               at least 96 bytes
 *
 * Returns 0 and writes 32 bytes for each target: its refusal, plus 256 times a place for
 * TOTALS_STRAY_BIT, in 0..7, and behind it, in 8..31, what totals_sum writes, or zeros where it is
 * refused. A target's refusal is the first of these that holds:
 *
 *   TOTALS_NO_SUCH_FORMAT         of the list or of the target; of TOTALS_X87 too, and where a bias
 *                                 is named neither by 1 nor by 0 beside 0
 *   TOTALS_SETTING_OUT_OF_RANGE   denormals_are_zero, or a setting of the target
 *   TOTALS_TOO_MANY_ELEMENTS
 *   TOTALS_STRAY_BIT              of the list
 *   TOTALS_TARGET_OUT_OF_REACH    without a place
 *
 * Or writes nothing and returns TOTALS_UNEVEN_LENGTH, of the targets or of the values (in
 * TOTALS_X87 a value has ten bytes), or TOTALS_SHORT_BUFFER, in this order.
 */
TOTALS_MUST_USE uint64_t totals_sum_into(
    uint64_t kind, uint64_t exponent_bits, uint64_t width, uint64_t bias_named, int64_t bias,
    uint64_t denormals_are_zero,
    const uint8_t *targets, size_t targets_len,
    const uint8_t *values, size_t values_len,
    uint8_t *answer, size_t answer_len);

/*
 * totals_sum within an allowance of passes: the whole answer where the chain of passes ends in
 * time, which is then the same for every larger allowance, or else what the last pass allowed has
 * seen: S, in units of 2^(last edge), and the boundary that this pass was compared against. S units
 * plus the boundary are off from the exact sum by fewer units than there are terms, and of these
 * there are no more than elements. Of unfinished answers a larger allowance never has a wider
 * bound.
 *
 *   kind to bias            the format, as in totals_pence
 *   rounding to precision   the eight settings, as at TOTALS_DEFAULTS, of a whole answer alone
 *   summand                 as in totals_sum
 *   allowance               the most passes, at least 1
 *   values                  eight bytes a value, and of TOTALS_X87, which is refused, ten
 *   answer                  at least 144 bytes
 *
 * Returns 0 and writes bytes 0 to 143 of the answer:
 *
 *   0..7      result              8   flags      9   mark      10   side
 *   11        1 where the boundary is below zero               12..15   zeros
 *   16..23    passes              24..31   last edge, with a sign
 *   32..39    boundary's whole number, 0 where there is none
 *   40..47    position of its unit, with a sign
 *   48..143   S, with a sign
 *
 * A mark of 0 is a whole answer: 0..23 are as in totals_sum, the last edge is that of its last
 * pass, or 0 where it took none, and the rest is 0. A mark of 1 is an unfinished one: result, flags
 * and side are 0, and the passes are the allowance. Or returns the first of these that holds:
 *
 *   TOTALS_UNEVEN_LENGTH
 *   TOTALS_SHORT_BUFFER
 *   TOTALS_NO_PASS_ALLOWED
 *   TOTALS_NO_SUCH_FORMAT         of TOTALS_X87 too, and where bias_named is above 1, or is 0 and
 *                                 bias is not
 *   TOTALS_SETTING_OUT_OF_RANGE
 *   TOTALS_DIFFERENT_LENGTHS      of a dot
 *   TOTALS_TOO_MANY_ELEMENTS
 *   TOTALS_STRAY_BIT              plus 256 times a place
 */
TOTALS_MUST_USE uint64_t totals_sum_within(
    uint64_t kind, uint64_t exponent_bits, uint64_t width, uint64_t bias_named, int64_t bias,
    uint64_t rounding, uint64_t tininess, uint64_t nan_propagation, uint64_t default_nan_negative,
    uint64_t flush_to_zero, uint64_t denormals_are_zero, uint64_t saturate, uint64_t precision,
    uint64_t summand, uint64_t allowance,
    const uint8_t *values, size_t values_len,
    uint8_t *answer, size_t answer_len);

/* The dot product: all else is as in totals_sum_within. */
TOTALS_MUST_USE uint64_t totals_dot_within(
    uint64_t kind, uint64_t exponent_bits, uint64_t width, uint64_t bias_named, int64_t bias,
    uint64_t rounding, uint64_t tininess, uint64_t nan_propagation, uint64_t default_nan_negative,
    uint64_t flush_to_zero, uint64_t denormals_are_zero, uint64_t saturate, uint64_t precision,
    uint64_t allowance,
    const uint8_t *left, size_t left_len,
    const uint8_t *right, size_t right_len,
    uint8_t *answer, size_t answer_len);

/*
 * The contribution that reaches a target: the least finite number with which, behind the values,
 * totals_sum has the wanted total for its result. The least is the most negative: below what the
 * list comes to, it is an amount that goes back. Zeros of either sign are equal, as results and as
 * the wanted total, and where zero is the answer it is +0. Every order of the values has the same
 * answer.
 *
 *   kind to bias            the format, as in totals_pence, of TOTALS_IEEE
 *   rounding to precision   the eight settings, as at TOTALS_DEFAULTS; flush_to_zero and
 *                           denormals_are_zero must be 0. A precision is one of the sum: the number
 *                           found may have all digits of the format
 *   wanted                  the total, an encoding
 *   values, count           encodings, one to a word in its low bits, and the number of them, below
 *                           TOTALS_MOST_ELEMENTS
 *   answer                  at least eight bytes
 *
 * Returns 0 and writes the encoding of the number to bytes 0 to 7 of the answer. Or returns the
 * first of these that holds:
 *
 *   TOTALS_SHORT_BUFFER
 *   TOTALS_NO_SUCH_FORMAT         also where bias_named is above 1, or is 0 and bias is not
 *   TOTALS_SETTING_OUT_OF_RANGE
 *   TOTALS_TOO_MANY_ELEMENTS
 *   TOTALS_STRAY_BIT              plus 256 times the lowest index in the list; of the wanted total
 *                                 alone plus 256 times count
 *   TOTALS_NOT_FINITE             without a place, as is
 *   TOTALS_NO_CONTRIBUTION
 */
TOTALS_MUST_USE uint64_t totals_contribution(
    uint64_t kind, uint64_t exponent_bits, uint64_t width, uint64_t bias_named, int64_t bias,
    uint64_t rounding, uint64_t tininess, uint64_t nan_propagation, uint64_t default_nan_negative,
    uint64_t flush_to_zero, uint64_t denormals_are_zero, uint64_t saturate, uint64_t precision,
    uint64_t wanted,
    const uint64_t *values, size_t count,
    uint8_t *answer, size_t answer_len);

#ifdef __cplusplus
}
#endif

#ifndef TOTALS_NO_CALLS
#include "totals_calls.h"
#endif

#endif
