/*
 * The calls over records: totals of lists of double, float, encodings in words or ten-byte values.
 * They are inline, plain C99 and C++11, lay the values out for the functions of totals.h and read
 * their answers. totals.h includes this file, and this file includes totals.h: either will do.
 *
 *   totals_sum_double  totals_magnitude_sum_double  totals_square_sum_double  totals_dot_double
 *   totals_sum_float   totals_magnitude_sum_float   totals_square_sum_float   totals_dot_float
 *   totals_sum_x87     totals_magnitude_sum_x87     totals_square_sum_x87     totals_dot_x87
 *   totals_sum_words   totals_dot_words
 *       the totals; _words: encodings of any format of up to 64 bits, _x87: values of ten bytes
 *   totals_pence_double  totals_pence_float  totals_pence_words
 *       the exact sum in whole pence
 *   totals_table_double  totals_table_float  totals_table_words
 *       the sums of the rows and columns of a table
 *   totals_range_double  totals_range_words
 *       the lower and the upper total of amounts known within a range
 *   totals_page_write_double  totals_page_count  totals_page_sum_double  totals_page_length
 *       a career page: written, opened, a span of it summed; the bytes that it takes
 *   totals_sum_into_double  totals_sum_into_float  totals_sum_into_words
 *       the exact sum, rounded into several formats
 *   totals_sum_within_double  totals_sum_within_float  totals_sum_within_words
 *   totals_dot_within_double  totals_dot_within_float  totals_dot_within_words
 *       a total within an allowance of passes
 *   totals_lower  totals_upper  totals_figure
 *       of an unfinished total: two doubles around the exact sum, and a figure between them
 *   totals_contribution_double  totals_contribution_float  totals_contribution_words
 *       the least number that brings a sum to a wanted total
 *   totals_strerror
 *       a refusal in words
 *
 * Lists are given by their first element and the count of elements, a page by its bytes. A list may
 * be NULL where its count is 0, and settings may be NULL for TOTALS_SETTINGS_INIT.
 *
 * Ask for the refusal of a record before anything else of it. Where that is TOTALS_ACCEPTED the
 * other fields hold the answer; else it says why there is none, and every other field is 0 but for
 * the place of a TOTALS_STRAY_BIT: a refused call's result is 0, which is also the total of many a
 * list.
 */
#ifndef TOTALS_CALLS_H
#define TOTALS_CALLS_H

#include "totals.h"

#include <stdlib.h>
#include <string.h>

#ifdef __cplusplus
extern "C" {
#endif

/*
 * A format with its bias. Set it up as a whole, by an initializer: a field that is left out is then
 * 0, and later versions add fields at the end.
 *
 *   totals_format half = {TOTALS_BINARY16, TOTALS_OWN_BIAS};    0x3c00 is 1
 *   totals_format rates = {TOTALS_BINARY16, TOTALS_BIAS(25)};   0x3c00 is 2^-10
 */
typedef struct totals_format {
    uint64_t kind;
    uint64_t exponent_bits;
    uint64_t width;
    uint64_t bias_named; /* 1 where the next field is the bias; else both are 0 */
    int64_t bias;
} totals_format;

/*
 * The settings of a call. Start from the defaults, since later versions add fields at the end:
 *
 *   totals_settings settings = TOTALS_SETTINGS_INIT;
 *   settings.rounding = TOTALS_TOWARD_ZERO;
 */
typedef struct totals_settings {
    uint64_t rounding;
    uint64_t tininess;
    uint64_t nan_propagation;
    uint64_t default_nan_negative; /* this and the next three: 0 or 1 */
    uint64_t flush_to_zero;
    uint64_t denormals_are_zero;
    uint64_t saturate;
    uint64_t precision; /* the digits to round to, 1 to the format's, or 0 for the format's */
} totals_settings;

#define TOTALS_SETTINGS_INIT \
    { \
        TOTALS_DEFAULTS \
    }

/*
 * A target: a format that a sum is rounded into, of at most the digits of the list's, and its
 * settings. Its denormals-are-zero has no effect: the list's is an argument of its own. Set it up
 * as a whole, as a format:
 *
 *   totals_target half = {{TOTALS_BINARY16, TOTALS_OWN_BIAS}, TOTALS_SETTINGS_INIT};
 */
typedef struct totals_target {
    totals_format format;
    totals_settings settings;
} totals_target;

/*
 * The record of a total. Ask for refusal first: unless it is TOTALS_ACCEPTED, there is no total,
 * and result, passes, flags and side are 0. Later versions add fields at the end of this and each
 * other record.
 */
typedef struct totals_record {
    uint64_t result; /* an encoding of the format */
    uint64_t passes;
    uint64_t place;   /* of a TOTALS_STRAY_BIT, else 0 */
    unsigned flags;   /* a sum of TOTALS_INVALID and its neighbours */
    unsigned refusal; /* TOTALS_ACCEPTED, or why there is no total */
    unsigned side;    /* TOTALS_EQUAL or one of its neighbours */
} totals_record;

/*
 * The record of a total of double. Ask for refusal first: where the call is refused, result is 0.
 */
typedef struct totals_double_record {
    double result;
    uint64_t bits; /* the encoding of the result */
    uint64_t passes;
    uint64_t place;
    unsigned flags;
    unsigned refusal;
    unsigned side;
} totals_double_record;

/* The record of a total of float. Ask for refusal first: where the call is refused, result is 0. */
typedef struct totals_float_record {
    float result;
    uint32_t bits; /* the encoding of the result */
    uint64_t passes;
    uint64_t place;
    unsigned flags;
    unsigned refusal;
    unsigned side;
} totals_float_record;

/*
 * The record of a total of ten-byte values. Ask for refusal first: where the call is refused, the
 * bytes of the result, significand and head are 0.
 */
typedef struct totals_x87_record {
    uint8_t result[TOTALS_X87_BYTES]; /* as a list has it */
    uint64_t significand;             /* bytes 0..7 of the result, and */
    unsigned head;                    /* bytes 8..9, sign and exponent field */
    uint64_t passes;
    unsigned flags;
    unsigned refusal;
    unsigned side;
} totals_x87_record;

/*
 * Pence. Ask for refusal first: where the call is refused, figure is 0, which is also the pence of
 * an empty list.
 */
typedef struct totals_pence_record {
    int64_t figure; /* in pence */
    uint64_t place;
    unsigned refusal;
} totals_pence_record;

/* A contribution. Ask for refusal first: where the call is refused, number is 0. */
typedef struct totals_contribution_record {
    uint64_t number; /* an encoding of the format */
    uint64_t place;
    unsigned refusal;
} totals_contribution_record;

/* A contribution in double. Ask for refusal first: where the call is refused, number is 0. */
typedef struct totals_double_contribution_record {
    double number;
    uint64_t bits; /* the encoding of the number */
    uint64_t place;
    unsigned refusal;
} totals_double_contribution_record;

/* A contribution in float. Ask for refusal first: where the call is refused, number is 0. */
typedef struct totals_float_contribution_record {
    float number;
    uint32_t bits; /* the encoding of the number */
    uint64_t place;
    unsigned refusal;
} totals_float_contribution_record;

/*
 * The lower and the upper total of a range. Ask for refusal first: where the call is refused, both
 * are 0.
 */
typedef struct totals_range_record {
    double lower;
    double upper;
    uint64_t lower_bits; /* the encodings of the two */
    uint64_t upper_bits;
    unsigned refusal;
} totals_range_record;

/*
 * A page that is written or opened. Ask for refusal first: where the call is refused, length and
 * count are 0.
 */
typedef struct totals_page_record {
    size_t length; /* of the page, in bytes */
    size_t count;  /* of its values */
    unsigned refusal;
} totals_page_record;

#define TOTALS_SUM_WORDS 12

/*
 * A total within an allowance. Ask for refusal first: where the call is refused, every other field
 * is 0 but the place of a TOTALS_STRAY_BIT. Then ask for mark. Where it is 0, result, flags, side
 * and passes are those of the total, and last_edge is the edge of its last pass. Where it is 1 the
 * chain goes on behind the last pass allowed: result, flags and side are 0, passes is the
 * allowance, and the fields from last_edge on say what this pass has seen, which totals_lower and
 * totals_upper take as doubles.
 */
typedef struct totals_estimate {
    uint64_t result; /* an encoding of the format */
    uint64_t passes;
    uint64_t place;
    unsigned flags;
    unsigned refusal;
    unsigned side;
    unsigned mark;     /* 1 where the answer is unfinished */
    int64_t last_edge; /* a position: that of the bit worth 1 is 0 */
    unsigned negative; /* 1 where S is below zero */
    unsigned minus;    /* 1 where the boundary is */
    /* the magnitude of S, in units of 2^last_edge, the least word first */
    uint64_t sum[TOTALS_SUM_WORDS];
    uint64_t whole; /* the boundary's whole number, or 0 where there was none */
    int64_t unit;   /* the position of its unit */
    /* where mark is 1: of the list, or the pairs. There are no more terms, as a zero is none */
    size_t elements;
} totals_estimate;

/*
 * A refusal in words. Takes the refusal of a record, or all that a function of the library
 * returned. Never NULL; of a number that it does not know it says so.
 */
static inline const char *totals_strerror(uint64_t refusal)
{
    switch (TOTALS_REFUSAL(refusal)) {
    case TOTALS_ACCEPTED: return "accepted";
    case TOTALS_UNEVEN_LENGTH:
        return "the length in bytes is not that of whole values: each takes 8 bytes, one of X87 "
               "10, and three targets take 312";
    case TOTALS_SHORT_BUFFER:
        return "the buffer is too short: an answer takes 24 bytes, one of X87 32, of three "
               "targets 96, within an allowance 144, a contribution 8, the pair of a range two "
               "words, and a page what totals_page_length says";
    case TOTALS_NO_SUCH_FORMAT:
        return "the call has no such format: exponent bits are 2 to 28, the width these + 2 to "
               "64, a named bias within 268,435,456 of 0; X87 is for totals of ten-byte values, "
               "and a contribution is for the kind IEEE";
    case TOTALS_SETTING_OUT_OF_RANGE:
        return "a setting or the summand is out of its range: each is one of its numbers, the "
               "precision at most the digits of the format, and of a contribution flush to zero "
               "and denormals-are-zero are off";
    case TOTALS_DIFFERENT_LENGTHS:
        return "the lists differ in length: they must have the same number of elements";
    case TOTALS_TOO_MANY_ELEMENTS:
        return "there are too many elements: a list has at most 268,435,456, and one fewer where "
               "a contribution is added to it";
    case TOTALS_STRAY_BIT:
        return "an element, or the wanted total, does not fit the format's width: its bits above "
               "that must be 0";
    case TOTALS_NO_PENCE:
        return "the list has no pence: it holds a NaN or an infinity, or its sum is 2^63 pence or"
               " more, of either sign";
    case TOTALS_BAD_SHAPE:
        return "rows times columns is not the number of cells: each row has a cell for each column";
    case TOTALS_NO_ROOM:
        return "there is no room for the totals: their lists need a place for each row and each "
               "column";
    case TOTALS_BAD_AMOUNT:
        return "an amount or the ceiling is a bad one: tags are 0 to 2, used figures finite, a "
               "low at most its high, and the ceiling finite and not below zero";
    case TOTALS_NOT_A_PAGE:
        return "the bytes are not a page: they must be the page of the values in them, to the "
               "last bit, and hold at most 268,435,456 values";
    case TOTALS_BAD_SPAN:
        return "the span is not one of the page: it starts at most at its end, and ends at most "
               "at the number of values";
    case TOTALS_NO_CONTRIBUTION:
        return "no finite number brings the sum to the wanted total: another total may have one";
    case TOTALS_NOT_FINITE:
        return "the list holds a NaN or an infinity, or the wanted total is one: a contribution "
               "is for finite numbers";
    case TOTALS_NO_PASS_ALLOWED: return "the allowance is of no pass at all: it must be at least 1";
    case TOTALS_TARGET_OUT_OF_REACH:
        return "the target is out of reach: it has at most the digits of the list's format, and "
               "the list no NaN and no infinity";
    case TOTALS_NO_LIST: return "a list or the page is NULL: that is for a length of 0 alone";
    case TOTALS_NO_MEMORY:
        return "there is no memory for the copy of a list, eight bytes an element";
    default: return "a refusal that this header does not know";
    }
}

/*
 * Where a list of float, or of the figures of a range, has more than TOTALS_ROOM_ elements, it is
 * copied to memory of this kind. Both may be defined before.
 */
#ifndef TOTALS_MALLOC
#define TOTALS_MALLOC(size) malloc(size)
#define TOTALS_FREE(pointer) free(pointer)
#endif

/* Names that end in _ are the header's own. */
#define TOTALS_ROOM_ 512
/* The most values of a page whose trailer has 16 bytes. */
#define TOTALS_MOST_IN_SHORT_ 1048576
/*
 * What the entries take of a format, without a bias and with it, and of the settings, in their
 * order.
 */
#define TOTALS_WIDTHS_(f) (f).kind, (f).exponent_bits, (f).width
#define TOTALS_NUMBERS_(f) TOTALS_WIDTHS_(f), (f).bias_named, (f).bias
#define TOTALS_CHOICES_(c) \
    (c)->rounding, (c)->tininess, (c)->nan_propagation, (c)->default_nan_negative, \
        (c)->flush_to_zero, (c)->denormals_are_zero, (c)->saturate, (c)->precision

typedef struct totals_list_ {
    const void *values;
    size_t count;
    size_t size; /* of an element: 4, 8 or 10 bytes */
} totals_list_;

static inline totals_list_ totals_list_of_(const void *values, size_t count, size_t size)
{
    totals_list_ list;
    list.values = values;
    list.count = count;
    list.size = size;
    return list;
}

static inline uint64_t totals_get_(const uint8_t *bytes)
{
    uint64_t word = 0;
    int i;
    for (i = 7; i >= 0; i--) {
        word = word << 8 | bytes[i];
    }
    return word;
}

/*
 * The values as the entries read them, in the room or in memory that is then owned; NULL where
 * there is none.
 */
static inline const uint8_t *totals_bytes_(totals_list_ list, uint8_t *room, uint8_t **owned)
{
    static const uint8_t none[8] = {0, 0, 0, 0, 0, 0, 0, 0};
    const uint16_t probe = 1;
    uint8_t low_end, *bytes = room;
    size_t i, k;

    memcpy(&low_end, &probe, 1);
    if (list.count == 0) {
        return none;
    }
    if (list.size == 8 && low_end == 1) {
        return (const uint8_t *)list.values;
    }
    if (list.count > TOTALS_ROOM_) {
        bytes = *owned = (uint8_t *)TOTALS_MALLOC(8 * list.count);
        if (bytes == NULL) {
            return NULL;
        }
    }
    for (i = 0; i < list.count; i++) {
        const uint8_t *value = (const uint8_t *)list.values + i * list.size;
        uint64_t word;
        uint32_t half;
        if (list.size == 8) {
            memcpy(&word, value, 8);
        } else {
            memcpy(&half, value, 4);
            word = half;
        }
        for (k = 0; k < 8; k++) {
            bytes[8 * i + k] = (uint8_t)(word >> 8 * k);
        }
    }
    return bytes;
}

/*
 * The values as words, where they lie or, of float, in the room or in memory that is then owned;
 * NULL where there is none. A list of double may be handed over as words: no C reads it by that
 * pointer, and the caller's compiler must take the library, which it does not see, to read any
 * memory that it can reach. An encoding is one word in every byte order.
 */
static inline const uint64_t *totals_words_(totals_list_ list, uint64_t *room, uint64_t **owned)
{
    static const uint64_t none = 0;
    uint64_t *words = room;
    size_t i;

    if (list.count == 0) {
        return &none;
    }
    if (list.size == 8) {
        return (const uint64_t *)list.values;
    }
    if (list.count > TOTALS_ROOM_) {
        words = *owned = (uint64_t *)TOTALS_MALLOC(8 * list.count);
        if (words == NULL) {
            return NULL;
        }
    }
    for (i = 0; i < list.count; i++) {
        uint32_t half;
        memcpy(&half, (const uint8_t *)list.values + i * list.size, 4);
        words[i] = half;
    }
    return words;
}

static inline int totals_is_missing_(totals_list_ list)
{
    return list.values == NULL && list.count != 0;
}

/*
 * The bytes of an encoding that are lent to an entry which refuses ten bytes a value: no list of
 * words has such a value, so none is lent, and the refusal is that of an empty list.
 */
static inline size_t totals_lent_(totals_format f)
{
    return f.kind == TOTALS_X87 ? 0 : 8;
}

static inline uint64_t totals_call_within_(totals_format f, const totals_settings *c,
                                           uint64_t summand, int pairs, uint64_t allowance,
                                           const uint8_t *left, size_t left_count,
                                           const uint8_t *right, size_t right_count,
                                           uint8_t *answer)
{
    const size_t size = totals_lent_(f);
    if (pairs) {
        return totals_dot_within(TOTALS_NUMBERS_(f), TOTALS_CHOICES_(c), allowance, left,
                                 size * left_count, right, size * right_count, answer,
                                 TOTALS_WITHIN_ANSWER_BYTES);
    }
    return totals_sum_within(TOTALS_NUMBERS_(f), TOTALS_CHOICES_(c), summand, allowance, left,
                             size * left_count, answer, TOTALS_WITHIN_ANSWER_BYTES);
}

/*
 * A sum of `left`, for which `right` is empty and `pairs` 0, or a dot; within an allowance where
 * there is one. A format whose last two fields do not fit each other was not set up as a whole, and
 * a total in either reading would be a guess. Of TOTALS_X87 there are no encodings in words.
 */
static inline uint64_t totals_call_(totals_format f, const totals_settings *c, uint64_t summand,
                                    int pairs, const uint64_t *allowance, const uint8_t *left,
                                    size_t left_count, const uint8_t *right, size_t right_count,
                                    uint8_t *answer)
{
    if (allowance != NULL) {
        return totals_call_within_(f, c, summand, pairs, *allowance, left, left_count, right,
                                   right_count, answer);
    }
    if (f.bias_named > 1 || (f.bias_named == 0 && f.bias != 0) || f.kind == TOTALS_X87) {
        return TOTALS_NO_SUCH_FORMAT;
    }
    if (pairs && f.bias_named) {
        return totals_dot_biased(TOTALS_WIDTHS_(f), f.bias, TOTALS_CHOICES_(c), left,
                                 8 * left_count, right, 8 * right_count, answer,
                                 TOTALS_ANSWER_BYTES);
    }
    if (f.bias_named) {
        return totals_sum_biased(TOTALS_WIDTHS_(f), f.bias, TOTALS_CHOICES_(c), summand, left,
                                 8 * left_count, answer, TOTALS_ANSWER_BYTES);
    }
    if (pairs) {
        return totals_dot(TOTALS_WIDTHS_(f), TOTALS_CHOICES_(c), left, 8 * left_count, right,
                          8 * right_count, answer, TOTALS_ANSWER_BYTES);
    }
    return totals_sum(TOTALS_WIDTHS_(f), TOTALS_CHOICES_(c), summand, left, 8 * left_count, answer,
                      TOTALS_ANSWER_BYTES);
}

/* What a call returned, as a record. Where it is a refusal, the answer is not read. */
static inline totals_record totals_record_of_(uint64_t code, const uint8_t *answer)
{
    totals_record record = {0, 0, 0, 0, 0, 0};
    if (code == TOTALS_ACCEPTED) {
        record.result = totals_get_(answer);
        record.flags = answer[8];
        record.side = answer[10];
        record.passes = totals_get_(answer + 16);
    } else {
        record.refusal = (unsigned)TOTALS_REFUSAL(code);
        record.place = TOTALS_PLACE(code);
    }
    return record;
}

/* Calls with lists that the entries can read, and an answer that has room for what is asked. */
static inline uint64_t totals_lend_(totals_format f, const totals_settings *settings,
                                    uint64_t summand, int pairs, const uint64_t *allowance,
                                    totals_list_ left, totals_list_ right, uint8_t *answer)
{
    static const totals_settings defaults = TOTALS_SETTINGS_INIT;
    const totals_settings *c = settings == NULL ? &defaults : settings;
    uint8_t left_room[8 * TOTALS_ROOM_], right_room[8 * TOTALS_ROOM_];
    uint8_t *left_owned = NULL, *right_owned = NULL;
    uint64_t code;

    if (left.count > TOTALS_MOST_ELEMENTS || right.count > TOTALS_MOST_ELEMENTS
        || totals_is_missing_(left) || totals_is_missing_(right)) {
        /*
         * A format or a setting is refused first, with an empty list too. The length of such a list
         * in bytes need not fit a size_t.
         */
        const uint8_t *none = totals_bytes_(totals_list_of_(NULL, 0, 8), left_room, &left_owned);
        code = totals_call_(f, c, summand, pairs, allowance, none, 0, none, 0, answer);
        if (code == TOTALS_ACCEPTED) {
            code = pairs && left.count != right.count  ? TOTALS_DIFFERENT_LENGTHS
                   : left.count > TOTALS_MOST_ELEMENTS ? TOTALS_TOO_MANY_ELEMENTS
                                                       : TOTALS_NO_LIST;
        }
    } else {
        const uint8_t *left_bytes = totals_bytes_(left, left_room, &left_owned);
        const uint8_t *right_bytes = totals_bytes_(right, right_room, &right_owned);
        if (left_bytes == NULL || right_bytes == NULL) {
            code = TOTALS_NO_MEMORY;
        } else {
            code = totals_call_(f, c, summand, pairs, allowance, left_bytes, left.count,
                                right_bytes, right.count, answer);
        }
        TOTALS_FREE(left_owned);
        TOTALS_FREE(right_owned);
    }
    return code;
}

static inline totals_record totals_take_(totals_format f, const totals_settings *settings,
                                         uint64_t summand, int pairs, totals_list_ left,
                                         totals_list_ right)
{
    uint8_t answer[TOTALS_ANSWER_BYTES];
    const uint64_t code = totals_lend_(f, settings, summand, pairs, NULL, left, right, answer);
    return totals_record_of_(code, answer);
}

static inline void totals_negate_(uint64_t *words, size_t count)
{
    uint64_t carry = 1;
    size_t i;
    for (i = 0; i < count; i++) {
        words[i] = ~words[i] + carry;
        carry = carry && words[i] == 0;
    }
}

/* As totals_take_, within an allowance. */
static inline totals_estimate totals_take_within_(totals_format f, const totals_settings *settings,
                                                  uint64_t summand, int pairs, uint64_t allowance,
                                                  totals_list_ left, totals_list_ right)
{
    uint8_t answer[TOTALS_WITHIN_ANSWER_BYTES];
    const uint64_t code =
        totals_lend_(f, settings, summand, pairs, &allowance, left, right, answer);
    const totals_record record = totals_record_of_(code, answer);
    totals_estimate estimate;
    size_t i;

    memset(&estimate, 0, sizeof estimate);
    estimate.result = record.result;
    estimate.passes = record.passes;
    estimate.place = record.place;
    estimate.flags = record.flags;
    estimate.refusal = record.refusal;
    estimate.side = record.side;
    if (code != TOTALS_ACCEPTED) {
        return estimate;
    }
    estimate.mark = answer[9];
    estimate.minus = answer[11];
    estimate.last_edge = (int64_t)totals_get_(answer + 24);
    estimate.whole = totals_get_(answer + 32);
    estimate.unit = (int64_t)totals_get_(answer + 40);
    for (i = 0; i < TOTALS_SUM_WORDS; i++) {
        estimate.sum[i] = totals_get_(answer + 48 + 8 * i);
    }
    estimate.negative = (unsigned)(estimate.sum[TOTALS_SUM_WORDS - 1] >> 63);
    if (estimate.negative) {
        totals_negate_(estimate.sum, TOTALS_SUM_WORDS);
    }
    estimate.elements = estimate.mark ? left.count : 0;
    return estimate;
}

/*
 * A number in two's complement, in units of 2^place. Sixteen words hold S, which takes twelve, and
 * a boundary of one word that is raised by up to TOTALS_FARTHEST_. A unit that lies so far above
 * the last edge is 2^64 times what S and the elements can be.
 */
#define TOTALS_WIDE_ 16
#define TOTALS_FARTHEST_ 832

typedef struct totals_wide_ {
    uint64_t words[TOTALS_WIDE_];
    int64_t place;
} totals_wide_;

static inline void totals_add_(totals_wide_ *wide, size_t from, uint64_t word)
{
    size_t i;
    for (i = from; i < TOTALS_WIDE_ && word != 0; i++) {
        wide->words[i] += word;
        word = wide->words[i] < word;
    }
}

/*
 * S and the boundary, less a unit for each element where toward is below 0, plus one where it is
 * above.
 */
static inline totals_wide_ totals_shown_(const totals_estimate *e, int toward)
{
    totals_wide_ wide = {{0}, e->last_edge};
    const uint64_t apart = e->unit <= e->last_edge ? 0 : (uint64_t)e->unit - (uint64_t)e->last_edge;
    const uint64_t raised = apart < TOTALS_FARTHEST_ ? apart : TOTALS_FARTHEST_;
    const size_t at = (size_t)(raised / 64);
    const unsigned bits = (unsigned)(raised % 64);
    int is_negative, is_zero = 1;
    size_t i;

    memcpy(wide.words, e->sum, sizeof e->sum);
    if (e->negative) {
        totals_negate_(wide.words, TOTALS_WIDE_);
    }
    /* x - n is -(-x + n) */
    if (toward < 0) {
        totals_negate_(wide.words, TOTALS_WIDE_);
    }
    totals_add_(&wide, 0, toward == 0 ? 0 : e->elements);
    if (toward < 0) {
        totals_negate_(wide.words, TOTALS_WIDE_);
    }
    if (e->whole == 0) {
        return wide;
    }
    if (apart > TOTALS_FARTHEST_) {
        /* S lies so far below the boundary's unit that its sign alone can part two doubles */
        is_negative = wide.words[TOTALS_WIDE_ - 1] >> 63 == 1;
        for (i = 0; i < TOTALS_WIDE_; i++) {
            is_zero = is_zero && wide.words[i] == 0;
            wide.words[i] = is_negative ? UINT64_MAX : 0;
        }
        wide.words[0] |= !is_zero;
        wide.place = e->unit - TOTALS_FARTHEST_;
    }
    if (e->minus) {
        totals_negate_(wide.words, TOTALS_WIDE_);
    }
    totals_add_(&wide, at, e->whole << bits);
    totals_add_(&wide, at + 1, bits == 0 ? 0 : e->whole >> (64 - bits));
    if (e->minus) {
        totals_negate_(wide.words, TOTALS_WIDE_);
    }
    return wide;
}

static inline int totals_digit_(const totals_wide_ *wide, int64_t at)
{
    return at >= 0 && at < 64 * TOTALS_WIDE_ && (wide->words[at / 64] >> (at % 64) & 1) == 1;
}

static inline int totals_is_set_below_(const totals_wide_ *wide, int64_t at)
{
    int64_t i;
    for (i = 0; i < at && i < 64 * TOTALS_WIDE_; i++) {
        if (totals_digit_(wide, i)) {
            return 1;
        }
    }
    return 0;
}

/*
 * The double, or infinity, at or below the number where toward is below 0, at or above it where it
 * is above, else the nearest, ties to even.
 */
static inline double totals_rounded_(totals_wide_ wide, int toward)
{
    const int is_negative = wide.words[TOTALS_WIDE_ - 1] >> 63 == 1;
    int64_t length = 64 * TOTALS_WIDE_, unit, cut, i;
    uint64_t encoding = 0;
    double x = 0;
    int is_away;

    if (is_negative) {
        totals_negate_(wide.words, TOTALS_WIDE_);
    }
    while (length > 0 && !totals_digit_(&wide, length - 1)) {
        length--;
    }
    if (length == 0) {
        return x;
    }
    /*
     * the double's lowest digit: the highest one of the number is the first of 53, or it is
     * subnormal
     */
    unit = wide.place + length - 53 > -1074 ? wide.place + length - 53 : -1074;
    cut = unit - wide.place;
    for (i = 53; i >= 0; i--) {
        encoding = encoding << 1 | (uint64_t)totals_digit_(&wide, cut + i);
    }
    if (toward == 0) {
        is_away = totals_digit_(&wide, cut - 1)
                  && (encoding % 2 == 1 || totals_is_set_below_(&wide, cut - 1));
    } else {
        is_away = (toward < 0) == is_negative && totals_is_set_below_(&wide, cut);
    }
    if (unit > 971) {
        /* 2^1024 or more: infinity, or the greatest double below it */
        encoding =
            toward == 0 || (toward < 0) == is_negative ? 0x7ff0000000000000 : 0x7fefffffffffffff;
    } else {
        /*
         * a digit in front of 53 goes into the exponent, and from the greatest double to infinity
         */
        encoding += ((uint64_t)(unit + 1074) << 52) + (uint64_t)is_away;
    }
    if (is_negative && encoding != 0) {
        encoding |= (uint64_t)1 << 63;
    }
    memcpy(&x, &encoding, sizeof x);
    return x;
}

/* As totals_take_, of lists of ten bytes an element, which are read where they lie. */
static inline totals_x87_record totals_take_x87_(const totals_settings *settings, uint64_t summand,
                                                 int pairs, totals_list_ left, totals_list_ right)
{
    static const totals_settings defaults = TOTALS_SETTINGS_INIT;
    static const uint8_t none = 0;
    const totals_settings *c = settings == NULL ? &defaults : settings;
    const int is_refused = left.count > TOTALS_MOST_ELEMENTS || right.count > TOTALS_MOST_ELEMENTS
                           || totals_is_missing_(left) || totals_is_missing_(right);
    const size_t left_size = is_refused ? 0 : left.size * left.count,
                 right_size = is_refused ? 0 : right.size * right.count;
    const uint8_t *left_bytes = left_size == 0 ? &none : (const uint8_t *)left.values;
    const uint8_t *right_bytes = right_size == 0 ? &none : (const uint8_t *)right.values;
    totals_x87_record record;
    uint8_t answer[TOTALS_X87_ANSWER_BYTES];
    uint64_t code;

    if (pairs) {
        code = totals_dot(TOTALS_EXTENDED, TOTALS_CHOICES_(c), left_bytes, left_size, right_bytes,
                          right_size, answer, TOTALS_X87_ANSWER_BYTES);
    } else {
        code = totals_sum(TOTALS_EXTENDED, TOTALS_CHOICES_(c), summand, left_bytes, left_size,
                          answer, TOTALS_X87_ANSWER_BYTES);
    }
    if (code == TOTALS_ACCEPTED && is_refused) {
        code = pairs && left.count != right.count  ? TOTALS_DIFFERENT_LENGTHS
               : left.count > TOTALS_MOST_ELEMENTS ? TOTALS_TOO_MANY_ELEMENTS
                                                   : TOTALS_NO_LIST;
    }
    memset(&record, 0, sizeof record);
    record.refusal = (unsigned)TOTALS_REFUSAL(code);
    if (code == TOTALS_ACCEPTED) {
        memcpy(record.result, answer, TOTALS_X87_BYTES);
        record.significand = totals_get_(answer);
        record.head = answer[8] | (unsigned)answer[9] << 8;
        record.flags = answer[10];
        record.side = answer[11];
        record.passes = totals_get_(answer + 24);
    }
    return record;
}

static inline totals_x87_record totals_of_x87s_(uint64_t summand, int pairs, const uint8_t *left,
                                                size_t left_count, const uint8_t *right,
                                                size_t right_count, const totals_settings *settings)
{
    return totals_take_x87_(settings, summand, pairs,
                            totals_list_of_(left, left_count, TOTALS_X87_BYTES),
                            totals_list_of_(right, right_count, TOTALS_X87_BYTES));
}

static inline totals_pence_record totals_take_pence_(totals_format f, totals_list_ list)
{
    totals_pence_record record = {0, 0, 0};
    /* As in totals_take_: a format is refused first, with an empty list too. */
    const int is_refused = list.count > TOTALS_MOST_ELEMENTS || totals_is_missing_(list);
    const totals_list_ lent = is_refused ? totals_list_of_(NULL, 0, 8) : list;
    uint64_t code, room[TOTALS_ROOM_], *owned = NULL;
    const uint64_t *words = totals_words_(lent, room, &owned);

    if (words == NULL) {
        code = TOTALS_NO_MEMORY;
    } else {
        code = totals_pence(TOTALS_NUMBERS_(f), words, lent.count, &record.figure);
    }
    TOTALS_FREE(owned);
    if (code == TOTALS_ACCEPTED && is_refused) {
        code = list.count > TOTALS_MOST_ELEMENTS ? TOTALS_TOO_MANY_ELEMENTS : TOTALS_NO_LIST;
    }
    record.refusal = (unsigned)TOTALS_REFUSAL(code);
    record.place = TOTALS_PLACE(code);
    return record;
}

/* The list and the wanted total, an encoding, to the entry. */
static inline uint64_t totals_call_contribution_(totals_format f, const totals_settings *settings,
                                                 uint64_t wanted, const uint64_t *words,
                                                 size_t count, uint8_t *answer)
{
    static const totals_settings defaults = TOTALS_SETTINGS_INIT;
    const totals_settings *c = settings == NULL ? &defaults : settings;
    return totals_contribution(TOTALS_NUMBERS_(f), TOTALS_CHOICES_(c), wanted, words, count, answer,
                               TOTALS_CONTRIBUTION_ANSWER_BYTES);
}

static inline totals_contribution_record totals_take_contribution_(totals_format f,
                                                                   const totals_settings *settings,
                                                                   totals_list_ list,
                                                                   uint64_t wanted)
{
    totals_contribution_record record = {0, 0, 0};
    /*
     * As in totals_take_: a format or a setting is refused first, with an empty list too, which
     * reaches zero under any setting.
     */
    const int is_refused = list.count >= TOTALS_MOST_ELEMENTS || totals_is_missing_(list);
    const totals_list_ lent = is_refused ? totals_list_of_(NULL, 0, 8) : list;
    uint8_t answer[TOTALS_CONTRIBUTION_ANSWER_BYTES];
    uint64_t code, room[TOTALS_ROOM_], *owned = NULL;
    const uint64_t *words = totals_words_(lent, room, &owned);

    if (words == NULL) {
        code = TOTALS_NO_MEMORY;
    } else {
        code = totals_call_contribution_(f, settings, is_refused ? 0 : wanted, words, lent.count,
                                         answer);
    }
    TOTALS_FREE(owned);
    if (code == TOTALS_ACCEPTED && is_refused) {
        code = list.count >= TOTALS_MOST_ELEMENTS ? TOTALS_TOO_MANY_ELEMENTS : TOTALS_NO_LIST;
    }
    if (code == TOTALS_ACCEPTED) {
        record.number = totals_get_(answer);
    }
    record.refusal = (unsigned)TOTALS_REFUSAL(code);
    record.place = TOTALS_PLACE(code);
    return record;
}

/* The words of the totals as the float that they encode, in the caller's list. */
static inline void totals_give_floats_(const uint64_t *words, size_t count, void *totals)
{
    size_t i;
    for (i = 0; i < count; i++) {
        const uint32_t half = (uint32_t)words[i];
        memcpy((uint8_t *)totals + i * 4, &half, 4);
    }
}

/*
 * A list of double may be lent as words to be written, too, as totals_words_ has it. Of float the
 * totals go to words of their own, and are given to the lists where the table is accepted. A shape
 * that is refused needs none of these words, however large it is.
 */
static inline totals_record totals_take_table_(totals_format f, const totals_settings *settings,
                                               totals_list_ cells, size_t rows, size_t columns,
                                               void *row_totals, size_t row_room,
                                               void *column_totals, size_t column_room)
{
    static const totals_settings defaults = TOTALS_SETTINGS_INIT;
    const totals_settings *c = settings == NULL ? &defaults : settings;
    const int is_missing = totals_is_missing_(cells) || (row_totals == NULL && row_room != 0)
                           || (column_totals == NULL && column_room != 0);
    /* As in totals_take_: a format or a setting is refused first, with an empty table too. */
    const int is_refused = cells.count > TOTALS_MOST_ELEMENTS || is_missing;
    const totals_list_ lent = is_refused ? totals_list_of_(NULL, 0, cells.size) : cells;
    const int is_shaped =
        columns == 0 ? lent.count == 0 : lent.count % columns == 0 && lent.count / columns == rows;
    const int is_copied = cells.size != 8;
    /* no more than there are totals: a room that is said to be endless is not lent */
    size_t of_rows = row_room < rows ? row_room : rows,
           of_columns = column_room < columns ? column_room : columns;
    uint8_t answer[TOTALS_ANSWER_BYTES];
    uint64_t none = 0, cell_room[TOTALS_ROOM_], total_room[TOTALS_ROOM_], *cells_owned = NULL,
             *totals_owned = NULL;
    uint64_t *row_words = &none, *column_words = &none, code;
    const uint64_t *words;

    if (is_refused) {
        rows = columns = 0;
    }
    if (is_refused || (is_copied && !is_shaped)) {
        of_rows = of_columns = 0;
    }
    words = totals_words_(lent, cell_room, &cells_owned);
    if (is_copied) {
        row_words = total_room;
        if (of_rows > TOTALS_ROOM_ || of_columns > TOTALS_ROOM_ - of_rows) {
            const int fits = of_rows <= SIZE_MAX / 32 && of_columns <= SIZE_MAX / 32;
            row_words = totals_owned =
                fits ? (uint64_t *)TOTALS_MALLOC(8 * (of_rows + of_columns)) : NULL;
        }
        column_words = row_words == NULL ? NULL : row_words + of_rows;
    } else {
        if (of_rows != 0) {
            row_words = (uint64_t *)row_totals;
        }
        if (of_columns != 0) {
            column_words = (uint64_t *)column_totals;
        }
    }
    if (words == NULL || row_words == NULL) {
        code = TOTALS_NO_MEMORY;
    } else {
        code =
            totals_table(TOTALS_NUMBERS_(f), TOTALS_CHOICES_(c), rows, columns, words, lent.count,
                         row_words, of_rows, column_words, of_columns, answer, TOTALS_ANSWER_BYTES);
    }
    if (code == TOTALS_ACCEPTED && is_refused) {
        code = cells.count > TOTALS_MOST_ELEMENTS ? TOTALS_TOO_MANY_ELEMENTS : TOTALS_NO_LIST;
    }
    if (code == TOTALS_ACCEPTED && is_copied) {
        totals_give_floats_(row_words, of_rows, row_totals);
        totals_give_floats_(column_words, of_columns, column_totals);
    }
    TOTALS_FREE(cells_owned);
    TOTALS_FREE(totals_owned);
    return totals_record_of_(code, answer);
}

/* What is wrong with the lists of a range, as far as it can be told without reading them. */
static inline uint64_t totals_unlent_(totals_list_ tags, totals_list_ first, totals_list_ second)
{
    if (tags.count != first.count || tags.count != second.count) {
        return TOTALS_DIFFERENT_LENGTHS;
    }
    if (tags.count > TOTALS_MOST_ELEMENTS) {
        return TOTALS_TOO_MANY_ELEMENTS;
    }
    return totals_is_missing_(tags) || totals_is_missing_(first) || totals_is_missing_(second)
               ? TOTALS_NO_LIST
               : TOTALS_ACCEPTED;
}

/*
 * Where the code is TOTALS_ACCEPTED, the lists have `count` elements each, or may be NULL where
 * there are none.
 */
static inline totals_range_record totals_take_range_(uint64_t code, const uint64_t *tags,
                                                     uint64_t *first, uint64_t *second,
                                                     size_t count, uint64_t ceiling)
{
    totals_range_record record = {0, 0, 0, 0, 0};
    uint64_t none[3] = {0, 0, 0}, pair[2] = {0, 0};

    if (code == TOTALS_ACCEPTED) {
        const int is_empty = count == 0;
        code = totals_range(is_empty ? none : tags, count, is_empty ? none + 1 : first, count,
                            is_empty ? none + 2 : second, count, ceiling, pair, 2);
    }
    /* a refused call leaves the pair, two of +0 */
    record.lower_bits = pair[0];
    record.upper_bits = pair[1];
    memcpy(&record.lower, &pair[0], sizeof record.lower);
    memcpy(&record.upper, &pair[1], sizeof record.upper);
    record.refusal = (unsigned)TOTALS_REFUSAL(code);
    return record;
}

static inline void totals_put_(uint8_t *bytes, uint64_t word)
{
    int i;
    for (i = 0; i < 8; i++) {
        bytes[i] = (uint8_t)(word >> 8 * i);
    }
}

/* The thirteen numbers of a target, one third of what totals_sum_into takes. */
static inline void totals_put_target_(uint8_t *bytes, const totals_target *target)
{
    const totals_format *f = &target->format;
    const totals_settings *c = &target->settings;
    const uint64_t numbers[13] = {f->kind,       f->exponent_bits,  f->width,
                                  f->bias_named, (uint64_t)f->bias, TOTALS_CHOICES_(c)};
    size_t i;
    for (i = 0; i < 13; i++) {
        totals_put_(bytes + 8 * i, numbers[i]);
    }
}

/*
 * Three targets from `targets`, or where `count` is less its last one again, with values that the
 * entry can read; a code for each.
 */
static inline void totals_enter_three_(totals_format f, uint64_t denormals_are_zero,
                                       const totals_target *targets, size_t count,
                                       const uint8_t *values, size_t size, uint64_t *codes,
                                       uint8_t *answer)
{
    uint8_t numbers[TOTALS_TARGETS_BYTES];
    uint64_t code;
    size_t i;

    for (i = 0; i < 3; i++) {
        totals_put_target_(numbers + i * (TOTALS_TARGETS_BYTES / 3),
                           targets + (i < count ? i : count - 1));
    }
    code = totals_sum_into(TOTALS_NUMBERS_(f), denormals_are_zero, numbers, TOTALS_TARGETS_BYTES,
                           values, size, answer, TOTALS_INTO_ANSWER_BYTES);
    for (i = 0; i < 3; i++) {
        codes[i] = code == TOTALS_ACCEPTED ? totals_get_(answer + 32 * i) : code;
    }
}

/* The refusal of the first target that has one. Without records there is nowhere to say more. */
static inline unsigned totals_take_into_(totals_format f, uint64_t denormals_are_zero,
                                         totals_list_ list, const totals_target *targets,
                                         size_t target_count, totals_record *records)
{
    /*
     * As in totals_take_: a format or a setting is refused first, with an empty list too. Of a list
     * that is not read 17 is not known.
     */
    const int is_refused = list.count > TOTALS_MOST_ELEMENTS || totals_is_missing_(list);
    const uint64_t unread =
        list.count > TOTALS_MOST_ELEMENTS ? TOTALS_TOO_MANY_ELEMENTS : TOTALS_NO_LIST;
    const totals_list_ lent =
        is_refused || records == NULL ? totals_list_of_(NULL, 0, list.size) : list;
    uint8_t answer[TOTALS_INTO_ANSWER_BYTES], room[8 * TOTALS_ROOM_], *owned = NULL;
    const uint8_t *values = totals_bytes_(lent, room, &owned);
    unsigned first = records == NULL && target_count != 0 ? TOTALS_NO_LIST : TOTALS_ACCEPTED;
    uint64_t codes[3] = {0, 0, 0};
    size_t i, k;

    for (i = 0; records != NULL && i < target_count; i++) {
        k = i % 3;
        if (targets != NULL && values != NULL && k == 0) {
            totals_enter_three_(f, denormals_are_zero, targets + i, target_count - i, values,
                                totals_lent_(f) * lent.count, codes, answer);
        }
        if (targets == NULL) {
            codes[k] = TOTALS_NO_LIST;
        } else if (values == NULL) {
            codes[k] = TOTALS_NO_MEMORY;
        } else if (is_refused
                   && (codes[k] == TOTALS_ACCEPTED || codes[k] == TOTALS_TARGET_OUT_OF_REACH)) {
            codes[k] = unread;
        }
        records[i] = totals_record_of_(codes[k], answer + 32 * k + 8);
        first = first == TOTALS_ACCEPTED ? records[i].refusal : first;
    }
    TOTALS_FREE(owned);
    return first;
}

/*
 * The bytes of a page behind its `count` values; of more than a page can have too, and never more
 * than a size_t holds.
 */
static inline size_t totals_behind_values_(size_t count)
{
    const size_t group = 64, summary = 12, trailer = count > TOTALS_MOST_IN_SHORT_ ? 24 : 16;
    return summary * (count / group + (count % group != 0)) + trailer;
}

/* The number of values of a page that opens, as the trailer has it that the last letter names. */
static inline size_t totals_counted_(const uint8_t *page, size_t size)
{
    const uint8_t *count = page + size - 12;
    if (page[size - 1] == '2') {
        return (size_t)totals_get_(page + size - 16);
    }
    return count[0] | (size_t)count[1] << 8 | (size_t)count[2] << 16 | (size_t)count[3] << 24;
}

static inline totals_double_record totals_as_double_(totals_record record)
{
    totals_double_record of;
    memcpy(&of.result, &record.result, sizeof of.result);
    of.bits = record.result;
    of.passes = record.passes;
    of.place = record.place;
    of.flags = record.flags;
    of.refusal = record.refusal;
    of.side = record.side;
    return of;
}

static inline totals_float_record totals_as_float_(totals_record record)
{
    totals_float_record of;
    of.bits = (uint32_t)record.result;
    memcpy(&of.result, &of.bits, sizeof of.result);
    of.passes = record.passes;
    of.place = record.place;
    of.flags = record.flags;
    of.refusal = record.refusal;
    of.side = record.side;
    return of;
}

static inline totals_double_record totals_of_doubles_(uint64_t summand, int pairs,
                                                      const double *left, size_t left_count,
                                                      const double *right, size_t right_count,
                                                      const totals_settings *settings)
{
    const totals_format f = {TOTALS_BINARY64, TOTALS_OWN_BIAS};
    return totals_as_double_(totals_take_(f, settings, summand, pairs,
                                          totals_list_of_(left, left_count, sizeof *left),
                                          totals_list_of_(right, right_count, sizeof *right)));
}

static inline totals_float_record totals_of_floats_(uint64_t summand, int pairs, const float *left,
                                                    size_t left_count, const float *right,
                                                    size_t right_count,
                                                    const totals_settings *settings)
{
    const totals_format f = {TOTALS_BINARY32, TOTALS_OWN_BIAS};
    return totals_as_float_(totals_take_(f, settings, summand, pairs,
                                         totals_list_of_(left, left_count, sizeof *left),
                                         totals_list_of_(right, right_count, sizeof *right)));
}

/*
 * The totals of `count` elements: of the values, of their magnitudes, of their squares; and of the
 * products of pairs. A list may be NULL where its count is 0, and settings NULL for
 * TOTALS_SETTINGS_INIT. A list of double is read where it lies; one of float is copied, eight bytes
 * an element: up to 2 GiB.
 */
TOTALS_MUST_USE static inline totals_double_record totals_sum_double(
    const double *values, size_t count, const totals_settings *settings)
{
    return totals_of_doubles_(TOTALS_VALUE, 0, values, count, NULL, 0, settings);
}

TOTALS_MUST_USE static inline totals_double_record totals_magnitude_sum_double(
    const double *values, size_t count, const totals_settings *settings)
{
    return totals_of_doubles_(TOTALS_MAGNITUDE, 0, values, count, NULL, 0, settings);
}

TOTALS_MUST_USE static inline totals_double_record totals_square_sum_double(
    const double *values, size_t count, const totals_settings *settings)
{
    return totals_of_doubles_(TOTALS_SQUARE, 0, values, count, NULL, 0, settings);
}

TOTALS_MUST_USE static inline totals_double_record totals_dot_double(
    const double *left, size_t left_count, const double *right, size_t right_count,
    const totals_settings *settings)
{
    return totals_of_doubles_(TOTALS_VALUE, 1, left, left_count, right, right_count, settings);
}

TOTALS_MUST_USE static inline totals_float_record totals_sum_float(const float *values,
                                                                   size_t count,
                                                                   const totals_settings *settings)
{
    return totals_of_floats_(TOTALS_VALUE, 0, values, count, NULL, 0, settings);
}

TOTALS_MUST_USE static inline totals_float_record totals_magnitude_sum_float(
    const float *values, size_t count, const totals_settings *settings)
{
    return totals_of_floats_(TOTALS_MAGNITUDE, 0, values, count, NULL, 0, settings);
}

TOTALS_MUST_USE static inline totals_float_record totals_square_sum_float(
    const float *values, size_t count, const totals_settings *settings)
{
    return totals_of_floats_(TOTALS_SQUARE, 0, values, count, NULL, 0, settings);
}

TOTALS_MUST_USE static inline totals_float_record totals_dot_float(const float *left,
                                                                   size_t left_count,
                                                                   const float *right,
                                                                   size_t right_count,
                                                                   const totals_settings *settings)
{
    return totals_of_floats_(TOTALS_VALUE, 1, left, left_count, right, right_count, settings);
}

/* The same of encodings of a format, one to a uint64_t. */
TOTALS_MUST_USE static inline totals_record totals_sum_words(totals_format format, uint64_t summand,
                                                             const uint64_t *values, size_t count,
                                                             const totals_settings *settings)
{
    return totals_take_(format, settings, summand, 0,
                        totals_list_of_(values, count, sizeof *values),
                        totals_list_of_(NULL, 0, sizeof *values));
}

TOTALS_MUST_USE static inline totals_record totals_dot_words(
    totals_format format, const uint64_t *left, size_t left_count, const uint64_t *right,
    size_t right_count, const totals_settings *settings)
{
    return totals_take_(format, settings, TOTALS_VALUE, 1,
                        totals_list_of_(left, left_count, sizeof *left),
                        totals_list_of_(right, right_count, sizeof *right));
}

/*
 * The same of `count` values of ten bytes, in TOTALS_EXTENDED, read where they lie, at any address.
 * The long double of x86-64 Linux takes sixteen bytes, of which the first ten are such a value.
 */
TOTALS_MUST_USE static inline totals_x87_record totals_sum_x87(const uint8_t *values, size_t count,
                                                               const totals_settings *settings)
{
    return totals_of_x87s_(TOTALS_VALUE, 0, values, count, NULL, 0, settings);
}

TOTALS_MUST_USE static inline totals_x87_record totals_magnitude_sum_x87(
    const uint8_t *values, size_t count, const totals_settings *settings)
{
    return totals_of_x87s_(TOTALS_MAGNITUDE, 0, values, count, NULL, 0, settings);
}

TOTALS_MUST_USE static inline totals_x87_record totals_square_sum_x87(
    const uint8_t *values, size_t count, const totals_settings *settings)
{
    return totals_of_x87s_(TOTALS_SQUARE, 0, values, count, NULL, 0, settings);
}

TOTALS_MUST_USE static inline totals_x87_record totals_dot_x87(const uint8_t *left,
                                                               size_t left_count,
                                                               const uint8_t *right,
                                                               size_t right_count,
                                                               const totals_settings *settings)
{
    return totals_of_x87s_(TOTALS_VALUE, 1, left, left_count, right, right_count, settings);
}

/*
 * The pence of the exact sum of `count` elements, as totals_pence has them. A list may be NULL
 * where its count is 0.
 */
TOTALS_MUST_USE static inline totals_pence_record totals_pence_double(const double *values,
                                                                      size_t count)
{
    const totals_format f = {TOTALS_BINARY64, TOTALS_OWN_BIAS};
    return totals_take_pence_(f, totals_list_of_(values, count, sizeof *values));
}

TOTALS_MUST_USE static inline totals_pence_record totals_pence_float(const float *values,
                                                                     size_t count)
{
    const totals_format f = {TOTALS_BINARY32, TOTALS_OWN_BIAS};
    return totals_take_pence_(f, totals_list_of_(values, count, sizeof *values));
}

TOTALS_MUST_USE static inline totals_pence_record totals_pence_words(totals_format format,
                                                                     const uint64_t *values,
                                                                     size_t count)
{
    return totals_take_pence_(format, totals_list_of_(values, count, sizeof *values));
}

/*
 * The sums of the rows and of the columns of a table of `count` cells, row after row, as
 * totals_table has them. The record is that of all cells. row_room and column_room say how many
 * totals there is room for. A list may be NULL where it is empty, and settings NULL for
 * TOTALS_SETTINGS_INIT. Lists of double are written where they lie; of float the cells and the
 * totals are copied, eight bytes each.
 */
TOTALS_MUST_USE static inline totals_double_record totals_table_double(
    const double *cells, size_t count, size_t rows, size_t columns, double *row_totals,
    size_t row_room, double *column_totals, size_t column_room, const totals_settings *settings)
{
    const totals_format f = {TOTALS_BINARY64, TOTALS_OWN_BIAS};
    return totals_as_double_(
        totals_take_table_(f, settings, totals_list_of_(cells, count, sizeof *cells), rows, columns,
                           row_totals, row_room, column_totals, column_room));
}

TOTALS_MUST_USE static inline totals_float_record totals_table_float(
    const float *cells, size_t count, size_t rows, size_t columns, float *row_totals,
    size_t row_room, float *column_totals, size_t column_room, const totals_settings *settings)
{
    const totals_format f = {TOTALS_BINARY32, TOTALS_OWN_BIAS};
    return totals_as_float_(
        totals_take_table_(f, settings, totals_list_of_(cells, count, sizeof *cells), rows, columns,
                           row_totals, row_room, column_totals, column_room));
}

TOTALS_MUST_USE static inline totals_record totals_table_words(
    totals_format format, const uint64_t *cells, size_t count, size_t rows, size_t columns,
    uint64_t *row_totals, size_t row_room, uint64_t *column_totals, size_t column_room,
    const totals_settings *settings)
{
    return totals_take_table_(format, settings, totals_list_of_(cells, count, sizeof *cells), rows,
                              columns, row_totals, row_room, column_totals, column_room);
}

/*
 * The lower and the upper total of entries, as totals_range has them. A list may be NULL where its
 * count is 0. Of double both lists of figures are only read, and may be one: they are copied, eight
 * bytes a figure, up to 4 GiB. Words are lent where they lie, so an accepted call leaves the lows
 * in first and the highs in second.
 */
TOTALS_MUST_USE static inline totals_range_record totals_range_double(
    const uint64_t *tags, size_t tag_count, const double *first, size_t first_count,
    const double *second, size_t second_count, double ceiling)
{
    uint64_t code = totals_unlent_(totals_list_of_(tags, tag_count, sizeof *tags),
                                   totals_list_of_(first, first_count, sizeof *first),
                                   totals_list_of_(second, second_count, sizeof *second));
    uint64_t room[2 * TOTALS_ROOM_], *owned = NULL, *lows = room, *highs = room + TOTALS_ROOM_,
                                     most;
    totals_range_record record;

    if (code == TOTALS_ACCEPTED && tag_count > TOTALS_ROOM_) {
        owned = (uint64_t *)TOTALS_MALLOC(2 * 8 * tag_count);
        if (owned == NULL) {
            code = TOTALS_NO_MEMORY;
        } else {
            lows = owned;
            highs = owned + tag_count;
        }
    }
    if (code == TOTALS_ACCEPTED && tag_count != 0) {
        memcpy(lows, first, 8 * tag_count);
        memcpy(highs, second, 8 * tag_count);
    }
    memcpy(&most, &ceiling, sizeof most);
    record = totals_take_range_(code, tags, lows, highs, tag_count, most);
    TOTALS_FREE(owned);
    return record;
}

TOTALS_MUST_USE static inline totals_range_record totals_range_words(
    const uint64_t *tags, size_t tag_count, uint64_t *first, size_t first_count, uint64_t *second,
    size_t second_count, uint64_t ceiling)
{
    const uint64_t code = totals_unlent_(totals_list_of_(tags, tag_count, sizeof *tags),
                                         totals_list_of_(first, first_count, sizeof *first),
                                         totals_list_of_(second, second_count, sizeof *second));
    return totals_take_range_(code, tags, first, second, tag_count, ceiling);
}

/*
 * The length of the page of `count` values, in bytes; 0 where there are more than
 * TOTALS_MOST_ELEMENTS, which no page has. The page of no values is not empty.
 */
TOTALS_MUST_USE static inline size_t totals_page_length(size_t count)
{
    return count > TOTALS_MOST_ELEMENTS ? 0 : 8 * count + totals_behind_values_(count);
}

/*
 * Writes the page of `count` values to `page`, which has room for `size` bytes, as
 * totals_page_write does; length says how many were written. A pointer may be NULL where its count
 * or size is 0.
 */
TOTALS_MUST_USE static inline totals_page_record totals_page_write_double(const double *values,
                                                                          size_t count,
                                                                          uint8_t *page,
                                                                          size_t size)
{
    const totals_list_ list = totals_list_of_(values, count, sizeof *values);
    const int is_missing = totals_is_missing_(list) || (page == NULL && size != 0);
    const size_t length = totals_page_length(count);
    totals_page_record record = {0, 0, 0};
    uint8_t none = 0;
    uint64_t code;

    if (count <= TOTALS_MOST_ELEMENTS && !is_missing) {
        /* no more than the page: a room that is said to be endless is not lent */
        code = totals_page_write(totals_words_(list, NULL, NULL), count,
                                 page == NULL ? &none : page, size < length ? size : length);
    } else {
        code = size / 8 < count || size - 8 * count < totals_behind_values_(count)
                   ? TOTALS_SHORT_BUFFER
               : count > TOTALS_MOST_ELEMENTS ? TOTALS_TOO_MANY_ELEMENTS
                                              : TOTALS_NO_LIST;
    }
    record.refusal = (unsigned)TOTALS_REFUSAL(code);
    if (record.refusal == TOTALS_ACCEPTED) {
        record.length = (size_t)TOTALS_PLACE(code);
        record.count = count;
    }
    return record;
}

/*
 * The total of the values from the index start up to the index end, itself left out, of the page
 * that the `size` bytes are, as totals_page_sum has it. The page may be NULL where its size is 0,
 * and is then none; settings may be NULL for TOTALS_SETTINGS_INIT.
 */
TOTALS_MUST_USE static inline totals_double_record totals_page_sum_double(
    const uint8_t *page, size_t size, size_t start, size_t end, const totals_settings *settings,
    uint64_t summand)
{
    static const totals_settings defaults = TOTALS_SETTINGS_INIT;
    static const uint8_t none = 0;
    const totals_settings *c = settings == NULL ? &defaults : settings;
    uint8_t answer[TOTALS_ANSWER_BYTES];
    uint64_t code;

    if (page == NULL && size != 0) {
        code = TOTALS_NO_LIST;
    } else if (size > totals_page_length(TOTALS_MOST_ELEMENTS)) {
        /* longer than any page, and perhaps than any memory */
        code = TOTALS_NOT_A_PAGE;
    } else {
        code = totals_page_sum(page == NULL ? &none : page, size, start, end, TOTALS_CHOICES_(c),
                               summand, answer, TOTALS_ANSWER_BYTES);
    }
    return totals_as_double_(totals_record_of_(code, answer));
}

/*
 * The number of values of the page that the `size` bytes are, or TOTALS_NOT_A_PAGE where they are
 * none.
 */
TOTALS_MUST_USE static inline totals_page_record totals_page_count(const uint8_t *page, size_t size)
{
    totals_page_record record = {0, 0, 0};
    /* every page that opens has an empty span */
    record.refusal = totals_page_sum_double(page, size, 0, 0, NULL, TOTALS_VALUE).refusal;
    if (record.refusal == TOTALS_ACCEPTED) {
        record.length = size;
        record.count = totals_counted_(page, size);
    }
    return record;
}

/*
 * The exact sum of `count` elements, rounded once into each of `target_count` targets, any number
 * of them, as totals_sum_into has it. The record of each goes to `records`, which has room for as
 * many, apart from the list and the targets; its result is an encoding of the target's format.
 * Returns TOTALS_ACCEPTED where no target is refused, else the refusal of the first that is; that
 * of each stands in its record. The list is summed once for each three. One of float is copied
 * once, eight bytes an element: up to 2 GiB. A pointer may be NULL where its count is 0. Where the
 * list is NULL and is not empty, a record without a refusal of 3 to 6 says TOTALS_NO_LIST, and
 * where the targets are, every record does; where the records are, that is returned.
 */
TOTALS_MUST_USE static inline unsigned totals_sum_into_double(const double *values, size_t count,
                                                              uint64_t denormals_are_zero,
                                                              const totals_target *targets,
                                                              size_t target_count,
                                                              totals_record *records)
{
    const totals_format f = {TOTALS_BINARY64, TOTALS_OWN_BIAS};
    return totals_take_into_(f, denormals_are_zero, totals_list_of_(values, count, sizeof *values),
                             targets, target_count, records);
}

TOTALS_MUST_USE static inline unsigned totals_sum_into_float(const float *values, size_t count,
                                                             uint64_t denormals_are_zero,
                                                             const totals_target *targets,
                                                             size_t target_count,
                                                             totals_record *records)
{
    const totals_format f = {TOTALS_BINARY32, TOTALS_OWN_BIAS};
    return totals_take_into_(f, denormals_are_zero, totals_list_of_(values, count, sizeof *values),
                             targets, target_count, records);
}

TOTALS_MUST_USE static inline unsigned totals_sum_into_words(
    totals_format format, const uint64_t *values, size_t count, uint64_t denormals_are_zero,
    const totals_target *targets, size_t target_count, totals_record *records)
{
    return totals_take_into_(format, denormals_are_zero,
                             totals_list_of_(values, count, sizeof *values), targets, target_count,
                             records);
}

/*
 * The total of `count` elements, by its summand, within an allowance of passes, as
 * totals_sum_within has it. A list may be NULL where its count is 0, and settings NULL for
 * TOTALS_SETTINGS_INIT. A list of double is read where it lies; one of float is copied, eight bytes
 * an element: up to 2 GiB. TOTALS_NO_PASS_ALLOWED comes first; of a list that is not there
 * TOTALS_NO_LIST comes behind TOTALS_TOO_MANY_ELEMENTS.
 */
TOTALS_MUST_USE static inline totals_estimate totals_sum_within_double(
    uint64_t summand, const double *values, size_t count, uint64_t allowance,
    const totals_settings *settings)
{
    const totals_format f = {TOTALS_BINARY64, TOTALS_OWN_BIAS};
    return totals_take_within_(f, settings, summand, 0, allowance,
                               totals_list_of_(values, count, sizeof *values),
                               totals_list_of_(NULL, 0, sizeof *values));
}

TOTALS_MUST_USE static inline totals_estimate totals_sum_within_float(
    uint64_t summand, const float *values, size_t count, uint64_t allowance,
    const totals_settings *settings)
{
    const totals_format f = {TOTALS_BINARY32, TOTALS_OWN_BIAS};
    return totals_take_within_(f, settings, summand, 0, allowance,
                               totals_list_of_(values, count, sizeof *values),
                               totals_list_of_(NULL, 0, sizeof *values));
}

TOTALS_MUST_USE static inline totals_estimate totals_sum_within_words(
    totals_format format, uint64_t summand, const uint64_t *values, size_t count,
    uint64_t allowance, const totals_settings *settings)
{
    return totals_take_within_(format, settings, summand, 0, allowance,
                               totals_list_of_(values, count, sizeof *values),
                               totals_list_of_(NULL, 0, sizeof *values));
}

/* The same of the products of pairs. */
TOTALS_MUST_USE static inline totals_estimate totals_dot_within_double(
    const double *left, size_t left_count, const double *right, size_t right_count,
    uint64_t allowance, const totals_settings *settings)
{
    const totals_format f = {TOTALS_BINARY64, TOTALS_OWN_BIAS};
    return totals_take_within_(f, settings, TOTALS_VALUE, 1, allowance,
                               totals_list_of_(left, left_count, sizeof *left),
                               totals_list_of_(right, right_count, sizeof *right));
}

TOTALS_MUST_USE static inline totals_estimate totals_dot_within_float(
    const float *left, size_t left_count, const float *right, size_t right_count,
    uint64_t allowance, const totals_settings *settings)
{
    const totals_format f = {TOTALS_BINARY32, TOTALS_OWN_BIAS};
    return totals_take_within_(f, settings, TOTALS_VALUE, 1, allowance,
                               totals_list_of_(left, left_count, sizeof *left),
                               totals_list_of_(right, right_count, sizeof *right));
}

TOTALS_MUST_USE static inline totals_estimate totals_dot_within_words(
    totals_format format, const uint64_t *left, size_t left_count, const uint64_t *right,
    size_t right_count, uint64_t allowance, const totals_settings *settings)
{
    return totals_take_within_(format, settings, TOTALS_VALUE, 1, allowance,
                               totals_list_of_(left, left_count, sizeof *left),
                               totals_list_of_(right, right_count, sizeof *right));
}

/*
 * The least number with which, behind `count` elements, the total is `wanted`, as
 * totals_contribution has it. A list may be NULL where its count is 0, and settings NULL for
 * TOTALS_SETTINGS_INIT. A list of double is read where it lies; one of float is copied, eight bytes
 * an element: up to 2 GiB. Of a list that is not there TOTALS_NO_LIST comes behind
 * TOTALS_TOO_MANY_ELEMENTS, and before whatever is wrong with the wanted total; so does
 * TOTALS_NO_MEMORY.
 */
TOTALS_MUST_USE static inline totals_double_contribution_record totals_contribution_double(
    const double *values, size_t count, double wanted, const totals_settings *settings)
{
    const totals_format f = {TOTALS_BINARY64, TOTALS_OWN_BIAS};
    totals_double_contribution_record of;
    totals_contribution_record record;
    uint64_t bits;

    memcpy(&bits, &wanted, sizeof bits);
    record = totals_take_contribution_(f, settings, totals_list_of_(values, count, sizeof *values),
                                       bits);
    of.bits = record.number;
    memcpy(&of.number, &of.bits, sizeof of.number);
    of.place = record.place;
    of.refusal = record.refusal;
    return of;
}

TOTALS_MUST_USE static inline totals_float_contribution_record totals_contribution_float(
    const float *values, size_t count, float wanted, const totals_settings *settings)
{
    const totals_format f = {TOTALS_BINARY32, TOTALS_OWN_BIAS};
    totals_float_contribution_record of;
    totals_contribution_record record;
    uint32_t bits;

    memcpy(&bits, &wanted, sizeof bits);
    record = totals_take_contribution_(f, settings, totals_list_of_(values, count, sizeof *values),
                                       bits);
    of.bits = (uint32_t)record.number;
    memcpy(&of.number, &of.bits, sizeof of.number);
    of.place = record.place;
    of.refusal = record.refusal;
    return of;
}

TOTALS_MUST_USE static inline totals_contribution_record totals_contribution_words(
    totals_format format, const uint64_t *values, size_t count, uint64_t wanted,
    const totals_settings *settings)
{
    return totals_take_contribution_(format, settings,
                                     totals_list_of_(values, count, sizeof *values), wanted);
}

/*
 * Of an unfinished estimate two doubles, or infinities, that have the exact sum between them, or
 * are it: S and the boundary less and plus a unit for each element, rounded down and up. And S and
 * the boundary as the nearest double, which lies between the two: a figure to show, not a result.
 * Each is of the sum as a number, before it is rounded to the format, and a zero is +0. Of any
 * other estimate they are 0.
 */
TOTALS_MUST_USE static inline double totals_lower(const totals_estimate *estimate)
{
    return totals_rounded_(totals_shown_(estimate, -1), -1);
}

TOTALS_MUST_USE static inline double totals_upper(const totals_estimate *estimate)
{
    return totals_rounded_(totals_shown_(estimate, 1), 1);
}

TOTALS_MUST_USE static inline double totals_figure(const totals_estimate *estimate)
{
    return totals_rounded_(totals_shown_(estimate, 0), 0);
}

#ifdef __cplusplus
}
#endif

#endif
