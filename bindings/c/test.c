/* Every function with good, refused and empty input, as a caller in C or C++ meets them. */
#ifndef _GNU_SOURCE
#define _GNU_SOURCE /* MAP_ANONYMOUS; C++ has it already */
#endif
#include <inttypes.h>
#include <stdio.h>
#include <stdlib.h>
#include <string.h>
#include <sys/mman.h>

/* Memory that can run out, and is counted; the size that was last asked for. */
static int has_memory = 1;
static int owned = 0;
static size_t asked = 0;

static void *taken(size_t size)
{
    asked = size;
    if (!has_memory) {
        return NULL;
    }
    owned++;
    return malloc(size);
}

static void given_back(void *pointer)
{
    owned -= pointer != NULL;
    free(pointer);
}

#define TOTALS_MALLOC(size) taken(size)
#define TOTALS_FREE(pointer) given_back(pointer)
#include "totals.h"

#define UNTOUCHED 0xa5
#define ROOM 40
/*
 * A long list of these tests, longer than a page with a short trailer. One as long as may be is
 * summed in rows.c.
 */
#define LONG 1048577

static int failures = 0;

#define CHECK(what) check(what, #what, __LINE__)

static void check(int holds, const char *what, int line)
{
    if (!holds) {
        fprintf(stderr, "test.c:%d: not so: %s\n", line, what);
        failures++;
    }
}

/* The words of each list of addresses() that there is memory for. */
#define OPEN_WORDS 512

/*
 * Addresses of more words than a list may have, for lists that are refused by their length. To read
 * or to write a word behind the first OPEN_WORDS, which are 0, ends the program.
 */
static uint64_t *addresses(size_t count)
{
    void *list =
        mmap(NULL, 8 * count, PROT_NONE, MAP_PRIVATE | MAP_ANONYMOUS | MAP_NORESERVE, -1, 0);
    if (list == MAP_FAILED || mprotect(list, 8 * OPEN_WORDS, PROT_READ | PROT_WRITE) != 0) {
        perror("test.c: addresses");
        exit(1);
    }
    return (uint64_t *)list;
}

/* The number with an encoding; C++11 has no hexadecimal floats. */
static double number(uint64_t encoding)
{
    double x;
    memcpy(&x, &encoding, sizeof x);
    return x;
}

/* 2^n, for a normal number. */
static double power(int n)
{
    return number((uint64_t)(n + 1023) << 52);
}

static uint8_t answer[ROOM];

static void clear(void)
{
    memset(answer, UNTOUCHED, sizeof answer);
}

static uint64_t word(size_t at)
{
    uint64_t x;
    memcpy(&x, answer + at, sizeof x);
    return x;
}

static int untouched_from(size_t at)
{
    for (; at < ROOM; at++) {
        if (answer[at] != UNTOUCHED) {
            return 0;
        }
    }
    return 1;
}

/*
 * The whole buffer after an accepted call; the flags' word shows the side in byte 10 and the zeros
 * beside it.
 */
static int holds(uint64_t result, uint64_t flags, uint64_t passes, uint64_t side)
{
    return word(0) == result && word(8) == flags + (side << 16) && word(16) == passes
           && untouched_from(TOTALS_ANSWER_BYTES);
}

static uint64_t sum(uint64_t rounding, uint64_t summand, const double *list, size_t n)
{
    clear();
    return totals_sum(TOTALS_BINARY64, rounding, 0, 0, 0, 0, 0, 0, 0, summand,
                      (const uint8_t *)list, n * sizeof *list, answer, sizeof answer);
}

static uint64_t dot(const double *left, size_t n, const double *right, size_t m)
{
    clear();
    return totals_dot(TOTALS_BINARY64, TOTALS_DEFAULTS, (const uint8_t *)left, n * sizeof *left,
                      (const uint8_t *)right, m * sizeof *right, answer, sizeof answer);
}

static uint64_t halves(const uint64_t *list, size_t n)
{
    clear();
    return totals_sum(TOTALS_BINARY16, TOTALS_DEFAULTS, TOTALS_VALUE,
                      (const uint8_t *)list, n * sizeof *list, answer, sizeof answer);
}

static void accepted(void)
{
    const double cancelling[3] = {power(1000), 1, -power(1000)};
    const double above[3] = {1, power(-53), power(-1000)};
    const double largest[2] = {number(0x7fefffffffffffff), number(0x7fefffffffffffff)};
    const double zeros[2] = {0.0, -0.0};
    const double small[1] = {power(-600)};
    const double left[2] = {1.5, 2}, right[2] = {2, 0.25};
    const uint64_t half[2] = {0x3c00, 0x3800};

    CHECK(sum(TOTALS_TIES_TO_EVEN, TOTALS_VALUE, cancelling, 0) == 0
          && holds(0, 0, 0, TOTALS_EQUAL));
    CHECK(sum(TOTALS_TOWARD_NEGATIVE, TOTALS_VALUE, zeros, 2) == 0
          && holds(0x8000000000000000, 0, 0, TOTALS_EQUAL));
    CHECK(sum(TOTALS_TIES_TO_EVEN, TOTALS_VALUE, cancelling, 3) == 0
          && holds(0x3ff0000000000000, 0, 2, TOTALS_EQUAL));
    CHECK(sum(TOTALS_TIES_TO_EVEN, TOTALS_VALUE, above, 3) == 0
          && holds(0x3ff0000000000001, TOTALS_INEXACT + TOTALS_ROUNDED_UP, 2, TOTALS_ABOVE));
    CHECK(sum(TOTALS_TIES_TO_EVEN, TOTALS_VALUE, largest, 2) == 0
          && holds(0x7ff0000000000000, TOTALS_OVERFLOW + TOTALS_INEXACT + TOTALS_ROUNDED_UP, 1,
                   TOTALS_NO_COMPARISON));
    CHECK(sum(TOTALS_TOWARD_ZERO, TOTALS_VALUE, largest, 2) == 0
          && holds(0x7fefffffffffffff, TOTALS_OVERFLOW + TOTALS_INEXACT, 1, TOTALS_BELOW));
    CHECK(sum(TOTALS_TIES_TO_EVEN, TOTALS_SQUARE, small, 1) == 0
          && holds(0, TOTALS_UNDERFLOW + TOTALS_INEXACT + TOTALS_TINY, 1, TOTALS_BELOW));
    CHECK(sum(TOTALS_TIES_TO_EVEN, TOTALS_MAGNITUDE, cancelling + 1, 1) == 0
          && holds(0x3ff0000000000000, 0, 1, TOTALS_EQUAL));
    CHECK(dot(left, 2, right, 2) == 0 && holds(0x400c000000000000, 0, 1, TOTALS_EQUAL));
    CHECK(halves(half, 2) == 0 && holds(0x3e00, 0, 1, TOTALS_EQUAL));
}

/* A refused call returns its number and leaves the buffer as it was. */
static void refused(void)
{
    const double list[3] = {1, 2, 3};
    const uint64_t stray[3] = {1, 0x10000, 0x20000};
    const uint8_t *bytes = (const uint8_t *)list;
    uint64_t code;

    clear();
    CHECK(totals_sum(TOTALS_BINARY64, TOTALS_DEFAULTS, TOTALS_VALUE, bytes, 7, answer, ROOM)
          == TOTALS_UNEVEN_LENGTH);
    CHECK(totals_sum(TOTALS_BINARY64, TOTALS_DEFAULTS, TOTALS_VALUE, bytes, 8, answer, 23)
          == TOTALS_SHORT_BUFFER);
    CHECK(totals_sum(TOTALS_IEEE, 11, 12, TOTALS_DEFAULTS, TOTALS_VALUE, bytes, 8, answer, ROOM)
          == TOTALS_NO_SUCH_FORMAT);
    CHECK(totals_sum(TOTALS_BINARY64, TOTALS_DEFAULTS, 3, bytes, 8, answer, ROOM)
          == TOTALS_SETTING_OUT_OF_RANGE);
    CHECK(untouched_from(0));
    CHECK(dot(list, 2, list, 3) == TOTALS_DIFFERENT_LENGTHS && untouched_from(0));
    code = halves(stray, 3);
    CHECK(TOTALS_REFUSAL(code) == TOTALS_STRAY_BIT && TOTALS_PLACE(code) == 1 && untouched_from(0));
}

/* 1 + 1 = 2 in every format that the header names. */
static void formats(void)
{
#define TWO(format, one, two) \
    do { \
        const uint64_t list[2] = {one, one}; \
        clear(); \
        CHECK(totals_sum(format, TOTALS_DEFAULTS, TOTALS_VALUE, (const uint8_t *)list, \
                         sizeof list, answer, ROOM) \
              == 0); \
        CHECK(holds(two, 0, 1, TOTALS_EQUAL)); \
    } while (0)
    TWO(TOTALS_BINARY64, 0x3ff0000000000000, 0x4000000000000000);
    TWO(TOTALS_BINARY32, 0x3f800000, 0x40000000);
    TWO(TOTALS_BINARY16, 0x3c00, 0x4000);
    TWO(TOTALS_BFLOAT16, 0x3f80, 0x4000);
    TWO(TOTALS_TF32, 0x1fc00, 0x20000);
    TWO(TOTALS_E5M2, 0x3c, 0x40);
    TWO(TOTALS_E4M3, 0x38, 0x40);
    TWO(TOTALS_E5M2_FNUZ, 0x40, 0x44);
    TWO(TOTALS_E4M3_FNUZ, 0x40, 0x48);
    TWO(TOTALS_E3M2, 0x0c, 0x10);
    TWO(TOTALS_E2M3, 0x08, 0x10);
    TWO(TOTALS_E2M1, 0x2, 0x4);
}

/* A record in which nothing is set but the refusal and its place. */
#define REFUSED(record, number, at) \
    ((record).refusal == (number) && (record).place == (at) && (record).result == 0 \
     && (record).flags == 0 && (record).passes == 0 && (record).side == TOTALS_EQUAL)

static void doubles(void)
{
    const double list[3] = {power(1000), 1, -power(1000)};
    const double above[3] = {1, power(-53), power(-1000)};
    const double left[2] = {1.5, -2}, right[2] = {2, 0.25};
    totals_settings settings = TOTALS_SETTINGS_INIT;
    totals_double_record record = totals_sum_double(list, 3, NULL);

    CHECK(record.refusal == TOTALS_ACCEPTED && record.place == 0);
    CHECK(record.result == 1 && record.bits == 0x3ff0000000000000 && record.flags == 0
          && record.passes == 2);
    CHECK(record.side == TOTALS_EQUAL);
    record = totals_sum_double(above, 3, &settings);
    CHECK(record.bits == 0x3ff0000000000001 && record.flags == TOTALS_INEXACT + TOTALS_ROUNDED_UP
          && record.passes == 2);
    CHECK(record.side == TOTALS_ABOVE);
    settings.rounding = TOTALS_TOWARD_ZERO;
    record = totals_sum_double(above, 3, &settings);
    CHECK(record.result == 1 && record.flags == TOTALS_INEXACT && record.side == TOTALS_BELOW);
    CHECK(totals_magnitude_sum_double(left, 2, NULL).result == 3.5);
    CHECK(totals_square_sum_double(left, 2, NULL).result == 6.25);
    CHECK(totals_dot_double(left, 2, right, 2, NULL).result == 2.5);
    CHECK(totals_dot_double(left, 2, left, 2, NULL).bits
          == totals_square_sum_double(left, 2, NULL).bits);

    /* an empty list needs no pointer; zeros of both signs are +0, and -0 toward negative */
    CHECK(totals_sum_double(NULL, 0, NULL).refusal == TOTALS_ACCEPTED
          && totals_sum_double(NULL, 0, NULL).bits == 0);
    CHECK(totals_dot_double(NULL, 0, NULL, 0, NULL).refusal == TOTALS_ACCEPTED);
    settings.rounding = TOTALS_TOWARD_NEGATIVE;
    CHECK(totals_dot_double(left, 2, list, 0, &settings).refusal == TOTALS_DIFFERENT_LENGTHS);
    {
        const double zeros[2] = {0.0, -0.0};
        CHECK(totals_sum_double(zeros, 2, NULL).bits == 0);
        CHECK(totals_sum_double(zeros, 2, &settings).bits == 0x8000000000000000);
    }
}

static int same(totals_double_record x, totals_double_record y)
{
    return x.bits == y.bits && x.passes == y.passes && x.place == y.place && x.flags == y.flags
           && x.refusal == y.refusal && x.side == y.side;
}

/*
 * Of finite values the negated ones, in a dot those of the left list alone, have the negated record
 * in the other directed mode; a square sum has that of the dot product of the list with itself.
 */
static void habits(void)
{
    const double list[3] = {1, power(-53), power(-1000)},
                 negated[3] = {-1, -power(-53), -power(-1000)};
    const double prices[3] = {3, 1, -1};
    const double squared[3] = {1.5, -power(-600), -0.0},
                 infinite[2] = {number(0xfff0000000000000), 1};
    totals_settings up = TOTALS_SETTINGS_INIT, down = TOTALS_SETTINGS_INIT;
    totals_double_record record, other;
    up.rounding = TOTALS_TOWARD_POSITIVE;
    down.rounding = TOTALS_TOWARD_NEGATIVE;

    record = totals_sum_double(list, 3, &up);
    other = totals_sum_double(negated, 3, &down);
    CHECK(record.bits == 0x3ff0000000000001 && other.bits == 0xbff0000000000001
          && record.passes == 2 && other.passes == 2);
    CHECK(record.flags == TOTALS_INEXACT + TOTALS_ROUNDED_UP && other.flags == record.flags);
    CHECK(record.side == TOTALS_ABOVE && other.side == TOTALS_BELOW);

    record = totals_dot_double(list, 3, prices, 3, &down);
    other = totals_dot_double(negated, 3, prices, 3, &up);
    CHECK(record.bits == 0x4008000000000000 && other.bits == 0xc008000000000000
          && other.passes == record.passes);
    CHECK(record.flags == TOTALS_INEXACT && other.flags == record.flags);
    CHECK(record.side == TOTALS_BELOW && other.side == TOTALS_ABOVE);

    record = totals_square_sum_double(squared, 3, NULL);
    CHECK(record.result == 2.25 && record.flags == TOTALS_INEXACT && record.side == TOTALS_BELOW);
    CHECK(same(record, totals_dot_double(squared, 3, squared, 3, NULL)));
    record = totals_square_sum_double(infinite, 2, NULL);
    CHECK(record.bits == 0x7ff0000000000000 && record.side == TOTALS_NO_COMPARISON);
    CHECK(same(record, totals_dot_double(infinite, 2, infinite, 2, NULL)));
}

static void floats(void)
{
    const float list[3] = {16777216, 1, -16777216};
    const float left[2] = {1.5f, -2}, right[2] = {2, 0.25f};
    float many[2 * TOTALS_ROOM_];
    totals_settings settings = TOTALS_SETTINGS_INIT;
    totals_float_record record = totals_sum_float(list, 3, NULL);
    size_t i;

    CHECK(record.refusal == TOTALS_ACCEPTED && record.place == 0);
    CHECK(record.result == 1 && record.bits == 0x3f800000 && record.flags == 0
          && record.passes == 1);
    record = totals_sum_float(list, 2, NULL);
    CHECK(record.result == 16777216 && record.flags == TOTALS_INEXACT
          && record.side == TOTALS_BELOW);
    settings.rounding = TOTALS_TOWARD_POSITIVE;
    record = totals_sum_float(list, 2, &settings);
    CHECK(record.result == 16777218 && record.flags == TOTALS_INEXACT + TOTALS_ROUNDED_UP
          && record.side == TOTALS_ABOVE);
    CHECK(totals_magnitude_sum_float(left, 2, NULL).result == 3.5f);
    CHECK(totals_square_sum_float(left, 2, NULL).result == 6.25f);
    CHECK(totals_dot_float(left, 2, right, 2, NULL).result == 2.5f);
    CHECK(totals_sum_float(NULL, 0, NULL).refusal == TOTALS_ACCEPTED
          && totals_sum_float(NULL, 0, NULL).bits == 0);

    /* one less, as many and one more than find room without a copy in memory of its own */
    for (i = 0; i < 2 * TOTALS_ROOM_; i++) {
        many[i] = (float)(i + 1);
    }
    for (i = TOTALS_ROOM_ - 1; i <= TOTALS_ROOM_ + 1; i++) {
        CHECK(totals_sum_float(many, i, NULL).result == (float)(i * (i + 1) / 2));
        CHECK(totals_dot_float(many, i, many, i, NULL).bits
              == totals_square_sum_float(many, i, NULL).bits);
    }
    CHECK(owned == 0);
    has_memory = 0;
    CHECK(totals_sum_float(many, TOTALS_ROOM_, NULL).refusal == TOTALS_ACCEPTED);
    CHECK(REFUSED(totals_sum_float(many, TOTALS_ROOM_ + 1, NULL), TOTALS_NO_MEMORY, 0));
    CHECK(REFUSED(totals_dot_float(many, 600, many, 600, NULL), TOTALS_NO_MEMORY, 0));
    CHECK(totals_sum_double(NULL, 0, NULL).refusal == TOTALS_ACCEPTED);
    has_memory = 1;
}

/*
 * A format by its three numbers alone, which has the kind's own bias. Some compilers warn of the
 * fields that are left out.
 */
#ifdef __GNUC__
#pragma GCC diagnostic push
#pragma GCC diagnostic ignored "-Wmissing-field-initializers"
#endif
static void words(void)
{
    const totals_format half = {TOTALS_BINARY16}, none = {TOTALS_IEEE, 11, 12};
    const uint64_t list[2] = {0x3c00, 0x3800}, stray[3] = {1, 0x10000, 0x20000},
                   fits[3] = {1, 2, 3}, wide[3] = {0x10000, 1, 0x10000};
    const uint64_t largest[2] = {0x7bff, 0x7bff};
    totals_record record = totals_sum_words(half, TOTALS_VALUE, list, 2, NULL);

    CHECK(record.refusal == TOTALS_ACCEPTED && record.result == 0x3e00 && record.flags == 0
          && record.passes == 1);
    CHECK(record.side == TOTALS_EQUAL
          && totals_sum_words(half, TOTALS_VALUE, largest, 2, NULL).side == TOTALS_NO_COMPARISON);
    CHECK(totals_sum_words(half, TOTALS_SQUARE, list, 2, NULL).result == 0x3d00);
    CHECK(totals_dot_words(half, list, 2, list, 2, NULL).result == 0x3d00);
    CHECK(REFUSED(totals_sum_words(half, TOTALS_VALUE, stray, 3, NULL), TOTALS_STRAY_BIT, 1));
    CHECK(
        REFUSED(totals_dot_words(half, fits, 3, stray + 1, 2, NULL), TOTALS_DIFFERENT_LENGTHS, 0));
    CHECK(REFUSED(totals_dot_words(half, fits, 2, stray, 2, NULL), TOTALS_STRAY_BIT, 1));
    /* several: the first; in a dot the left list goes first, though the right one has it earlier */
    CHECK(REFUSED(totals_dot_words(half, stray, 3, wide, 3, NULL), TOTALS_STRAY_BIT, 1));
    CHECK(REFUSED(totals_dot_words(half, fits, 3, wide, 3, NULL), TOTALS_STRAY_BIT, 0));
    CHECK(REFUSED(totals_sum_words(half, 3, list, 2, NULL), TOTALS_SETTING_OUT_OF_RANGE, 0));
    CHECK(REFUSED(totals_sum_words(none, 3, list, 2, NULL), TOTALS_NO_SUCH_FORMAT, 0));
    CHECK(REFUSED(totals_dot_words(none, list, 2, list, 1, NULL), TOTALS_NO_SUCH_FORMAT, 0));
    CHECK(REFUSED(totals_sum_words(half, TOTALS_VALUE, NULL, 2, NULL), TOTALS_NO_LIST, 0));
    CHECK(half.bias_named == 0 && half.bias == 0);
}
#ifdef __GNUC__
#pragma GCC diagnostic pop
#endif

static uint64_t sum_biased(int64_t bias, uint64_t rounding, uint64_t summand, const uint64_t *list,
                           size_t n)
{
    clear();
    return totals_sum_biased(TOTALS_BINARY16, bias, rounding, 0, 0, 0, 0, 0, 0, 0, summand,
                             (const uint8_t *)list, n * sizeof *list, answer, sizeof answer);
}

static uint64_t dot_biased(int64_t bias, const uint64_t *left, size_t n, const uint64_t *right,
                           size_t m)
{
    clear();
    return totals_dot_biased(TOTALS_BINARY16, bias, TOTALS_DEFAULTS, (const uint8_t *)left,
                             n * sizeof *left, (const uint8_t *)right, m * sizeof *right, answer,
                             sizeof answer);
}

#define EVEN TOTALS_TIES_TO_EVEN
#define LOST (TOTALS_UNDERFLOW + TOTALS_INEXACT + TOTALS_TINY)
#define TOO_LARGE (TOTALS_OVERFLOW + TOTALS_INEXACT + TOTALS_ROUNDED_UP)

/*
 * Rows of the definitions' own table (theorem biases-agree), and at the end a product in Fnuz,
 * through the entries and through the records.
 */
static void biases(void)
{
    const int64_t far[5] = {0, 15, -40, TOTALS_FARTHEST_BIAS, -TOTALS_FARTHEST_BIAS};
    const uint64_t ones[2] = {0x3c00, 0x3c00}, normal[1] = {0x0400}, least[1] = {1},
                   small[2] = {1, 3}, largest[1] = {0x7f}, one[1] = {0x58};
    const totals_format minus = {TOTALS_BINARY16, TOTALS_BIAS(-40)},
                        plus = {TOTALS_BINARY16, TOTALS_BIAS(40)};
    const totals_format short_float = {TOTALS_FINITE, 2, 4, TOTALS_BIAS(-3)},
                        fnuz = {TOTALS_E4M3_FNUZ, TOTALS_BIAS(11)};
    totals_record record;
    size_t i;

    for (i = 0; i < 5; i++) {
        const totals_format format = {TOTALS_BINARY16, TOTALS_BIAS(far[i])};
        CHECK(sum_biased(far[i], EVEN, TOTALS_VALUE, ones, 2) == 0
              && holds(0x4000, 0, 1, TOTALS_EQUAL));
        record = totals_sum_words(format, TOTALS_VALUE, ones, 2, NULL);
        CHECK(record.refusal == TOTALS_ACCEPTED && record.result == 0x4000 && record.flags == 0
              && record.passes == 1);
        CHECK(dot_biased(far[i], ones, 0, ones, 0) == 0 && holds(0, 0, 0, TOTALS_EQUAL));
        CHECK(totals_dot_words(format, NULL, 0, NULL, 0, NULL).refusal == TOTALS_ACCEPTED);
    }

    /* the square of the least normal number: far below the least number, and above the largest */
    CHECK(LOST == 0x38 && TOO_LARGE == 0x54);
    CHECK(sum_biased(40, EVEN, TOTALS_SQUARE, normal, 1) == 0 && holds(0, LOST, 1, TOTALS_BELOW));
    CHECK(dot_biased(40, normal, 1, normal, 1) == 0 && holds(0, LOST, 1, TOTALS_BELOW));
    CHECK(sum_biased(-40, EVEN, TOTALS_SQUARE, normal, 1) == 0
          && holds(0x7c00, TOO_LARGE, 1, TOTALS_NO_COMPARISON));
    CHECK(dot_biased(-40, normal, 1, normal, 1) == 0
          && holds(0x7c00, TOO_LARGE, 1, TOTALS_NO_COMPARISON));
    record = totals_sum_words(plus, TOTALS_SQUARE, normal, 1, NULL);
    CHECK(record.result == 0 && record.flags == LOST && record.side == TOTALS_BELOW
          && record.refusal == TOTALS_ACCEPTED);
    record = totals_dot_words(minus, normal, 1, normal, 1, NULL);
    CHECK(record.result == 0x7c00 && record.flags == TOO_LARGE
          && record.side == TOTALS_NO_COMPARISON && record.refusal == TOTALS_ACCEPTED);
    CHECK(sum_biased(-2000, EVEN, TOTALS_SQUARE, least, 1) == 0
          && holds(0x7c00, TOO_LARGE + TOTALS_SUBNORMAL_INPUT, 1, TOTALS_NO_COMPARISON));
    CHECK(sum_biased(-2000, TOTALS_TOWARD_ZERO, TOTALS_SQUARE, least, 1) == 0
          && holds(0x7bff, TOTALS_OVERFLOW + TOTALS_INEXACT + TOTALS_SUBNORMAL_INPUT, 1,
                   TOTALS_BELOW));

    /* 8 and 24 are 32, where 1 is no number of the format */
    record = totals_sum_words(short_float, TOTALS_VALUE, small, 2, NULL);
    CHECK(record.result == 4 && record.flags == TOTALS_SUBNORMAL_INPUT && record.passes == 1
          && record.side == TOTALS_EQUAL);
    clear();
    CHECK(totals_sum_biased(TOTALS_FINITE, 2, 4, -3, TOTALS_DEFAULTS, TOTALS_VALUE,
                            (const uint8_t *)small, sizeof small, answer, ROOM)
          == 0);
    CHECK(holds(4, 0x80, 1, TOTALS_EQUAL));

    /* 30 times 1 is 30: in Fnuz the named bias takes the place of 2^(E - 1) */
    CHECK(totals_dot_words(fnuz, largest, 1, one, 1, NULL).result == 0x7f);
}

/*
 * A bias that may not be named, with its number and the order of the numbers. Nothing is written.
 */
static void biases_refused(void)
{
    const int64_t beyond[4] = {TOTALS_FARTHEST_BIAS + 1, -TOTALS_FARTHEST_BIAS - 1, INT64_MAX,
                               INT64_MIN};
    const uint64_t list[2] = {0x3c00, 0x10000};
    const uint8_t *bytes = (const uint8_t *)list;
    const totals_format not_named = {TOTALS_BINARY16, 0, 40}, neither = {TOTALS_BINARY16, 2, 15},
                        half = {TOTALS_BINARY16, TOTALS_BIAS(40)};
    const totals_format none = {TOTALS_IEEE, 11, 12, TOTALS_BIAS(0)};
    size_t i;

    for (i = 0; i < 4; i++) {
        const int64_t b = beyond[i];
        const totals_format format = {TOTALS_BINARY16, TOTALS_BIAS(b)};
        CHECK(sum_biased(b, EVEN, TOTALS_VALUE, list, 1) == TOTALS_NO_SUCH_FORMAT
              && untouched_from(0));
        CHECK(sum_biased(b, EVEN, TOTALS_VALUE, list, 0) == TOTALS_NO_SUCH_FORMAT
              && untouched_from(0));
        CHECK(dot_biased(b, list, 1, list, 1) == TOTALS_NO_SUCH_FORMAT && untouched_from(0));
        /* before a setting, two lengths and a stray bit; after the lengths in bytes */
        CHECK(sum_biased(b, 8, 3, list, 2) == TOTALS_NO_SUCH_FORMAT && untouched_from(0));
        CHECK(dot_biased(b, list, 2, list, 1) == TOTALS_NO_SUCH_FORMAT && untouched_from(0));
        CHECK(totals_sum_biased(TOTALS_BINARY16, b, TOTALS_DEFAULTS, 3, bytes, 7, answer, 23)
              == TOTALS_UNEVEN_LENGTH);
        CHECK(totals_sum_biased(TOTALS_BINARY16, b, TOTALS_DEFAULTS, 3, bytes, 8, answer, 23)
              == TOTALS_SHORT_BUFFER);
        CHECK(totals_dot_biased(TOTALS_BINARY16, b, TOTALS_DEFAULTS, bytes, 8, bytes, 9, answer, 23)
              == TOTALS_UNEVEN_LENGTH);
        CHECK(
            totals_dot_biased(TOTALS_BINARY16, b, TOTALS_DEFAULTS, bytes, 8, bytes, 16, answer, 23)
            == TOTALS_SHORT_BUFFER);
        CHECK(untouched_from(0));
        CHECK(REFUSED(totals_sum_words(format, 3, list, 2, NULL), TOTALS_NO_SUCH_FORMAT, 0));
        CHECK(REFUSED(totals_dot_words(format, list, 2, list, 1, NULL), TOTALS_NO_SUCH_FORMAT, 0));
        CHECK(REFUSED(totals_sum_words(format, TOTALS_VALUE, NULL, SIZE_MAX, NULL),
                      TOTALS_NO_SUCH_FORMAT, 0));
    }
    /* every other refusal comes through the entries with a bias too */
    CHECK(sum_biased(40, 8, TOTALS_VALUE, list, 2) == TOTALS_SETTING_OUT_OF_RANGE
          && untouched_from(0));
    CHECK(sum_biased(40, EVEN, TOTALS_VALUE, list, 2) == TOTALS_STRAY_BIT + 256
          && untouched_from(0));
    CHECK(dot_biased(40, list, 2, list, 1) == TOTALS_DIFFERENT_LENGTHS && untouched_from(0));
    CHECK(REFUSED(totals_sum_words(half, TOTALS_VALUE, list, 2, NULL), TOTALS_STRAY_BIT, 1));
    CHECK(REFUSED(totals_sum_words(half, TOTALS_VALUE, list, TOTALS_MOST_ELEMENTS + 1, NULL),
                  TOTALS_TOO_MANY_ELEMENTS, 0));
    CHECK(REFUSED(totals_dot_words(half, list, 1, NULL, 1, NULL), TOTALS_NO_LIST, 0));
    CHECK(REFUSED(totals_sum_words(none, TOTALS_VALUE, list, 1, NULL), TOTALS_NO_SUCH_FORMAT, 0));
    /* fields of a format that do not fit each other */
    CHECK(REFUSED(totals_sum_words(not_named, TOTALS_VALUE, list, 1, NULL), TOTALS_NO_SUCH_FORMAT,
                  0));
    CHECK(REFUSED(totals_dot_words(neither, list, 1, list, 1, NULL), TOTALS_NO_SUCH_FORMAT, 0));
}

/*
 * A sum, or a dot of the list with itself, in the format f[0], f[1], f[2]; with the bias f[3] where
 * it is named.
 */
static uint64_t call(int pairs, int named, const int64_t f[4], const uint64_t c[8],
                     uint64_t summand, const uint64_t list[3])
{
#define NUMBERS (uint64_t)f[0], (uint64_t)f[1], (uint64_t)f[2]
#define SETTINGS c[0], c[1], c[2], c[3], c[4], c[5], c[6], c[7]
#define LIST (const uint8_t *)list, 3 * sizeof *list
#define ANSWER answer, sizeof answer
    clear();
    if (named) {
        return pairs ? totals_dot_biased(NUMBERS, f[3], SETTINGS, LIST, LIST, ANSWER)
                     : totals_sum_biased(NUMBERS, f[3], SETTINGS, summand, LIST, ANSWER);
    }
    return pairs ? totals_dot(NUMBERS, SETTINGS, LIST, LIST, ANSWER)
                 : totals_sum(NUMBERS, SETTINGS, summand, LIST, ANSWER);
}

static int alike(totals_record x, totals_record y)
{
    return x.result == y.result && x.passes == y.passes && x.place == y.place && x.flags == y.flags
           && x.refusal == y.refusal && x.side == y.side;
}

/* The same through the records. */
static int own_record_is_alike(int pairs, const int64_t f[4], const uint64_t c[8], uint64_t summand,
                               const uint64_t list[3])
{
    const totals_format named = {NUMBERS, TOTALS_BIAS(f[3])}, plain = {NUMBERS, TOTALS_OWN_BIAS};
    const totals_settings settings = {SETTINGS};
    return pairs ? alike(totals_dot_words(named, list, 3, list, 3, &settings),
                         totals_dot_words(plain, list, 3, list, 3, &settings))
                 : alike(totals_sum_words(named, summand, list, 3, &settings),
                         totals_sum_words(plain, summand, list, 3, &settings));
}

/*
 * Naming the kind's own bias is the same as naming none: the number returned and every byte of the
 * buffer, of refused calls too.
 */
static void own_biases(void)
{
    static const int64_t formats[14][4] = {{TOTALS_BINARY64, 1023},
                                           {TOTALS_BINARY32, 127},
                                           {TOTALS_BINARY16, 15},
                                           {TOTALS_BFLOAT16, 127},
                                           {TOTALS_TF32, 127},
                                           {TOTALS_E5M2, 15},
                                           {TOTALS_E4M3, 7},
                                           {TOTALS_E5M2_FNUZ, 16},
                                           {TOTALS_E4M3_FNUZ, 8},
                                           {TOTALS_E3M2, 3},
                                           {TOTALS_E2M3, 1},
                                           {TOTALS_E2M1, 1},
                                           {TOTALS_FNUZ, 28, 64, 134217728},
                                           {TOTALS_IEEE, 11, 12, 1023}};
    /* cut to the width of the format, but for the last */
    uint64_t lists[6][3] = {{0, 0, 0},          {1, 2, 3},
                            {0x7c, 0x81, 0x17}, {0x7bff, 0x8001, 0x7c01},
                            {0, 0, 0},          {1, 0xfff0000000000000, 2}};
    uint8_t before[ROOM];
    size_t i, j, k, m, accepted_calls = 0;

    for (i = 0; i < 14; i++) {
        const uint64_t cut = UINT64_MAX >> (64 - formats[i][2]);
        /* 1, whose square is 1 with no other bias, and the next number */
        lists[4][0] = lists[4][1] = (uint64_t)formats[i][3] << (formats[i][2] - formats[i][1] - 1);
        lists[4][2] = lists[4][0] + 1;
        for (j = 0; j < 6; j++) {
            uint64_t list[3];
            for (k = 0; k < 3; k++) {
                list[k] = j < 5 ? lists[j][k] & cut : lists[j][k];
            }
            /* every value of each setting, and some that are out of range */
            for (k = 0; k < 144; k++) {
                const uint64_t c[8] = {k % 9,     k / 9 % 3, k % 4,      k / 2 % 2,
                                       k / 4 % 2, k / 8 % 2, k / 16 % 2, k % 5};
                for (m = 0; m < 4; m++) {
                    const uint64_t code = call(m == 3, 0, formats[i], c, m, list);
                    memcpy(before, answer, sizeof before);
                    CHECK(call(m == 3, 1, formats[i], c, m, list) == code
                          && memcmp(answer, before, sizeof before) == 0);
                    CHECK(own_record_is_alike(m == 3, formats[i], c, m, list));
                    accepted_calls += code == TOTALS_ACCEPTED;
                }
            }
        }
    }
    /* and enough of them are totals */
    CHECK(accepted_calls > 14 * 6 * 144 * 4 / 3);
}

/* Each refusal that a list of double or float can meet, and the lowest of two. */
static void refused_records(void)
{
    const size_t most = TOTALS_MOST_ELEMENTS;
    const double one = 1;
    const float half = 0.5f;
    double *zeros = (double *)calloc(LONG, sizeof *zeros);
    float *singles = (float *)zeros;
    uint64_t *unread = addresses(most + 2);
    const double *doubles = (const double *)unread;
    const float *floats = (const float *)unread;
    totals_settings bad[8];
    size_t i;

    for (i = 0; i < 8; i++) {
        const totals_settings plain = TOTALS_SETTINGS_INIT;
        bad[i] = plain;
    }
    bad[0].rounding = 8;
    bad[1].tininess = 2;
    bad[2].nan_propagation = 4;
    bad[3].default_nan_negative = 2;
    bad[4].flush_to_zero = 2;
    bad[5].denormals_are_zero = 2;
    bad[6].saturate = 2;
    bad[7].precision = 54;
    for (i = 0; i < 8; i++) {
        CHECK(REFUSED(totals_sum_double(&one, 1, &bad[i]), TOTALS_SETTING_OUT_OF_RANGE, 0));
        CHECK(
            REFUSED(totals_magnitude_sum_double(&one, 1, &bad[i]), TOTALS_SETTING_OUT_OF_RANGE, 0));
        CHECK(REFUSED(totals_square_sum_double(&one, 1, &bad[i]), TOTALS_SETTING_OUT_OF_RANGE, 0));
        CHECK(
            REFUSED(totals_dot_double(&one, 1, &one, 1, &bad[i]), TOTALS_SETTING_OUT_OF_RANGE, 0));
        CHECK(REFUSED(totals_sum_float(&half, 1, &bad[i]), TOTALS_SETTING_OUT_OF_RANGE, 0));
        CHECK(
            REFUSED(totals_magnitude_sum_float(&half, 1, &bad[i]), TOTALS_SETTING_OUT_OF_RANGE, 0));
        CHECK(REFUSED(totals_square_sum_float(&half, 1, &bad[i]), TOTALS_SETTING_OUT_OF_RANGE, 0));
        CHECK(
            REFUSED(totals_dot_float(&half, 1, &half, 1, &bad[i]), TOTALS_SETTING_OUT_OF_RANGE, 0));
        /* it comes before a length, even one that no list has */
        CHECK(REFUSED(totals_sum_double(&one, SIZE_MAX, &bad[i]), TOTALS_SETTING_OUT_OF_RANGE, 0));
        CHECK(
            REFUSED(totals_dot_double(NULL, 2, &one, 1, &bad[i]), TOTALS_SETTING_OUT_OF_RANGE, 0));
    }
    bad[7].precision = 25;
    CHECK(totals_sum_double(&one, 1, &bad[7]).refusal == TOTALS_ACCEPTED);
    CHECK(REFUSED(totals_sum_float(&half, 1, &bad[7]), TOTALS_SETTING_OUT_OF_RANGE, 0));

    CHECK(REFUSED(totals_dot_double(&one, 1, &one, 0, NULL), TOTALS_DIFFERENT_LENGTHS, 0));
    CHECK(REFUSED(totals_dot_float(&half, 1, &half, 0, NULL), TOTALS_DIFFERENT_LENGTHS, 0));
    CHECK(REFUSED(totals_dot_double(doubles, most + 1, doubles, most + 2, NULL),
                  TOTALS_DIFFERENT_LENGTHS, 0));
    CHECK(REFUSED(totals_dot_double(doubles, most + 1, doubles, most, NULL),
                  TOTALS_DIFFERENT_LENGTHS, 0));
    CHECK(REFUSED(totals_dot_float(singles, 1, singles, SIZE_MAX, NULL), TOTALS_DIFFERENT_LENGTHS,
                  0));
    CHECK(REFUSED(totals_dot_double(NULL, 2, &one, 1, NULL), TOTALS_DIFFERENT_LENGTHS, 0));

    CHECK(totals_sum_double(zeros, LONG, NULL).refusal == TOTALS_ACCEPTED);
    CHECK(totals_sum_float(singles, LONG, NULL).refusal == TOTALS_ACCEPTED && owned == 0);
    CHECK(totals_dot_double(zeros, LONG, zeros, LONG, NULL).refusal == TOTALS_ACCEPTED);
    CHECK(REFUSED(totals_sum_double(doubles, most + 1, NULL), TOTALS_TOO_MANY_ELEMENTS, 0));
    CHECK(
        REFUSED(totals_magnitude_sum_double(doubles, most + 1, NULL), TOTALS_TOO_MANY_ELEMENTS, 0));
    CHECK(REFUSED(totals_square_sum_double(doubles, most + 1, NULL), TOTALS_TOO_MANY_ELEMENTS, 0));
    CHECK(REFUSED(totals_dot_double(doubles, most + 1, doubles, most + 1, NULL),
                  TOTALS_TOO_MANY_ELEMENTS, 0));
    CHECK(REFUSED(totals_sum_float(floats, most + 1, NULL), TOTALS_TOO_MANY_ELEMENTS, 0));
    CHECK(REFUSED(totals_dot_float(floats, most + 1, floats, most + 1, NULL),
                  TOTALS_TOO_MANY_ELEMENTS, 0));
    /*
     * a list as long as may be is not read before there is memory for its copy: eight bytes an
     * element
     */
    has_memory = 0;
    CHECK(REFUSED(totals_sum_float(floats, most, NULL), TOTALS_NO_MEMORY, 0)
          && asked == 2147483648);
    CHECK(REFUSED(totals_dot_float(floats, most, floats, most, NULL), TOTALS_NO_MEMORY, 0)
          && asked == 2147483648);
    CHECK(totals_pence_float(floats, most).refusal == TOTALS_NO_MEMORY && asked == 2147483648);
    CHECK(REFUSED(totals_table_float(floats, most, most, 1, singles, most, singles, 1, NULL),
                  TOTALS_NO_MEMORY, 0)
          && asked == 2147483656);
    has_memory = 1;
    /*
     * one of too many is not read by the entries either, though there is a stray bit in its second
     * word
     */
    unread[1] = 0x10000;
    CHECK(halves(unread, most + 1) == TOTALS_TOO_MANY_ELEMENTS && untouched_from(0));
    CHECK(sum_biased(15, EVEN, TOTALS_VALUE, unread, most + 1) == TOTALS_TOO_MANY_ELEMENTS
          && untouched_from(0));
    CHECK(dot(doubles, most + 1, doubles, most + 1) == TOTALS_TOO_MANY_ELEMENTS
          && untouched_from(0));
    CHECK(dot(doubles, most + 1, doubles, most + 2) == TOTALS_DIFFERENT_LENGTHS
          && untouched_from(0));
    CHECK(dot_biased(15, unread, most + 1, unread, most + 1) == TOTALS_TOO_MANY_ELEMENTS
          && untouched_from(0));
    CHECK(halves(unread, OPEN_WORDS) == TOTALS_STRAY_BIT + 256 && untouched_from(0));
    /* eight bytes an element of these are 8 bytes, or none, by a size_t that wraps */
    CHECK(REFUSED(totals_sum_double(&one, SIZE_MAX / 8 + 2, NULL), TOTALS_TOO_MANY_ELEMENTS, 0));
    CHECK(REFUSED(totals_sum_double(&one, SIZE_MAX / 8 + 1, NULL), TOTALS_TOO_MANY_ELEMENTS, 0));
    CHECK(REFUSED(totals_sum_float(&half, SIZE_MAX / 8 + 2, NULL), TOTALS_TOO_MANY_ELEMENTS, 0));

    CHECK(REFUSED(totals_sum_double(NULL, 1, NULL), TOTALS_NO_LIST, 0));
    CHECK(REFUSED(totals_sum_float(NULL, 1, NULL), TOTALS_NO_LIST, 0));
    CHECK(REFUSED(totals_dot_double(&one, 1, NULL, 1, NULL), TOTALS_NO_LIST, 0));
    CHECK(REFUSED(totals_dot_float(NULL, 1, &half, 1, NULL), TOTALS_NO_LIST, 0));
    free(zeros);
    munmap(unread, 8 * (most + 2));
}

#define NO_FIGURE 0x5a5a5a5a

/*
 * The entry and the inline function: the code, and the figure, which a refused call leaves as it
 * was.
 */
static int pence_are(totals_format f, const uint64_t *list, size_t count, uint64_t code,
                     int64_t wanted)
{
    int64_t figure = NO_FIGURE;
    const uint64_t given =
        totals_pence(f.kind, f.exponent_bits, f.width, f.bias_named, f.bias, list, count, &figure);
    const totals_pence_record record = totals_pence_words(f, list, count);
    return given == code && figure == (code == TOTALS_ACCEPTED ? wanted : NO_FIGURE)
           && record.refusal == TOTALS_REFUSAL(code) && record.place == TOTALS_PLACE(code)
           && record.figure == wanted;
}

/*
 * The figure of a list of double, through totals_pence_double and through the words. NO_FIGURE
 * stands for TOTALS_NO_PENCE.
 */
static int has_pence(const double *list, size_t count, int64_t wanted)
{
    const totals_format f = {TOTALS_BINARY64, TOTALS_OWN_BIAS};
    const int is_refused = wanted == NO_FIGURE;
    const totals_pence_record record = totals_pence_double(list, count);
    uint64_t words[8];
    memcpy(words, list, count * sizeof *list);
    return record.refusal == (is_refused ? TOTALS_NO_PENCE : TOTALS_ACCEPTED) && record.place == 0
           && record.figure == (is_refused ? 0 : wanted)
           && pence_are(f, words, count, record.refusal, record.figure);
}

/*
 * A list, whose zeros at the end count for nothing, and a hundred times its exact sum, rounded:
 * worked out by hand, or by exact fractions.
 */
static void pence_of_doubles(void)
{
    const double least = number(1), largest = number(0x7fefffffffffffff),
                 most = 92233720368547744.0;
    const struct {
        double list[6];
        int64_t figure;
    } rows[] = {
        {{0}, 0},
        {{0.0, -0.0}, 0},
        {{-0.0}, 0},
        {{412.37}, 41237},
        {{0.1, 0.2, 0.3, 1e16, -1e16}, 60},
        /* 12.5, 37.5 and 62.5: half a penny goes away from zero */
        {{0.125}, 13},
        {{0.375}, 38},
        {{0.625}, 63},
        /* a trace beside it, which the sum rounded to a double does not show */
        {{0.125, -power(-60)}, 12},
        {{0.125, power(-60)}, 13},
        {{0.125, -least}, 12},
        {{0.125, least}, 13},
        {{0.375, -least}, 37},
        {{0.375, least}, 38},
        /*
         * the doubles nearest to 2.675 and 1.005 are a little less, that to 0.005 a little more;
         * the one before it is less
         */
        {{2.675}, 267},
        {{1.005}, 100},
        {{0.005}, 1},
        {{number(0x3f747ae147ae147a)}, 0},
        {{least}, 0},
        /* the sum is far smaller than what it is a sum of */
        {{power(1000), 0.125, -power(1000)}, 13},
        {{power(1023), power(500), 0.125, -power(500), -power(1023), -least}, 12},
        {{largest, largest, 0.125, -largest, -largest}, 13},
        /* 100 * 2^56; the next power of two is beyond 2^63 */
        {{power(56)}, 7205759403792793600},
        {{power(57)}, NO_FIGURE},
        {{power(56), least}, 7205759403792793600},
        {{largest, largest}, NO_FIGURE},
        /*
         * 9223372036854775800 pence in two doubles, and 7; 7.4999999999999997; 7.5000000000000011;
         * 8
         */
        {{most, 14, 0.07}, INT64_MAX},
        {{most, 14, 0.075}, INT64_MAX},
        {{most, 14, number(0x3fb3333333333334)}, NO_FIGURE},
        {{most, 14, 0.08}, NO_FIGURE},
        {{most, 14, 0.07, 0.01}, NO_FIGURE},
        {{most, 14, 0.08, -0.01}, INT64_MAX},
    };
    double negated[6];
    size_t i, k;

    CHECK(0.075 == number(0x3fb3333333333333));
    for (i = 0; i < sizeof rows / sizeof *rows; i++) {
        const int64_t figure = rows[i].figure;
        for (k = 0; k < 6; k++) {
            negated[k] = -rows[i].list[k];
        }
        /* of either sign: -2^63 is refused as 2^63 is */
        if (!has_pence(rows[i].list, 6, figure)
            || !has_pence(negated, 6, figure == NO_FIGURE ? NO_FIGURE : -figure)) {
            fprintf(stderr, "pence_of_doubles: row %d\n", (int)i);
            failures++;
        }
    }
    CHECK(totals_pence_double(NULL, 0).refusal == TOTALS_ACCEPTED
          && totals_pence_double(NULL, 0).figure == 0);
    CHECK(has_pence(negated, 0, 0));
}

static void pence_of_floats(void)
{
    const float tie[2] = {0.125f, -1e-45f};
    const uint32_t nan_bits = 0x7fc00000;
    float many[TOTALS_ROOM_ + 1], nan_value;
    size_t i;

    CHECK(totals_pence_float(tie, 1).figure == 13 && totals_pence_float(tie, 2).figure == 12);
    CHECK(totals_pence_float(NULL, 0).refusal == TOTALS_ACCEPTED
          && totals_pence_float(NULL, 0).figure == 0);
    memcpy(&nan_value, &nan_bits, sizeof nan_value);
    CHECK(totals_pence_float(&nan_value, 1).refusal == TOTALS_NO_PENCE
          && totals_pence_float(&nan_value, 1).figure == 0);
    /* quarters of a pound, as many as find room without memory of their own, and one more */
    for (i = 0; i <= TOTALS_ROOM_; i++) {
        many[i] = i % 2 ? 0.25f : -0.5f;
    }
    CHECK(totals_pence_float(many, TOTALS_ROOM_).figure == -25 * (TOTALS_ROOM_ / 2));
    CHECK(totals_pence_float(many, TOTALS_ROOM_ + 1).figure == -25 * (TOTALS_ROOM_ / 2) - 50
          && owned == 0);
    has_memory = 0;
    CHECK(totals_pence_float(many, TOTALS_ROOM_).refusal == TOTALS_ACCEPTED);
    CHECK(totals_pence_float(many, TOTALS_ROOM_ + 1).refusal == TOTALS_NO_MEMORY);
    CHECK(totals_pence_float(many, TOTALS_ROOM_ + 1).figure == 0
          && totals_pence_float(many, TOTALS_ROOM_ + 1).place == 0);
    CHECK(totals_pence_double(NULL, 0).refusal == TOTALS_ACCEPTED);
    has_memory = 1;
}

/*
 * Each format that the header names: an eighth of a pound, or the least number where that is more;
 * then a sum that is too large for the format.
 */
static void pence_of_words(void)
{
#define PENCE(format, count, first, second, figure) \
    do { \
        const totals_format own = {format, TOTALS_OWN_BIAS}; \
        const uint64_t list[2] = {first, second}; \
        CHECK(pence_are(own, list, count, TOTALS_ACCEPTED, figure)); \
    } while (0)
#define NO_PENCE(format, value) \
    do { \
        const totals_format own = {format, TOTALS_OWN_BIAS}; \
        const uint64_t list[2] = {0, value}; \
        CHECK(pence_are(own, list, 2, TOTALS_NO_PENCE, 0)); \
    } while (0)
    PENCE(TOTALS_BINARY64, 2, 0x3fc0000000000000, 0xbc30000000000000, 12);
    PENCE(TOTALS_BINARY32, 1, 0x3e000000, 0, 13);
    PENCE(TOTALS_BINARY16, 1, 0x3000, 0, 13);
    PENCE(TOTALS_BFLOAT16, 1, 0x3e00, 0, 13);
    PENCE(TOTALS_TF32, 1, 0x1f000, 0, 13);
    PENCE(TOTALS_E5M2, 1, 0x30, 0, 13);
    PENCE(TOTALS_E4M3, 1, 0x20, 0, 13);
    PENCE(TOTALS_E5M2_FNUZ, 1, 0x34, 0, 13);
    PENCE(TOTALS_E4M3_FNUZ, 1, 0x28, 0, 13);
    PENCE(TOTALS_E3M2, 1, 0x02, 0, 13);
    PENCE(TOTALS_E2M3, 1, 0x01, 0, 13);
    PENCE(TOTALS_E2M1, 1, 0x1, 0, 50);
    /* a subnormal value is no zero: an eighth less 2^-24; and 1/16 */
    PENCE(TOTALS_BINARY16, 2, 0x3000, 0x8001, 12);
    PENCE(TOTALS_E3M2, 2, 0x02, 0x21, 6);
    /* twice 65504; 57344; 448; 57344; 240; 28; 7.5; 6 */
    PENCE(TOTALS_BINARY16, 2, 0x7bff, 0x7bff, 13100800);
    PENCE(TOTALS_E5M2, 2, 0x7b, 0x7b, 11468800);
    PENCE(TOTALS_E4M3, 2, 0x7e, 0x7e, 89600);
    PENCE(TOTALS_E5M2_FNUZ, 2, 0x7f, 0x7f, 11468800);
    PENCE(TOTALS_E4M3_FNUZ, 2, 0x7f, 0x7f, 48000);
    PENCE(TOTALS_E3M2, 2, 0x3f, 0x3f, -5600);
    PENCE(TOTALS_E2M3, 2, 0x3f, 0x3f, -1500);
    PENCE(TOTALS_E2M1, 2, 0xf, 0xf, -1200);
    /* infinities and NaNs, of either sign, quiet and signaling */
    NO_PENCE(TOTALS_BINARY64, 0x7ff0000000000000);
    NO_PENCE(TOTALS_BINARY64, 0xfff0000000000000);
    NO_PENCE(TOTALS_BINARY64, 0x7ff8000000000000);
    NO_PENCE(TOTALS_BINARY64, 0xfff0000000000001);
    NO_PENCE(TOTALS_BINARY32, 0x7f800000);
    NO_PENCE(TOTALS_BINARY16, 0x7e00);
    NO_PENCE(TOTALS_E5M2, 0xfc);
    NO_PENCE(TOTALS_E4M3, 0x7f);
    NO_PENCE(TOTALS_E4M3, 0xff);
    NO_PENCE(TOTALS_E5M2_FNUZ, 0x80);
    NO_PENCE(TOTALS_E4M3_FNUZ, 0x80);
}

static void pence_biased(void)
{
    const int64_t far = TOTALS_FARTHEST_BIAS;
    /* in binary16 a value with the exponent field x is 2^(x - bias) and its fraction */
    const struct {
        int64_t bias;
        uint64_t list[2];
        uint64_t code;
        int64_t figure;
    } rows[] = {
        {15, {0x3000, 0x8001}, TOTALS_ACCEPTED, 12},
        {25, {0x3c00, 0}, TOTALS_ACCEPTED, 0},       /* 2^-10 */
        {25, {0x5800, 0}, TOTALS_ACCEPTED, 13},      /* 2^-3 */
        {25, {0xd800, 0x3c00}, TOTALS_ACCEPTED, -12}, /* 2^-10 - 2^-3 */
        {0, {0x3c00, 0}, TOTALS_ACCEPTED, 3276800},  /* 2^15 */
        {-5, {0x0001, 0}, TOTALS_ACCEPTED, 6},       /* the least number is 2^-4 */
        {-5, {0x0001, 0x0001}, TOTALS_ACCEPTED, 13},
        {-40, {0x3c00, 0x3c00}, TOTALS_ACCEPTED, 7205759403792793600}, /* 2^56 */
        {-40, {0x4400, 0}, TOTALS_NO_PENCE, 0},      /* 2^57 */
        {-2000, {0x0001, 0}, TOTALS_NO_PENCE, 0},
        {-2000, {0x0001, 0x8001}, TOTALS_ACCEPTED, 0},
        {far, {0x7bff, 0x7bff}, TOTALS_ACCEPTED, 0},
        {far, {0x7c00, 0}, TOTALS_NO_PENCE, 0},
        {-far, {0x0000, 0x8000}, TOTALS_ACCEPTED, 0},
        {-far, {0x8001, 0}, TOTALS_NO_PENCE, 0},
        {far + 1, {0, 0}, TOTALS_NO_SUCH_FORMAT, 0},
        {-far - 1, {0, 0}, TOTALS_NO_SUCH_FORMAT, 0},
        {INT64_MAX, {0, 0}, TOTALS_NO_SUCH_FORMAT, 0},
        {INT64_MIN, {0, 0}, TOTALS_NO_SUCH_FORMAT, 0},
    };
    /* 8 and 24; in Fnuz 30 */
    const totals_format short_float = {TOTALS_FINITE, 2, 4, TOTALS_BIAS(-3)},
                        fnuz = {TOTALS_E4M3_FNUZ, TOTALS_BIAS(11)};
    const uint64_t small[2] = {1, 3}, largest[1] = {0x7f};
    size_t i;

    for (i = 0; i < sizeof rows / sizeof *rows; i++) {
        const totals_format half = {TOTALS_BINARY16, TOTALS_BIAS(rows[i].bias)};
        if (!pence_are(half, rows[i].list, 2, rows[i].code, rows[i].figure)) {
            fprintf(stderr, "pence_biased: row %d\n", (int)i);
            failures++;
        }
    }
    CHECK(pence_are(short_float, small, 2, TOTALS_ACCEPTED, 3200));
    CHECK(pence_are(fnuz, largest, 1, TOTALS_ACCEPTED, 3000));
}

/* -12.5 pence and a trace toward zero, beside two amounts that cancel. */
static void pence_in_every_order(void)
{
    const double values[5] = {1e300, -0.125, number(1), -1e300, 0};
    const int orders[5][5] = {
        {0, 1, 2, 3, 4}, {4, 3, 2, 1, 0}, {1, 2, 0, 4, 3}, {3, 1, 4, 0, 2}, {2, 4, 1, 3, 0}};
    double list[5];
    size_t i, k;

    for (i = 0; i < 5; i++) {
        for (k = 0; k < 5; k++) {
            list[k] = values[orders[i][k]];
        }
        CHECK(has_pence(list, 5, -12));
    }
}

static void pence_refused(void)
{
    const size_t most = TOTALS_MOST_ELEMENTS;
    const totals_format half = {TOTALS_BINARY16, TOTALS_OWN_BIAS},
                        wide = {TOTALS_BINARY64, TOTALS_OWN_BIAS},
                        none = {4, 5, 16, TOTALS_OWN_BIAS};
    const totals_format not_named = {TOTALS_BINARY16, 0, 40}, neither = {TOTALS_BINARY16, 2, 15};
    const uint64_t stray[3] = {0x7e00, 0x10000, 0x20000};
    const double eighth = 0.125;
    const float quarter = 0.25f;
    uint64_t *words = (uint64_t *)malloc(LONG * sizeof *words), *unread = addresses(most + 1);
    size_t i;

    /* a stray bit comes before a NaN, though that stands first, and the first one is told */
    CHECK(pence_are(half, stray, 1, TOTALS_NO_PENCE, 0));
    CHECK(pence_are(half, stray, 2, TOTALS_STRAY_BIT + 256, 0));
    CHECK(pence_are(half, stray, 3, TOTALS_STRAY_BIT + 256, 0));
    CHECK(pence_are(half, stray + 2, 1, TOTALS_STRAY_BIT, 0));
    /* a format comes before all else, with an empty list too */
    CHECK(pence_are(none, stray, 3, TOTALS_NO_SUCH_FORMAT, 0));
    CHECK(pence_are(none, stray, 0, TOTALS_NO_SUCH_FORMAT, 0));
    CHECK(pence_are(not_named, stray, 1, TOTALS_NO_SUCH_FORMAT, 0));
    CHECK(pence_are(neither, stray, 0, TOTALS_NO_SUCH_FORMAT, 0));
    CHECK(totals_pence_words(none, NULL, 1).refusal == TOTALS_NO_SUCH_FORMAT);
    CHECK(totals_pence_words(none, stray, SIZE_MAX).refusal == TOTALS_NO_SUCH_FORMAT);
    CHECK(totals_pence_words(neither, NULL, SIZE_MAX).refusal == TOTALS_NO_SUCH_FORMAT);

    /* a long list of an eighth of a pound each, then a NaN and a stray bit at its end */
    for (i = 0; i < LONG; i++) {
        words[i] = 0x3000;
    }
    CHECK(pence_are(half, words, LONG, TOTALS_ACCEPTED, 13107213));
    words[LONG - 2] = 0x7e00;
    CHECK(pence_are(half, words, LONG, TOTALS_NO_PENCE, 0));
    words[LONG - 1] = 0x10000;
    CHECK(pence_are(half, words, LONG, TOTALS_STRAY_BIT + 256 * (uint64_t)(LONG - 1), 0));
    free(words);
    /* one more than there may be, with the two at its start */
    CHECK(pence_are(half, unread, most + 1, TOTALS_TOO_MANY_ELEMENTS, 0));
    unread[0] = 0x7e00;
    unread[1] = 0x10000;
    CHECK(pence_are(half, unread, most + 1, TOTALS_TOO_MANY_ELEMENTS, 0));
    CHECK(pence_are(none, unread, most + 1, TOTALS_NO_SUCH_FORMAT, 0));
    munmap(unread, 8 * (most + 1));
    CHECK(totals_pence_float(&quarter, most + 1).refusal == TOTALS_TOO_MANY_ELEMENTS && owned == 0);
    /* eight bytes an element of these are 8 bytes, or none, by a size_t that wraps */
    CHECK(totals_pence_double(&eighth, SIZE_MAX / 8 + 2).refusal == TOTALS_TOO_MANY_ELEMENTS);
    CHECK(totals_pence_float(&quarter, SIZE_MAX / 8 + 1).refusal == TOTALS_TOO_MANY_ELEMENTS);
    CHECK(totals_pence_double(NULL, SIZE_MAX).refusal == TOTALS_TOO_MANY_ELEMENTS);
    CHECK(totals_pence_double(NULL, SIZE_MAX).figure == 0
          && totals_pence_double(NULL, SIZE_MAX).place == 0);

    CHECK(totals_pence_double(NULL, 1).refusal == TOTALS_NO_LIST
          && totals_pence_double(NULL, 1).figure == 0);
    CHECK(totals_pence_float(NULL, 1).refusal == TOTALS_NO_LIST);
    CHECK(totals_pence_words(wide, NULL, most).refusal == TOTALS_NO_LIST
          && totals_pence_words(wide, NULL, most).place == 0);
    CHECK(totals_pence_words(wide, NULL, 0).refusal == TOTALS_ACCEPTED);
}

#define GUARD 0xa5a5a5a5a5a5a5a5
/* Words behind the totals. */
#define BEYOND 3
/* The most rows, and the most columns, of the tables below. */
#define LINES 40

static uint64_t row_totals[LINES + BEYOND], column_totals[LINES + BEYOND];

static void clear_totals(void)
{
    size_t i;
    for (i = 0; i < LINES + BEYOND; i++) {
        row_totals[i] = column_totals[i] = GUARD;
    }
    clear();
}

static int guarded_from(const uint64_t *totals, size_t at)
{
    for (; at < LINES + BEYOND; at++) {
        if (totals[at] != GUARD) {
            return 0;
        }
    }
    return 1;
}

static int all_untouched(void)
{
    return guarded_from(row_totals, 0) && guarded_from(column_totals, 0) && untouched_from(0);
}

/* The entry, into lists with room for so many. */
static uint64_t table_entry(totals_format f, const totals_settings *c, const uint64_t *cells,
                            size_t count, uint64_t rows, uint64_t columns, size_t row_room,
                            size_t column_room, size_t answer_len)
{
    clear_totals();
    return totals_table(f.kind, f.exponent_bits, f.width, f.bias_named, f.bias, c->rounding,
                        c->tininess, c->nan_propagation, c->default_nan_negative, c->flush_to_zero,
                        c->denormals_are_zero, c->saturate, c->precision, rows, columns, cells,
                        count, row_totals, row_room, column_totals, column_room, answer,
                        answer_len);
}

/*
 * Each total is what the plain sum gives for its cells in their order; the answer is its record.
 * Through the entry and through the words.
 */
static int sums_are_plain(totals_format f, const totals_settings *c, const uint64_t *cells,
                          size_t rows, size_t columns)
{
    const size_t count = rows * columns;
    const totals_record grand = totals_sum_words(f, TOTALS_VALUE, cells, count, c);
    uint64_t list[LINES];
    totals_record record;
    int holds_so = 1, turn;
    size_t i, j;

    for (turn = 0; turn < 2; turn++) {
        if (turn == 0) {
            holds_so &= table_entry(f, c, cells, count, rows, columns, rows + BEYOND,
                                    columns + BEYOND, ROOM)
                        == 0;
            holds_so &= holds(grand.result, grand.flags, grand.passes, grand.side);
        } else {
            clear_totals();
            record = totals_table_words(f, cells, count, rows, columns, row_totals, rows,
                                        column_totals, columns, c);
            holds_so &= alike(record, grand) && untouched_from(0);
        }
        for (i = 0; i < rows; i++) {
            holds_so &=
                row_totals[i]
                == totals_sum_words(f, TOTALS_VALUE, cells + i * columns, columns, c).result;
        }
        for (j = 0; j < columns; j++) {
            for (i = 0; i < rows; i++) {
                list[i] = cells[i * columns + j];
            }
            holds_so &= column_totals[j] == totals_sum_words(f, TOTALS_VALUE, list, rows, c).result;
        }
        holds_so &= guarded_from(row_totals, rows) && guarded_from(column_totals, columns);
    }
    return holds_so;
}

static const totals_settings plain = TOTALS_SETTINGS_INIT;
/* 1 2 3 and 1 1 1 in binary16 */
static const uint64_t six[6] = {0x3c00, 0x4000, 0x4200, 0x3c00, 0x3c00, 0x3c00};

/* Sums worked out by hand. */
static void tables(void)
{
    const totals_format half = {TOTALS_BINARY16, TOTALS_OWN_BIAS};
    const struct {
        uint64_t rounding, nan_propagation;
        uint64_t cells[4], of_rows[2], of_columns[2], grand;
    } rows[] = {
        /*
         * the first two rows of zeros; 1 and a quarter of its last place, which cancel in their
         * columns
         */
        {EVEN, 0, {0, 0x8000, 0x8000, 0x8000}, {0, 0x8000}, {0, 0x8000}, 0},
        {TOTALS_TOWARD_NEGATIVE, 0, {0, 0x8000, 0, 0}, {0x8000, 0}, {0, 0x8000}, 0x8000},
        {EVEN, 0, {0x3c00, 0x0c00, 0xbc00, 0x8c00}, {0x3c00, 0xbc00}, {0, 0}, 0},
        {TOTALS_TOWARD_POSITIVE, 0, {0x3c00, 0x0c00, 0xbc00, 0x8c00}, {0x3c01, 0xbc00}, {0, 0}, 0},
        {TOTALS_TOWARD_NEGATIVE,
         0,
         {0x3c00, 0x0c00, 0xbc00, 0x8c00},
         {0x3c00, 0xbc01},
         {0x8000, 0x8000},
         0x8000},
        /* infinities of both signs in one column; 65504 twice */
        {EVEN, 0, {0x7c00, 0x3c00, 0xfc00, 0x4000}, {0x7c00, 0xfc00}, {0x7e00, 0x4200}, 0x7e00},
        {EVEN, 0, {0x7bff, 0x3c00, 0x7bff, 0xbc00}, {0x7bff, 0x7bff}, {0x7c00, 0}, 0x7c00},
        /* the NaN of a row from left to right, that of a column from top to bottom */
        {EVEN,
         TOTALS_SIGNALING_FIRST,
         {0x7e01, 0x7e04, 0x7e03, 0x7e02},
         {0x7e01, 0x7e03},
         {0x7e01, 0x7e04},
         0x7e01},
        {EVEN,
         TOTALS_LARGER_SIGNIFICAND,
         {0x7e01, 0x7e04, 0x7e03, 0x7e02},
         {0x7e04, 0x7e03},
         {0x7e03, 0x7e04},
         0x7e04},
        {EVEN,
         TOTALS_SIGNALING_FIRST,
         {0x7e01, 0x7c05, 0xfc06, 0x3c00},
         {0x7e05, 0xfe06},
         {0xfe06, 0x7e05},
         0x7e05},
        {EVEN,
         TOTALS_FIRST_OPERAND,
         {0x7e01, 0x7c05, 0xfc06, 0x3c00},
         {0x7e01, 0xfe06},
         {0x7e01, 0x7e05},
         0x7e01},
    };
    totals_settings settings = TOTALS_SETTINGS_INIT;
    size_t i;

    CHECK(table_entry(half, &plain, six, 6, 2, 3, 4, 4, ROOM) == 0
          && holds(0x4880, 0, 1, TOTALS_EQUAL));
    CHECK(row_totals[0] == 0x4600 && row_totals[1] == 0x4200 && guarded_from(row_totals, 2));
    CHECK(column_totals[0] == 0x4000 && column_totals[1] == 0x4200 && column_totals[2] == 0x4400
          && guarded_from(column_totals, 3));
    CHECK(table_entry(half, &plain, six, 6, 3, 2, 3, 2, 24) == 0
          && holds(0x4880, 0, 1, TOTALS_EQUAL));
    CHECK(row_totals[0] == 0x4200 && row_totals[1] == 0x4400 && row_totals[2] == 0x4000
          && guarded_from(row_totals, 3));
    CHECK(column_totals[0] == 0x4500 && column_totals[1] == 0x4400
          && guarded_from(column_totals, 2));
    CHECK(table_entry(half, &plain, six, 6, 1, 6, 1, 6, 24) == 0 && row_totals[0] == 0x4880
          && memcmp(column_totals, six, sizeof six) == 0);
    CHECK(table_entry(half, &plain, six, 6, 6, 1, 6, 1, 24) == 0 && column_totals[0] == 0x4880
          && memcmp(row_totals, six, sizeof six) == 0);

    for (i = 0; i < sizeof rows / sizeof *rows; i++) {
        settings.rounding = rows[i].rounding;
        settings.nan_propagation = rows[i].nan_propagation;
        if (table_entry(half, &settings, rows[i].cells, 4, 2, 2, 2, 2, ROOM) != 0
            || word(0) != rows[i].grand || memcmp(row_totals, rows[i].of_rows, 16) != 0
            || memcmp(column_totals, rows[i].of_columns, 16) != 0
            || !sums_are_plain(half, &settings, rows[i].cells, 2, 2)) {
            fprintf(stderr, "tables: row %d\n", (int)i);
            failures++;
        }
    }
}

/* No columns, no rows, neither: each total is +0, toward negative too. */
static void empty_tables(void)
{
    const totals_format half = {TOTALS_BINARY16, TOTALS_OWN_BIAS};
    totals_settings settings = TOTALS_SETTINGS_INIT;
    double of_doubles[2] = {7, 7};
    float of_floats[2] = {7, 7};
    size_t i;

    for (settings.rounding = 0; settings.rounding < 8; settings.rounding++) {
        CHECK(table_entry(half, &settings, six, 0, 3, 0, 4, 4, ROOM) == 0
              && holds(0, 0, 0, TOTALS_EQUAL));
        CHECK(row_totals[0] == 0 && row_totals[1] == 0 && row_totals[2] == 0
              && guarded_from(row_totals, 3) && guarded_from(column_totals, 0));
        CHECK(table_entry(half, &settings, six, 0, 0, 3, 0, 3, ROOM) == 0
              && holds(0, 0, 0, TOTALS_EQUAL));
        CHECK(column_totals[0] == 0 && column_totals[1] == 0 && column_totals[2] == 0
              && guarded_from(column_totals, 3) && guarded_from(row_totals, 0));
        CHECK(table_entry(half, &settings, six, 0, 0, 0, 0, 0, ROOM) == 0
              && holds(0, 0, 0, TOTALS_EQUAL));
        CHECK(guarded_from(row_totals, 0) && guarded_from(column_totals, 0));
        for (i = 0; i <= LINES; i++) {
            CHECK(sums_are_plain(half, &settings, six, i, 0)
                  && sums_are_plain(half, &settings, six, 0, i));
        }
    }
    /* an empty list needs no pointer */
    CHECK(totals_table_words(half, NULL, 0, 0, 0, NULL, 0, NULL, 0, NULL).refusal
          == TOTALS_ACCEPTED);
    CHECK(totals_table_double(NULL, 0, 2, 0, of_doubles, 2, NULL, 0, &plain).refusal
          == TOTALS_ACCEPTED);
    CHECK(of_doubles[0] == 0 && of_doubles[1] == 0);
    CHECK(totals_table_float(NULL, 0, 0, 1, NULL, 0, of_floats, 2, NULL).refusal
          == TOTALS_ACCEPTED);
    CHECK(of_floats[0] == 0 && of_floats[1] == 7);
}

static void tables_of_doubles(void)
{
    const double cells[6] = {power(1000), 1, -power(1000), 0.5, 2, 4};
    double of_rows[3] = {7, 7, 7}, of_columns[4] = {7, 7, 7, 7}, *many, *lines;
    totals_settings settings = TOTALS_SETTINGS_INIT;
    totals_double_record record =
        totals_table_double(cells, 6, 2, 3, of_rows, 3, of_columns, 4, NULL);
    size_t i, k;

    CHECK(record.refusal == TOTALS_ACCEPTED && record.result == 7.5 && record.flags == 0
          && record.passes == 2 && record.place == 0);
    CHECK(record.side == TOTALS_EQUAL && record.bits == 0x401e000000000000);
    CHECK(of_rows[0] == 1 && of_rows[1] == 6.5 && of_rows[2] == 7);
    CHECK(of_columns[0] == power(1000) && of_columns[1] == 3 && of_columns[2] == -power(1000)
          && of_columns[3] == 7);
    /* 24 digits, upwards: 2^60 + 1 is no such number */
    settings.rounding = TOTALS_TOWARD_POSITIVE;
    settings.precision = 24;
    of_rows[0] = power(60);
    of_rows[1] = 1;
    record = totals_table_double(of_rows, 2, 1, 2, of_columns, 1, of_columns + 1, 2, &settings);
    CHECK(record.result == power(60) + power(37)
          && record.flags == TOTALS_INEXACT + TOTALS_ROUNDED_UP && record.side == TOTALS_ABOVE);
    CHECK(of_columns[0] == record.result && of_columns[1] == power(60) && of_columns[2] == 1
          && of_columns[3] == 7);

    /* a million cells, of which i is i mod 7, less 3 */
    many = (double *)malloc(1024 * 1024 * sizeof *many);
    lines = (double *)malloc(2048 * sizeof *lines);
    for (i = 0; i < 1024 * 1024; i++) {
        many[i] = (double)(i % 7) - 3;
    }
    CHECK(totals_table_double(many, 1024 * 1024, 1024, 1024, lines, 1024, lines + 1024, 1024, NULL)
              .refusal
          == TOTALS_ACCEPTED);
    for (i = 0; i < 1024; i++) {
        long row = 0, column = 0;
        for (k = 0; k < 1024; k++) {
            row += (long)((1024 * i + k) % 7) - 3;
            column += (long)((1024 * k + i) % 7) - 3;
        }
        CHECK(lines[i] == row && lines[1024 + i] == column);
    }
    free(many);
    free(lines);
}

static void tables_of_floats(void)
{
    const float cells[6] = {16777216, 1, -16777216, 0.5f, 2, 4};
    /* a signaling NaN beyond the totals, which stays bit for bit */
    const uint32_t guard = 0x7f800001;
    uint32_t of_rows[3] = {guard, guard, guard}, of_columns[4] = {guard, guard, guard, guard};
    float rows[3], columns[4], many[TOTALS_ROOM_ + 1], lines[TOTALS_ROOM_ + 2];
    totals_float_record record;
    size_t i, n;

    memcpy(rows, of_rows, sizeof rows);
    memcpy(columns, of_columns, sizeof columns);
    CHECK(REFUSED(totals_table_float(cells, 6, 3, 3, rows, 3, columns, 4, NULL), TOTALS_BAD_SHAPE,
                  0));
    CHECK(
        REFUSED(totals_table_float(cells, 6, 6, 1, rows, 3, columns, 4, NULL), TOTALS_NO_ROOM, 0));
    CHECK(memcmp(rows, of_rows, sizeof rows) == 0
          && memcmp(columns, of_columns, sizeof columns) == 0);
    record = totals_table_float(cells, 6, 2, 3, rows, 3, columns, 4, NULL);
    CHECK(record.refusal == TOTALS_ACCEPTED && record.result == 7.5f && record.bits == 0x40f00000
          && record.flags == 0 && record.side == TOTALS_EQUAL);
    CHECK(rows[0] == 1 && rows[1] == 6.5f && columns[0] == 16777216 && columns[1] == 3
          && columns[2] == -16777212);
    CHECK(memcmp(rows + 2, of_rows, 4) == 0 && memcmp(columns + 3, of_columns, 4) == 0);

    /*
     * as many cells as find room without memory of their own, and one more; so many totals, and one
     * more
     */
    for (i = 0; i <= TOTALS_ROOM_; i++) {
        many[i] = (float)i;
    }
    for (n = TOTALS_ROOM_ - 2; n <= TOTALS_ROOM_ + 1; n++) {
        const float sum_of_all = (float)(n * (n - 1) / 2);
        CHECK(totals_table_float(many, n, 1, n, lines, 1, lines + 1, n, NULL).result == sum_of_all);
        CHECK(lines[0] == sum_of_all && memcmp(lines + 1, many, n * sizeof *many) == 0
              && owned == 0);
        CHECK(totals_table_float(many, n, n, 1, lines, n, lines + n, 1, NULL).result == sum_of_all);
        CHECK(lines[n] == sum_of_all && memcmp(lines, many, n * sizeof *many) == 0 && owned == 0);
    }
    has_memory = 0;
    lines[0] = 7;
    CHECK(totals_table_float(many, TOTALS_ROOM_ - 1, 1, TOTALS_ROOM_ - 1, lines, 1, lines + 1,
                             TOTALS_ROOM_, NULL)
              .refusal
          == TOTALS_ACCEPTED);
    lines[0] = 7;
    CHECK(REFUSED(totals_table_float(many, TOTALS_ROOM_, 1, TOTALS_ROOM_, lines, 1, lines + 1,
                                     TOTALS_ROOM_, NULL),
                  TOTALS_NO_MEMORY, 0));
    CHECK(REFUSED(totals_table_float(many, TOTALS_ROOM_ + 1, 1, TOTALS_ROOM_ + 1, lines, 1,
                                     lines + 1, TOTALS_ROOM_, NULL),
                  TOTALS_NO_MEMORY, 0));
    CHECK(REFUSED(totals_table_float(NULL, 0, SIZE_MAX, 0, lines, SIZE_MAX, NULL, 0, NULL),
                  TOTALS_NO_MEMORY, 0)
          && lines[0] == 7);
    /* no memory is asked for where the shape is refused */
    CHECK(REFUSED(
        totals_table_float(many, 6, SIZE_MAX, 2, lines, SIZE_MAX, lines + 1, SIZE_MAX, NULL),
        TOTALS_BAD_SHAPE, 0));
    has_memory = 1;
    CHECK(REFUSED(totals_table_float(NULL, 0, SIZE_MAX, 0, lines, SIZE_MAX, NULL, 0, NULL),
                  TOTALS_NO_MEMORY, 0)
          && lines[0] == 7);
    CHECK(owned == 0);
}

/*
 * Tables of encodings of every sort, in each format that the header names and some with a bias,
 * under many settings.
 */
static void tables_of_words(void)
{
    static const totals_format formats[15] = {
        {TOTALS_BINARY64, TOTALS_OWN_BIAS},  {TOTALS_BINARY32, TOTALS_OWN_BIAS},
        {TOTALS_BINARY16, TOTALS_OWN_BIAS},  {TOTALS_BFLOAT16, TOTALS_OWN_BIAS},
        {TOTALS_TF32, TOTALS_OWN_BIAS},      {TOTALS_E5M2, TOTALS_OWN_BIAS},
        {TOTALS_E4M3, TOTALS_OWN_BIAS},      {TOTALS_E5M2_FNUZ, TOTALS_OWN_BIAS},
        {TOTALS_E4M3_FNUZ, TOTALS_OWN_BIAS}, {TOTALS_E3M2, TOTALS_OWN_BIAS},
        {TOTALS_E2M3, TOTALS_OWN_BIAS},      {TOTALS_E2M1, TOTALS_OWN_BIAS},
        {TOTALS_BINARY16, TOTALS_BIAS(-40)}, {TOTALS_BINARY16, TOTALS_BIAS(TOTALS_FARTHEST_BIAS)},
        {TOTALS_E4M3_FNUZ, TOTALS_BIAS(11)}};
    static const size_t shapes[8][2] = {{2, 3},  {6, 5}, {1, LINES}, {LINES, 1},
                                        {3, 13}, {1, 1}, {0, 4},     {4, 0}};
    uint64_t cells[LINES], state = 3;
    size_t i, j, k, m;

    for (i = 0; i < 15; i++) {
        const uint64_t cut = UINT64_MAX >> (64 - formats[i].width);
        for (j = 0; j < 8; j++) {
            for (k = 0; k < 32; k++) {
                const totals_settings c = {k % 8,     k / 2 % 2, k / 8 % 4, k % 2,
                                           k / 4 % 2, k / 3 % 2, k / 5 % 2, k % 3};
                for (m = 0; m < shapes[j][0] * shapes[j][1]; m++) {
                    state = state * 6364136223846793005 + 1442695040888963407;
                    /*
                     * in half of the tables below the greatest exponent, so that no NaN hides the
                     * rest
                     */
                    cells[m] = state >> (64 - formats[i].width)
                               & (k % 2 ? cut : cut & ~(UINT64_C(1) << (formats[i].width - 2)));
                }
                CHECK(sums_are_plain(formats[i], &c, cells, shapes[j][0], shapes[j][1]));
            }
        }
    }
}

/* Rows times columns are whole numbers, not modulo 2^64. */
static void shapes_refused(void)
{
    const totals_format half = {TOTALS_BINARY16, TOTALS_OWN_BIAS};
    const uint64_t top = UINT64_C(1) << 63;
    const struct {
        uint64_t rows, columns;
        size_t count;
    } bad[] = {
        {UINT64_C(1) << 32, UINT64_C(1) << 32, 0},
        {top, 2, 0},
        {top, top, 0},
        {UINT64_MAX, UINT64_MAX, 1},
        {top + 3, 2, 6},
        {0, 0, 1},
        {0, 6, 6},
        {1, 1, 0},
        {2, 2, 6},
        {3, 3, 6},
        {7, 1, 6},
        {5, 1, 6},
        {UINT64_MAX, 1, 6},
    };
    const uint64_t large[5] = {LINES + 1, UINT64_C(1) << 32, top, top + 1, UINT64_MAX};
    size_t i;

    for (i = 0; i < sizeof bad / sizeof *bad; i++) {
        const uint64_t m = bad[i].rows, n = bad[i].columns;
        CHECK(table_entry(half, &plain, six, bad[i].count, m, n, LINES, LINES, ROOM)
                  == TOTALS_BAD_SHAPE
              && all_untouched());
        CHECK(table_entry(half, &plain, six, bad[i].count, n, m, LINES, LINES, ROOM)
                  == TOTALS_BAD_SHAPE
              && all_untouched());
        CHECK(REFUSED(totals_table_words(half, six, bad[i].count, m, n, row_totals, LINES,
                                         column_totals, LINES, NULL),
                      TOTALS_BAD_SHAPE, 0));
        CHECK(REFUSED(totals_table_words(half, six, bad[i].count, n, m, row_totals, LINES,
                                         column_totals, LINES, NULL),
                      TOTALS_BAD_SHAPE, 0));
        CHECK(all_untouched());
    }
    for (i = 0; i < 5; i++) {
        CHECK(table_entry(half, &plain, six, 0, large[i], 0, LINES, LINES, ROOM) == TOTALS_NO_ROOM
              && all_untouched());
        CHECK(table_entry(half, &plain, six, 0, 0, large[i], LINES, LINES, ROOM) == TOTALS_NO_ROOM
              && all_untouched());
        CHECK(REFUSED(
            totals_table_words(half, NULL, 0, large[i], 0, row_totals, LINES, NULL, 0, NULL),
            TOTALS_NO_ROOM, 0));
        CHECK(REFUSED(
            totals_table_words(half, NULL, 0, 0, large[i], NULL, 0, column_totals, LINES, NULL),
            TOTALS_NO_ROOM, 0));
        CHECK(all_untouched());
    }
    /* a room that is said to be larger than any is not written beyond the totals */
    clear_totals();
    CHECK(
        totals_table_words(half, six, 6, 2, 3, row_totals, SIZE_MAX, column_totals, SIZE_MAX, NULL)
            .result
        == 0x4880);
    CHECK(row_totals[1] == 0x4200 && column_totals[2] == 0x4400 && guarded_from(row_totals, 2)
          && guarded_from(column_totals, 3));
}

/*
 * Every choice of conditions: the first in the order 2, 3, 4, 6, 9, 10, 7 is returned, and nothing
 * is written.
 */
static void tables_refused(void)
{
    static const unsigned order[7] = {2, 3, 4, 6, 9, 10, 7};
    const size_t most = TOTALS_MOST_ELEMENTS;
    const totals_format misnamed[4] = {{4, 5, 16, TOTALS_OWN_BIAS},
                                       {TOTALS_BINARY16, 2, 15},
                                       {TOTALS_BINARY16, 0, 40},
                                       {TOTALS_BINARY16, TOTALS_BIAS(TOTALS_FARTHEST_BIAS + 1)}};
    const totals_format half = {TOTALS_BINARY16, TOTALS_OWN_BIAS};
    uint64_t *many = addresses(most + 1), few[6];
    totals_settings bad = TOTALS_SETTINGS_INIT;
    double of_doubles[2] = {7, 7};
    const double one = 1;
    const float single = 1;
    unsigned holding, lacking, i;

    bad.rounding = 8;
    for (holding = 0; holding < 128; holding++) {
#define HOLDS(place) (holding >> (place) & 1)
        const totals_format f = HOLDS(1) ? misnamed[holding / 2 % 4] : half;
        const uint64_t *cells = HOLDS(3) ? many : few;
        const size_t count = HOLDS(3) ? most + 1 : 6;
        /* 2^28 + 1 is 17 times 15790321 */
        const uint64_t rows = HOLDS(4)   ? 2
                              : HOLDS(3) ? 17
                                         : 2,
                       columns = HOLDS(4)   ? 2
                                 : HOLDS(3) ? 15790321
                                            : 3;
        memcpy(few, six, sizeof few);
        few[4] = many[4] = HOLDS(6) ? 0x10000 : 0x3c00;
        few[5] = many[5] = HOLDS(6) ? UINT64_C(1) << 63 : 0x3c00;
        /*
         * too short by one: the rows', the columns', both. Of the many columns there is never room,
         * and 6 comes before that.
         */
        for (lacking = HOLDS(5); lacking <= 3 * HOLDS(5); lacking++) {
            const size_t row_room = (size_t)rows - (lacking & 1),
                         column_room = columns > LINES ? 1 : (size_t)columns - (lacking >> 1);
            const uint64_t code = table_entry(f, HOLDS(2) ? &bad : &plain, cells, count, rows,
                                              columns, row_room, column_room, HOLDS(0) ? 23 : 24);
            totals_record record;
            uint64_t wanted = 0;
            for (i = 7; i-- > 0;) {
                if (HOLDS(i)) {
                    wanted = order[i] == TOTALS_STRAY_BIT ? TOTALS_STRAY_BIT + 256 * 4 : order[i];
                }
            }
            if (code != wanted || (code != 0 && !all_untouched())) {
                fprintf(stderr, "tables_refused: %u %u\n", holding, lacking);
                failures++;
            }
            if (!HOLDS(0) && code != 0) {
                record = totals_table_words(f, cells, count, rows, columns, row_totals, row_room,
                                            column_totals, column_room, HOLDS(2) ? &bad : NULL);
                CHECK(REFUSED(record, TOTALS_REFUSAL(wanted), TOTALS_PLACE(wanted))
                      && all_untouched());
            }
        }
    }
    munmap(many, 8 * (most + 1));

    /*
     * a NULL list that is not empty comes after 3, 4 and 6; a count that no list has is not looked
     * into
     */
    for (i = 0; i < 4; i++) {
        CHECK(REFUSED(totals_table_words(misnamed[i], NULL, 6, 2, 3, NULL, 2, NULL, 3, &bad),
                      TOTALS_NO_SUCH_FORMAT, 0));
        CHECK(REFUSED(totals_table_words(misnamed[i], NULL, SIZE_MAX, 1, 1, NULL, 2, NULL, 3, &bad),
                      TOTALS_NO_SUCH_FORMAT, 0));
    }
    clear_totals();
    CHECK(REFUSED(totals_table_words(half, NULL, 6, 2, 3, NULL, 2, NULL, 3, &bad),
                  TOTALS_SETTING_OUT_OF_RANGE, 0));
    CHECK(REFUSED(totals_table_words(half, NULL, most + 1, 2, 3, NULL, 2, NULL, 3, NULL),
                  TOTALS_TOO_MANY_ELEMENTS, 0));
    CHECK(REFUSED(totals_table_words(half, NULL, 6, 2, 3, row_totals, 2, column_totals, 3, NULL),
                  TOTALS_NO_LIST, 0));
    CHECK(REFUSED(totals_table_words(half, six, 6, 2, 3, NULL, 2, column_totals, 3, NULL),
                  TOTALS_NO_LIST, 0));
    CHECK(REFUSED(totals_table_words(half, six, 6, 2, 3, row_totals, 2, NULL, 3, NULL),
                  TOTALS_NO_LIST, 0));
    CHECK(REFUSED(totals_table_words(half, six, 6, 2, 2, row_totals, 2, NULL, 3, NULL),
                  TOTALS_NO_LIST, 0));
    CHECK(REFUSED(totals_table_words(half, six, 6, 2, 3, NULL, 0, column_totals, 3, NULL),
                  TOTALS_NO_ROOM, 0));
    CHECK(all_untouched());
    CHECK(REFUSED(
        totals_table_double(&one, SIZE_MAX / 8 + 2, 1, 1, of_doubles, 1, of_doubles + 1, 1, NULL),
        TOTALS_TOO_MANY_ELEMENTS, 0));
    CHECK(REFUSED(totals_table_float(&single, SIZE_MAX / 8 + 1, 1, 1, NULL, 0, NULL, 0, NULL),
                  TOTALS_TOO_MANY_ELEMENTS, 0));
    CHECK(REFUSED(totals_table_double(&one, 1, 1, 1, of_doubles, 1, of_doubles + 1, 1, &bad),
                  TOTALS_SETTING_OUT_OF_RANGE, 0));
    CHECK(REFUSED(totals_table_double(&one, 1, 1, 1, of_doubles, 1, of_doubles + 1, 0, NULL),
                  TOTALS_NO_ROOM, 0));
    CHECK(REFUSED(totals_table_float(&single, 1, 1, 1, NULL, 1, NULL, 1, NULL), TOTALS_NO_LIST, 0));
    CHECK(of_doubles[0] == 7 && of_doubles[1] == 7 && owned == 0);
}

#define INFINITE 0x7ff0000000000000
#define GREATEST 0x7fefffffffffffff
#define MINUS 0x8000000000000000
#define ONE 0x3ff0000000000000
/* The most entries of the ranges below. */
#define ENTRIES 12

/* What the figures that are not used may hold: zeros of either sign, infinities, NaNs, a number. */
static const uint64_t unused[7] = {0,          MINUS,        INFINITE,          MINUS + INFINITE,
                                   UINT64_MAX, INFINITE + 1, 0x4059000000000000};

typedef struct entry {
    uint64_t tag;
    uint64_t first;
    uint64_t second;
} entry;

static int has_pair(totals_range_record record, uint64_t lower, uint64_t upper)
{
    return record.refusal == TOTALS_ACCEPTED && record.lower_bits == lower
           && record.upper_bits == upper && memcmp(&record.lower, &lower, sizeof lower) == 0
           && memcmp(&record.upper, &upper, sizeof upper) == 0;
}

/* A record in which nothing is set but the refusal. */
static int is_refused_with(totals_range_record record, unsigned refusal)
{
    return record.refusal == refusal && record.lower_bits == 0 && record.upper_bits == 0
           && record.lower == 0 && record.upper == 0;
}

/*
 * The three lists of the entries, with one word for every figure that is not used; and the lows and
 * highs of the entries.
 */
typedef struct lists {
    uint64_t tags[ENTRIES + BEYOND], first[ENTRIES + BEYOND], second[ENTRIES + BEYOND],
        lows[ENTRIES + BEYOND], highs[ENTRIES + BEYOND];
    double firsts[ENTRIES + BEYOND], seconds[ENTRIES + BEYOND];
} lists;

static void lay_out(lists *l, const entry *entries, size_t count, uint64_t ceiling, uint64_t rest)
{
    size_t i;
    for (i = 0; i < ENTRIES + BEYOND; i++) {
        l->tags[i] = l->first[i] = l->second[i] = l->lows[i] = l->highs[i] = GUARD;
    }
    for (i = 0; i < count; i++) {
        const entry e = entries[i];
        l->tags[i] = e.tag;
        l->first[i] = e.tag == TOTALS_MISSING ? rest : e.first;
        l->second[i] = e.tag == TOTALS_KNOWN || e.tag == TOTALS_MISSING ? rest : e.second;
        l->lows[i] = e.tag == TOTALS_MISSING ? 0 : e.first;
        l->highs[i] = e.tag == TOTALS_MISSING ? ceiling
                      : e.tag == TOTALS_KNOWN ? e.first
                                              : e.second;
    }
    memcpy(l->firsts, l->first, sizeof l->first);
    memcpy(l->seconds, l->second, sizeof l->second);
}

/*
 * The pair, through the entry and both inline functions. The words are left with the lows and the
 * highs, the double as they were.
 */
static int range_is(const entry *entries, size_t count, uint64_t ceiling, uint64_t lower,
                    uint64_t upper)
{
    int holds_so = 1;
    size_t i, turn;
    for (i = 0; i < 7; i++) {
        const size_t size = sizeof(uint64_t) * (ENTRIES + BEYOND);
        uint64_t pair[2 + BEYOND] = {GUARD, GUARD, GUARD, GUARD, GUARD};
        lists l, before;
        lay_out(&before, entries, count, ceiling, unused[i]);
        l = before;
        holds_so &= has_pair(
            totals_range_double(l.tags, count, l.firsts, count, l.seconds, count, number(ceiling)),
            lower, upper);
        holds_so &= memcmp(l.firsts, before.firsts, size) == 0
                    && memcmp(l.seconds, before.seconds, size) == 0;
        holds_so &=
            totals_range(l.tags, count, l.first, count, l.second, count, ceiling, pair, 2 + i % 2)
            == TOTALS_ACCEPTED;
        holds_so &= pair[0] == lower && pair[1] == upper && pair[2] == GUARD && pair[3] == GUARD
                    && pair[4] == GUARD;
        holds_so &= memcmp(l.first, l.lows, size) == 0 && memcmp(l.second, l.highs, size) == 0;
        /* and again with the lists as they are left */
        memcpy(l.first, before.first, size);
        memcpy(l.second, before.second, size);
        for (turn = 0; turn < 2; turn++) {
            holds_so &= has_pair(
                totals_range_words(l.tags, count, l.first, count, l.second, count, ceiling), lower,
                upper);
            holds_so &= memcmp(l.first, l.lows, size) == 0 && memcmp(l.second, l.highs, size) == 0;
        }
        holds_so &= memcmp(l.tags, before.tags, size) == 0;
    }
    return holds_so;
}

/* Refused with 11 on every way, and nothing is written. */
static int is_bad(const entry *entries, size_t count, uint64_t ceiling)
{
    int holds_so = 1;
    size_t i;
    for (i = 0; i < 7; i++) {
        uint64_t pair[2] = {GUARD, GUARD};
        lists l, before;
        lay_out(&before, entries, count, ceiling, unused[i]);
        l = before;
        holds_so &= totals_range(l.tags, count, l.first, count, l.second, count, ceiling, pair, 2)
                    == TOTALS_BAD_AMOUNT;
        holds_so &= is_refused_with(
            totals_range_words(l.tags, count, l.first, count, l.second, count, ceiling),
            TOTALS_BAD_AMOUNT);
        holds_so &= is_refused_with(
            totals_range_double(l.tags, count, l.firsts, count, l.seconds, count, number(ceiling)),
            TOTALS_BAD_AMOUNT);
        holds_so &= pair[0] == GUARD && pair[1] == GUARD && memcmp(&l, &before, sizeof l) == 0;
    }
    return holds_so;
}

static void ranges(void)
{
    static const struct {
        size_t count;
        entry entries[3];
        uint64_t ceiling, lower, upper;
    } rows[] = {
        {0, {{0, 0, 0}, {0, 0, 0}, {0, 0, 0}}, 0, 0, 0},
        {0, {{0, 0, 0}, {0, 0, 0}, {0, 0, 0}}, ONE, 0, 0},
        /* 1; and 2^-53, or the least number of either sign */
        {1, {{0, ONE, 0}, {0, 0, 0}, {0, 0, 0}}, 0, ONE, ONE},
        {2, {{0, ONE, 0}, {0, 0x3ca0000000000000, 0}, {0, 0, 0}}, 0, ONE, ONE + 1},
        {2, {{0, ONE, 0}, {0, 1, 0}, {0, 0, 0}}, 0, ONE, ONE + 1},
        {2, {{0, ONE, 0}, {0, MINUS + 1, 0}, {0, 0, 0}}, 0, ONE - 1, ONE},
        {2, {{0, MINUS + ONE, 0}, {0, 1, 0}, {0, 0, 0}}, 0, MINUS + ONE, MINUS + ONE - 1},
        {2, {{0, MINUS + ONE, 0}, {0, MINUS + 1, 0}, {0, 0, 0}}, 0, MINUS + ONE + 1, MINUS + ONE},
        /* between -100 and 200, and one missing under 1000 */
        {2,
         {{1, 0xc059000000000000, 0x4069000000000000}, {2, 0, 0}, {0, 0, 0}},
         0x408f400000000000,
         0xc059000000000000,
         0x4092c00000000000},
        {2, {{2, 0, 0}, {0, ONE, 0}, {0, 0, 0}}, 1, ONE, ONE + 1},
        {3, {{2, 0, 0}, {2, 0, 0}, {0, 1, 0}}, 1, 1, 3},
        {1, {{1, ONE, ONE}, {0, 0, 0}, {0, 0, 0}}, 0, ONE, ONE},
        /* what is too large for a double */
        {2, {{0, GREATEST, 0}, {0, GREATEST, 0}, {0, 0, 0}}, 0, GREATEST, INFINITE},
        {2, {{0, GREATEST, 0}, {0, 1, 0}, {0, 0, 0}}, 0, GREATEST, INFINITE},
        {2, {{0, GREATEST, 0}, {0, MINUS + 1, 0}, {0, 0, 0}}, 0, GREATEST - 1, GREATEST},
        {2,
         {{0, MINUS + GREATEST, 0}, {0, MINUS + GREATEST, 0}, {0, 0, 0}},
         0,
         MINUS + INFINITE,
         MINUS + GREATEST},
        {1, {{1, MINUS + GREATEST, GREATEST}, {0, 0, 0}, {0, 0, 0}}, 0, MINUS + GREATEST, GREATEST},
        {2,
         {{1, MINUS + GREATEST, GREATEST}, {1, MINUS + GREATEST, GREATEST}, {0, 0, 0}},
         0,
         MINUS + INFINITE,
         INFINITE},
        {2, {{2, 0, 0}, {2, 0, 0}, {0, 0, 0}}, GREATEST, 0, INFINITE},
        {3, {{0, GREATEST, 0}, {0, GREATEST, 0}, {0, MINUS + GREATEST, 0}}, 0, GREATEST, GREATEST},
        /* a total of zero is +0; a ceiling may be -0; a low of +0 is not above a high of -0 */
        {1, {{0, MINUS, 0}, {0, 0, 0}, {0, 0, 0}}, 0, 0, 0},
        {2, {{0, MINUS, 0}, {0, 0, 0}, {0, 0, 0}}, 0, 0, 0},
        {1, {{2, 0, 0}, {0, 0, 0}, {0, 0, 0}}, MINUS, 0, 0},
        {2, {{2, 0, 0}, {0, MINUS, 0}, {0, 0, 0}}, MINUS, 0, 0},
        {1, {{1, 0, MINUS}, {0, 0, 0}, {0, 0, 0}}, 0, 0, 0},
        {1, {{1, MINUS, 0}, {0, 0, 0}, {0, 0, 0}}, MINUS, 0, 0},
        {2, {{0, ONE, 0}, {0, MINUS + ONE, 0}, {0, 0, 0}}, 0, 0, 0},
        {3, {{0, GREATEST, 0}, {2, 0, 0}, {0, MINUS + GREATEST, 0}}, ONE, 0, ONE},
    };
    size_t i;

    for (i = 0; i < sizeof rows / sizeof *rows; i++) {
        if (!range_is(rows[i].entries, rows[i].count, rows[i].ceiling, rows[i].lower,
                      rows[i].upper)) {
            fprintf(stderr, "ranges: row %d\n", (int)i);
            failures++;
        }
    }
    /* empty lists need no pointers */
    CHECK(has_pair(totals_range_double(NULL, 0, NULL, 0, NULL, 0, 1), 0, 0));
    CHECK(has_pair(totals_range_words(NULL, 0, NULL, 0, NULL, 0, ONE), 0, 0));
    {
        /* lists of double are only read, so one may stand for both */
        static const uint64_t tags[2] = {TOTALS_KNOWN, TOTALS_BETWEEN};
        const double figures[2] = {0.5, -2};
        CHECK(totals_range_double(tags, 2, figures, 2, figures, 2, 0).lower == -1.5);
        CHECK(totals_range_double(tags, 2, figures, 2, figures, 2, 0).upper == -1.5);
    }
}

static void bad_amounts(void)
{
    const uint64_t not_finite[5] = {INFINITE, MINUS + INFINITE, INFINITE + 1, 0x7ff8000000000000,
                                    UINT64_MAX};
    const uint64_t below_zero[3] = {MINUS + ONE, MINUS + 1, MINUS + GREATEST};
    const uint64_t no_tag[6] = {3, 255, 256, 258, UINT64_C(1) << 32, UINT64_MAX};
    const uint64_t falling[8][2] = {{ONE + 1, ONE},     {MINUS + ONE, MINUS + ONE + 1},
                                    {ONE, MINUS + ONE}, {1, 0},
                                    {1, MINUS},         {0, MINUS + 1},
                                    {MINUS, MINUS + 1}, {GREATEST, MINUS + GREATEST}};
    entry entries[4] = {{TOTALS_KNOWN, ONE, 0},
                        {TOTALS_MISSING, 0, 0},
                        {TOTALS_BETWEEN, ONE, ONE},
                        {TOTALS_KNOWN, ONE, 0}};
    size_t i;

    for (i = 0; i < 5; i++) {
        const entry known = {TOTALS_KNOWN, not_finite[i], 0},
                    low = {TOTALS_BETWEEN, not_finite[i], ONE},
                    high = {TOTALS_BETWEEN, ONE, not_finite[i]};
        CHECK(is_bad(&known, 1, ONE) && is_bad(&low, 1, ONE) && is_bad(&high, 1, ONE));
        entries[2] = known;
        CHECK(is_bad(entries, 4, ONE));
        /* a ceiling, though nothing is missing, or there is nothing at all */
        CHECK(is_bad(entries, 0, not_finite[i]) && is_bad(entries, 1, not_finite[i])
              && is_bad(entries + 1, 1, not_finite[i]));
    }
    for (i = 0; i < 3; i++) {
        CHECK(is_bad(entries, 0, below_zero[i]) && is_bad(entries, 1, below_zero[i])
              && is_bad(entries + 1, 1, below_zero[i]));
    }
    for (i = 0; i < 6; i++) {
        const entry untold = {no_tag[i], ONE, ONE};
        entries[2] = untold;
        CHECK(is_bad(entries, 4, ONE) && is_bad(&untold, 1, ONE));
    }
    for (i = 0; i < 8; i++) {
        const entry fall = {TOTALS_BETWEEN, falling[i][0], falling[i][1]},
                    rise = {TOTALS_BETWEEN, falling[i][1], falling[i][0]};
        entries[2] = fall;
        CHECK(is_bad(entries, 4, ONE) && is_bad(&fall, 1, ONE));
        CHECK(range_is(&rise, 1, ONE, falling[i][1] == MINUS ? 0 : falling[i][1],
                       falling[i][0] == MINUS ? 0 : falling[i][0]));
    }
}

/*
 * The greatest double that is not above a whole number: a multiple of the last place of its 53
 * leading digits.
 */
static double not_above(int64_t n)
{
    int64_t step = 1;
    while ((n < 0 ? -n : n) / step >= INT64_C(1) << 53) {
        step *= 2;
    }
    /* toward negative, where % goes toward zero */
    return (double)(n - (n % step + step) % step);
}

static uint64_t bits_of(double x)
{
    uint64_t bits;
    memcpy(&bits, &x, sizeof bits);
    return bits;
}

static uint64_t state = 6;

/* Numbers below n that are the same in every run. */
static uint64_t drawn_below(uint64_t n)
{
    state = state * UINT64_C(6364136223846793005) + UINT64_C(1442695040888963407);
    return (state >> 11) % n;
}

/* Up to 53 digits, and most often more than 40, with up to 5 zeros behind them. */
static int64_t drawn_figure(void)
{
    const uint64_t digits = drawn_below(UINT64_C(1) << (53 - drawn_below(14)));
    return (int64_t)(digits << drawn_below(6));
}

/* Whole numbers: the sums of lows and highs are known, and so are their neighbours. */
static void neighbours_of_exact_sums(void)
{
    const int64_t large = INT64_C(1) << 53;
    int round, inexact = 0;

    CHECK(not_above(large) == power(53) && not_above(large + 1) == power(53)
          && not_above(large + 2) == power(53) + 2);
    CHECK(not_above(-large - 1) == -power(53) - 2 && not_above(-5) == -5 && not_above(0) == 0);
    for (round = 0; round < 1000; round++) {
        const size_t count = (size_t)drawn_below(ENTRIES + 1);
        const int64_t ceiling = drawn_figure();
        int64_t low_sum = 0, high_sum = 0;
        entry entries[ENTRIES];
        double lower, upper;
        size_t i;
        for (i = 0; i < count; i++) {
            const uint64_t tag = drawn_below(3);
            int64_t low = drawn_below(2) ? drawn_figure() : -drawn_figure(),
                    high = low + (tag == TOTALS_BETWEEN ? drawn_figure() : 0);
            /* a double has both */
            high = (int64_t)not_above(high);
            entries[i].tag = tag;
            entries[i].first = bits_of((double)low);
            entries[i].second = bits_of((double)high);
            if (tag == TOTALS_MISSING) {
                low = 0;
                high = ceiling;
            }
            low_sum += low;
            high_sum += high;
        }
        /* +0, and not -0 */
        lower = 0 + not_above(low_sum);
        upper = 0 - not_above(-high_sum);
        inexact += upper != not_above(high_sum);
        CHECK(range_is(entries, count, bits_of((double)ceiling), bits_of(lower), bits_of(upper)));
        /* the other way round */
        for (i = 0; i < count / 2; i++) {
            const entry e = entries[i];
            entries[i] = entries[count - 1 - i];
            entries[count - 1 - i] = e;
        }
        CHECK(range_is(entries, count, bits_of((double)ceiling), bits_of(lower), bits_of(upper)));
    }
    CHECK(inexact > 300);
}

/* Sums beside 1 and -1, in each of the 120 orders of five entries. */
static void ranges_in_every_order(void)
{
    const entry values[5] = {
        {TOTALS_KNOWN, GREATEST, 0},  {TOTALS_BETWEEN, MINUS + ONE, ONE},
        {TOTALS_MISSING, 0, 0},       {TOTALS_KNOWN, MINUS + GREATEST, 0},
        {TOTALS_KNOWN, MINUS + 1, 0},
    };
    int order, orders = 0;

    for (order = 0; order < 3125; order++) {
        entry list[5];
        int k, rest = order, seen = 0;
        for (k = 0; k < 5; k++) {
            list[k] = values[rest % 5];
            seen |= 1 << rest % 5;
            rest /= 5;
        }
        if (seen == 31) {
            orders++;
            /* 1 and the least number, less the least number */
            CHECK(range_is(list, 5, 1, MINUS + ONE + 1, ONE));
        }
    }
    CHECK(orders == 120);
}

/*
 * Every choice of conditions: the first in the order 2, 5, 6, 11 is returned, and nothing is
 * written.
 */
static void ranges_refused(void)
{
    static const unsigned order[4] = {TOTALS_SHORT_BUFFER, TOTALS_DIFFERENT_LENGTHS,
                                      TOTALS_TOO_MANY_ELEMENTS, TOTALS_BAD_AMOUNT};
    const size_t most = TOTALS_MOST_ELEMENTS;
    uint64_t *tags = addresses(most + 1), *first = addresses(most + 1),
             *second = addresses(most + 1);
    const double *unread = (const double *)first, figure = 1;
    uint64_t one = ONE, zero = 0, known = TOTALS_KNOWN;
    unsigned holding, which, i;
    size_t k;

    for (k = 0; k < OPEN_WORDS; k++) {
        first[k] = second[k] = ONE;
    }
    for (holding = 1; holding < 16; holding++) {
        const size_t count = HOLDS(2) ? most + 1 : 3;
        unsigned code = 0;
        tags[1] = HOLDS(3) ? 3 : 0;
        for (i = 4; i-- > 0;) {
            if (HOLDS(i)) {
                code = order[i];
            }
        }
        /* shorter by one: the tags, the first figures, the second ones, or two of these */
        for (which = HOLDS(1); which <= 6 * HOLDS(1); which++) {
            const size_t a = count - (which & 1), b = count - (which >> 1 & 1),
                         c = count - (which >> 2 & 1);
            uint64_t pair[2] = {GUARD, GUARD};
            int holds_so =
                totals_range(tags, a, first, b, second, c, ONE, pair, HOLDS(0) ? 1 : 2) == code;
            if (!HOLDS(0)) {
                holds_so &=
                    is_refused_with(totals_range_words(tags, a, first, b, second, c, ONE), code);
                holds_so &=
                    is_refused_with(totals_range_double(tags, a, unread, b, unread, c, 1), code);
            }
            for (k = 0; k < OPEN_WORDS; k++) {
                holds_so &= first[k] == ONE && second[k] == ONE;
            }
            if (!holds_so || pair[0] != GUARD || pair[1] != GUARD) {
                fprintf(stderr, "ranges_refused: %u %u\n", holding, which);
                failures++;
            }
        }
    }
    has_memory = 0;
    CHECK(
        is_refused_with(totals_range_double(tags, most + 1, unread, most + 1, unread, most + 1, 0),
                        TOTALS_TOO_MANY_ELEMENTS));
    CHECK(is_refused_with(totals_range_double(tags, most, unread, most, NULL, most, 0),
                          TOTALS_NO_LIST));
    CHECK(is_refused_with(totals_range_double(tags, most, unread, most, unread, most, 0),
                          TOTALS_NO_MEMORY)
          && asked == 4294967296);
    has_memory = 1;
    munmap(tags, 8 * (most + 1));
    munmap(first, 8 * (most + 1));
    munmap(second, 8 * (most + 1));
    CHECK(owned == 0);

    /*
     * a NULL list that is not empty comes after 5 and 6 and before 11; a count that no list has is
     * not looked into
     */
    CHECK(
        is_refused_with(totals_range_double(NULL, 1, &figure, 1, &figure, 1, -1), TOTALS_NO_LIST));
    CHECK(is_refused_with(totals_range_double(&known, 1, NULL, 1, &figure, 1, -1), TOTALS_NO_LIST));
    CHECK(is_refused_with(totals_range_double(&known, 1, &figure, 1, NULL, 1, -1), TOTALS_NO_LIST));
    CHECK(is_refused_with(totals_range_words(NULL, 1, &one, 1, &zero, 1, UINT64_MAX),
                          TOTALS_NO_LIST));
    CHECK(is_refused_with(totals_range_words(&known, 1, NULL, 1, &zero, 1, UINT64_MAX),
                          TOTALS_NO_LIST));
    CHECK(is_refused_with(totals_range_words(&known, 1, &one, 1, NULL, 1, UINT64_MAX),
                          TOTALS_NO_LIST));
    CHECK(is_refused_with(totals_range_words(NULL, 1, NULL, 2, NULL, 1, UINT64_MAX),
                          TOTALS_DIFFERENT_LENGTHS));
    CHECK(is_refused_with(totals_range_double(&known, SIZE_MAX, &figure, 1, &figure, SIZE_MAX, 1),
                          TOTALS_DIFFERENT_LENGTHS));
    CHECK(is_refused_with(totals_range_double(&known, 1, &figure, 1, &figure, SIZE_MAX / 8 + 2, 1),
                          TOTALS_DIFFERENT_LENGTHS));
    CHECK(is_refused_with(totals_range_double(NULL, SIZE_MAX, NULL, SIZE_MAX, NULL, SIZE_MAX, 1),
                          TOTALS_TOO_MANY_ELEMENTS));
    CHECK(is_refused_with(totals_range_double(&known, SIZE_MAX / 8 + 2, &figure, SIZE_MAX / 8 + 2,
                                              &figure, SIZE_MAX / 8 + 2, 1),
                          TOTALS_TOO_MANY_ELEMENTS));
    CHECK(
        is_refused_with(totals_range_words(&known, SIZE_MAX, &one, SIZE_MAX, &zero, SIZE_MAX, ONE),
                        TOTALS_TOO_MANY_ELEMENTS));
    CHECK(one == ONE && zero == 0 && owned == 0);
    /* a ceiling is looked at with empty lists too, and comes after a length */
    CHECK(is_refused_with(totals_range_double(NULL, 0, NULL, 0, NULL, 0, -1), TOTALS_BAD_AMOUNT));
    CHECK(is_refused_with(totals_range_double(NULL, 0, &figure, 1, NULL, 0, -1),
                          TOTALS_DIFFERENT_LENGTHS));
}

/* Entries that are copied to memory of their own, which is given back. */
static void long_ranges(void)
{
    uint64_t *tags = (uint64_t *)calloc(LONG, sizeof *tags),
             *first = (uint64_t *)malloc(LONG * sizeof *first);
    uint64_t *second = (uint64_t *)malloc(LONG * sizeof *second);
    double *halves = (double *)malloc(LONG * sizeof *halves);
    size_t k;

    for (k = 0; k < LONG; k++) {
        first[k] = second[k] = ONE;
        halves[k] = 0.5;
    }
    CHECK(totals_range_double(tags, LONG, halves, LONG, halves, LONG, 0).lower == (double)LONG / 2
          && owned == 0);
    CHECK(totals_range_words(tags, LONG, first, LONG, second, LONG, ONE).upper == LONG);
    /* one less, as many and one more than find room without a copy */
    for (k = TOTALS_ROOM_ - 1; k <= TOTALS_ROOM_ + 1; k++) {
        tags[k - 1] = TOTALS_MISSING;
        CHECK(totals_range_double(tags, k, halves, k, halves, k, 7).lower == (double)(k - 1) / 2);
        CHECK(totals_range_double(tags, k, halves, k, halves, k, 7).upper
              == (double)(k - 1) / 2 + 7);
        tags[k - 1] = TOTALS_KNOWN;
    }
    CHECK(owned == 0);
    has_memory = 0;
    CHECK(totals_range_double(tags, TOTALS_ROOM_, halves, TOTALS_ROOM_, halves, TOTALS_ROOM_, 0)
              .refusal
          == TOTALS_ACCEPTED);
    CHECK(is_refused_with(totals_range_double(tags, 513, halves, 513, halves, 513, -1),
                          TOTALS_NO_MEMORY));
    CHECK(totals_range_words(tags, LONG, first, LONG, second, LONG, ONE).refusal
          == TOTALS_ACCEPTED);
    has_memory = 1;
    free(tags);
    free(first);
    free(second);
    free(halves);
}

/* The most values of the pages below, but for the longest, and the bytes that lie behind a page. */
#define VALUES 130
#define BEHIND 40
#define PAGE_ROOM (8 * VALUES + 12 * 3 + 16 + BEHIND)
/* The most values of a page with a trailer of 16 bytes. */
#define SHORT_MOST 1048576

static void put(uint8_t *at, size_t size, uint64_t x)
{
    size_t i;
    for (i = 0; i < size; i++) {
        at[i] = (uint8_t)(x >> 8 * i);
    }
}

/*
 * The summary of a group. A finite value is a whole number, of at most 53 digits, times 2^(exponent
 * - 1075).
 */
static void summarize(const uint64_t *values, size_t count, uint8_t *summary)
{
    int high = -2000, low = 2000;
    unsigned sorts = 0;
    size_t i;
    for (i = 0; i < count; i++) {
        const int exponent = (int)(values[i] >> 52 & 0x7ff);
        const uint64_t fraction = values[i] & UINT64_C(0xfffffffffffff);
        const uint64_t digits = exponent == 0 ? fraction : fraction | UINT64_C(1) << 52;
        int k;
        if (exponent == 0x7ff) {
            sorts |= fraction != 0 ? 1 : 2;
            continue;
        }
        sorts |= digits == 0 ? 4 : 0;
        for (k = 0; k < 53; k++) {
            const int position = k + (exponent == 0 ? 1 : exponent) - 1075;
            if (digits >> k & 1) {
                high = position > high ? position : high;
                low = position < low ? position : low;
            }
        }
    }
    put(summary, 4, low > high ? 0 : (uint64_t)(int64_t)high);
    put(summary + 4, 4, low > high ? 0 : (uint64_t)(int64_t)low);
    put(summary + 8, 4, sorts);
}

/*
 * The trailer of one kind or the other for some number of values, in the range of that kind or not,
 * and its length.
 */
static size_t trailer_by_hand(int is_long, uint64_t offset, uint64_t count, uint8_t *at)
{
    const size_t size = is_long ? 8 : 4;
    put(at, size, offset);
    put(at + size, size, count);
    put(at + 2 * size, 4, 64);
    memcpy(at + 2 * size + 4, is_long ? "CPG2" : "CPG1", 4);
    return 2 * size + 8;
}

/* The page of some values, put together as it is described, and its length. */
static size_t page_by_hand(const uint64_t *values, size_t count, uint8_t *page)
{
    uint8_t *at = page;
    size_t i;
    for (i = 0; i < count; i++, at += 8) {
        put(at, 8, values[i]);
    }
    for (i = 0; i < count; i += 64, at += 12) {
        summarize(values + i, count - i < 64 ? count - i : 64, at);
    }
    at += trailer_by_hand(count > SHORT_MOST, 8 * count, count, at);
    return (size_t)(at - page);
}

/* Values of each sort; in a group of 64 those of some sorts alone. */
static void draw_values(uint64_t *values, size_t count)
{
    uint64_t first = 0, sorts = 1;
    size_t i;
    for (i = 0; i < count; i++) {
        const uint64_t sign = drawn_below(2) << 63, zeros = drawn_below(53);
        const uint64_t fraction = drawn_below(UINT64_C(1) << 52) >> zeros << zeros,
                       exponent = 1 + drawn_below(2046);
        if (i % 64 == 0) {
            first = drawn_below(6);
            sorts = 1 + drawn_below(6);
        }
        switch ((first + drawn_below(sorts)) % 6) {
        case 0: values[i] = sign; break;
        case 1: values[i] = sign + INFINITE; break;
        case 2: values[i] = sign + INFINITE + 1 + (fraction >> 1); break;
        case 3: values[i] = sign + fraction; break;
        case 4: values[i] = sign + (exponent << 52); break;
        default: values[i] = sign + (exponent << 52) + fraction;
        }
    }
}

static int are_untouched(const uint8_t *bytes, size_t from, size_t to)
{
    for (; from < to; from++) {
        if (bytes[from] != UNTOUCHED) {
            return 0;
        }
    }
    return 1;
}

static int page_is(totals_page_record record, size_t length, size_t count, unsigned refusal)
{
    return record.length == length && record.count == count && record.refusal == refusal;
}

/* Opened by no call, whatever is asked. */
static int is_no_page(const uint8_t *page, size_t size)
{
    const totals_double_record record =
        totals_page_sum_double(page, size, 0, 0, NULL, TOTALS_VALUE);
    clear();
    return page_is(totals_page_count(page, size), 0, 0, TOTALS_NOT_A_PAGE)
           && REFUSED(record, TOTALS_NOT_A_PAGE, 0)
           && totals_page_sum(page, size, 1, 0, 9, 0, 0, 0, 0, 0, 0, 0, 3, answer, ROOM)
                  == TOTALS_NOT_A_PAGE
           && untouched_from(0);
}

/*
 * Written through the entry and from double: exact, one byte short, and with bytes behind, at eight
 * addresses. It then opens.
 */
static int is_written(const uint64_t *values, size_t count)
{
    static uint8_t by_hand[PAGE_ROOM], room[8 + PAGE_ROOM];
    double doubles[VALUES + 1];
    const size_t length = page_by_hand(values, count, by_hand),
                 sizes[3] = {length - 1, length, length + BEHIND};
    int holds_so = totals_page_length(count) == length;
    size_t shift, k;

    memcpy(doubles, values, 8 * count);
    for (shift = 0; shift < 8; shift++) {
        for (k = 0; k < 6; k++) {
            const size_t size = sizes[k / 2], written = size < length ? 0 : length;
            const unsigned refusal = size < length ? TOTALS_SHORT_BUFFER : TOTALS_ACCEPTED;
            uint8_t *page = room + shift;
            memset(room, UNTOUCHED, sizeof room);
            if (k % 2 == 0) {
                holds_so &= totals_page_write(values, count, page, size) == 256 * written + refusal;
            } else {
                holds_so &= page_is(totals_page_write_double(doubles, count, page, size), written,
                                    size < length ? 0 : count, refusal);
            }
            holds_so &= memcmp(page, by_hand, written) == 0;
            holds_so &=
                are_untouched(room, 0, shift) && are_untouched(room, shift + written, sizeof room);
            holds_so &= written == 0
                        || page_is(totals_page_count(page, length), length, count, TOTALS_ACCEPTED);
        }
    }
    return holds_so && memcmp(doubles, values, 8 * count) == 0;
}

static void pages_written(void)
{
    static const size_t counts[10] = {0, 1, 2, 63, 64, 65, 127, 128, 129, VALUES};
    static const uint8_t none[16] = {0, 0, 0, 0, 0, 0, 0, 0, 64, 0, 0, 0, 'C', 'P', 'G', '1'};
    static const uint8_t three[36] = {0, 0, 0, 0, 0,  0, 8, 64, 1,   0,   0,   0,
                                      0, 0, 0, 0, 0,  0, 0, 0,  8,   0,   0,   0,
                                      1, 0, 0, 0, 64, 0, 0, 0,  'C', 'P', 'G', '1'};
    const double number_three = 3;
    uint64_t values[VALUES + 1];
    uint8_t page[PAGE_ROOM];
    size_t i, round, size;

    /* what stands for the description is tried too */
    values[0] = 0x4008000000000000;
    CHECK(page_by_hand(values, 0, page) == 16 && memcmp(page, none, 16) == 0);
    CHECK(page_by_hand(values, 1, page) == 36 && memcmp(page, three, 36) == 0);
    CHECK(page_is(totals_page_write_double(NULL, 0, page, 16), 16, 0, TOTALS_ACCEPTED)
          && memcmp(page, none, 16) == 0);
    CHECK(page_is(totals_page_write_double(&number_three, 1, page, 36), 36, 1, TOTALS_ACCEPTED)
          && memcmp(page, three, 36) == 0);
    for (i = 0; i < 10; i++) {
        for (round = 0; round < 20; round++) {
            draw_values(values, counts[i]);
            CHECK(is_written(values, counts[i]));
        }
        memset(page, UNTOUCHED, sizeof page);
        for (size = 0; size < totals_page_length(counts[i]); size++) {
            CHECK(totals_page_write(values, counts[i], page, size) == TOTALS_SHORT_BUFFER);
        }
        CHECK(are_untouched(page, 0, sizeof page));
    }
}

/*
 * Every byte behind the values, changed to each of the others, is refused; with a byte of a value
 * changed the page opens where it is that of the new values.
 */
static void pages_damaged(void)
{
    static const size_t counts[6] = {0, 1, 63, 64, 65, 128};
    static uint8_t page[PAGE_ROOM], by_hand[PAGE_ROOM];
    uint64_t values[VALUES];
    size_t i, at, opened = 0, closed = 0;
    unsigned change;

    for (i = 0; i < 6; i++) {
        const size_t count = counts[i];
        size_t length;
        draw_values(values, count);
        length = page_by_hand(values, count, page);
        for (at = 8 * count; at < length; at++) {
            for (change = 1; change < 256; change++) {
                page[at] ^= (uint8_t)change;
                CHECK(is_no_page(page, length));
                page[at] ^= (uint8_t)change;
            }
        }
        for (at = 0; at < 8 * count; at++) {
            const uint64_t before = values[at / 8];
            const uint8_t byte = page[at];
            change = 1 + (unsigned)drawn_below(255);
            page[at] ^= (uint8_t)change;
            values[at / 8] ^= (uint64_t)change << 8 * (at % 8);
            page_by_hand(values, count, by_hand);
            if (memcmp(page, by_hand, length) == 0) {
                CHECK(page_is(totals_page_count(page, length), length, count, TOTALS_ACCEPTED));
                opened++;
            } else {
                CHECK(is_no_page(page, length));
                closed++;
            }
            page[at] = byte;
            values[at / 8] = before;
        }
        CHECK(page_is(totals_page_count(page, length), length, count, TOTALS_ACCEPTED));
    }
    CHECK(opened > 20 && closed > 20);
}

/* The span through the entry and as a double, beside a record. */
static int span_is(const uint8_t *page, size_t size, size_t start, size_t end,
                   const totals_settings *c, uint64_t summand, totals_record wanted)
{
    const totals_double_record record = totals_page_sum_double(page, size, start, end, c, summand);
    clear();
    return totals_page_sum(page, size, start, end, c->rounding, c->tininess, c->nan_propagation,
                           c->default_nan_negative, c->flush_to_zero, c->denormals_are_zero,
                           c->saturate, c->precision, summand, answer, ROOM)
               == 0
           && holds(wanted.result, wanted.flags, wanted.passes, wanted.side)
           && record.refusal == TOTALS_ACCEPTED && record.place == 0 && record.bits == wanted.result
           && bits_of(record.result) == wanted.result && record.flags == wanted.flags
           && record.passes == wanted.passes && record.side == wanted.side
           && wanted.refusal == TOTALS_ACCEPTED;
}

/* Each span of a page of two groups, at an odd address. */
static void spans_of_pages(void)
{
    const totals_format f = {TOTALS_BINARY64, TOTALS_OWN_BIAS};
    const size_t count = 70;
    static uint8_t room[1 + PAGE_ROOM];
    uint64_t values[VALUES];
    size_t start, end, round, length, k = 0;

    for (round = 0; round < 4; round++) {
        draw_values(values, count);
        length = page_by_hand(values, count, room + 1);
        for (start = 0; start <= count; start++) {
            for (end = start; end <= count; end++, k++) {
                const totals_settings c = {k % 8,     k / 2 % 2, k / 8 % 4, k % 2,
                                           k / 4 % 2, k / 3 % 2, k / 5 % 2, k % 3};
                const totals_record own =
                    totals_sum_words(f, k % 3, values + start, end - start, &c);
                CHECK(span_is(room + 1, length, start, end, &c, k % 3, own));
            }
        }
    }
    /* whole numbers, whose sums are known */
    for (k = 0; k < count; k++) {
        values[k] = bits_of((double)(int64_t)drawn_below(UINT64_C(1) << 40) - power(39));
    }
    length = page_by_hand(values, count, room + 1);
    for (start = 0; start <= count; start++) {
        double total = 0;
        for (end = start; end <= count; end++) {
            const totals_record known = {bits_of(total), start < end, 0, 0, 0, TOTALS_EQUAL};
            CHECK(span_is(room + 1, length, start, end, &plain, TOTALS_VALUE, known));
            total += end < count ? number(values[end]) : 0;
        }
    }
}

static void bad_spans(void)
{
    const size_t far[6] = {71, 128, (size_t)1 << 32, (size_t)1 << 61, SIZE_MAX - 7, SIZE_MAX};
    static uint8_t page[PAGE_ROOM];
    const totals_record zero = {0, 0, 0, 0, 0, TOTALS_EQUAL};
    totals_settings down = TOTALS_SETTINGS_INIT;
    uint64_t values[VALUES];
    size_t start, end, length, i;

    down.rounding = TOTALS_TOWARD_NEGATIVE;
    draw_values(values, 70);
    length = page_by_hand(values, 70, page);
    for (end = 0; end <= 70; end++) {
        CHECK(span_is(page, length, end, end, &plain, TOTALS_VALUE, zero)
              && span_is(page, length, end, end, &down, TOTALS_SQUARE, zero));
        for (start = end + 1; start <= 72; start++) {
            CHECK(REFUSED(totals_page_sum_double(page, length, start, end, NULL, TOTALS_VALUE),
                          TOTALS_BAD_SPAN, 0));
        }
        for (i = 0; i < 6; i++) {
            CHECK(REFUSED(totals_page_sum_double(page, length, end, far[i], NULL, TOTALS_VALUE),
                          TOTALS_BAD_SPAN, 0));
            CHECK(REFUSED(totals_page_sum_double(page, length, far[i], end, NULL, TOTALS_VALUE),
                          TOTALS_BAD_SPAN, 0));
            CHECK(REFUSED(totals_page_sum_double(page, length, far[i], far[i], NULL, TOTALS_VALUE),
                          TOTALS_BAD_SPAN, 0));
        }
    }
    length = page_by_hand(values, 0, page);
    CHECK(span_is(page, length, 0, 0, &down, TOTALS_MAGNITUDE, zero));
    CHECK(REFUSED(totals_page_sum_double(page, length, 0, 1, NULL, TOTALS_VALUE), TOTALS_BAD_SPAN,
                  0));
}

/*
 * Every choice of conditions: the first in the order 2, 12, 13, 4 is returned, and nothing is
 * written.
 */
static void spans_refused(void)
{
    static const unsigned order[4] = {TOTALS_SHORT_BUFFER, TOTALS_NOT_A_PAGE, TOTALS_BAD_SPAN,
                                      TOTALS_SETTING_OUT_OF_RANGE};
    static uint8_t page[PAGE_ROOM];
    uint64_t values[2] = {ONE, ONE};
    const size_t length = page_by_hand(values, 2, page);
    unsigned holding, way, i;

    for (holding = 1; holding < 16; holding++) {
        for (way = 0; way < 12; way++) {
            totals_settings c = TOTALS_SETTINGS_INIT;
            const uint64_t summand = HOLDS(3) && way % 3 == 0 ? 3 : TOTALS_VALUE;
            const size_t start = HOLDS(2) && way % 2 == 0 ? 2 : 0,
                         end = HOLDS(2) ? (way % 2 == 0 ? 1 : 3) : 2;
            const size_t room = HOLDS(0) ? 2 * (size_t)way + 1 : 24;
            unsigned wanted = 0;
            uint64_t code;
            c.rounding = HOLDS(3) && way % 3 == 1 ? 9 : 0;
            c.precision = HOLDS(3) && way % 3 == 2 ? 54 : 0;
            for (i = 4; i-- > 0;) {
                wanted = HOLDS(i) ? order[i] : wanted;
            }
            page[length - 1] = HOLDS(1) ? '0' : '1';
            clear();
            code = totals_page_sum(page, length, start, end, c.rounding, 0, 0, 0, 0, 0, 0,
                                   c.precision, summand, answer, room);
            CHECK(code == wanted && untouched_from(0));
            if (!HOLDS(0)) {
                CHECK(REFUSED(totals_page_sum_double(page, length, start, end, &c, summand), wanted,
                              0));
            }
        }
    }
}

/*
 * Bytes that are no page: drawn ones, with trailers of either kind and counts of every size; a page
 * cut off on either side, or with a byte more.
 */
static void no_pages(void)
{
    static const uint64_t counts[12] = {1,          2,          8,          23,
                                        64,         1048576,    1048577,    0x1fffffff,
                                        0x20000001, 0x7fffffff, 0x80000001, 0xffffffff};
    static uint8_t bytes[5000], page[PAGE_ROOM + 1];
    uint64_t values[VALUES];
    size_t size, length, i, k;

    for (i = 0; i < 400; i++) {
        size = i <= 200 ? i : (size_t)drawn_below(sizeof bytes);
        for (k = 0; k < size; k++) {
            bytes[k] = (uint8_t)drawn_below(256);
        }
        CHECK(is_no_page(bytes, size));
        for (k = 0; k < 24; k++) {
            const size_t trailer = k % 2 == 0 ? 16 : 24;
            if (size >= trailer) {
                trailer_by_hand(k % 2 == 1, 8 * counts[k / 2], counts[k / 2],
                                bytes + size - trailer);
                CHECK(is_no_page(bytes, size));
            }
        }
        for (k = 0; k < 2 && size >= 4; k++) {
            memcpy(bytes + size - 4, k == 0 ? "CPG1" : "CPG2", 4);
            CHECK(is_no_page(bytes, size));
        }
    }
    draw_values(values, 65);
    length = page_by_hand(values, 65, page);
    CHECK(page_is(totals_page_count(page, length), length, 65, TOTALS_ACCEPTED));
    for (i = 1; i <= length; i++) {
        CHECK(is_no_page(page, length - i) && is_no_page(page + i, length - i));
    }
    page[length] = '1';
    CHECK(is_no_page(page, length + 1));
    memcpy(page + length, page + length - 16, 16);
    CHECK(is_no_page(page, length + 16));
}

/* As many values as a page with a short trailer has, and one more. */
static void long_pages(void)
{
    static const size_t lengths[2] = {8585232, 8585260};
    const size_t room = 8585300;
    uint64_t *values = (uint64_t *)malloc(8 * LONG);
    double *doubles = (double *)malloc(8 * LONG);
    uint8_t *page = (uint8_t *)malloc(room), *by_hand = (uint8_t *)malloc(room);
    size_t i;

    for (i = 0; i < LONG; i++) {
        doubles[i] = (double)i;
    }
    memcpy(values, doubles, 8 * LONG);
    for (i = 0; i < 2; i++) {
        const size_t count = SHORT_MOST + i, length = lengths[i];
        CHECK(totals_page_length(count) == length
              && page_by_hand(values, count, by_hand) == length);
        memset(page, UNTOUCHED, room);
        CHECK(totals_page_write(values, count, page, length - 1) == TOTALS_SHORT_BUFFER);
        CHECK(page_is(totals_page_write_double(doubles, count, page, length - 1), 0, 0,
                      TOTALS_SHORT_BUFFER)
              && are_untouched(page, 0, room));
        CHECK(page_is(totals_page_write_double(doubles, count, page, room), length, count,
                      TOTALS_ACCEPTED));
        CHECK(memcmp(page, by_hand, length) == 0 && are_untouched(page, length, room));
        memset(page, UNTOUCHED, room);
        CHECK(totals_page_write(values, count, page, length) == 256 * length);
        CHECK(memcmp(page, by_hand, length) == 0 && are_untouched(page, length, room));
        CHECK(page_is(totals_page_count(page, length), length, count, TOTALS_ACCEPTED));
        CHECK(totals_page_sum_double(page, length, 0, count, NULL, TOTALS_VALUE).result
              == (double)(count * (count - 1) / 2));
        CHECK(totals_page_sum_double(page, length, count - 1, count, NULL, TOTALS_VALUE).result
              == (double)(count - 1));
        CHECK(REFUSED(totals_page_sum_double(page, length, count, count + 1, NULL, TOTALS_VALUE),
                      TOTALS_BAD_SPAN, 0));
        CHECK(is_no_page(page, length - 1) && is_no_page(page, length + 1));
        page[8 * count] ^= 1;
        CHECK(is_no_page(page, length));
    }
    free(values);
    free(doubles);
    free(page);
    free(by_hand);
}

/*
 * A long trailer that is damaged, or names another number of values than there are; and each
 * trailer behind values that have the other.
 */
static void trailers_refused(void)
{
    const uint64_t counts[14] = {0,
                                 1,
                                 1048575,
                                 1048576,
                                 1048578,
                                 268435456,
                                 268435457,
                                 UINT64_C(1) << 32,
                                 (UINT64_C(1) << 32) + LONG,
                                 UINT64_C(1) << 61,
                                 (UINT64_C(1) << 61) + LONG,
                                 UINT64_C(1) << 63,
                                 UINT64_MAX / 8,
                                 UINT64_MAX};
    static const size_t few[6] = {0, 1, 63, 64, 65, VALUES};
    uint64_t *values = (uint64_t *)malloc(8 * LONG);
    uint8_t *page = (uint8_t *)malloc(8585300), *at;
    size_t length, i;

    draw_values(values, LONG);
    length = page_by_hand(values, LONG, page);
    at = page + length - 24;
    CHECK(page_is(totals_page_count(page, length), length, LONG, TOTALS_ACCEPTED));
    for (i = 0; i < 8 * 24; i++) {
        at[i / 8] ^= (uint8_t)(1u << i % 8);
        CHECK(is_no_page(page, length));
        at[i / 8] ^= (uint8_t)(1u << i % 8);
    }
    memcpy(at + 20, "CPG1", 4);
    CHECK(is_no_page(page, length));
    /* the offset too can be that of the number, modulo 2^64, or of the values that are there */
    for (i = 0; i < 14; i++) {
        trailer_by_hand(1, 8 * counts[i], counts[i], at);
        CHECK(is_no_page(page, length));
        trailer_by_hand(1, 8 * LONG, counts[i], at);
        CHECK(is_no_page(page, length));
    }
    CHECK(is_no_page(page, length - 24 + trailer_by_hand(0, 8 * LONG, LONG, at)));
    CHECK(page_is(totals_page_count(page, length - 24 + trailer_by_hand(1, 8 * LONG, LONG, at)),
                  length, LONG, TOTALS_ACCEPTED));

    /* 1,048,576 values, and fewer, have a short trailer */
    length = page_by_hand(values, SHORT_MOST, page);
    CHECK(page_is(totals_page_count(page, length), length, SHORT_MOST, TOTALS_ACCEPTED));
    CHECK(is_no_page(
        page, length - 16 + trailer_by_hand(1, 8 * SHORT_MOST, SHORT_MOST, page + length - 16)));
    for (i = 0; i < 6; i++) {
        length = page_by_hand(values, few[i], page);
        CHECK(is_no_page(page,
                         length - 16 + trailer_by_hand(1, 8 * few[i], few[i], page + length - 16)));
    }
    free(values);
    free(page);
}

/*
 * One value more than a page can have: 2 comes before 6, and bytes that name so many are none. All
 * but their end is neither read nor written.
 */
static void pages_beyond(void)
{
    const size_t most = TOTALS_MOST_ELEMENTS, length = 2197815340,
                 end = length / 4096 * 4096 - 4096;
    uint64_t *values = addresses(most + 1);
    const double *doubles = (const double *)values;
    uint8_t *page = (uint8_t *)addresses(length / 8 + 1);

    CHECK(totals_page_length(most) == 2197815320 && totals_page_length(most + 1) == 0);
    CHECK(totals_page_write(values, most + 1, page, length - 1) == TOTALS_SHORT_BUFFER);
    CHECK(totals_page_write(values, most + 1, page, length) == TOTALS_TOO_MANY_ELEMENTS);
    CHECK(totals_page_write(values, most, page, 2197815319) == TOTALS_SHORT_BUFFER);
    CHECK(page_is(totals_page_write_double(doubles, most + 1, page, length - 1), 0, 0,
                  TOTALS_SHORT_BUFFER));
    CHECK(page_is(totals_page_write_double(doubles, most + 1, page, length), 0, 0,
                  TOTALS_TOO_MANY_ELEMENTS));
    CHECK(page_is(totals_page_write_double(doubles, most, page, 2197815319), 0, 0,
                  TOTALS_SHORT_BUFFER));

    CHECK(mprotect(page + end, 8192, PROT_READ | PROT_WRITE) == 0);
    trailer_by_hand(1, 8 * (most + 1), most + 1, page + length - 24);
    CHECK(is_no_page(page, length));
    trailer_by_hand(0, 8 * (most + 1), most + 1, page + length - 16);
    CHECK(is_no_page(page, length));
    munmap(values, 8 * (most + 1));
    munmap(page, length);
}

/* NULL, counts and sizes that nothing has, and no memory: a page needs none. */
static void pages_without_pointers(void)
{
    const size_t most = TOTALS_MOST_ELEMENTS;
    const double one = 1;
    uint8_t page[37];

    CHECK(totals_page_length(0) == 16 && totals_page_length(1) == 36
          && totals_page_length(64) == 540 && totals_page_length(65) == 560);
    CHECK(totals_page_length(SIZE_MAX) == 0 && totals_page_length(SIZE_MAX / 8) == 0);
    memset(page, UNTOUCHED, sizeof page);
    CHECK(page_is(totals_page_write_double(NULL, 0, NULL, 0), 0, 0, TOTALS_SHORT_BUFFER));
    CHECK(page_is(totals_page_write_double(&one, 1, NULL, 0), 0, 0, TOTALS_SHORT_BUFFER));
    /* NULL comes after 2 and 6 */
    CHECK(page_is(totals_page_write_double(&one, 1, NULL, 35), 0, 0, TOTALS_SHORT_BUFFER));
    CHECK(page_is(totals_page_write_double(&one, 1, NULL, 36), 0, 0, TOTALS_NO_LIST));
    CHECK(page_is(totals_page_write_double(NULL, 1, page, 35), 0, 0, TOTALS_SHORT_BUFFER));
    CHECK(page_is(totals_page_write_double(NULL, 1, page, 36), 0, 0, TOTALS_NO_LIST));
    CHECK(page_is(totals_page_write_double(NULL, most + 1, NULL, SIZE_MAX), 0, 0,
                  TOTALS_TOO_MANY_ELEMENTS));
    CHECK(page_is(totals_page_write_double(&one, SIZE_MAX / 8, page, SIZE_MAX), 0, 0,
                  TOTALS_SHORT_BUFFER));
    CHECK(page_is(totals_page_write_double(&one, SIZE_MAX / 16, page, SIZE_MAX), 0, 0,
                  TOTALS_TOO_MANY_ELEMENTS));
    CHECK(page_is(totals_page_write_double(&one, SIZE_MAX, page, SIZE_MAX), 0, 0,
                  TOTALS_SHORT_BUFFER));
    CHECK(are_untouched(page, 0, sizeof page));
    /* a room that is said to be larger than any is not written beyond the page */
    has_memory = 0;
    CHECK(page_is(totals_page_write_double(&one, 1, page, SIZE_MAX), 36, 1, TOTALS_ACCEPTED)
          && page[36] == UNTOUCHED);
    CHECK(totals_page_sum_double(page, 36, 0, 1, NULL, TOTALS_VALUE).result == 1 && owned == 0);
    has_memory = 1;
    CHECK(is_no_page(page, 0) && page_is(totals_page_count(NULL, 0), 0, 0, TOTALS_NOT_A_PAGE));
    CHECK(page_is(totals_page_count(NULL, 36), 0, 0, TOTALS_NO_LIST)
          && page_is(totals_page_count(page, SIZE_MAX), 0, 0, TOTALS_NOT_A_PAGE));
    CHECK(REFUSED(totals_page_sum_double(NULL, 0, 0, 0, NULL, TOTALS_VALUE), TOTALS_NOT_A_PAGE, 0));
    CHECK(REFUSED(totals_page_sum_double(NULL, 1, 1, 0, NULL, 3), TOTALS_NO_LIST, 0));
    CHECK(REFUSED(totals_page_sum_double(page, SIZE_MAX, 1, 0, NULL, 3), TOTALS_NOT_A_PAGE, 0));
}

/*
 * The raw entry writes nothing where it refuses, and the inline functions lend it a buffer of their
 * own: no list is touched.
 */
/* A value of ten bytes by its parts. */
typedef struct x87 {
    unsigned head;
    uint64_t significand;
} x87;

#define LEADING 0x8000000000000000
#define QUIET 0xc000000000000000
#define X87S 3

/* 2^n, for a normal number. */
#define X87_POWER(n) {(unsigned)(16383 + (n)), LEADING}
#define X87_MINUS_POWER(n) {0x8000u + (unsigned)(16383 + (n)), LEADING}

/* A total of ten-byte values, and what it must be. */
typedef struct x87_total {
    int pairs;
    uint64_t summand;
    size_t count;
    x87 left[X87S], right[X87S], result;
    unsigned flags, side;
    uint64_t passes;
} x87_total;

static void lay_out_x87(uint8_t *at, const x87 *values, size_t count)
{
    size_t i;
    for (i = 0; i < count; i++) {
        put(at + TOTALS_X87_BYTES * i, 8, values[i].significand);
        put(at + TOTALS_X87_BYTES * i + 8, 2, values[i].head);
    }
}

/*
 * Every byte of the buffer that the entry leaves, and the record over it. The lists lie at odd
 * addresses.
 */
static int x87_is(const x87_total *t, const totals_settings *c)
{
    uint8_t left[TOTALS_X87_BYTES * X87S + 1], right[TOTALS_X87_BYTES * X87S + 1], wanted[ROOM];
    const size_t size = TOTALS_X87_BYTES * t->count;
    totals_x87_record record;
    uint64_t code;

    lay_out_x87(left + 1, t->left, t->count);
    lay_out_x87(right + 1, t->right, t->count);
    memset(wanted, 0, TOTALS_X87_ANSWER_BYTES);
    memset(wanted + TOTALS_X87_ANSWER_BYTES, UNTOUCHED, ROOM - TOTALS_X87_ANSWER_BYTES);
    lay_out_x87(wanted, &t->result, 1);
    wanted[10] = (uint8_t)t->flags;
    wanted[11] = (uint8_t)t->side;
    put(wanted + 24, 8, t->passes);
    clear();
    if (t->pairs) {
        code = totals_dot(TOTALS_EXTENDED, c->rounding, c->tininess, c->nan_propagation,
                          c->default_nan_negative, c->flush_to_zero, c->denormals_are_zero,
                          c->saturate, c->precision, left + 1, size, right + 1, size, answer, ROOM);
        record = totals_dot_x87(left + 1, t->count, right + 1, t->count, c);
    } else {
        code = totals_sum(TOTALS_EXTENDED, c->rounding, c->tininess, c->nan_propagation,
                          c->default_nan_negative, c->flush_to_zero, c->denormals_are_zero,
                          c->saturate, c->precision, t->summand, left + 1, size, answer, ROOM);
        record = t->summand == TOTALS_VALUE       ? totals_sum_x87(left + 1, t->count, c)
                 : t->summand == TOTALS_MAGNITUDE ? totals_magnitude_sum_x87(left + 1, t->count, c)
                                                  : totals_square_sum_x87(left + 1, t->count, c);
    }
    return code == TOTALS_ACCEPTED && memcmp(answer, wanted, ROOM) == 0
           && record.refusal == TOTALS_ACCEPTED
           && memcmp(record.result, wanted, TOTALS_X87_BYTES) == 0 && record.head == t->result.head
           && record.significand == t->result.significand && record.flags == t->flags
           && record.side == t->side && record.passes == t->passes;
}

/* Exact totals by hand; the passes are those of the chain. */
static void x87_totals(void)
{
    static const x87_total totals[] = {
        {0, TOTALS_VALUE, 0, {{0, 0}}, {{0, 0}}, {0, 0}, 0, TOTALS_EQUAL, 0},
        {0,
         TOTALS_VALUE,
         2,
         {X87_POWER(0), X87_POWER(-63)},
         {{0, 0}},
         {0x3fff, LEADING + 1},
         0,
         TOTALS_EQUAL,
         1},
        {0,
         TOTALS_VALUE,
         2,
         {X87_POWER(0), X87_POWER(-64)},
         {{0, 0}},
         X87_POWER(0),
         TOTALS_INEXACT,
         TOTALS_BELOW,
         1},
        {0,
         TOTALS_VALUE,
         3,
         {X87_POWER(16000), X87_POWER(0), X87_MINUS_POWER(16000)},
         {{0, 0}},
         X87_POWER(0),
         0,
         TOTALS_EQUAL,
         21},
        {0,
         TOTALS_MAGNITUDE,
         2,
         {X87_MINUS_POWER(1), X87_POWER(0)},
         {{0, 0}},
         {0x4000, QUIET},
         0,
         TOTALS_EQUAL,
         1},
        {0,
         TOTALS_SQUARE,
         2,
         {X87_POWER(-8222), X87_POWER(-8222)},
         {{0, 0}},
         {0, 4},
         TOTALS_TINY,
         TOTALS_EQUAL,
         1},
        /* the largest number twice; times itself, less the same, and the square of the least */
        {0,
         TOTALS_VALUE,
         2,
         {{0x7ffe, UINT64_MAX}, {0x7ffe, UINT64_MAX}},
         {{0, 0}},
         {0x7fff, LEADING},
         TOTALS_OVERFLOW + TOTALS_INEXACT + TOTALS_ROUNDED_UP,
         TOTALS_NO_COMPARISON,
         1},
        {1,
         TOTALS_VALUE,
         3,
         {{0x7ffe, UINT64_MAX}, {0xfffe, UINT64_MAX}, {0, 1}},
         {{0x7ffe, UINT64_MAX}, {0x7ffe, UINT64_MAX}, {0, 1}},
         {0, 0},
         TOTALS_SUBNORMAL_INPUT + TOTALS_TINY + TOTALS_INEXACT + TOTALS_UNDERFLOW,
         TOTALS_BELOW,
         86},
        {1,
         TOTALS_VALUE,
         2,
         {X87_POWER(8000), X87_MINUS_POWER(-8000)},
         {X87_POWER(8000), X87_POWER(0)},
         X87_POWER(16000),
         TOTALS_INEXACT + TOTALS_ROUNDED_UP,
         TOTALS_ABOVE,
         32},
        {0,
         TOTALS_VALUE,
         2,
         {{0x7fff, LEADING + 5}, {0xffff, QUIET}},
         {{0, 0}},
         {0x7fff, QUIET + 5},
         TOTALS_INVALID,
         TOTALS_NO_COMPARISON,
         0},
    };
    size_t i;
    for (i = 0; i < sizeof totals / sizeof *totals; i++) {
        CHECK(x87_is(&totals[i], &plain));
    }
}

/*
 * Unnormals, pseudo-infinities and pseudo-NaNs come before all else in a list: the default NaN, of
 * either sign.
 */
static void x87_unsupported(void)
{
    static const x87 unsupported[] = {
        {1, 0},      {0x3fff, 1},           {0xfffe, LEADING - 1}, {0x7fff, 0},
        {0xffff, 0}, {0x7fff, LEADING / 2}, {0xffff, LEADING - 1}};
    static const x87 others[] = {{0, 0},
                                 X87_POWER(0),
                                 {0x7fff, LEADING},
                                 {0xffff, LEADING},
                                 {0x7fff, QUIET + 9},
                                 {0x7fff, LEADING + 9},
                                 {0, 1},
                                 {0, LEADING}};
    totals_settings c = TOTALS_SETTINGS_INIT;
    size_t i, k;

    for (c.nan_propagation = 0; c.nan_propagation < 4; c.nan_propagation++) {
        for (i = 0; i < sizeof unsupported / sizeof *unsupported; i++) {
            for (k = 0; k < sizeof others / sizeof *others; k++) {
                x87_total t = {0,
                               TOTALS_VALUE,
                               2,
                               {{0, 0}},
                               {{0, 0}},
                               {0x7fff, QUIET},
                               TOTALS_INVALID,
                               TOTALS_NO_COMPARISON,
                               0};
                t.flags += k < 6 ? 0 : TOTALS_SUBNORMAL_INPUT;
                c.default_nan_negative = k % 2;
                t.result.head += k % 2 == 0 ? 0 : 0x8000;
                for (t.summand = 0; t.summand < 3; t.summand++) {
                    t.left[0] = unsupported[i];
                    t.left[1] = others[k];
                    CHECK(x87_is(&t, &c));
                    t.left[0] = others[k];
                    t.left[1] = unsupported[i];
                    CHECK(x87_is(&t, &c));
                }
                t.pairs = 1;
                t.count = 1;
                t.right[0] = unsupported[i];
                CHECK(x87_is(&t, &c));
                t.left[0] = unsupported[i];
                t.right[0] = others[k];
                CHECK(x87_is(&t, &c));
            }
        }
    }
}

/* A pseudo-denormal: its number, or a zero under denormals-are-zero, and subnormal in both. */
static void x87_pseudo_denormals(void)
{
    static const x87_total totals[] = {
        {0,
         TOTALS_VALUE,
         1,
         {{0, LEADING}},
         {{0, 0}},
         {1, LEADING},
         TOTALS_SUBNORMAL_INPUT,
         TOTALS_EQUAL,
         1},
        {0,
         TOTALS_VALUE,
         1,
         {{0x8000, UINT64_MAX}},
         {{0, 0}},
         {0x8001, UINT64_MAX},
         TOTALS_SUBNORMAL_INPUT,
         TOTALS_EQUAL,
         1},
        {0,
         TOTALS_MAGNITUDE,
         1,
         {{0x8000, LEADING}},
         {{0, 0}},
         {1, LEADING},
         TOTALS_SUBNORMAL_INPUT,
         TOTALS_EQUAL,
         1},
        {0,
         TOTALS_SQUARE,
         1,
         {{0, LEADING}},
         {{0, 0}},
         {0, 0},
         TOTALS_SUBNORMAL_INPUT + TOTALS_TINY + TOTALS_INEXACT + TOTALS_UNDERFLOW,
         TOTALS_BELOW,
         1},
        {1,
         TOTALS_VALUE,
         1,
         {{0, LEADING}},
         {X87_POWER(100)},
         {101, LEADING},
         TOTALS_SUBNORMAL_INPUT,
         TOTALS_EQUAL,
         1},
    };
    totals_settings c = TOTALS_SETTINGS_INIT;
    size_t i;

    c.denormals_are_zero = 1;
    for (i = 0; i < sizeof totals / sizeof *totals; i++) {
        x87_total zero = totals[i];
        CHECK(x87_is(&totals[i], &plain));
        zero.result.head = totals[i].summand == TOTALS_VALUE ? totals[i].result.head & 0x8000 : 0;
        zero.result.significand = 0;
        zero.flags = TOTALS_SUBNORMAL_INPUT;
        zero.side = TOTALS_EQUAL;
        zero.passes = 0;
        CHECK(x87_is(&zero, &c));
    }
}

static uint64_t sum_x87(uint64_t exponent_bits, uint64_t width, uint64_t precision,
                        uint64_t summand, size_t size, size_t room)
{
    static const uint8_t zeros[TOTALS_X87_BYTES * X87S] = {0};
    clear();
    return totals_sum(TOTALS_X87, exponent_bits, width, 0, 0, 0, 0, 0, 0, 0, precision, summand,
                      zeros, size, answer, room);
}

static uint64_t dot_x87(uint64_t width, uint64_t precision, size_t left, size_t right, size_t room)
{
    static const uint8_t zeros[TOTALS_X87_BYTES * X87S] = {0};
    clear();
    return totals_dot(TOTALS_X87, 15, width, 0, 0, 0, 0, 0, 0, 0, precision, zeros, left, zeros,
                      right, answer, room);
}

/* Lengths by tens, 32 bytes of answer, and the lowest number of several. */
static void x87_refused(void)
{
    static const uint8_t zeros[TOTALS_X87_BYTES] = {0};
    static const size_t uneven[] = {1, 8, 9, 11, 15, 16, 24, 29};
    size_t i;

    for (i = 0; i < sizeof uneven / sizeof *uneven; i++) {
        CHECK(sum_x87(11, 64, 65, 3, uneven[i], 31) == TOTALS_UNEVEN_LENGTH && untouched_from(0));
        CHECK(dot_x87(80, 0, uneven[i], 10, 40) == TOTALS_UNEVEN_LENGTH && untouched_from(0));
        CHECK(dot_x87(80, 0, 10, uneven[i], 40) == TOTALS_UNEVEN_LENGTH && untouched_from(0));
    }
    CHECK(sum_x87(11, 64, 65, 3, 10, 31) == TOTALS_SHORT_BUFFER && untouched_from(0));
    CHECK(dot_x87(80, 0, 10, 20, 31) == TOTALS_SHORT_BUFFER && untouched_from(0));
    CHECK(sum_x87(15, 80, 64, TOTALS_SQUARE, 30, 32) == TOTALS_ACCEPTED && word(24) == 0
          && untouched_from(32));
    CHECK(dot_x87(80, 64, 30, 30, 33) == TOTALS_ACCEPTED && untouched_from(32));
    CHECK(sum_x87(14, 80, 65, 3, 10, 32) == TOTALS_NO_SUCH_FORMAT && untouched_from(0));
    CHECK(sum_x87(15, 79, 65, 3, 10, 32) == TOTALS_NO_SUCH_FORMAT && untouched_from(0));
    CHECK(dot_x87(64, 65, 10, 20, 32) == TOTALS_NO_SUCH_FORMAT && untouched_from(0));
    CHECK(sum_x87(15, 80, 65, 0, 10, 32) == TOTALS_SETTING_OUT_OF_RANGE && untouched_from(0));
    CHECK(sum_x87(15, 80, 0, 3, 10, 32) == TOTALS_SETTING_OUT_OF_RANGE && untouched_from(0));
    CHECK(dot_x87(80, 65, 10, 20, 32) == TOTALS_SETTING_OUT_OF_RANGE && untouched_from(0));
    CHECK(dot_x87(80, 0, 10, 20, 32) == TOTALS_DIFFERENT_LENGTHS && untouched_from(0));
    /* no bias can be named, the format's own neither */
    CHECK(totals_sum_biased(TOTALS_EXTENDED, 16383, TOTALS_DEFAULTS, TOTALS_VALUE, zeros, 10,
                            answer, ROOM)
          == TOTALS_NO_SUCH_FORMAT);
    CHECK(totals_dot_biased(TOTALS_EXTENDED, 16383, TOTALS_DEFAULTS, zeros, 10, zeros, 0, answer,
                            ROOM)
          == TOTALS_NO_SUCH_FORMAT);
    CHECK(totals_sum_biased(TOTALS_EXTENDED, 16383, TOTALS_DEFAULTS, TOTALS_VALUE, zeros, 8, answer,
                            ROOM)
          == TOTALS_UNEVEN_LENGTH);
    CHECK(
        totals_dot_biased(TOTALS_EXTENDED, 16383, TOTALS_DEFAULTS, zeros, 10, zeros, 10, answer, 31)
        == TOTALS_SHORT_BUFFER);
    CHECK(untouched_from(0));
}

/* Nothing is set but the refusal. */
static int is_bare_x87(totals_x87_record record, unsigned refusal)
{
    totals_x87_record wanted;
    memset(&wanted, 0, sizeof wanted);
    return record.refusal == refusal && memcmp(record.result, wanted.result, TOTALS_X87_BYTES) == 0
           && record.significand == 0 && record.head == 0 && record.passes == 0 && record.flags == 0
           && record.side == 0;
}

static void x87_records_refused(void)
{
    const size_t most = TOTALS_MOST_ELEMENTS;
    const uint8_t one[TOTALS_X87_BYTES] = {0, 0, 0, 0, 0, 0, 0, 0x80, 0xff, 0x3f};
    const uint8_t *unread = (const uint8_t *)addresses(2 * (most + 2));
    totals_settings bad = TOTALS_SETTINGS_INIT;

    bad.precision = 65;
    CHECK(is_bare_x87(totals_sum_x87(one, 1, &bad), TOTALS_SETTING_OUT_OF_RANGE));
    CHECK(is_bare_x87(totals_sum_x87(unread, SIZE_MAX, &bad), TOTALS_SETTING_OUT_OF_RANGE));
    CHECK(is_bare_x87(totals_dot_x87(NULL, 1, one, 0, &bad), TOTALS_SETTING_OUT_OF_RANGE));
    bad.precision = 64;
    CHECK(totals_sum_x87(one, 1, &bad).head == 0x3fff
          && totals_sum_x87(one, 1, NULL).significand == LEADING);
    CHECK(is_bare_x87(totals_dot_x87(one, 1, one, 0, NULL), TOTALS_DIFFERENT_LENGTHS));
    CHECK(is_bare_x87(totals_dot_x87(unread, most + 1, unread, most, NULL),
                      TOTALS_DIFFERENT_LENGTHS));
    CHECK(is_bare_x87(totals_dot_x87(NULL, 2, one, 1, NULL), TOTALS_DIFFERENT_LENGTHS));
    CHECK(is_bare_x87(totals_sum_x87(unread, most + 1, NULL), TOTALS_TOO_MANY_ELEMENTS));
    CHECK(is_bare_x87(totals_magnitude_sum_x87(unread, SIZE_MAX, NULL), TOTALS_TOO_MANY_ELEMENTS));
    CHECK(is_bare_x87(totals_square_sum_x87(NULL, SIZE_MAX / 10 + 2, NULL),
                      TOTALS_TOO_MANY_ELEMENTS));
    CHECK(is_bare_x87(totals_dot_x87(unread, most + 1, unread, most + 1, NULL),
                      TOTALS_TOO_MANY_ELEMENTS));
    CHECK(is_bare_x87(totals_sum_x87(NULL, 1, NULL), TOTALS_NO_LIST));
    CHECK(is_bare_x87(totals_dot_x87(one, 1, NULL, 1, NULL), TOTALS_NO_LIST));
    CHECK(is_bare_x87(totals_sum_x87(NULL, 0, NULL), TOTALS_ACCEPTED));
    CHECK(is_bare_x87(totals_dot_x87(NULL, 0, NULL, 0, NULL), TOTALS_ACCEPTED));
    /* the entry, too, reads nothing of a list that is too long */
    clear();
    CHECK(totals_sum(TOTALS_EXTENDED, TOTALS_DEFAULTS, TOTALS_VALUE, unread, 10 * (most + 1),
                     answer, ROOM)
          == TOTALS_TOO_MANY_ELEMENTS);
    CHECK(untouched_from(0));
    munmap((void *)unread, 16 * (most + 2));
}

/*
 * The three targets of an entry lie at an odd address, and so does the answer, with bytes behind
 * it.
 */
#define INTO_ROOM (TOTALS_INTO_ANSWER_BYTES + 24)
#define INTO_VALUES 4
#define MOST_TARGETS 7

static uint8_t into_targets[1 + TOTALS_TARGETS_BYTES + 8], into_answer[1 + INTO_ROOM];

/* Between the numbers of a format that has no name. */
#define COMMA ,
#define TO(format) {{format, TOTALS_OWN_BIAS}, TOTALS_SETTINGS_INIT}
#define TO_ROUNDED(format, rounding) {{format, TOTALS_OWN_BIAS}, {rounding, 0, 0, 0, 0, 0, 0, 0}}
#define TO_BIASED(format, bias) {{format, TOTALS_BIAS(bias)}, TOTALS_SETTINGS_INIT}

static void lay_out_target(uint8_t *at, const totals_target *target)
{
    put(at, 8, target->format.kind);
    put(at + 8, 8, target->format.exponent_bits);
    put(at + 16, 8, target->format.width);
    put(at + 24, 8, target->format.bias_named);
    put(at + 32, 8, (uint64_t)target->format.bias);
    put(at + 40, 8, target->settings.rounding);
    put(at + 48, 8, target->settings.tininess);
    put(at + 56, 8, target->settings.nan_propagation);
    put(at + 64, 8, target->settings.default_nan_negative);
    put(at + 72, 8, target->settings.flush_to_zero);
    put(at + 80, 8, target->settings.denormals_are_zero);
    put(at + 88, 8, target->settings.saturate);
    put(at + 96, 8, target->settings.precision);
}

static uint64_t into(totals_format f, uint64_t denormals_are_zero, const totals_target *first,
                     const totals_target *second, const totals_target *third,
                     const uint64_t *values, size_t count)
{
    memset(into_answer, UNTOUCHED, sizeof into_answer);
    lay_out_target(into_targets + 1, first);
    lay_out_target(into_targets + 1 + 104, second);
    lay_out_target(into_targets + 1 + 208, third);
    return totals_sum_into(f.kind, f.exponent_bits, f.width, f.bias_named, f.bias,
                           denormals_are_zero, into_targets + 1, TOTALS_TARGETS_BYTES,
                           (const uint8_t *)values, 8 * count, into_answer + 1, INTO_ROOM);
}

/* The 32 bytes of a target: a code, and the answer of a sum or zeros. */
static int slot_is(size_t at, uint64_t code, uint64_t result, uint64_t flags, uint64_t passes,
                   uint64_t side)
{
    const uint64_t wanted[4] = {code, result, flags + (side << 16), passes};
    uint8_t bytes[32];
    size_t i;
    for (i = 0; i < 4; i++) {
        put(bytes + 8 * i, 8, wanted[i]);
    }
    return memcmp(into_answer + 1 + 32 * at, bytes, sizeof bytes) == 0;
}

static int slot_is_refused(size_t at, uint64_t code)
{
    return slot_is(at, code, 0, 0, 0, 0);
}

static int nothing_behind_slots(void)
{
    return into_answer[0] == UNTOUCHED
           && are_untouched(into_answer, 1 + TOTALS_INTO_ANSWER_BYTES, sizeof into_answer);
}

static int has_record(totals_record record, uint64_t result, unsigned flags, uint64_t passes,
                      unsigned side)
{
    return record.refusal == TOTALS_ACCEPTED && record.place == 0 && record.result == result
           && record.flags == flags && record.passes == passes && record.side == side;
}

typedef struct {
    totals_format list;
    uint64_t denormals_are_zero;
    size_t count;
    uint64_t values[INTO_VALUES];
    totals_target target;
    uint64_t result, passes;
    unsigned flags, side;
} into_row;

/* The entry, and the wrappers of words and of the float that the list is of. */
static int into_is(const into_row *row)
{
    const totals_target targets[3] = {row->target, row->target, row->target};
    totals_record records[3];
    double doubles[INTO_VALUES];
    float floats[INTO_VALUES];
    size_t i;
    int are_right = into(row->list, row->denormals_are_zero, targets, targets + 1, targets + 2,
                         row->values, row->count)
                        == 0
                    && nothing_behind_slots();

    for (i = 0; i < row->count; i++) {
        const uint32_t low = (uint32_t)row->values[i];
        memcpy(&doubles[i], &row->values[i], sizeof *doubles);
        memcpy(&floats[i], &low, sizeof low);
    }
    for (i = 0; i < 3; i++) {
        are_right = are_right && slot_is(i, 0, row->result, row->flags, row->passes, row->side);
    }
#define ALL_THREE(call) \
    are_right = are_right && (call) == TOTALS_ACCEPTED; \
    for (i = 0; i < 3; i++) { \
        are_right = \
            are_right && has_record(records[i], row->result, row->flags, row->passes, row->side); \
    }
    ALL_THREE(totals_sum_into_words(row->list, row->values, row->count, row->denormals_are_zero,
                                    targets, 3, records))
    if (row->list.bias_named == 0 && row->list.width == 64 && row->list.exponent_bits == 11
        && row->list.kind == TOTALS_IEEE) {
        ALL_THREE(totals_sum_into_double(doubles, row->count, row->denormals_are_zero, targets, 3,
                                         records))
    }
    if (row->list.bias_named == 0 && row->list.width == 32 && row->list.exponent_bits == 8
        && row->list.kind == TOTALS_IEEE) {
        ALL_THREE(
            totals_sum_into_float(floats, row->count, row->denormals_are_zero, targets, 3, records))
    }
#undef ALL_THREE
    return are_right;
}

#define B64 {TOTALS_BINARY64, TOTALS_OWN_BIAS}
#define B32 {TOTALS_BINARY32, TOTALS_OWN_BIAS}
#define FNUZ {TOTALS_E4M3_FNUZ, TOTALS_OWN_BIAS}
#define SHORT_LIST {TOTALS_IEEE, 2, 10, TOTALS_OWN_BIAS}

#define TIE 0x3f40000000000000       /* 2^-11: half a unit of binary16 beside 1 */
#define BESIDE 0x3b90000000000000    /* 2^-70 */
#define FAR_BELOW 0x0170000000000000 /* 2^-1000 */

/* A total in a target, worked out by hand. */
static void sums_into_targets(void)
{
    static const into_row rows[] = {
        /* a little above a tie, on it, a little below */
        {B64, 0, 3, {ONE, TIE, BESIDE, 0}, TO(TOTALS_BINARY16), 0x3c01, 1, 0x50, TOTALS_ABOVE},
        {B64, 0, 3, {ONE, TIE, BESIDE, 0}, TO(TOTALS_BINARY32), 0x3f801000, 1, 0x10, TOTALS_BELOW},
        {B64,
         0,
         3,
         {ONE, TIE, BESIDE, 0},
         TO(TOTALS_BINARY64),
         0x3ff0020000000000,
         1,
         0x10,
         TOTALS_BELOW},
        {B64, 0, 2, {ONE, TIE, 0, 0}, TO(TOTALS_BINARY16), 0x3c00, 1, 0x10, TOTALS_BELOW},
        {B64,
         0,
         3,
         {ONE, TIE, MINUS + BESIDE, 0},
         TO(TOTALS_BINARY16),
         0x3c00,
         1,
         0x10,
         TOTALS_BELOW},
        {B64,
         0,
         3,
         {MINUS + ONE, MINUS + TIE, MINUS + BESIDE, 0},
         TO(TOTALS_BINARY16),
         0xbc01,
         1,
         0x50,
         TOTALS_BELOW},
        /* by a second pass */
        {B64, 0, 3, {ONE, TIE, FAR_BELOW, 0}, TO(TOTALS_BINARY16), 0x3c01, 2, 0x50, TOTALS_ABOVE},
        {B64,
         0,
         3,
         {ONE, TIE, MINUS + FAR_BELOW, 0},
         TO(TOTALS_BINARY16),
         0x3c00,
         2,
         0x10,
         TOTALS_BELOW},
        {B64,
         0,
         2,
         {ONE, FAR_BELOW, 0, 0},
         TO_ROUNDED(TOTALS_BINARY16, TOTALS_TOWARD_POSITIVE),
         0x3c01,
         2,
         0x50,
         TOTALS_ABOVE},
        /* too large, by kind and by rounding */
        {B64,
         0,
         1,
         {GREATEST, 0, 0, 0},
         TO(TOTALS_BINARY32),
         0x7f800000,
         1,
         0x54,
         TOTALS_NO_COMPARISON},
        {B64,
         0,
         1,
         {GREATEST, 0, 0, 0},
         TO_ROUNDED(TOTALS_BINARY32, TOTALS_TOWARD_ZERO),
         0x7f7fffff,
         1,
         0x14,
         TOTALS_BELOW},
        {B64, 0, 1, {GREATEST, 0, 0, 0}, TO(TOTALS_E4M3), 0x7f, 1, 0x14, TOTALS_NO_COMPARISON},
        {B64, 0, 1, {GREATEST, 0, 0, 0}, TO(TOTALS_E4M3_FNUZ), 0x80, 1, 0x14, TOTALS_NO_COMPARISON},
        {B64, 0, 1, {GREATEST, 0, 0, 0}, TO(TOTALS_E2M1), 0x7, 1, 0x14, TOTALS_BELOW},
        {B64,
         0,
         1,
         {GREATEST, 0, 0, 0},
         {{TOTALS_BINARY32, TOTALS_OWN_BIAS}, {0, 0, 0, 0, 0, 0, 1, 0}},
         0x7f7fffff,
         1,
         0x14,
         TOTALS_BELOW},
        /* 2^1024, which a target with more exponents has */
        {B64,
         0,
         2,
         {GREATEST, 0x7ca0000000000000, 0, 0},
         TO(TOTALS_IEEE COMMA 15 COMMA 32),
         0x43ff0000,
         1,
         0,
         TOTALS_EQUAL},
        /*
         * below the least normal number: 2^-25 and 2^-40 into binary16 by each tininess, and
         * flushed
         */
        {B64,
         0,
         2,
         {0x3e60000000000000, 0x3d70000000000000, 0, 0},
         TO(TOTALS_BINARY16),
         1,
         1,
         0x78,
         TOTALS_ABOVE},
        {B64,
         0,
         2,
         {0x3e60000000000000, 0x3d70000000000000, 0, 0},
         {{TOTALS_BINARY16, TOTALS_OWN_BIAS}, {0, 0, 0, 0, 1, 0, 0, 0}},
         0,
         1,
         0x38,
         TOTALS_BELOW},
        /* 2^-14 less 2^-40 is tiny before rounding, and not after */
        {B64,
         0,
         2,
         {0x3f10000000000000, MINUS + 0x3d70000000000000, 0, 0},
         TO(TOTALS_BINARY16),
         0x0400,
         1,
         0x78,
         TOTALS_ABOVE},
        {B64,
         0,
         2,
         {0x3f10000000000000, MINUS + 0x3d70000000000000, 0, 0},
         {{TOTALS_BINARY16, TOTALS_OWN_BIAS}, {0, 1, 0, 0, 0, 0, 0, 0}},
         0x0400,
         1,
         0x50,
         TOTALS_ABOVE},
        /* 1.75 to two digits is 2 */
        {B64,
         0,
         1,
         {0x3ffc000000000000, 0, 0, 0},
         {{TOTALS_BINARY16, TOTALS_OWN_BIAS}, {0, 0, 0, 0, 0, 0, 0, 2}},
         0x4000,
         1,
         0x50,
         TOTALS_ABOVE},
        /*
         * named biases: 1 has the field 25; is 64 times the least number; is too large; is too
         * small. And back from a bias
         */
        {B64, 0, 1, {ONE, 0, 0, 0}, TO_BIASED(TOTALS_BINARY16, 25), 0x6400, 1, 0, TOTALS_EQUAL},
        {B64, 0, 1, {ONE, 0, 0, 0}, TO_BIASED(TOTALS_BINARY16, -3), 0x0040, 1, 0x20, TOTALS_EQUAL},
        {B64,
         0,
         1,
         {ONE, 0, 0, 0},
         TO_BIASED(TOTALS_BINARY16, TOTALS_FARTHEST_BIAS),
         0x7c00,
         1,
         0x54,
         TOTALS_NO_COMPARISON},
        {B64,
         0,
         1,
         {ONE, 0, 0, 0},
         TO_BIASED(TOTALS_BINARY16, -TOTALS_FARTHEST_BIAS),
         0,
         1,
         0x38,
         TOTALS_BELOW},
        {{TOTALS_BINARY16, TOTALS_BIAS(25)},
         0,
         1,
         {0x6400, 0, 0, 0},
         TO(TOTALS_BINARY16),
         0x3c00,
         1,
         0,
         TOTALS_EQUAL},
        /* how the list is read; a target's own denormals-are-zero has no effect */
        {SHORT_LIST,
         0,
         1,
         {1, 0, 0, 0},
         TO(TOTALS_IEEE COMMA 13 COMMA 20),
         0x3fe00,
         1,
         0x80,
         TOTALS_EQUAL},
        {SHORT_LIST,
         1,
         1,
         {1, 0, 0, 0},
         TO(TOTALS_IEEE COMMA 13 COMMA 20),
         0,
         0,
         0x80,
         TOTALS_EQUAL},
        {SHORT_LIST,
         0,
         1,
         {1, 0, 0, 0},
         {{TOTALS_IEEE, 13, 20, TOTALS_OWN_BIAS}, {0, 0, 0, 0, 0, 1, 0, 0}},
         0x3fe00,
         1,
         0x80,
         TOTALS_EQUAL},
        {B64, 1, 2, {1, ONE, 0, 0}, TO(TOTALS_BINARY16), 0x3c00, 1, 0x80, TOTALS_EQUAL},
        {FNUZ, 1, 1, {0x81, 0, 0, 0}, TO(TOTALS_IEEE COMMA 4 COMMA 8), 0x80, 0, 0x80, TOTALS_EQUAL},
        {FNUZ, 1, 1, {0x81, 0, 0, 0}, TO(TOTALS_E4M3_FNUZ), 0, 0, 0x80, TOTALS_EQUAL},
        /* zeros: none, of one sign, of both, and terms that cancel */
        {B64,
         0,
         0,
         {0, 0, 0, 0},
         TO_ROUNDED(TOTALS_BINARY16, TOTALS_TOWARD_NEGATIVE),
         0,
         0,
         0,
         TOTALS_EQUAL},
        {B64, 0, 2, {MINUS, MINUS, 0, 0}, TO(TOTALS_BINARY16), 0x8000, 0, 0, TOTALS_EQUAL},
        {B64, 0, 2, {MINUS, 0, 0, 0}, TO(TOTALS_BINARY16), 0, 0, 0, TOTALS_EQUAL},
        {B64,
         0,
         2,
         {MINUS, 0, 0, 0},
         TO_ROUNDED(TOTALS_BINARY16, TOTALS_TOWARD_NEGATIVE),
         0x8000,
         0,
         0,
         TOTALS_EQUAL},
        {B64, 0, 3, {ONE, MINUS, MINUS + ONE, 0}, TO(TOTALS_BINARY16), 0, 1, 0, TOTALS_EQUAL},
        {B64,
         0,
         3,
         {ONE, 0, MINUS + ONE, 0},
         TO_ROUNDED(TOTALS_BINARY16, TOTALS_TOWARD_NEGATIVE),
         0x8000,
         1,
         0,
         TOTALS_EQUAL},
        /* lists of float: 1 and 2^-11 and 2^-40; a subnormal value; in the list's own format */
        {B32,
         0,
         3,
         {0x3f800000, 0x3a000000, 0x2b800000, 0},
         TO(TOTALS_BINARY16),
         0x3c01,
         1,
         0x50,
         TOTALS_ABOVE},
        {B32,
         0,
         3,
         {0x3f800000, 0x3a000000, 0x2b800000, 0},
         TO(TOTALS_BINARY32),
         0x3f801000,
         1,
         0x10,
         TOTALS_BELOW},
        {B32, 0, 1, {1, 0, 0, 0}, TO(TOTALS_BFLOAT16), 0, 1, 0xb8, TOTALS_BELOW},
        {B32, 1, 1, {0x80000001, 0, 0, 0}, TO(TOTALS_BFLOAT16), 0x8000, 0, 0x80, TOTALS_EQUAL},
    };
    size_t i;

    for (i = 0; i < sizeof rows / sizeof *rows; i++) {
        if (!into_is(&rows[i])) {
            fprintf(stderr, "row %u of the sums into targets\n", (unsigned)i);
        }
        CHECK(into_is(&rows[i]));
    }
}

/* Records of several targets, and what is returned. */
static int into_records_are(unsigned returned, const totals_record *records,
                            const totals_record *wanted, size_t count)
{
    unsigned first = TOTALS_ACCEPTED;
    size_t i;

    for (i = 0; i < count; i++) {
        if (!alike(records[i], wanted[i])) {
            return 0;
        }
        first = first == TOTALS_ACCEPTED ? wanted[i].refusal : first;
    }
    return returned == first
           && are_untouched((const uint8_t *)(records + count), 0, sizeof *records);
}

/*
 * None to seven targets, in groups of three: each has what it has alone, and one that is refused
 * does not touch the others.
 */
static void several_targets(void)
{
    static const totals_target targets[MOST_TARGETS] = {
        TO(TOTALS_BINARY16),
        TO_ROUNDED(TOTALS_BINARY32, TOTALS_TOWARD_POSITIVE),
        TO(TOTALS_IEEE COMMA 10 COMMA 64), /* 54 digits */
        TO(TOTALS_E4M3),
        TO_BIASED(TOTALS_E4M3, TOTALS_FARTHEST_BIAS + 1),
        {{TOTALS_BINARY16, TOTALS_OWN_BIAS}, {0, 0, 0, 0, 0, 0, 0, 12}},
        TO(TOTALS_BINARY64),
    };
    const totals_format f = B64;
    const uint64_t list[3] = {ONE, TIE, BESIDE};
    double doubles[3];
    totals_record alone[MOST_TARGETS], records[MOST_TARGETS + 1];
    size_t from, count, i, j, k;

    memcpy(doubles, list, sizeof list);
    for (i = 0; i < MOST_TARGETS; i++) {
        const unsigned returned = totals_sum_into_words(f, list, 3, 0, &targets[i], 1, &alone[i]);
        CHECK(returned == alone[i].refusal);
    }
    CHECK(has_record(alone[0], 0x3c01, 0x50, 1, TOTALS_ABOVE)
          && has_record(alone[1], 0x3f801001, 0x50, 1, TOTALS_ABOVE));
    CHECK(REFUSED(alone[2], TOTALS_TARGET_OUT_OF_REACH, 0)
          && has_record(alone[3], 0x38, 0x10, 1, TOTALS_BELOW));
    CHECK(REFUSED(alone[4], TOTALS_NO_SUCH_FORMAT, 0)
          && REFUSED(alone[5], TOTALS_SETTING_OUT_OF_RANGE, 0));
    CHECK(has_record(alone[6], 0x3ff0020000000000, 0x10, 1, TOTALS_BELOW));
    for (from = 0; from <= MOST_TARGETS; from++) {
        for (count = 0; from + count <= MOST_TARGETS; count++) {
            unsigned returned;
            memset(records, UNTOUCHED, sizeof records);
            returned = totals_sum_into_words(f, list, 3, 0, targets + from, count, records);
            CHECK(into_records_are(returned, records, alone + from, count));
            memset(records, UNTOUCHED, sizeof records);
            returned = totals_sum_into_double(doubles, 3, 0, targets + from, count, records);
            CHECK(into_records_are(returned, records, alone + from, count));
        }
    }
    /* three of them in every order, and one thrice */
    for (i = 0; i < MOST_TARGETS; i++) {
        for (j = 0; j < MOST_TARGETS; j++) {
            for (k = 0; k < MOST_TARGETS; k++) {
                const size_t order[3] = {i, j, k};
                size_t at;
                CHECK(into(f, 0, &targets[i], &targets[j], &targets[k], list, 3) == TOTALS_ACCEPTED
                      && nothing_behind_slots());
                for (at = 0; at < 3; at++) {
                    const totals_record r = alone[order[at]];
                    CHECK(slot_is(at, r.refusal, r.result, r.flags, r.passes, r.side));
                }
            }
        }
    }
}

/* Every refusal of one target, of two and of three; of two that hold the first is given. */
static void targets_refused(void)
{
    static const totals_target good = TO(TOTALS_BINARY16);
    const totals_format f = {TOTALS_BINARY16, TOTALS_OWN_BIAS};
    const totals_format no_lists[5] = {{9, 5, 16, 0, 0},
                                       {0, 29, 64, 0, 0},
                                       {0, 5, 65, 0, 0},
                                       {0, 5, 16, 0, 15},
                                       {0, 5, 16, 2, 15}};
    const uint64_t fine[3] = {0x3c00, 0x3c00, 0x4000}, stray[3] = {0x3c00, 0x7c00, 0x10000};
    const uint64_t infinite[3] = {0x3c00, 0xfc00, 0x3c00}, nan[3] = {0x7e00, 0x3c00, 0x3c00};
    totals_target bad[18];
    unsigned numbers[18];
    totals_record records[3];
    size_t i, k, held;

    for (i = 0; i < 18; i++) {
        bad[i] = good;
        numbers[i] = i < 9    ? TOTALS_NO_SUCH_FORMAT
                     : i < 17 ? TOTALS_SETTING_OUT_OF_RANGE
                              : TOTALS_TARGET_OUT_OF_REACH;
    }
    bad[0].format.kind = 4;
    bad[1].format.exponent_bits = 1;
    bad[2].format.exponent_bits = 29;
    bad[3].format.width = 6;
    bad[4].format.width = 65;
    bad[5].format.bias = 15; /* not named */
    bad[6].format.bias_named = 2;
    bad[7].format.bias_named = 1;
    bad[7].format.bias = TOTALS_FARTHEST_BIAS + 1;
    bad[8].format.bias_named = 1;
    bad[8].format.bias = INT64_MIN;
    bad[9].settings.rounding = 8;
    bad[10].settings.tininess = 2;
    bad[11].settings.nan_propagation = 4;
    bad[12].settings.default_nan_negative = 2;
    bad[13].settings.flush_to_zero = 2;
    bad[14].settings.denormals_are_zero = 2;
    bad[15].settings.saturate = 2;
    bad[16].settings.precision = 12;
    bad[17].format.width = 17;
    for (i = 0; i < 18; i++) {
        for (held = 0; held < 8; held++) {
            totals_target three[3];
            unsigned returned;
            for (k = 0; k < 3; k++) {
                three[k] = held >> k & 1 ? bad[i] : good;
            }
            CHECK(into(f, 0, &three[0], &three[1], &three[2], fine, 3) == TOTALS_ACCEPTED
                  && nothing_behind_slots());
            returned = totals_sum_into_words(f, fine, 3, 0, three, 3, records);
            CHECK(returned == (held == 0 ? (unsigned)TOTALS_ACCEPTED : numbers[i]));
            for (k = 0; k < 3; k++) {
                if (held >> k & 1) {
                    CHECK(slot_is_refused(k, numbers[i]) && REFUSED(records[k], numbers[i], 0));
                } else {
                    CHECK(slot_is(k, 0, 0x4400, 0, 1, 0)
                          && has_record(records[k], 0x4400, 0, 1, TOTALS_EQUAL));
                }
            }
            /* with a stray bit behind an infinity: 7 in place of 0 and of 17 */
            CHECK(into(f, 0, &three[0], &three[1], &three[2], stray, 3) == TOTALS_ACCEPTED);
            returned = totals_sum_into_words(f, stray, 3, 0, three, 3, records);
            CHECK(returned == records[0].refusal);
            for (k = 0; k < 3; k++) {
                const unsigned number =
                    held >> k & 1 && i < 17 ? numbers[i] : (unsigned)TOTALS_STRAY_BIT;
                const uint64_t place = number == TOTALS_STRAY_BIT ? 2 : 0;
                CHECK(slot_is_refused(k, number + 256 * place)
                      && REFUSED(records[k], number, place));
            }
            /* with a value that is not finite: 17 in place of 0 */
            for (k = 0; k < 6; k++) {
                const unsigned number =
                    held >> k % 3 & 1 ? numbers[i] : (unsigned)TOTALS_TARGET_OUT_OF_REACH;
                CHECK(into(f, 0, &three[0], &three[1], &three[2], k < 3 ? nan : infinite, 3)
                      == TOTALS_ACCEPTED);
                CHECK(slot_is_refused(k % 3, number));
            }
            /* the list's denormals-are-zero above 1: 4 in place of all but 3 */
            CHECK(into(f, 2, &three[0], &three[1], &three[2], stray, 3) == TOTALS_ACCEPTED);
            returned = totals_sum_into_words(f, stray, 3, UINT64_MAX, three, 3, records);
            CHECK(returned == records[0].refusal);
            for (k = 0; k < 3; k++) {
                const unsigned number = held >> k & 1 && i < 9
                                            ? (unsigned)TOTALS_NO_SUCH_FORMAT
                                            : (unsigned)TOTALS_SETTING_OUT_OF_RANGE;
                CHECK(slot_is_refused(k, number) && REFUSED(records[k], number, 0));
            }
            /* no format of the list: 3 in place of all */
            for (k = 0; k < 5; k++) {
                CHECK(into(no_lists[k], 2, &three[0], &three[1], &three[2], stray, 3)
                      == TOTALS_ACCEPTED);
                CHECK(slot_is_refused(0, TOTALS_NO_SUCH_FORMAT)
                      && slot_is_refused(1, TOTALS_NO_SUCH_FORMAT));
                CHECK(slot_is_refused(2, TOTALS_NO_SUCH_FORMAT) && nothing_behind_slots());
                CHECK(totals_sum_into_words(no_lists[k], stray, 3, 0, three, 3, records)
                      == TOTALS_NO_SUCH_FORMAT);
                CHECK(REFUSED(records[0], TOTALS_NO_SUCH_FORMAT, 0)
                      && REFUSED(records[2], TOTALS_NO_SUCH_FORMAT, 0));
            }
        }
    }
}

/* Lengths in bytes: 1 before 2, and both before a target is looked at; nothing is written. */
static void lengths_of_targets(void)
{
    static const size_t lengths[6] = {0, 104, 311, 312, 313, 320}, sizes[6] = {0, 1, 7, 8, 9, 16},
                        rooms[6] = {0, 24, 95, 96, 97, INTO_ROOM};
    const uint64_t list[2] = {0x3c00, 0x10000};
    const totals_target good = TO(TOTALS_BINARY16);
    size_t i, j, k;

    for (i = 0; i < 3; i++) {
        lay_out_target(into_targets + 1 + 104 * i, &good);
    }
    for (i = 0; i < 6; i++) {
        for (j = 0; j < 6; j++) {
            for (k = 0; k < 6; k++) {
                const uint64_t wanted = lengths[i] != TOTALS_TARGETS_BYTES || sizes[j] % 8 != 0
                                            ? TOTALS_UNEVEN_LENGTH
                                        : rooms[k] < TOTALS_INTO_ANSWER_BYTES ? TOTALS_SHORT_BUFFER
                                                                              : TOTALS_ACCEPTED;
                memset(into_answer, UNTOUCHED, sizeof into_answer);
                CHECK(totals_sum_into(TOTALS_BINARY16, TOTALS_OWN_BIAS, 0, into_targets + 1,
                                      lengths[i], (const uint8_t *)list, sizes[j], into_answer + 1,
                                      rooms[k])
                      == wanted);
                CHECK(nothing_behind_slots());
                if (wanted != TOTALS_ACCEPTED) {
                    CHECK(are_untouched(into_answer, 0, sizeof into_answer));
                } else if (sizes[j] == 16) {
                    CHECK(slot_is_refused(0, TOTALS_STRAY_BIT + 256)
                          && slot_is_refused(2, TOTALS_STRAY_BIT + 256));
                } else {
                    CHECK(slot_is(1, 0, sizes[j] == 0 ? 0 : 0x3c00, 0, sizes[j] / 8, 0));
                }
            }
        }
    }
}

/* Lists that are too long, or not there; targets and records that are not there; no memory. */
static void targets_of_no_list(void)
{
    const size_t most = TOTALS_MOST_ELEMENTS;
    const totals_format f = {TOTALS_BINARY16, TOTALS_OWN_BIAS};
    totals_target targets[4] = {TO(TOTALS_BINARY16), TO(TOTALS_IEEE COMMA 2 COMMA 64),
                                TO(TOTALS_BINARY16), TO(TOTALS_BINARY16)};
    const double one = 1;
    const float half = 0.5f;
    uint64_t *unread = addresses(most + 2);
    const double *doubles = (const double *)unread;
    const float *floats = (const float *)unread;
    float *singles = (float *)calloc(LONG, sizeof *singles);
    totals_record records[5];
    size_t i;

    targets[2].format.kind = 4;
    targets[3].settings.rounding = 8;
    /* 3 and 4 of a target come first; 17 is not known */
#define UNREAD(call, number) \
    memset(records, UNTOUCHED, sizeof records); \
    CHECK((call) == (number)); \
    CHECK(REFUSED(records[0], number, 0) && REFUSED(records[1], number, 0) \
          && REFUSED(records[2], TOTALS_NO_SUCH_FORMAT, 0)); \
    CHECK(REFUSED(records[3], TOTALS_SETTING_OUT_OF_RANGE, 0) \
          && are_untouched((const uint8_t *)(records + 4), 0, sizeof *records))
    unread[1] = 0x10000;
    UNREAD(totals_sum_into_words(f, unread, most + 1, 0, targets, 4, records),
           (unsigned)TOTALS_TOO_MANY_ELEMENTS);
    UNREAD(totals_sum_into_double(doubles, most + 1, 0, targets, 4, records),
           (unsigned)TOTALS_TOO_MANY_ELEMENTS);
    UNREAD(totals_sum_into_float(floats, most + 1, 1, targets, 4, records),
           (unsigned)TOTALS_TOO_MANY_ELEMENTS);
    UNREAD(totals_sum_into_double(&one, SIZE_MAX, 0, targets, 4, records),
           (unsigned)TOTALS_TOO_MANY_ELEMENTS);
    UNREAD(totals_sum_into_double(&one, SIZE_MAX / 8 + 2, 0, targets, 4, records),
           (unsigned)TOTALS_TOO_MANY_ELEMENTS);
    UNREAD(totals_sum_into_words(f, NULL, most + 1, 0, targets, 4, records),
           (unsigned)TOTALS_TOO_MANY_ELEMENTS);
    UNREAD(totals_sum_into_words(f, NULL, 1, 0, targets, 4, records), (unsigned)TOTALS_NO_LIST);
    UNREAD(totals_sum_into_double(NULL, 2, 0, targets, 4, records), (unsigned)TOTALS_NO_LIST);
    UNREAD(totals_sum_into_float(NULL, most, 0, targets, 4, records), (unsigned)TOTALS_NO_LIST);
#undef UNREAD
    CHECK(totals_sum_into_words(f, NULL, 1, 2, targets, 2, records) == TOTALS_SETTING_OUT_OF_RANGE);
    CHECK(REFUSED(records[0], TOTALS_SETTING_OUT_OF_RANGE, 0)
          && REFUSED(records[1], TOTALS_SETTING_OUT_OF_RANGE, 0));
    /* the entry, too, reads nothing of a list that is too long */
    CHECK(into(f, 0, &targets[0], &targets[2], &targets[3], unread, most + 1) == TOTALS_ACCEPTED
          && nothing_behind_slots());
    CHECK(slot_is_refused(0, TOTALS_TOO_MANY_ELEMENTS)
          && slot_is_refused(1, TOTALS_NO_SUCH_FORMAT));
    CHECK(slot_is_refused(2, TOTALS_SETTING_OUT_OF_RANGE));

    /* an empty list needs no pointer, nor do no targets and no records */
    CHECK(totals_sum_into_double(NULL, 0, 0, targets, 1, records) == TOTALS_ACCEPTED
          && has_record(records[0], 0, 0, 0, TOTALS_EQUAL));
    CHECK(totals_sum_into_float(NULL, 0, 0, targets, 1, records) == TOTALS_ACCEPTED
          && has_record(records[0], 0, 0, 0, TOTALS_EQUAL));
    CHECK(totals_sum_into_words(f, NULL, 0, 0, targets, 1, records) == TOTALS_ACCEPTED
          && has_record(records[0], 0, 0, 0, TOTALS_EQUAL));
    CHECK(totals_sum_into_double(&one, 1, 0, NULL, 0, NULL) == TOTALS_ACCEPTED);
    CHECK(totals_sum_into_float(&half, 1, 0, NULL, 0, NULL) == TOTALS_ACCEPTED);
    CHECK(totals_sum_into_double(NULL, 0, 0, NULL, 0, NULL) == TOTALS_ACCEPTED);
    CHECK(totals_sum_into_double(doubles, most, 0, targets, 2, NULL) == TOTALS_NO_LIST);
    memset(records, UNTOUCHED, sizeof records);
    CHECK(totals_sum_into_double(&one, 1, 0, NULL, 4, records) == TOTALS_NO_LIST);
    for (i = 0; i < 4; i++) {
        CHECK(REFUSED(records[i], TOTALS_NO_LIST, 0));
    }
    CHECK(are_untouched((const uint8_t *)(records + 4), 0, sizeof *records));

    /* floats are copied once for all targets, and given back */
    singles[LONG - 1] = 1.5f;
    CHECK(totals_sum_into_float(singles, LONG, 0, targets, 2, records) == TOTALS_TARGET_OUT_OF_REACH
          && owned == 0);
    CHECK(has_record(records[0], 0x3e00, 0, 1, TOTALS_EQUAL)
          && REFUSED(records[1], TOTALS_TARGET_OUT_OF_REACH, 0));
    has_memory = 0;
    CHECK(totals_sum_into_float(floats, most, 0, targets, 2, records) == TOTALS_NO_MEMORY
          && asked == 2147483648 && owned == 0);
    CHECK(REFUSED(records[0], TOTALS_NO_MEMORY, 0) && REFUSED(records[1], TOTALS_NO_MEMORY, 0));
    CHECK(totals_sum_into_float(&half, 1, 0, targets, 1, records) == TOTALS_ACCEPTED
          && has_record(records[0], 0x3800, 0, 1, TOTALS_EQUAL));
    has_memory = 1;
    free(singles);
    munmap(unread, 8 * (most + 2));
}

/* The answer within an allowance lies at an odd address, with bytes behind it. */
#define WITHIN_ROOM (TOTALS_WITHIN_ANSWER_BYTES + 24)
#define WITHIN_VALUES 3

static uint8_t within_answer[1 + WITHIN_ROOM];

static uint64_t sum_within(totals_format f, const totals_settings *c, uint64_t summand,
                           uint64_t allowance, const uint64_t *list, size_t size, size_t room)
{
    memset(within_answer, UNTOUCHED, sizeof within_answer);
    return totals_sum_within(f.kind, f.exponent_bits, f.width, f.bias_named, f.bias, c->rounding,
                             c->tininess, c->nan_propagation, c->default_nan_negative,
                             c->flush_to_zero, c->denormals_are_zero, c->saturate, c->precision,
                             summand, allowance, (const uint8_t *)list, size, within_answer + 1,
                             room);
}

static uint64_t dot_within(totals_format f, const totals_settings *c, uint64_t allowance,
                           const uint64_t *left, size_t left_size, const uint64_t *right,
                           size_t right_size, size_t room)
{
    memset(within_answer, UNTOUCHED, sizeof within_answer);
    return totals_dot_within(f.kind, f.exponent_bits, f.width, f.bias_named, f.bias, c->rounding,
                             c->tininess, c->nan_propagation, c->default_nan_negative,
                             c->flush_to_zero, c->denormals_are_zero, c->saturate, c->precision,
                             allowance, (const uint8_t *)left, left_size, (const uint8_t *)right,
                             right_size, within_answer + 1, room);
}

static int nothing_within(void)
{
    return are_untouched(within_answer, 0, sizeof within_answer);
}

/* S is 0, or a power of two, or the sum of two, with a sign; NONE is no power. */
#define NONE (-1)

typedef struct {
    totals_format f;
    size_t count;
    uint64_t values[WITHIN_VALUES];
    uint64_t allowance;
    unsigned negative;
    int high, low;
    int64_t last_edge;
    unsigned minus;
    uint64_t whole;
    int64_t unit;
    uint64_t lower, upper, figure; /* encodings of the doubles */
} within_row;

/*
 * The 144 bytes of an unfinished answer: the magnitude of S, and its negative where it is below
 * zero.
 */
static int bytes_are(const within_row *row)
{
    uint8_t wanted[TOTALS_WITHIN_ANSWER_BYTES];
    int i, carry = 1;

    memset(wanted, 0, sizeof wanted);
    wanted[9] = 1;
    wanted[11] = (uint8_t)row->minus;
    put(wanted + 16, 8, row->allowance);
    put(wanted + 24, 8, (uint64_t)row->last_edge);
    put(wanted + 32, 8, row->whole);
    put(wanted + 40, 8, (uint64_t)row->unit);
    if (row->high != NONE) {
        wanted[48 + row->high / 8] = (uint8_t)(1 << row->high % 8);
    }
    if (row->low != NONE) {
        wanted[48 + row->low / 8] |= (uint8_t)(1 << row->low % 8);
    }
    for (i = 48; row->negative && i < TOTALS_WITHIN_ANSWER_BYTES; i++) {
        const int digit = (uint8_t)~wanted[i] + carry;
        wanted[i] = (uint8_t)digit;
        carry = digit >> 8;
    }
    return memcmp(within_answer + 1, wanted, sizeof wanted) == 0 && within_answer[0] == UNTOUCHED
           && are_untouched(within_answer, 1 + TOTALS_WITHIN_ANSWER_BYTES, sizeof within_answer);
}

static int estimate_is(const within_row *row, totals_estimate e)
{
    uint64_t sum[TOTALS_SUM_WORDS] = {0};

    if (row->high != NONE) {
        sum[row->high / 64] = (uint64_t)1 << row->high % 64;
    }
    if (row->low != NONE) {
        sum[row->low / 64] |= (uint64_t)1 << row->low % 64;
    }
    return e.refusal == TOTALS_ACCEPTED && e.place == 0 && e.mark == 1 && e.result == 0
           && e.flags == 0 && e.side == 0 && e.passes == row->allowance
           && e.last_edge == row->last_edge && e.negative == row->negative && e.minus == row->minus
           && memcmp(e.sum, sum, sizeof sum) == 0 && e.whole == row->whole && e.unit == row->unit
           && e.elements == row->count && bits_of(totals_lower(&e)) == row->lower
           && bits_of(totals_upper(&e)) == row->upper && bits_of(totals_figure(&e)) == row->figure;
}

static int within_is(const within_row *row)
{
    static const totals_settings defaults = TOTALS_SETTINGS_INIT;
    double doubles[WITHIN_VALUES];
    int is_right = sum_within(row->f, &defaults, TOTALS_VALUE, row->allowance, row->values,
                              8 * row->count, WITHIN_ROOM)
                       == 0
                   && bytes_are(row)
                   && estimate_is(row, totals_sum_within_words(row->f, TOTALS_VALUE, row->values,
                                                               row->count, row->allowance, NULL));

    memcpy(doubles, row->values, sizeof doubles);
    if (row->f.width == 64) {
        is_right = is_right
                   && estimate_is(row, totals_sum_within_double(TOTALS_VALUE, doubles, row->count,
                                                                row->allowance, &defaults));
    }
    return is_right;
}

/* 13 bits of exponent and five digits. */
#define FIVE {TOTALS_IEEE, 13, 18, TOTALS_OWN_BIAS}
#define FIVE_POWER(n) ((uint64_t)((n) + 4095) << 4)
#define FIVE_MINUS 0x20000
#define POWER(n) ((uint64_t)((n) + 1023) << 52)
#define INFINITE 0x7ff0000000000000

/* What the last pass allowed has seen. */
static void unfinished_totals(void)
{
    static const within_row rows[] = {
        {B64,
         2,
         {MINUS + POWER(1023), 1, 0},
         1,
         1,
         702,
         NONE,
         321,
         0,
         0,
         0,
         0xffe0000000000001,
         0xffdfffffffffffff,
         0xffe0000000000000},
        /* 2^1000, 1, -2^1000: three units of 2^298 */
        {B64,
         3,
         {POWER(1000), ONE, MINUS + POWER(1000)},
         1,
         0,
         NONE,
         NONE,
         298,
         0,
         0,
         0,
         0xd2a8000000000000,
         0x52a8000000000000,
         0},
        /* 1, 2^-53, 2^-1000: a tie, and between two doubles */
        {B64, 3, {ONE, POWER(-53), FAR_BELOW}, 1, 0, 702, 649, -702, 0, 0, 0, ONE, ONE + 1, ONE},
        /* ten passes find nothing; three units of 2^-3596 are less than the least double */
        {FIVE,
         3,
         {FIVE_POWER(4000), FIVE_MINUS + FIVE_POWER(4000), FIVE_POWER(-4000)},
         1,
         0,
         NONE,
         NONE,
         3298,
         0,
         0,
         0,
         MINUS + INFINITE,
         INFINITE,
         0},
        {FIVE,
         3,
         {FIVE_POWER(4000), FIVE_MINUS + FIVE_POWER(4000), FIVE_POWER(-4000)},
         2,
         0,
         NONE,
         NONE,
         2532,
         0,
         0,
         0,
         MINUS + INFINITE,
         INFINITE,
         0},
        {FIVE,
         3,
         {FIVE_POWER(4000), FIVE_MINUS + FIVE_POWER(4000), FIVE_POWER(-4000)},
         9,
         0,
         NONE,
         NONE,
         -2830,
         0,
         0,
         0,
         MINUS + 1,
         1,
         0},
        {FIVE,
         3,
         {FIVE_POWER(4000), FIVE_MINUS + FIVE_POWER(4000), FIVE_POWER(-4000)},
         10,
         0,
         NONE,
         NONE,
         -3596,
         0,
         0,
         0,
         MINUS + 1,
         1,
         0},
        /* beside a boundary, of either sign */
        {FIVE,
         2,
         {FIVE_POWER(4000), FIVE_POWER(-4000), 0},
         2,
         0,
         NONE,
         NONE,
         2597,
         0,
         0x20,
         3995,
         GREATEST,
         INFINITE,
         INFINITE},
        {FIVE,
         2,
         {FIVE_POWER(4000), FIVE_POWER(-4000), 0},
         3,
         0,
         NONE,
         NONE,
         1831,
         0,
         0x20,
         3995,
         GREATEST,
         INFINITE,
         INFINITE},
        {FIVE,
         2,
         {FIVE_MINUS + FIVE_POWER(4000), FIVE_POWER(-4000), 0},
         3,
         0,
         NONE,
         NONE,
         1831,
         1,
         0x20,
         3995,
         MINUS + INFINITE,
         MINUS + GREATEST,
         MINUS + INFINITE},
        {FIVE,
         2,
         {FIVE_POWER(0), FIVE_POWER(-4000), 0},
         2,
         0,
         NONE,
         NONE,
         -1403,
         0,
         0x20,
         -5,
         ONE - 1,
         ONE + 1,
         ONE},
        {FIVE,
         2,
         {FIVE_MINUS + FIVE_POWER(0), FIVE_POWER(-4000), 0},
         3,
         0,
         NONE,
         NONE,
         -2169,
         1,
         0x20,
         -5,
         MINUS + ONE + 1,
         MINUS + ONE - 1,
         MINUS + ONE},
        /*
         * 2^1000, and below it -2^-403, a unit of the second pass: two units more or less are on
         * both sides of it
         */
        {FIVE,
         3,
         {FIVE_POWER(1000), FIVE_MINUS + FIVE_POWER(-403), FIVE_POWER(-4000)},
         2,
         1,
         0,
         NONE,
         -403,
         0,
         0x20,
         995,
         POWER(1000) - 1,
         POWER(1000) + 1,
         POWER(1000)},
        /* subnormal doubles */
        {FIVE,
         2,
         {FIVE_POWER(-1060), FIVE_POWER(-4000), 0},
         2,
         0,
         NONE,
         NONE,
         -2463,
         0,
         0x20,
         -1065,
         0x3fff,
         0x4001,
         0x4000},
        {FIVE,
         2,
         {FIVE_MINUS + FIVE_POWER(-1075), FIVE_POWER(-4000), 0},
         1,
         1,
         702,
         NONE,
         -1777,
         0,
         0,
         0,
         MINUS + 1,
         0,
         0},
    };
    const totals_format b64 = B64;
    const uint64_t greatest[3] = {GREATEST, GREATEST, FAR_BELOW};
    const totals_estimate beyond = totals_sum_within_words(b64, TOTALS_VALUE, greatest, 3, 1, NULL);
    size_t i;

    /* twice the greatest double is 2^704 - 2^651 units */
    CHECK(beyond.mark == 1 && beyond.last_edge == 321 && beyond.sum[10] == 0xfffffffffffff800
          && beyond.sum[9] == 0 && beyond.sum[11] == 0);
    CHECK(bits_of(totals_lower(&beyond)) == GREATEST && bits_of(totals_upper(&beyond)) == INFINITE
          && bits_of(totals_figure(&beyond)) == INFINITE);
    for (i = 0; i < sizeof rows / sizeof *rows; i++) {
        if (!within_is(&rows[i])) {
            fprintf(stderr, "row %u of the unfinished totals\n", (unsigned)i);
        }
        CHECK(within_is(&rows[i]));
    }
}

static int is_full(totals_estimate e, totals_record record)
{
    static const uint64_t zeros[TOTALS_SUM_WORDS] = {0};
    const totals_record given = {e.result, e.passes, e.place, e.flags, e.refusal, e.side};
    return alike(given, record) && e.mark == 0 && e.negative == 0 && e.minus == 0 && e.whole == 0
           && e.unit == 0 && e.elements == 0 && memcmp(e.sum, zeros, sizeof zeros) == 0
           && totals_lower(&e) == 0 && totals_upper(&e) == 0 && totals_figure(&e) == 0;
}

/* Two of unfinished answers: what lies between the fields is not compared. */
static int same_estimate(totals_estimate x, totals_estimate y)
{
    return x.mark == 1 && y.mark == 1 && x.passes == y.passes && x.last_edge == y.last_edge
           && x.negative == y.negative && x.minus == y.minus
           && memcmp(x.sum, y.sum, sizeof x.sum) == 0 && x.whole == y.whole && x.unit == y.unit
           && x.elements == y.elements;
}

/* A number of any exponent, now and then a zero or a subnormal one. */
static double drawn_double(void)
{
    return number(drawn_below(2) * MINUS
                  + (drawn_below(8) == 0 ? drawn_below(3) : drawn_below(0x7ff) << 52)
                  + drawn_below(4) * 0x4000000000000);
}

/*
 * The doubles of an unfinished sum have those between them that the plain sum is rounded to, down
 * and up.
 */
static int bounds_hold(totals_estimate e, uint64_t summand, const double *list, size_t count)
{
    const totals_format f = B64;
    totals_settings down = TOTALS_SETTINGS_INIT, up = TOTALS_SETTINGS_INIT;
    uint64_t words[12];

    down.rounding = TOTALS_TOWARD_NEGATIVE;
    up.rounding = TOTALS_TOWARD_POSITIVE;
    memcpy(words, list, 8 * count);
    return totals_lower(&e) <= number(totals_sum_words(f, summand, words, count, &down).result)
           && number(totals_sum_words(f, summand, words, count, &up).result) <= totals_upper(&e)
           && totals_lower(&e) <= totals_figure(&e) && totals_figure(&e) <= totals_upper(&e);
}

/*
 * Sums of all summands and dots, within 1 to 9 passes: unfinished where the plain total takes more,
 * and else that total.
 */
static void totals_in_time(void)
{
    const totals_format f = B64;
    const uint64_t nan[2] = {0x7ff8000000000000, ONE};
    unsigned chains[4] = {0, 0, 0, 0};
    int round;

    for (round = 0; round < 2000; round++) {
        double list[12];
        uint64_t words[12], summand, k;
        size_t count = 0, i;

        for (i = drawn_below(7); i > 0; i--) {
            const double x = drawn_double();
            list[count++] = x;
            if (drawn_below(2) == 0) {
                list[count++] = -x;
            }
        }
        memcpy(words, list, 8 * count);
        for (summand = TOTALS_VALUE; summand <= TOTALS_SQUARE; summand++) {
            const totals_record plain = totals_sum_words(f, summand, words, count, NULL);
            totals_estimate wider = {0, 0, 0, 0, 0, 0, 0, 0, 0, 0, {0}, 0, 0, 0};
            chains[plain.passes < 3 ? plain.passes : 3]++;
            for (k = 1; k <= 9; k++) {
                const totals_estimate e = totals_sum_within_double(summand, list, count, k, NULL);
                if (plain.passes <= k) {
                    CHECK(is_full(e, plain));
                    continue;
                }
                CHECK(e.refusal == TOTALS_ACCEPTED && e.mark == 1 && e.passes == k
                      && bounds_hold(e, summand, list, count));
                CHECK(k == 1
                      || (e.last_edge < wider.last_edge && totals_lower(&wider) <= totals_lower(&e)
                          && totals_upper(&e) <= totals_upper(&wider)));
                wider = e;
            }
        }
        for (k = 1; k <= 9; k++) {
            const totals_record plain = totals_dot_words(f, words, count, words, count, NULL);
            const totals_estimate e = totals_dot_within_double(list, count, list, count, k, NULL);
            const totals_estimate square =
                totals_sum_within_double(TOTALS_SQUARE, list, count, k, NULL);
            CHECK(plain.passes <= k ? is_full(e, plain) : same_estimate(e, square));
        }
    }
    CHECK(chains[0] > 50 && chains[1] > 50 && chains[2] > 50 && chains[3] > 50);

    /* no pass is needed */
    CHECK(is_full(totals_sum_within_words(f, TOTALS_VALUE, nan, 2, 1, NULL),
                  totals_sum_words(f, TOTALS_VALUE, nan, 2, NULL)));
    CHECK(totals_sum_within_words(f, TOTALS_VALUE, nan, 2, 1, NULL).result == nan[0]);
    CHECK(is_full(totals_sum_within_double(TOTALS_VALUE, NULL, 0, 1, NULL),
                  totals_sum_words(f, TOTALS_VALUE, NULL, 0, NULL)));
    /* the last edge is that of the last pass */
    CHECK(totals_sum_within_words(f, TOTALS_VALUE, &nan[1], 1, UINT64_MAX, NULL).last_edge == -702);
}

/*
 * Of floats a wide dot takes no second pass: 2^127 squared and 2^-149 squared are 552 places apart.
 */
static void floats_within(void)
{
    const totals_format f = B32;
    const uint64_t words[3] = {0x7f7fffff, 1, 0xff7fffff};
    const uint64_t in_order[2] = {0x3f800000, 0x7f7fffff};
    float list[3], pair[2];
    size_t i;

    for (i = 0; i < 3; i++) {
        const uint32_t low = (uint32_t)words[i];
        memcpy(&list[i], &low, sizeof low);
    }
    for (i = 0; i < 2; i++) {
        const uint32_t low = (uint32_t)in_order[i];
        memcpy(&pair[i], &low, sizeof low);
    }
    CHECK(is_full(totals_sum_within_float(TOTALS_VALUE, list, 3, 1, NULL),
                  totals_sum_words(f, TOTALS_VALUE, words, 3, NULL)));
    CHECK(is_full(totals_sum_within_float(TOTALS_MAGNITUDE, list, 3, 1, NULL),
                  totals_sum_words(f, TOTALS_MAGNITUDE, words, 3, NULL)));
    CHECK(is_full(totals_dot_within_float(list, 3, list, 3, 1, NULL),
                  totals_dot_words(f, words, 3, words, 3, NULL)));
    CHECK(is_full(totals_dot_within_float(list, 2, pair, 2, 1, NULL),
                  totals_dot_words(f, words, 2, in_order, 2, NULL)));
    CHECK(totals_dot_within_float(list, 2, pair, 2, 0, NULL).refusal == TOTALS_NO_PASS_ALLOWED);
}

/* Each of these numbers right or wrong: the refusals in their order, and nothing written. */
static void within_refused(void)
{
    const uint64_t good[2] = {0x3c00, 0x3c00}, stray[2] = {0x3c00, 0x10000};
    unsigned at;

    for (at = 0; at < 512; at++) {
#define BAD(i) ((at >> (i) & 1) == 1)
        totals_format f = {TOTALS_BINARY16, TOTALS_OWN_BIAS};
        totals_settings c = TOTALS_SETTINGS_INIT;
        const uint64_t *list = BAD(7) ? stray : good;
        const uint64_t allowance = BAD(2) ? 0 : 1, summand = BAD(6) ? 3 : 2;
        const int has_tens = BAD(3) && BAD(4);
        const size_t size = (has_tens ? 10 : 16) - BAD(0), room = BAD(1) ? 143 : 144,
                     right = BAD(8) ? (has_tens ? 0 : 8) : size;
        const uint64_t first = BAD(0) ? 1 : BAD(1) ? 2 : BAD(2) ? 16 : BAD(3) || BAD(4) ? 3 : 0;
        const uint64_t of_sum = first != 0 ? first : BAD(5) || BAD(6) ? 4 : BAD(7) ? 7 + 256 : 0;
        const uint64_t of_dot = first != 0 ? first : BAD(5) ? 4 : BAD(8) ? 5 : BAD(7) ? 7 + 256 : 0;

        if (BAD(3)) {
            f.kind = has_tens ? TOTALS_X87 : 9;
        }
        if (BAD(4)) {
            f.bias = 1; /* and none is named */
        }
        if (BAD(5)) {
            c.rounding = 8;
        }
        CHECK(sum_within(f, &c, summand, allowance, list, size, room) == of_sum
              && nothing_within() == (of_sum != 0));
        CHECK(dot_within(f, &c, allowance, list, size, list, right, room) == of_dot
              && nothing_within() == (of_dot != 0));
        if (!BAD(0) && !BAD(1)) {
            CHECK(totals_sum_within_words(f, summand, list, 2, allowance, &c).refusal
                  == TOTALS_REFUSAL(of_sum));
            CHECK(totals_sum_within_words(f, summand, list, 2, allowance, &c).place
                  == TOTALS_PLACE(of_sum));
            CHECK(totals_dot_within_words(f, list, 2, list, right / 8, allowance, &c).refusal
                  == TOTALS_REFUSAL(of_dot));
        }
#undef BAD
    }
}

/*
 * A list of kind 4 is counted by tens: where it is whole it has 3, of targets each, and else the
 * call has 1.
 */
static void x87_by_tens(void)
{
    const totals_format formats[3] = {{TOTALS_EXTENDED, TOTALS_OWN_BIAS},
                                      {TOTALS_EXTENDED, TOTALS_BIAS(16383)},
                                      {TOTALS_X87, 11, 64, TOTALS_OWN_BIAS}};
    const uint64_t zeros[8] = {0};
    const totals_settings c = TOTALS_SETTINGS_INIT;
    const totals_target good = TO(TOTALS_BINARY16);
    size_t i, size, k;

    for (i = 0; i < 3; i++) {
        const totals_format f = formats[i];
        for (size = 0; size <= 64; size++) {
            const int is_whole = size % 10 == 0;
            const uint64_t refused = is_whole ? TOTALS_NO_SUCH_FORMAT : TOTALS_UNEVEN_LENGTH;
            CHECK(sum_within(f, &c, 0, 1, zeros, size, 144) == refused && nothing_within());
            CHECK(dot_within(f, &c, 1, zeros, size, zeros, 20, 144) == refused && nothing_within());
            CHECK(dot_within(f, &c, 1, zeros, 20, zeros, size, 144) == refused && nothing_within());
            CHECK(sum_within(f, &c, 0, 0, zeros, size, 144)
                      == (is_whole ? (uint64_t)TOTALS_NO_PASS_ALLOWED : refused)
                  && nothing_within());
            CHECK(sum_within(f, &c, 0, 0, zeros, size, 143)
                      == (is_whole ? (uint64_t)TOTALS_SHORT_BUFFER : refused)
                  && nothing_within());
            for (k = 0; k < 3; k++) {
                lay_out_target(into_targets + 1 + 104 * k, &good);
            }
            memset(into_answer, UNTOUCHED, sizeof into_answer);
            CHECK(totals_sum_into(f.kind, f.exponent_bits, f.width, f.bias_named, f.bias, 0,
                                  into_targets + 1, TOTALS_TARGETS_BYTES, (const uint8_t *)zeros,
                                  size, into_answer + 1, INTO_ROOM)
                  == (is_whole ? (uint64_t)TOTALS_ACCEPTED : refused));
            for (k = 0; k < 3; k++) {
                CHECK(is_whole ? slot_is_refused(k, TOTALS_NO_SUCH_FORMAT)
                               : are_untouched(into_answer, 0, sizeof into_answer));
            }
        }
    }
}

/* Lists that are too long, or not there; no memory. */
static void within_of_no_list(void)
{
    const size_t most = TOTALS_MOST_ELEMENTS;
    const totals_format f = {TOTALS_BINARY16, TOTALS_OWN_BIAS},
                        none = {TOTALS_EXTENDED, TOTALS_OWN_BIAS};
    uint64_t *unread = addresses(most + 2);
    const double *doubles = (const double *)unread;
    const float *floats = (const float *)unread;
    float *singles = (float *)calloc(LONG, sizeof *singles);
    const double one = 1;
    totals_settings bad = TOTALS_SETTINGS_INIT;

    bad.rounding = 8;
    CHECK(REFUSED(totals_sum_within_words(f, TOTALS_VALUE, unread, most + 1, 1, NULL),
                  TOTALS_TOO_MANY_ELEMENTS, 0));
    CHECK(REFUSED(totals_sum_within_words(f, TOTALS_VALUE, unread, most + 1, 0, NULL),
                  TOTALS_NO_PASS_ALLOWED, 0));
    CHECK(REFUSED(totals_sum_within_words(none, TOTALS_VALUE, NULL, most + 1, 1, NULL),
                  TOTALS_NO_SUCH_FORMAT, 0));
    CHECK(REFUSED(totals_sum_within_words(f, TOTALS_VALUE, NULL, 1, 1, &bad),
                  TOTALS_SETTING_OUT_OF_RANGE, 0));
    CHECK(REFUSED(totals_sum_within_words(f, 3, NULL, 1, 1, NULL), TOTALS_SETTING_OUT_OF_RANGE, 0));
    CHECK(REFUSED(totals_sum_within_double(TOTALS_VALUE, &one, SIZE_MAX, 1, NULL),
                  TOTALS_TOO_MANY_ELEMENTS, 0));
    CHECK(REFUSED(totals_sum_within_double(TOTALS_VALUE, NULL, 2, 1, NULL), TOTALS_NO_LIST, 0));
    CHECK(REFUSED(totals_sum_within_double(TOTALS_VALUE, NULL, 2, 0, NULL), TOTALS_NO_PASS_ALLOWED,
                  0));
    CHECK(REFUSED(totals_sum_within_float(TOTALS_VALUE, floats, most + 1, 1, NULL),
                  TOTALS_TOO_MANY_ELEMENTS, 0));
    CHECK(REFUSED(totals_dot_within_double(doubles, most + 1, doubles, most + 1, 1, NULL),
                  TOTALS_TOO_MANY_ELEMENTS, 0));
    CHECK(REFUSED(totals_dot_within_double(doubles, most + 1, doubles, most, 1, NULL),
                  TOTALS_DIFFERENT_LENGTHS, 0));
    CHECK(REFUSED(totals_dot_within_double(&one, 1, NULL, 1, 1, NULL), TOTALS_NO_LIST, 0));
    CHECK(REFUSED(totals_dot_within_words(f, unread, 1, unread, 2, 1, NULL),
                  TOTALS_DIFFERENT_LENGTHS, 0));
    /* the entry, too, reads nothing of a list that is too long */
    CHECK(sum_within(f, &bad, TOTALS_VALUE, 1, unread, 8 * (most + 1), WITHIN_ROOM)
              == TOTALS_SETTING_OUT_OF_RANGE
          && nothing_within());
    bad.rounding = 0;
    CHECK(sum_within(f, &bad, TOTALS_VALUE, 1, unread, 8 * (most + 1), WITHIN_ROOM)
              == TOTALS_TOO_MANY_ELEMENTS
          && nothing_within());

    singles[LONG - 1] = 1.5f;
    CHECK(totals_sum_within_float(TOTALS_VALUE, singles, LONG, 1, NULL).result == 0x3fc00000
          && owned == 0);
    CHECK(totals_dot_within_float(singles, LONG, singles, LONG, 1, NULL).result == 0x40100000
          && owned == 0);
    has_memory = 0;
    CHECK(REFUSED(totals_sum_within_float(TOTALS_VALUE, floats, most, 1, NULL), TOTALS_NO_MEMORY, 0)
          && asked == 2147483648 && owned == 0);
    has_memory = 1;
    free(singles);
    munmap(unread, 8 * (most + 2));
}

/* A contribution lies at an odd address, with bytes behind it. */
#define CONTRIBUTION_ROOM (TOTALS_CONTRIBUTION_ANSWER_BYTES + 8)

static uint8_t contribution_answer[1 + CONTRIBUTION_ROOM];

static uint64_t contribute(totals_format f, const totals_settings *c, uint64_t wanted,
                           const uint64_t *list, size_t count, size_t room)
{
    memset(contribution_answer, UNTOUCHED, sizeof contribution_answer);
    return totals_contribution(f.kind, f.exponent_bits, f.width, f.bias_named, f.bias, c->rounding,
                               c->tininess, c->nan_propagation, c->default_nan_negative,
                               c->flush_to_zero, c->denormals_are_zero, c->saturate, c->precision,
                               wanted, list, count, contribution_answer + 1, room);
}

static int nothing_contributed(void)
{
    return are_untouched(contribution_answer, 0, sizeof contribution_answer);
}

static int contributed(uint64_t number)
{
    uint8_t bytes[TOTALS_CONTRIBUTION_ANSWER_BYTES];
    put(bytes, sizeof bytes, number);
    return memcmp(contribution_answer + 1, bytes, sizeof bytes) == 0
           && contribution_answer[0] == UNTOUCHED
           && are_untouched(contribution_answer, 1 + sizeof bytes, sizeof contribution_answer);
}

/*
 * The entry and the inline function: a number where the code is TOTALS_ACCEPTED, and else the code
 * and nothing beside it.
 */
static int contribution_is(totals_format f, const totals_settings *c, const uint64_t *list,
                           size_t count, uint64_t wanted, uint64_t code, uint64_t number)
{
    const totals_contribution_record record = totals_contribution_words(f, list, count, wanted, c);
    return contribute(f, c, wanted, list, count, CONTRIBUTION_ROOM) == code
           && (code == 0 ? contributed(number) : nothing_contributed())
           && record.refusal == TOTALS_REFUSAL(code) && record.place == TOTALS_PLACE(code)
           && record.number == (code == 0 ? number : 0);
}

/* Worked out by hand. A row has two values at most. */
static void contributions(void)
{
#define HALF {TOTALS_BINARY16, TOTALS_OWN_BIAS}
#define NO TOTALS_NO_CONTRIBUTION
    static const totals_format half = HALF, b64 = B64, b32 = B32;
    const struct {
        const totals_format *f;
        uint64_t rounding, saturate, precision;
        size_t count;
        uint64_t list[2], wanted, code, number;
    } rows[] = {
        {&half, EVEN, 0, 0, 0, {0, 0}, 0x8000, 0, 0},
        {&half, EVEN, 0, 0, 1, {0x3c00, 0}, 0x3c00, 0, 0x8c00}, /* a tie, which goes to 1 */
        {&half, TOTALS_TOWARD_NEGATIVE, 0, 0, 1, {0x3c00, 0}, 0x3c00, 0, 0},
        {&half, TOTALS_TOWARD_POSITIVE, 0, 0, 1, {0x3c00, 0}, 0x3c01, 0, 1},
        {&half, TOTALS_TOWARD_POSITIVE, 0, 0, 1, {0x3c00, 0}, 0x3c00, 0, 0x8fff},
        {&half, EVEN, 0, 0, 1, {0x7bff, 0}, 0x7bff, 0, 0xcbff},
        {&half, EVEN, 0, 0, 2, {0x7bff, 0x7bff}, 0x7bff, 0, 0xfbff},
        {&half, EVEN, 0, 0, 2, {0x7bff, 0x7bff}, 0x7bfe, NO, 0},
        {&half, EVEN, 1, 0, 1, {0xfbff, 0}, 0xfbff, 0, 0xfbff}, /* from -65504 on and below */
        {&half, EVEN, 0, 0, 1, {1, 0}, 0x8000, 0, 0x8001},
        {&half, TOTALS_TOWARD_NEGATIVE, 0, 0, 1, {0x8000, 0}, 0, 0, 0},
        {&half, EVEN, 0, 3, 1, {0x3c00, 0}, 0x3c01, NO, 0},
        {&half, EVEN, 0, 1, 0, {0, 0}, 0, 0, 0x8200}, /* half of 2^-14, the one grid of one digit */
        {&b64, EVEN, 0, 0, 1, {ONE, 0}, ONE, 0, MINUS + POWER(-54)},
        {&b64, TOTALS_TO_ODD, 0, 0, 1, {POWER(-60), 0}, ONE, NO, 0},
        {&b64, TOTALS_TO_ODD, 0, 0, 1, {POWER(-60), 0}, ONE + 1, 0, ONE},
        {&b64, EVEN, 0, 0, 2, {POWER(1000), POWER(-1000)}, POWER(-1000), 0, MINUS + POWER(1000)},
        {&b64, EVEN, 0, 0, 2, {POWER(1000), POWER(-1000)}, ONE, NO, 0},
        {&b32, EVEN, 0, 0, 1, {0x3f800000, 0}, 0x3f800000, 0, 0xb3000000},
    };
    size_t i;

    for (i = 0; i < sizeof rows / sizeof *rows; i++) {
        totals_settings c = TOTALS_SETTINGS_INIT;
        c.rounding = rows[i].rounding;
        c.saturate = rows[i].saturate;
        c.precision = rows[i].precision;
        if (!contribution_is(*rows[i].f, &c, rows[i].list, rows[i].count, rows[i].wanted,
                             rows[i].code, rows[i].number)) {
            fprintf(stderr, "contributions: row %d\n", (int)i);
            failures++;
        }
    }
#undef NO
}

/*
 * A sum of whole units in the format of four bits with two of exponent, rounded to two digits; an
 * infinity is BEYOND_FOUR.
 */
#define BEYOND_FOUR 99

static int rounded_to_four(uint64_t rounding, int sum)
{
    const int magnitude = sum < 0 ? -sum : sum, sign = sum < 0 ? -1 : 1;
    int step = 1, kept, rest, up, to_infinity;

    while (magnitude >= 4 * step) {
        step *= 2;
    }
    kept = magnitude / step;
    rest = magnitude % step;
    switch (rounding) {
    case TOTALS_TIES_TO_EVEN: up = 2 * rest > step || (2 * rest == step && kept % 2 == 1); break;
    case TOTALS_TIES_TO_AWAY: up = 2 * rest >= step; break;
    case TOTALS_TIES_TOWARD_ZERO: up = 2 * rest > step; break;
    case TOTALS_TOWARD_POSITIVE: up = rest > 0 && sum > 0; break;
    case TOTALS_TOWARD_NEGATIVE: up = rest > 0 && sum < 0; break;
    case TOTALS_TOWARD_ZERO: up = 0; break;
    case TOTALS_AWAY_FROM_ZERO: up = rest > 0; break;
    default: up = rest > 0 && kept % 2 == 0; break;
    }
    to_infinity = rounding == TOTALS_TOWARD_POSITIVE ? sum > 0
                  : rounding == TOTALS_TOWARD_NEGATIVE
                      ? sum < 0
                      : rounding != TOTALS_TOWARD_ZERO && rounding != TOTALS_TO_ODD;
    if ((kept + up) * step >= 8) {
        return sign * (to_infinity ? BEYOND_FOUR : 6);
    }
    return sign * (kept + up) * step;
}

/*
 * Every list of up to two numbers of four bits and every wanted total, in each mode, beside a
 * search through the eleven numbers.
 */
static void contributions_of_four_bits(void)
{
    const totals_format four = {TOTALS_IEEE, 2, 4, TOTALS_OWN_BIAS};
    /* the numbers in their order, and units by encoding; 6, 7, 14 and 15 are infinities and NaNs */
    const uint64_t numbers[11] = {13, 12, 11, 10, 9, 0, 1, 2, 3, 4, 5};
    const int units[16] = {0, 1,  2,  3,  4,  6,  BEYOND_FOUR, BEYOND_FOUR,
                           0, -1, -2, -3, -4, -6, BEYOND_FOUR, BEYOND_FOUR};
    totals_settings c = TOTALS_SETTINGS_INIT;
    uint64_t list[2], wanted, first, second;
    size_t count, i;
    int wrong = 0;

    for (c.rounding = 0; c.rounding < 8; c.rounding++) {
        for (count = 0; count <= 2; count++) {
            for (first = 0; first < (count > 0 ? 16 : 1); first++) {
                for (second = 0; second < (count > 1 ? 16 : 1); second++) {
                    const int sum =
                        (count > 0 ? units[first] : 0) + (count > 1 ? units[second] : 0);
                    list[0] = first;
                    list[1] = second;
                    for (wanted = 0; wanted < 16; wanted++) {
                        /* two special values, or one beside a number, are above 80 */
                        const int is_special = sum > 80 || units[wanted] == BEYOND_FOUR;
                        for (i = 0; i < 11
                                    && rounded_to_four(c.rounding, sum + units[numbers[i]])
                                           != units[wanted];
                             i++) {
                        }
                        wrong += !contribution_is(four, &c, list, count, wanted,
                                                  is_special ? TOTALS_NOT_FINITE
                                                  : i == 11  ? TOTALS_NO_CONTRIBUTION
                                                             : TOTALS_ACCEPTED,
                                                  i == 11 ? 0 : numbers[i]);
                    }
                }
            }
        }
    }
    CHECK(wrong == 0);
}

static void contributions_of_floats(void)
{
    const double paid[3] = {412.25, 412.25, 430.5}, wide[2] = {number(GREATEST), number(GREATEST)};
    const float single[1] = {1}, largest[2] = {3.4028234663852886e38f, 3.4028234663852886e38f};
    totals_settings down = TOTALS_SETTINGS_INIT;
    totals_double_contribution_record due = totals_contribution_double(paid, 3, 1700, NULL);
    totals_float_contribution_record part;

    /* 445, less half of the last digit of 1700, a tie: 1700 is even */
    CHECK(due.refusal == TOTALS_ACCEPTED && due.place == 0 && due.number == 445 - power(-43)
          && due.bits == bits_of(due.number));
    down.rounding = TOTALS_TOWARD_NEGATIVE;
    CHECK(totals_contribution_double(paid, 3, 1700, &down).number == 445);
    CHECK(totals_contribution_double(paid, 3, 1000, &down).number == -255);
    CHECK(totals_contribution_double(NULL, 0, -0.0, NULL).refusal == TOTALS_ACCEPTED
          && totals_contribution_double(NULL, 0, -0.0, NULL).bits == 0);
    due = totals_contribution_double(wide, 2, 1, NULL);
    CHECK(due.refusal == TOTALS_NO_CONTRIBUTION && due.place == 0 && due.number == 0
          && due.bits == 0);
    part = totals_contribution_float(single, 1, 1, NULL);
    CHECK(part.refusal == TOTALS_ACCEPTED && part.place == 0
          && part.number == -2.98023223876953125e-8f && part.bits == 0xb3000000);
    part = totals_contribution_float(largest, 2, 1, NULL);
    CHECK(part.refusal == TOTALS_NO_CONTRIBUTION && part.place == 0 && part.number == 0
          && part.bits == 0);
}

static void contributions_beside_specials(void)
{
    const double special[3] = {number(INFINITE), number(MINUS + INFINITE), number(INFINITE + 1)},
                 one[1] = {1};
    const float single[1] = {1};
    size_t i;

    for (i = 0; i < 3; i++) {
        const float narrow = (float)special[i];
        CHECK(totals_contribution_double(special + i, 1, 1, NULL).refusal == TOTALS_NOT_FINITE);
        CHECK(totals_contribution_double(one, 1, special[i], NULL).refusal == TOTALS_NOT_FINITE);
        CHECK(totals_contribution_float(&narrow, 1, 1, NULL).refusal == TOTALS_NOT_FINITE);
        CHECK(totals_contribution_float(single, 1, narrow, NULL).refusal == TOTALS_NOT_FINITE);
    }
}

/* As many floats as find room without memory of their own, and one more. */
static void long_contributions(void)
{
    const double one = 1;
    float many[TOTALS_ROOM_ + 1];
    totals_settings down = TOTALS_SETTINGS_INIT;
    size_t i;

    down.rounding = TOTALS_TOWARD_NEGATIVE;
    for (i = 0; i <= TOTALS_ROOM_; i++) {
        many[i] = 0.25f;
    }
    CHECK(totals_contribution_float(many, TOTALS_ROOM_, 130, &down).number == 2);
    CHECK(totals_contribution_float(many, TOTALS_ROOM_ + 1, 130, &down).number == 1.75f
          && owned == 0);
    has_memory = 0;
    CHECK(totals_contribution_float(many, TOTALS_ROOM_, 130, &down).number == 2);
    CHECK(totals_contribution_float(many, TOTALS_ROOM_ + 1, 130, &down).refusal
          == TOTALS_NO_MEMORY);
    CHECK(totals_contribution_float(many, TOTALS_ROOM_ + 1, 130, &down).bits == 0);
    CHECK(totals_contribution_double(&one, 1, 2, &down).number == 1);
    has_memory = 1;
}

static const totals_format not_for_contributions[7] = {
    {1, 5, 16, 0, 0}, {2, 5, 16, 1, 16}, {3, 5, 16, 0, 0}, {TOTALS_EXTENDED, TOTALS_OWN_BIAS},
    {0, 1, 16, 0, 0}, {0, 5, 16, 0, 15}, {0, 5, 16, 2, 15}};
static const totals_settings without_contributions[7] = {
    {8, 0, 0, 0, 0, 0, 0, 3}, {0, 0, 0, 2, 0, 0, 0, 3},          {0, 0, 0, 0, 1, 0, 0, 3},
    {0, 0, 0, 0, 0, 1, 0, 3}, {0, 0, 0, 0, UINT64_MAX, 2, 0, 3}, {0, 0, 0, 0, 0, 0, 2, 3},
    {0, 0, 0, 0, 0, 0, 0, 12}};

/*
 * Three values and the wanted total behind them, with conditions by their bits, in one of 28 ways.
 */
static void refused_in_a_way(unsigned at, unsigned way)
{
#define BAD(i) ((at >> (i) & 1) == 1)
    const uint64_t specials[4] = {0x7c00, 0xfc00, 0x7e00, 0xfdff};
    const unsigned stray_at = way % 4, special_at = (way + 1) % 4;
    const size_t room = BAD(0) ? way % 8 : TOTALS_CONTRIBUTION_ANSWER_BYTES;
    const uint64_t code = BAD(0)   ? 2
                          : BAD(1) ? 3
                          : BAD(2) ? 4
                          : BAD(3) ? 7 + 256 * (uint64_t)stray_at
                          : BAD(4) ? 15
                          : BAD(5) ? 14
                                   : 0;
    totals_format f = HALF;
    totals_settings c = {0, 0, 0, 0, 0, 0, 0, 3};
    totals_contribution_record record;
    /* to three digits no sum is the number behind 1 */
    uint64_t all[4] = {0x3c00, 0x3c00, 0x3c00, 0x3c00};

    all[3] += BAD(5);
    if (BAD(1)) {
        f = not_for_contributions[way % 7];
    }
    if (BAD(2)) {
        c = without_contributions[way % 7];
    }
    if (BAD(4)) {
        all[special_at] = specials[way / 7];
    }
    if (BAD(3)) {
        all[stray_at] = 0x10000;
        all[stray_at / 2 + 2] = 0x10000; /* the same, or one behind it */
    }
    CHECK(contribute(f, &c, all[3], all, 3, room) == code && nothing_contributed() == (code != 0));
    record = totals_contribution_words(f, all, 3, all[3], &c);
    CHECK(BAD(0)
          || (record.refusal == TOTALS_REFUSAL(code) && record.place == TOTALS_PLACE(code)
              && (code == 0 || record.number == 0)));
#undef BAD
}

/*
 * Every choice of conditions: the first in the order 2, 3, 4, 7, 15, 14 is returned, and nothing is
 * written.
 */
static void contributions_refused(void)
{
    unsigned at, way;
    for (at = 0; at < 64; at++) {
        for (way = 0; way < 28; way++) {
            refused_in_a_way(at, way);
        }
    }
#undef HALF
}

/* Lists that are as long as any other may be, or longer, or not there; no memory. */
static void contributions_of_no_list(void)
{
    const size_t most = TOTALS_MOST_ELEMENTS;
    const totals_format f = {TOTALS_BINARY16, TOTALS_OWN_BIAS},
                        none = {TOTALS_E4M3, TOTALS_OWN_BIAS};
    uint64_t *unread = addresses(most + 1);
    const double *doubles = (const double *)unread;
    const float *floats = (const float *)unread;
    const double one = 1;
    totals_settings bad = TOTALS_SETTINGS_INIT;
    size_t count;

    bad.flush_to_zero = 1;
    unread[0] = 0x10000;
    unread[1] = 0x7e00;
    /* nothing of it is read, by the entry neither */
    for (count = most; count <= most + 1; count++) {
        CHECK(contribution_is(f, &plain, unread, count, 0x3c00, TOTALS_TOO_MANY_ELEMENTS, 0));
        CHECK(contribution_is(f, &plain, unread, count, 0x10000, TOTALS_TOO_MANY_ELEMENTS, 0));
        CHECK(contribution_is(f, &plain, unread, count, 0x7e00, TOTALS_TOO_MANY_ELEMENTS, 0));
        CHECK(contribution_is(f, &bad, unread, count, 0x7e00, TOTALS_SETTING_OUT_OF_RANGE, 0));
        CHECK(contribution_is(none, &bad, unread, count, 0x7e00, TOTALS_NO_SUCH_FORMAT, 0));
        CHECK(contribute(f, &plain, 0, unread, count, 7) == TOTALS_SHORT_BUFFER
              && nothing_contributed());
        CHECK(totals_contribution_double(doubles, count, 1, NULL).refusal
              == TOTALS_TOO_MANY_ELEMENTS);
        CHECK(totals_contribution_float(floats, count, 1, NULL).refusal == TOTALS_TOO_MANY_ELEMENTS
              && owned == 0);
        CHECK(totals_contribution_words(f, NULL, count, 1, NULL).refusal
              == TOTALS_TOO_MANY_ELEMENTS);
    }
    CHECK(totals_contribution_double(&one, SIZE_MAX, 1, NULL).refusal == TOTALS_TOO_MANY_ELEMENTS);
    CHECK(totals_contribution_double(&one, SIZE_MAX / 8 + 2, 1, NULL).refusal
          == TOTALS_TOO_MANY_ELEMENTS);
    CHECK(totals_contribution_words(f, NULL, 1, 0x10000, NULL).refusal == TOTALS_NO_LIST);
    CHECK(totals_contribution_words(f, NULL, most - 1, 0x10000, NULL).place == 0);
    CHECK(totals_contribution_words(f, NULL, 1, 0, &bad).refusal == TOTALS_SETTING_OUT_OF_RANGE);
    CHECK(totals_contribution_words(none, NULL, 1, 0, NULL).refusal == TOTALS_NO_SUCH_FORMAT);
    CHECK(totals_contribution_double(NULL, 2, 1, NULL).refusal == TOTALS_NO_LIST
          && totals_contribution_double(NULL, 2, 1, NULL).bits == 0);
    CHECK(totals_contribution_float(NULL, 2, 1, NULL).refusal == TOTALS_NO_LIST);
    CHECK(totals_contribution_words(f, NULL, 0, 0x10000, NULL).refusal == TOTALS_STRAY_BIT);
    has_memory = 0;
    CHECK(totals_contribution_float(floats, most - 1, 1, NULL).refusal == TOTALS_NO_MEMORY
          && asked == 2147483640 && owned == 0);
    has_memory = 1;
    munmap(unread, 8 * (most + 1));
}

/*
 * Words, pence, tables, targets, contributions and allowances have no kind 4, however many there
 * are.
 */
static void x87_elsewhere(void)
{
    const totals_format formats[2] = {{TOTALS_EXTENDED, TOTALS_OWN_BIAS},
                                      {TOTALS_EXTENDED, TOTALS_BIAS(16383)}};
    const uint64_t list[5] = {1, 2, 3, 4, 5};
    const totals_format b64 = B64;
    uint64_t rows[1], columns[5];
    totals_target target = TO(TOTALS_BINARY16);
    totals_record record;
    size_t i, k;

    for (i = 0; i < 2; i++) {
        for (k = 0; k <= 5; k++) {
            target.format = b64;
            CHECK(totals_sum_into_words(formats[i], list, k, 0, &target, 1, &record)
                  == TOTALS_NO_SUCH_FORMAT);
            CHECK(REFUSED(record, TOTALS_NO_SUCH_FORMAT, 0));
            target.format = formats[i];
            CHECK(totals_sum_into_words(b64, list, k, 0, &target, 1, &record)
                  == TOTALS_NO_SUCH_FORMAT);
            CHECK(REFUSED(record, TOTALS_NO_SUCH_FORMAT, 0));
            CHECK(REFUSED(totals_sum_words(formats[i], TOTALS_VALUE, list, k, NULL),
                          TOTALS_NO_SUCH_FORMAT, 0));
            CHECK(REFUSED(totals_dot_words(formats[i], list, k, list, 5, NULL),
                          TOTALS_NO_SUCH_FORMAT, 0));
            CHECK(REFUSED(totals_sum_within_words(formats[i], TOTALS_VALUE, list, k, 1, NULL),
                          TOTALS_NO_SUCH_FORMAT, 0));
            CHECK(REFUSED(totals_dot_within_words(formats[i], list, k, list, 5, 1, NULL),
                          TOTALS_NO_SUCH_FORMAT, 0));
            CHECK(totals_pence_words(formats[i], list, k).refusal == TOTALS_NO_SUCH_FORMAT);
            CHECK(totals_contribution_words(formats[i], list, k, 1, NULL).refusal
                  == TOTALS_NO_SUCH_FORMAT);
            CHECK(REFUSED(totals_table_words(formats[i], list, k, 1, k, rows, 1, columns, 5, NULL),
                          TOTALS_NO_SUCH_FORMAT, 0));
        }
    }
}

static void lists_are_only_read(void)
{
    const double before[2] = {1, 2};
    double list[2] = {1, 2};
    const totals_target target = TO(TOTALS_BINARY16);
    totals_settings bad = TOTALS_SETTINGS_INIT;
    totals_record record;
    bad.rounding = 8;
    CHECK(totals_sum_double(list, 2, NULL).result == 3
          && totals_sum_double(list, 2, &bad).refusal != TOTALS_ACCEPTED);
    CHECK(totals_pence_double(list, 2).figure == 300);
    CHECK(totals_contribution_double(list, 2, 4, NULL).refusal == TOTALS_ACCEPTED);
    CHECK(totals_sum_into_double(list, 2, 0, &target, 1, &record) == TOTALS_ACCEPTED
          && record.result == 0x4200);
    CHECK(totals_sum_within_double(TOTALS_VALUE, list, 2, 1, NULL).result == 0x4008000000000000);
    CHECK(memcmp(list, before, sizeof list) == 0);
}

/* Every refusal has words of its own. */
static void refusals_in_words(void)
{
    const unsigned known[20] = {0,
                                1,
                                2,
                                3,
                                4,
                                5,
                                6,
                                7,
                                TOTALS_NO_PENCE,
                                TOTALS_BAD_SHAPE,
                                TOTALS_NO_ROOM,
                                TOTALS_BAD_AMOUNT,
                                TOTALS_NOT_A_PAGE,
                                TOTALS_BAD_SPAN,
                                TOTALS_NO_CONTRIBUTION,
                                TOTALS_NOT_FINITE,
                                TOTALS_NO_PASS_ALLOWED,
                                TOTALS_TARGET_OUT_OF_REACH,
                                TOTALS_NO_LIST,
                                TOTALS_NO_MEMORY};
    size_t i, k;
    for (i = 0; i < 20; i++) {
        CHECK(strcmp(totals_strerror(known[i]), totals_strerror(100)) != 0);
        for (k = 0; k < i; k++) {
            CHECK(strcmp(totals_strerror(known[i]), totals_strerror(known[k])) != 0);
        }
    }
    CHECK(strcmp(totals_strerror(7 + 256 * 3), totals_strerror(TOTALS_STRAY_BIT)) == 0);
    CHECK(strcmp(totals_strerror(256 * 36), totals_strerror(TOTALS_ACCEPTED)) == 0);
    CHECK(strcmp(totals_strerror(UINT64_MAX - 1), totals_strerror(TOTALS_NO_LIST)) == 0);
    CHECK(strlen(totals_strerror(100)) > 0);
}

static void version(void)
{
    char text[32];
    sprintf(text, "%d.%d.%d", TOTALS_VERSION_MAJOR, TOTALS_VERSION_MINOR, TOTALS_VERSION_PATCH);
    CHECK(strcmp(text, TOTALS_VERSION) == 0 && TOTALS_VERSION_NUMBER == 1000);
}

int main(void)
{
    accepted();
    refused();
    formats();
    doubles();
    habits();
    floats();
    words();
    biases();
    biases_refused();
    own_biases();
    refused_records();
    pence_of_doubles();
    pence_of_floats();
    pence_of_words();
    pence_biased();
    pence_in_every_order();
    pence_refused();
    tables();
    empty_tables();
    tables_of_doubles();
    tables_of_floats();
    tables_of_words();
    shapes_refused();
    tables_refused();
    ranges();
    bad_amounts();
    neighbours_of_exact_sums();
    ranges_in_every_order();
    ranges_refused();
    long_ranges();
    pages_written();
    pages_damaged();
    spans_of_pages();
    bad_spans();
    spans_refused();
    no_pages();
    long_pages();
    trailers_refused();
    pages_beyond();
    pages_without_pointers();
    x87_totals();
    x87_unsupported();
    x87_pseudo_denormals();
    x87_refused();
    x87_records_refused();
    sums_into_targets();
    several_targets();
    targets_refused();
    lengths_of_targets();
    targets_of_no_list();
    unfinished_totals();
    totals_in_time();
    floats_within();
    within_refused();
    x87_by_tens();
    within_of_no_list();
    contributions();
    contributions_of_four_bits();
    contributions_of_floats();
    contributions_beside_specials();
    long_contributions();
    contributions_refused();
    contributions_of_no_list();
    x87_elsewhere();
    lists_are_only_read();
    refusals_in_words();
    version();
    if (failures == 0) {
        printf("test.c: every check holds\n");
    }
    return failures != 0;
}
