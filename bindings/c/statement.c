/*
 * The statement of a career, from standard input: its total in three formats,
 * each rounded once from the exact sum.
 *
 *     statement < examples/career.txt
 *
 * A line is the 16 hex digits of a month's amount in binary64.
 */
#include <inttypes.h>
#include <math.h>
#include <stdio.h>
#include <string.h>

#include "totals.h"

#define MOST 8192
#define FORMATS 3

static double months[MOST];

static const totals_target targets[FORMATS] = {
    {{TOTALS_BINARY64, TOTALS_OWN_BIAS}, TOTALS_SETTINGS_INIT},
    {{TOTALS_BINARY32, TOTALS_OWN_BIAS}, TOTALS_SETTINGS_INIT},
    {{TOTALS_BINARY16, TOTALS_OWN_BIAS}, TOTALS_SETTINGS_INIT},
};

/* The number of months, or MOST + 1 where a line is not 16 hex digits or there are more. */
static size_t read_months(void)
{
    char line[32];
    size_t n = 0;
    while (fgets(line, sizeof line, stdin)) {
        uint64_t encoding;
        if (n == MOST || strspn(line, "0123456789abcdef") != 16
            || sscanf(line, "%16" SCNx64, &encoding) != 1) {
            return MOST + 1;
        }
        memcpy(&months[n++], &encoding, sizeof encoding);
    }
    return n;
}

/* An encoding of binary16 that is not a NaN. */
static double half(uint64_t encoding)
{
    const int field = (int)(encoding >> 10 & 31);
    double magnitude = (double)(encoding & 0x3ff) + (field == 0 ? 0 : 1024);
    int exponent = (field == 0 ? 1 : field) - 25;

    for (; exponent > 0; exponent--) {
        magnitude *= 2;
    }
    for (; exponent < 0; exponent++) {
        magnitude /= 2;
    }
    if (field == 31) {
        magnitude = HUGE_VAL;
    }
    return encoding >> 15 == 1 ? -magnitude : magnitude;
}

/* A result in pounds. */
static double pounds(uint64_t width, uint64_t encoding)
{
    const uint32_t low = (uint32_t)encoding;
    double wide;
    float single;

    memcpy(&wide, &encoding, sizeof wide);
    memcpy(&single, &low, sizeof single);
    return width == 64 ? wide : width == 32 ? single : half(encoding);
}

int main(void)
{
    totals_record records[FORMATS];
    const size_t n = read_months();
    unsigned refusal;
    size_t i;

    if (n > MOST) {
        fprintf(stderr, "a line is not 16 hex digits, or there are more than %d\n", MOST);
        return 1;
    }
    refusal = totals_sum_into_double(months, n, 0, targets, FORMATS, records);
    if (refusal != TOTALS_ACCEPTED) {
        fprintf(stderr, "refused: %s\n", totals_strerror(refusal));
        return 1;
    }
    for (i = 0; i < FORMATS; i++) {
        const int width = (int)targets[i].format.width;
        printf("binary%d %0*" PRIx64 " flags %02x side %u %.2f\n", width, width / 4,
               records[i].result, records[i].flags, records[i].side,
               pounds(targets[i].format.width, records[i].result));
    }
    return 0;
}
