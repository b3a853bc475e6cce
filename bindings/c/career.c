/*
 * The total of a career, from standard input, in one of two orders:
 *
 *     career forwards|backwards < examples/career.txt
 *
 * A line is the 16 hex digits of a month's amount in binary64. Result, flags,
 * passes and the pence of the sum go to standard output; what a running total
 * comes to in that order goes to standard error.
 */
#include <inttypes.h>
#include <stdio.h>
#include <string.h>

#include "totals.h"

#define MOST 8192

static double months[MOST];

/* The number of months, or MOST + 1 where a line is not 16 hex digits or there are more. */
static size_t read_months(void)
{
    char line[32];
    size_t n = 0;
    while (fgets(line, sizeof line, stdin)) {
        uint64_t encoding;
        if (n == MOST || strspn(line, "0123456789abcdef") != 16
            || sscanf(line, "%16" SCNx64, &encoding) != 1) {
            return MOST + 1;
        }
        memcpy(&months[n++], &encoding, sizeof encoding);
    }
    return n;
}

static void reverse(double *list, size_t n)
{
    size_t i;
    for (i = 0; i < n / 2; i++) {
        double x = list[i];
        list[i] = list[n - 1 - i];
        list[n - 1 - i] = x;
    }
}

int main(int argc, char **argv)
{
    totals_double_record total;
    totals_pence_record pence;
    uint64_t encoding;
    double running = 0;
    size_t i, n;

    if (argc != 2 || (strcmp(argv[1], "forwards") != 0 && strcmp(argv[1], "backwards") != 0)) {
        fprintf(stderr, "usage: career forwards|backwards < FILE\n");
        return 2;
    }
    n = read_months();
    if (n > MOST) {
        fprintf(stderr, "a line is not 16 hex digits, or there are more than %d\n", MOST);
        return 1;
    }
    if (strcmp(argv[1], "backwards") == 0) {
        reverse(months, n);
    }

    total = totals_sum_double(months, n, NULL);
    if (total.refusal != TOTALS_ACCEPTED) {
        fprintf(stderr, "refused: %s\n", totals_strerror(total.refusal));
        return 1;
    }
    printf("%016" PRIx64 "\n%02x\n%" PRIu64 "\n", total.bits, total.flags, total.passes);
    pence = totals_pence_double(months, n);
    if (pence.refusal == TOTALS_ACCEPTED) {
        printf("%" PRId64 "\n", pence.figure);
    } else {
        /* the sum was accepted, so this is TOTALS_NO_PENCE */
        printf("none\n");
    }

    for (i = 0; i < n; i++) {
        running += months[i];
    }
    memcpy(&encoding, &running, sizeof encoding);
    fprintf(stderr, "%016" PRIx64 "\n", encoding);
    return 0;
}
