/*
 * What must be paid in month 480? Of a career, from standard input, the first 479
 * months are paid, and a total is wanted:
 *
 *     contribution < examples/career.txt
 *
 * A line is the 16 hex digits of a month's amount in binary64. The contribution
 * is the least double that brings the total there; the one before it and a penny
 * less do not.
 */
#include <inttypes.h>
#include <stdio.h>
#include <string.h>

#include "totals.h"

#define PAID 479

static const double wanted = 60000, penny = 0.01;

/* The months that are paid, and room for one more. */
static double months[PAID + 1];

/* Whether so many lines of 16 hex digits are there; what comes behind them is not read. */
static int read_months(void)
{
    char line[32];
    size_t n;
    for (n = 0; n < PAID; n++) {
        uint64_t encoding;
        if (!fgets(line, sizeof line, stdin) || strspn(line, "0123456789abcdef") != 16
            || sscanf(line, "%16" SCNx64, &encoding) != 1) {
            return 0;
        }
        memcpy(&months[n], &encoding, sizeof encoding);
    }
    return 1;
}

/* An amount, or a total and what is said of it. */
static void show(const char *what, double amount, const char *said)
{
    uint64_t encoding;
    memcpy(&encoding, &amount, sizeof encoding);
    printf("%s %016" PRIx64 " %.2f%s\n", what, encoding, amount, said);
}

/* The next double toward negative infinity, of a finite one. */
static double before(double x)
{
    uint64_t bits;
    memcpy(&bits, &x, sizeof bits);
    bits = x == 0 ? (uint64_t)1 << 63 | 1 : x > 0 ? bits - 1 : bits + 1;
    memcpy(&x, &bits, sizeof x);
    return x;
}

/*
 * The total with so much in month 480. A list that a contribution was found for is accepted with
 * one.
 */
static void show_with(const char *what, double last)
{
    double total;
    months[PAID] = last;
    total = totals_sum_double(months, PAID + 1, NULL).result;
    show(what, total, total == wanted ? " reached" : " missed");
}

int main(void)
{
    totals_double_contribution_record due;

    if (!read_months()) {
        fprintf(stderr, "there are fewer than %d lines, or one is not 16 hex digits\n", PAID);
        return 1;
    }
    due = totals_contribution_double(months, PAID, wanted, NULL);
    if (due.refusal != TOTALS_ACCEPTED) {
        fprintf(stderr, "refused: %s\n", totals_strerror(due.refusal));
        return 1;
    }
    show("paid", totals_sum_double(months, PAID, NULL).result, "");
    show("wanted", wanted, "");
    show("contribution", due.number, "");
    show_with("with it", due.number);
    show_with("with the number before", before(due.number));
    show_with("with a penny less", due.number - penny);
    return 0;
}
