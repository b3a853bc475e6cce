/*
 * A year of which some months are stated, some estimated and some blank, with its
 * lower and its upper total. The lows, added one after the other, come to more than
 * their exact sum, and the highs to less: a total that the months allow can lie
 * outside of those two.
 */
#include <inttypes.h>
#include <stdio.h>

#include "totals.h"

#define MONTHS 12

static const char *const months[MONTHS] = {"Jan", "Feb", "Mar", "Apr", "May", "Jun",
                                           "Jul", "Aug", "Sep", "Oct", "Nov", "Dec"};
static const uint64_t tags[MONTHS] = {
    TOTALS_KNOWN,   TOTALS_BETWEEN, TOTALS_MISSING, TOTALS_KNOWN, TOTALS_BETWEEN, TOTALS_KNOWN,
    TOTALS_MISSING, TOTALS_BETWEEN, TOTALS_KNOWN,   TOTALS_KNOWN, TOTALS_BETWEEN, TOTALS_KNOWN,
};
static const double first[MONTHS] = {414.42, 380.00, 0,      414.42, 408.20, -51.17,
                                     0,      -20.10, 437.31, 437.31, 420.20, 0.30};
static const double second[MONTHS] = {0, 430.00, 0, 0, 425.20, 0, 0, 150.10, 0, 0, 436.30, 0};
/* The most that a blank month can be. */
static const double ceiling = 650.00;

static void show(const char *what, double total)
{
    uint64_t encoding;
    memcpy(&encoding, &total, sizeof encoding);
    printf("%4s %016" PRIx64 " %.2f\n", what, encoding, total);
}

int main(void)
{
    const totals_range_record range =
        totals_range_double(tags, MONTHS, first, MONTHS, second, MONTHS, ceiling);
    double lows = 0, highs = 0;
    size_t i;

    if (range.refusal != TOTALS_ACCEPTED) {
        fprintf(stderr, "refused: %s\n", totals_strerror(range.refusal));
        return 1;
    }
    for (i = 0; i < MONTHS; i++) {
        const double low = tags[i] == TOTALS_MISSING ? 0 : first[i];
        const double high = tags[i] == TOTALS_MISSING   ? ceiling
                            : tags[i] == TOTALS_BETWEEN ? second[i]
                                                        : first[i];
        printf("%4s %.2f to %.2f\n", months[i], low, high);
        lows += low;
        highs += high;
    }
    show("from", range.lower);
    show("to", range.upper);
    printf("added one after the other:\n");
    show("from", lows);
    show("to", highs);
    return 0;
}
