/*
 * A list while scrolling: its first figures within one pass and within two, each
 * between two doubles, and its total once there are passes enough.
 */
#include <inttypes.h>
#include <stdio.h>

#include "totals.h"

/* One amount is a slip that is taken back, and one a speck. */
static const double amounts[6] = {412.25, 1e300, 398.10, -1e300, 1e-300, 405.50};

static uint64_t encoding(double x)
{
    uint64_t bits;
    memcpy(&bits, &x, sizeof bits);
    return bits;
}

int main(void)
{
    unsigned allowance;

    for (allowance = 1; allowance <= 4; allowance++) {
        const totals_estimate e =
            totals_sum_within_double(TOTALS_VALUE, amounts, 6, allowance, NULL);
        double total;

        if (e.refusal != TOTALS_ACCEPTED) {
            fprintf(stderr, "refused: %s\n", totals_strerror(e.refusal));
            return 1;
        }
        printf("allowed %u: ", allowance);
        if (e.mark == 1) {
            printf("%016" PRIx64 " to %016" PRIx64 ": %.2f\n", encoding(totals_lower(&e)),
                   encoding(totals_upper(&e)), totals_figure(&e));
        } else {
            memcpy(&total, &e.result, sizeof total);
            printf("%016" PRIx64 " flags %02x passes %" PRIu64 ": %.2f\n", e.result, e.flags,
                   e.passes, total);
        }
    }
    return 0;
}
