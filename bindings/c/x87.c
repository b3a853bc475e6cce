/*
 * Amounts of an old desktop edition, kept as long double: the x87's 80 bits. On
 * x86-64 Linux a long double takes sixteen bytes, of which the first ten are the
 * value, so these are packed into a list, ten bytes after ten. One amount was
 * booked far too large and taken back. Added one after the other, the amounts
 * come to another total in each order; their exact sum does not.
 *
 * Where a long double is another format, the program says so and does nothing.
 */
#include <float.h>
#include <inttypes.h>
#include <stdio.h>

#include "totals.h"

#if defined(__x86_64__) && LDBL_MANT_DIG == 64

#define AMOUNTS 6

static const long double amounts[AMOUNTS] = {412.35L, 412.35L, 1e25L, 430.10L, -1e25L, 0.01L};

/* The first ten bytes of each long double. */
static void pack(uint8_t *list, const long double *values, size_t count)
{
    size_t i;
    for (i = 0; i < count; i++) {
        memcpy(list + TOTALS_X87_BYTES * i, &values[i], TOTALS_X87_BYTES);
    }
}

static int show(const char *what, totals_x87_record total)
{
    long double result = 0;

    if (total.refusal != TOTALS_ACCEPTED) {
        fprintf(stderr, "refused: %s\n", totals_strerror(total.refusal));
        return 0;
    }
    memcpy(&result, total.result, TOTALS_X87_BYTES);
    printf("%s %04x %016" PRIx64 " flags %02x side %u %.2Lf\n", what, total.head, total.significand,
           total.flags, total.side, result);
    return 1;
}

int main(void)
{
    long double backwards[AMOUNTS], forth = 0, back = 0;
    uint8_t list[TOTALS_X87_BYTES * AMOUNTS], reversed[TOTALS_X87_BYTES * AMOUNTS];
    size_t i;

    for (i = 0; i < AMOUNTS; i++) {
        backwards[i] = amounts[AMOUNTS - 1 - i];
        forth += amounts[i];
        back += backwards[i];
    }
    pack(list, amounts, AMOUNTS);
    pack(reversed, backwards, AMOUNTS);
    printf("added one after the other: %.2Lf, and backwards: %.2Lf\n", forth, back);
    return show("sum", totals_sum_x87(list, AMOUNTS, NULL))
                   && show("sum backwards", totals_sum_x87(reversed, AMOUNTS, NULL))
                   && show("magnitude sum", totals_magnitude_sum_x87(list, AMOUNTS, NULL))
                   && show("square sum", totals_square_sum_x87(list, AMOUNTS, NULL))
                   && show("dot", totals_dot_x87(list, AMOUNTS, reversed, AMOUNTS, NULL))
               ? 0
               : 1;
}

#else

int main(void)
{
    fprintf(stderr,
            "the long double of this machine is not the x87's: there is nothing to hand over\n");
    return 0;
}

#endif
