/*
 * The total of each year of a career, from standard input, and of all of it:
 *
 *     pages < examples/career.txt
 *
 * A line is the 16 hex digits of a month's amount in binary64. The months are
 * written to a career page, and the years are spans of it, of twelve months each.
 */
#include <inttypes.h>
#include <stdio.h>
#include <stdlib.h>
#include <string.h>

#include "totals.h"

#define MOST 8192
#define YEAR 12

static double months[MOST];

/* The number of months, or MOST + 1 where a line is not 16 hex digits or there are more. */
static size_t read_months(void)
{
    char line[32];
    size_t n = 0;
    while (fgets(line, sizeof line, stdin)) {
        uint64_t encoding;
        if (n == MOST || strspn(line, "0123456789abcdef") != 16
            || sscanf(line, "%16" SCNx64, &encoding) != 1) {
            return MOST + 1;
        }
        memcpy(&months[n++], &encoding, sizeof encoding);
    }
    return n;
}

/* What is refused is said, and 0 given. */
static int is_accepted(unsigned refusal)
{
    if (refusal != TOTALS_ACCEPTED) {
        fprintf(stderr, "refused: %s\n", totals_strerror(refusal));
    }
    return refusal == TOTALS_ACCEPTED;
}

static int show_span(const uint8_t *page, size_t size, size_t start, size_t end)
{
    const totals_double_record total =
        totals_page_sum_double(page, size, start, end, NULL, TOTALS_VALUE);
    if (is_accepted(total.refusal)) {
        printf("%016" PRIx64 " %.2f\n", total.bits, total.result);
    }
    return total.refusal == TOTALS_ACCEPTED;
}

/* The years and the whole of a page, of which nothing is known but its bytes. */
static int show(const uint8_t *page, size_t size)
{
    const totals_page_record opened = totals_page_count(page, size);
    size_t start;

    if (!is_accepted(opened.refusal)) {
        return 0;
    }
    for (start = 0; start < opened.count; start += YEAR) {
        const size_t left = opened.count - start;
        printf("year %02d ", (int)(start / YEAR + 1));
        if (!show_span(page, size, start, start + (left < YEAR ? left : YEAR))) {
            return 0;
        }
    }
    printf("all ");
    return show_span(page, size, 0, opened.count);
}

int main(void)
{
    const size_t n = read_months();
    totals_page_record written;
    uint8_t *page;
    size_t size;
    int is_shown;

    if (n > MOST) {
        fprintf(stderr, "a line is not 16 hex digits, or there are more than %d\n", MOST);
        return 1;
    }
    size = totals_page_length(n);
    page = (uint8_t *)malloc(size);
    if (page == NULL) {
        fprintf(stderr, "there is no memory for the page\n");
        return 1;
    }
    written = totals_page_write_double(months, n, page, size);
    is_shown = is_accepted(written.refusal) && show(page, written.length);
    free(page);
    return !is_shown;
}
