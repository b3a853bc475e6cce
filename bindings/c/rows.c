/*
 * As many rows as a list may have: zeros, which are accepted, and of which one more is refused
 * unread; and a mebibyte of amounts that lies 2,048 times in a row. Its totals are 2,048 times
 * those of the mebibyte, rounded once, and go to the standard output; examples/rows.py has them
 * from exact fractions. Neither list takes the 2 GiB that it is long: time and memory go to the
 * standard error.
 */
#ifndef _GNU_SOURCE
#define _GNU_SOURCE /* memfd_create; C++ has it already */
#endif
#include <inttypes.h>
#include <stdio.h>
#include <sys/mman.h>
#include <time.h>
#include <unistd.h>

#include "totals.h"

#define ROWS TOTALS_MOST_ELEMENTS
#define BLOCK 131072
#define BLOCK_BYTES (sizeof(double) * BLOCK)
/* The most memory that either list may take, in KiB. */
#define MOST_MEMORY (64 * 1024)

/* Amounts in pounds, of one to eight digits in pence; about one in four is taken back. */
static void draw_amounts(double *amounts)
{
    uint64_t state = 28;
    size_t i;
    for (i = 0; i < BLOCK; i++) {
        uint64_t digits, bound = 10;
        double pence;
        state = state * UINT64_C(6364136223846793005) + UINT64_C(1442695040888963407);
        for (digits = state >> 61; digits > 0; digits--) {
            bound *= 10;
        }
        pence = (double)((state >> 16) % bound);
        amounts[i] = ((state >> 59) % 4 == 0 ? -pence : pence) / 100;
    }
}

/* The amounts over and over, ROWS of them and a block more; NULL where that cannot be mapped. */
static const double *mapped_amounts(void)
{
    const int file = memfd_create("amounts", 0);
    const size_t size = ROWS * sizeof(double) + BLOCK_BYTES;
    char *rows =
        (char *)mmap(NULL, size, PROT_NONE, MAP_PRIVATE | MAP_ANONYMOUS | MAP_NORESERVE, -1, 0);
    size_t at;

    if (file < 0 || rows == MAP_FAILED || ftruncate(file, BLOCK_BYTES) != 0) {
        return NULL;
    }
    for (at = 0; at < size; at += BLOCK_BYTES) {
        if (mmap(rows + at, BLOCK_BYTES, PROT_READ | PROT_WRITE, MAP_SHARED | MAP_FIXED, file, 0)
            == MAP_FAILED) {
            return NULL;
        }
    }
    draw_amounts((double *)rows);
    return (const double *)rows;
}

/* A figure of the system about this process, in KiB; -1 where it has none. */
static long figure_of(const char *file, const char *format)
{
    char line[256];
    long figure = -1;
    FILE *lines = fopen(file, "r");
    while (lines != NULL && figure < 0 && fgets(line, sizeof line, lines) != NULL) {
        sscanf(line, format, &figure);
    }
    if (lines != NULL) {
        fclose(lines);
    }
    return figure;
}

static int is_bounded(const char *what, long memory)
{
    fprintf(stderr, "rows.c: %s: %ld KiB of memory, %.1f s in all\n", what, memory,
            (double)clock() / CLOCKS_PER_SEC);
    return memory < MOST_MEMORY;
}

/* Zeros count, and are read; of one more nothing is read, since nothing there can be. */
static int are_zeros_counted(void)
{
    const size_t size = (ROWS + (size_t)1) * sizeof(double);
    double *zeros =
        (double *)mmap(NULL, size, PROT_READ, MAP_PRIVATE | MAP_ANONYMOUS | MAP_NORESERVE, -1, 0);
    totals_double_record sum;

    if (zeros == MAP_FAILED) {
        return 0;
    }
    sum = totals_sum_double(zeros, ROWS, NULL);
    if (sum.refusal != TOTALS_ACCEPTED || sum.bits != 0 || sum.flags != 0 || sum.passes != 0
        || sum.side != TOTALS_EQUAL) {
        return 0;
    }
    /* the peak: a page that was never written takes no memory of its own */
    if (!is_bounded("zeros", figure_of("/proc/self/status", "VmHWM: %ld"))
        || mprotect(zeros, size, PROT_NONE) != 0) {
        return 0;
    }
    return totals_sum_double(zeros, ROWS + 1, NULL).refusal == TOTALS_TOO_MANY_ELEMENTS
           && totals_square_sum_double(zeros, ROWS + 1, NULL).refusal == TOTALS_TOO_MANY_ELEMENTS
           && totals_dot_double(zeros, ROWS + 1, zeros, ROWS + 1, NULL).refusal
                  == TOTALS_TOO_MANY_ELEMENTS
           && totals_sum(TOTALS_BINARY64, TOTALS_DEFAULTS, TOTALS_VALUE, (const uint8_t *)zeros,
                         size, (uint8_t *)&sum, sizeof sum)
                  == TOTALS_TOO_MANY_ELEMENTS
           && munmap(zeros, size) == 0;
}

static void show(const char *what, totals_double_record total)
{
    if (total.refusal != TOTALS_ACCEPTED) {
        printf("%s refused: %s\n", what, totals_strerror(total.refusal));
    } else {
        printf("%s %016" PRIx64 " %02x %" PRIu64 " %u\n", what, total.bits, total.flags,
               total.passes, total.side);
    }
}

int main(void)
{
    const double *rows;

    if (!are_zeros_counted()) {
        fprintf(stderr, "rows.c: zeros: not so\n");
        return 1;
    }
    rows = mapped_amounts();
    if (rows == NULL) {
        perror("rows.c: the amounts cannot be mapped");
        return 1;
    }
    show("sum", totals_sum_double(rows, ROWS, NULL));
    show("magnitude sum", totals_magnitude_sum_double(rows, ROWS, NULL));
    show("square sum", totals_square_sum_double(rows, ROWS, NULL));
    /* each amount times the next */
    show("dot", totals_dot_double(rows, ROWS, rows + 1, ROWS, NULL));
    /*
     * not the peak, which counts a page of the mebibyte once for each of the 2,048 places where it
     * lies
     */
    return !is_bounded("amounts", figure_of("/proc/self/smaps_rollup", "Pss: %ld"));
}
