/*
 * What four members paid in six months, with the exact total of each member, of
 * each month and of all. The totals of the members, rounded as they are and then
 * added, come to less, and those of the months to more.
 */
#include <inttypes.h>
#include <stdio.h>
#include <string.h>

#include "totals.h"

#define MEMBERS 4
#define MONTHS 6

static const char *const members[MEMBERS] = {"Ada", "Ben", "Cleo", "Dov"};
static const char *const months[MONTHS] = {"Jan", "Feb", "Mar", "Apr", "May", "Jun"};

/* Row after row: a member's months stand side by side. */
static const double paid[MEMBERS * MONTHS] = {
    439.16, 439.16,   439.16, 411.86, 411.86, 411.86,
    0.10,   0.20,     0.30,   0.10,   0.20,   0.30,
    1200.00, -1200.00, 104.73, 104.73, 104.73, 104.73,
    44.92,  44.92,    44.92,  44.92,  0.00,   -44.92,
};

static void show(const char *what, double total)
{
    uint64_t encoding;
    memcpy(&encoding, &total, sizeof encoding);
    printf("%4s %016" PRIx64 " %.2f\n", what, encoding, total);
}

static double added(const double *list, size_t count)
{
    double running = 0;
    size_t i;
    for (i = 0; i < count; i++) {
        running += list[i];
    }
    return running;
}

int main(void)
{
    double of_members[MEMBERS], of_months[MONTHS];
    const totals_double_record all = totals_table_double(
        paid, MEMBERS * MONTHS, MEMBERS, MONTHS, of_members, MEMBERS, of_months, MONTHS, NULL);
    size_t i;

    if (all.refusal != TOTALS_ACCEPTED) {
        fprintf(stderr, "refused: %s\n", totals_strerror(all.refusal));
        return 1;
    }
    for (i = 0; i < MEMBERS; i++) {
        show(members[i], of_members[i]);
    }
    for (i = 0; i < MONTHS; i++) {
        show(months[i], of_months[i]);
    }
    show("all", all.result);
    printf("added one after the other:\n");
    show("rows", added(of_members, MEMBERS));
    show("cols", added(of_months, MONTHS));
    return 0;
}
