/*
 * Ticks a second of the archive and of plain.c, in one run on the same input.
 * Times are the processor's, the best of several runs that take turns. Only
 * the ratio says something: archive time / plain time.
 */
#include "loads.h"
#include "plain.h"

#include <stdio.h>
#include <time.h>

enum { RUNS = 7 };

static const struct operation {
    uint32_t number;
    const char *name;
} operations[] = {
    {1, "1 Definite"},
    {3, "3 IEC VeryInv, power 1"},
    {4, "4 IEC ExtInv, power 2"},
    {9, "9 ANSI ExtInv, power 2"},
    {2, "2 IEC Inv, power 0.02"},
};

enum { OPERATIONS = sizeof operations / sizeof operations[0] };

static const struct load *const loads[] = {&idle, &counting, &tripping};

enum { LOADS = sizeof loads / sizeof loads[0] };

static double seconds(void)
{
    return (double)clock() / CLOCKS_PER_SEC;
}

/* The best time so far is 0 before the first run. */
static bool run(struct side *side, double *best)
{
    double start = seconds();
    bool accepted = run_batch(side);
    double taken = seconds() - start;
    if (*best == 0 || taken < *best)
        *best = taken;
    return accepted;
}

static bool measure(const struct operation *operation, const struct load *load,
                    enum currents currents)
{
    double archive_best = 0, plain_best = 0;
    bool good = true;
    fill_input(operation->number, load, currents);
    for (int i = 0; i < RUNS; i++) {
        good = run(&archive, &archive_best) && good;
        good = run(&plain, &plain_best) && good;
    }
    good = good && same_answers();
    printf("%-24s%-10s%-10s%12.2f%12.2f%10.2f%s\n", operation->name, load->name,
           currents == CHANGING ? "changing" : "constant", TICKS / archive_best / 1e6,
           TICKS / plain_best / 1e6, archive_best / plain_best, good ? "" : "  ANSWERS DIFFER");
    return good;
}

int main(void)
{
    bool good = true;
    plain_fill_powers();
    printf("%-24s%-10s%-10s%12s%12s%10s\n", "", "", "", "archive", "plain C", "time,");
    printf("%-24s%-10s%-10s%12s%12s%10s\n", "operation", "load", "currents", "Mticks/s",
           "Mticks/s", "ratio");
    for (int i = 0; i < OPERATIONS; i++)
        for (int j = 0; j < LOADS; j++)
            for (enum currents currents = CONSTANT; currents <= CHANGING; currents++)
                good = measure(&operations[i], loads[j], currents) && good;
    printf("A tick is three phases. Buffers are lent as they are, not cleared before a run.\n");
    return good ? 0 : 1;
}
