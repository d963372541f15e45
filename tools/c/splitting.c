/* splitting M CUTOFF COEFFICIENT..: begins a work table, steps it until done and finishes it through the C face, and prints the polynomial,
   the table's slots after begin and after each step, and the roots, for tools/splitting.py to draw. */
#include <stdio.h>
#include <stdlib.h>
#include "locator.h"

static void print(const char *name, const uint16_t *slots, size_t n)
{
    printf("%s", name);
    for (size_t i = 0; i < n; i++)
        printf(" %u", slots[i]);
    putchar('\n');
}

static int refused(const char *call, unsigned number)
{
    fprintf(stderr, "splitting: %s is refused under %u\n", call, number);
    return 1;
}

int main(int argc, char **argv)
{
    uint16_t given[2 + LOCATOR_COEFFICIENTS] = {0}, table[LOCATOR_SLOTS], roots[LOCATOR_ROOTS];
    size_t n = (size_t)argc - 1;
    if (n < 2 || n > 2 + LOCATOR_COEFFICIENTS)
        return 2;
    for (size_t i = 0; i < n; i++)
        given[i] = (uint16_t)atoi(argv[1 + i]);
    print("polynomial", given, n);
    uint16_t begun = locator_begin(given[0], given + 2, n - 2, given[1], table, LOCATOR_SLOTS);
    if (begun != 0)
        return refused("begin", begun);
    for (;;) {
        print("table", table, LOCATOR_SLOTS);
        locator_stepped step = locator_step(table, LOCATOR_SLOTS);
        if (step.outcome != 0)
            return refused("step", step.outcome);
        if (step.done)
            break;
    }
    locator_found found = locator_finish(table, LOCATOR_SLOTS, roots, LOCATOR_ROOTS);
    if (found.outcome != 0)
        return refused("finish", found.outcome);
    print("roots", roots, found.count);
    return 0;
}
