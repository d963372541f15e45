/* Work tables that were stored, taken up where they were left. Standard input has each table of LOCATOR_STORED_SLOTS
   slots in decimal: its head on a line (field degree, cutoff, number of factors, steps), then each factor on a line
   (level, degree, coefficients); the slots behind are 0. A line without numbers, as one that begins with #, ends a
   table. Steps each to its end and finishes it. Prints the steps when it was stored and at the end, and the roots; or
   the number under which the table is refused. examples/stored has such tables. */
#include "locator.h"
#include "numbers.h"
#include <stdio.h>
#include <string.h>

enum { FIELD, CUTOFF, FACTORS, STEPS };

/* What a refusal says. */
static const char *reason(uint16_t outcome)
{
    switch (outcome) {
    case 7: return "the table or the list of roots has another size";
    case 8: return "the table is not sound";
    case 9: return "the first factor above the cutoff cannot be split further";
    default: return "a refusal of another call";
    }
}

/* Steps until the table is done, and lists its roots. */
static locator_found finished(uint16_t *table, uint16_t *roots)
{
    locator_stepped stepped = locator_step(table, LOCATOR_STORED_SLOTS);
    while (stepped.outcome == 0 && stepped.done == 0)
        stepped = locator_step(table, LOCATOR_STORED_SLOTS);
    if (stepped.outcome != 0)
        return (locator_found){stepped.outcome, 0, 0};
    return locator_finish(table, LOCATOR_STORED_SLOTS, roots, LOCATOR_ROOTS);
}

/* The line of a table. */
static void print_table(uint16_t *table)
{
    uint16_t roots[LOCATOR_ROOTS], stored = table[STEPS];
    locator_found found = finished(table, roots);
    if (found.outcome != 0) {
        printf("refused under %u: %s\n", found.outcome, reason(found.outcome));
        return;
    }
    printf("field %u, cutoff %u, steps %u then %u, roots %u:", table[FIELD], table[CUTOFF], stored, table[STEPS],
           found.count);
    for (size_t i = 0; i < found.count; i++)
        printf(" %u", roots[i]);
    printf("\n");
}

int main(void)
{
    uint16_t table[LOCATOR_STORED_SLOTS] = {0};
    char line[1024];
    size_t filled = 0;
    while (fgets(line, sizeof line, stdin) != NULL) {
        size_t n = numbers(line, table + filled, LOCATOR_STORED_SLOTS - filled);
        filled += n;
        if (n == 0 && filled > 0) {
            print_table(table);
            memset(table, 0, sizeof table);
            filled = 0;
        }
    }
    if (filled > 0)
        print_table(table);
    return 0;
}
