/* The figures of docs/RULES.md section 10 through the C face: whole calls, one splitting step by step, the search, a
   quadratic, positions, and refusals.
   bindings/rust/examples/solve.rs does the same job; both must print examples/solve.expected. */
#include "locator.h"
#include <stdio.h>

/* The line of a whole call: outcome, and where it is 0 the number of roots, of steps, and the roots. */
static void solve(const char *what, uint16_t m, const uint16_t *coeffs, size_t n, uint16_t cutoff)
{
    uint16_t roots[LOCATOR_ROOTS], mults[LOCATOR_ROOTS];
    locator_found found = locator_solve(m, coeffs, n, cutoff, roots, LOCATOR_ROOTS, mults, LOCATOR_ROOTS);
    printf("%s: %u", what, found.outcome);
    if (found.outcome == 0) {
        printf(" %u %u", found.count, found.steps);
        for (size_t i = 0; i < found.count; i++)
            printf(" %u", roots[i]);
    }
    printf("\n");
}

/* The roots, each with its multiplicity. */
static void repeated(const char *what, uint16_t m, const uint16_t *coeffs, size_t n)
{
    uint16_t roots[LOCATOR_ROOTS], mults[LOCATOR_ROOTS];
    locator_found found = locator_solve(m, coeffs, n, 2, roots, LOCATOR_ROOTS, mults, LOCATOR_ROOTS);
    printf("%s:", what);
    for (size_t i = 0; i < found.count; i++)
        printf(" %u times %u", roots[i], mults[i]);
    printf("\n");
}

/* The slots of a table up to its last that is not 0. */
static void print_table(const uint16_t *table)
{
    size_t end = LOCATOR_SLOTS;
    while (end > 0 && table[end - 1] == 0)
        end--;
    for (size_t i = 0; i < end; i++)
        printf(" %u", table[i]);
    printf("\n");
}

/* The same roots in steps that can be interrupted: begin, step until done, finish. */
static void split(uint16_t m, const uint16_t *coeffs, size_t n, uint16_t cutoff)
{
    uint16_t table[LOCATOR_SLOTS], roots[LOCATOR_ROOTS];
    locator_stepped stepped = {0, 0};
    if (locator_begin(m, coeffs, n, cutoff, table, LOCATOR_SLOTS) != 0)
        return;
    printf("begun:");
    print_table(table);
    while (stepped = locator_step(table, LOCATOR_SLOTS), stepped.outcome == 0 && stepped.done == 0) {
        printf("step:");
        print_table(table);
    }
    locator_found found = locator_finish(table, LOCATOR_SLOTS, roots, LOCATOR_ROOTS);
    printf("finished: %u %u", found.outcome, found.count);
    for (size_t i = 0; i < found.count; i++)
        printf(" %u", roots[i]);
    printf("\n");
}

int main(void)
{
    static const uint16_t cubic[] = {6, 7, 0, 1}, unity[] = {1, 0, 0, 1}, zeros[] = {0, 0}, large[] = {16, 1};
    static const uint16_t powers[] = {0, 0, 15, 5, 3, 1};
    uint16_t all[17] = {0, 1}, roots[LOCATOR_ROOTS], mults[LOCATOR_ROOTS];
    all[16] = 1;
    solve("z^3+7z+6", 4, cubic, 4, 1);
    solve("z^3+1", 4, unity, 4, 2);
    solve("z^16+z", 4, all, 17, 2);
    split(4, cubic, 4, 1);
    repeated("z^2 (z+3)^3", 4, powers, 6);
    locator_found seen = locator_search(4, unity, 4, roots, LOCATOR_ROOTS, mults, LOCATOR_ROOTS);
    printf("searched: %u %u %u %u %u\n", seen.outcome, seen.count, roots[0], roots[1], roots[2]);
    locator_pair pair = locator_quadratic(4, 1, 6);
    printf("z^2+z+6: %u %u %u %u\n", pair.outcome, pair.count, pair.lower, pair.upper);
    pair = locator_quadratic(4, 0, 2);
    printf("z^2+2: %u %u %u%s\n", pair.outcome, pair.count, pair.lower, pair.doubled ? " double" : "");
    printf("places of 3: Goppa %u recorders %u\n", locator_position(4, 3, LOCATOR_GOPPA).value,
           locator_position(4, 3, LOCATOR_RECORDERS).value);
    solve("field 5", 5, cubic, 4, 1);
    solve("no coefficients", 4, NULL, 0, 1);
    solve("zeros", 4, zeros, 2, 1);
    solve("16 in field 4", 4, large, 2, 1);
    solve("cutoff 4", 4, cubic, 4, 4);
    printf("63 slots: %u\n", locator_solve(4, cubic, 4, 1, roots, LOCATOR_ROOTS, mults, LOCATOR_ROOTS - 1).outcome);
    printf("inverse of 0: %u\n", locator_inverse(4, 0).outcome);
    return 0;
}
