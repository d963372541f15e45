/* A program of somebody else: roots of a polynomial, a refusal by its name and reason, and a block, through the
   installed header and library. It is C and C++ alike. Prints what tests/outside/use.expected says. */
#include <locator.h>
#include <stdio.h>

int main(void)
{
    const uint16_t coeffs[] = {6, 7, 0, 1};
    uint16_t roots[LOCATOR_ROOTS], mults[LOCATOR_ROOTS];
    uint8_t word[LOCATOR_WORD] = {9};
    locator_found found = locator_solve(4, coeffs, 4, 1, roots, LOCATOR_ROOTS, mults, LOCATOR_ROOTS);
    printf("%s, %u steps:", locator_reason(found.outcome), found.steps);
    for (unsigned k = 0; k < found.count; k++)
        printf(" %u", roots[k]);
    locator_pair pair = locator_quadratic(4, 1, 6);
    locator_value value = locator_inverse(5, 1);
    locator_corrected corrected = locator_correct(2, word, sizeof word);
    locator_salvaged salvaged = locator_salvage(word, sizeof word, 0, 0);
    printf("\n%u %u\n", pair.lower, pair.upper);
    printf("%d: %s\n", value.outcome == LOCATOR_REFUSED_FIELD, locator_reason(value.outcome));
    printf("%u flips\n", corrected.flips);
    printf("%s\n", locator_reason(salvaged.outcome));
    printf("%s, %s\n", locator_reason(14), locator_reason(65535));
    return 0;
}
