/* The places of a word's bad bits, as a recorder reads them. Each line of standard input has a word's locator: the
   field degree, then the coefficients, constant first. A recorder's locator is the product of (1 + X z) over the bad
   bits, X = 2^place, so the places are read under the convention of recorders. Prints the places, ascending; or that
   the word cannot be corrected; or the number under which the locator is refused. */
#include "locator.h"
#include "numbers.h"
#include <stdio.h>
#include <stdlib.h>

/* What a refusal of the whole call says. */
static const char *reason(uint16_t outcome)
{
    static const char *const said[] = {
        "accepted", "there is no field of this degree", "no coefficients", "more than 65 coefficients",
        "a coefficient is no element of the field", "every coefficient is 0", "the cutoff is above 3",
        "the list is too short",
    };
    return outcome < sizeof said / sizeof *said ? said[outcome] : "a refusal of another call";
}

/* The order of two numbers, for qsort. */
static int ascending(const void *a, const void *b)
{
    return (int)*(const uint16_t *)a - (int)*(const uint16_t *)b;
}

/* The degree of n coefficients that are not all 0. */
static size_t degree(const uint16_t *coeffs, size_t n)
{
    while (coeffs[n - 1] == 0)
        n--;
    return n - 1;
}

/* The places of the roots, ascending. Root 0 has none, since every place is a power of 2: then the outcome is 13. */
static uint16_t places_of(uint16_t m, const uint16_t *roots, size_t count, uint16_t *places)
{
    for (size_t i = 0; i < count; i++) {
        locator_value place = locator_position(m, roots[i], LOCATOR_RECORDERS);
        if (place.outcome != 0)
            return place.outcome;
        places[i] = place.value;
    }
    qsort(places, count, sizeof *places, ascending);
    return 0;
}

/* The line of a locator. Only one with as many distinct roots as its degree is a product over places: with fewer the
   word has more bad bits than its code corrects, and the places of the roots that there are mean nothing. */
static void print_word(uint16_t m, const uint16_t *coeffs, size_t n)
{
    uint16_t roots[LOCATOR_ROOTS], mults[LOCATOR_ROOTS], places[LOCATOR_ROOTS];
    locator_found found = locator_solve(m, coeffs, n, 2, roots, LOCATOR_ROOTS, mults, LOCATOR_ROOTS);
    if (found.outcome != 0) {
        printf("refused under %u: %s\n", found.outcome, reason(found.outcome));
        return;
    }
    size_t bad = degree(coeffs, n);
    if (found.count < bad)
        printf("uncorrectable: %u of %zu roots\n", found.count, bad);
    else if (places_of(m, roots, bad, places) != 0)
        printf("uncorrectable: root 0 has no place\n");
    else if (bad == 0)
        printf("no bad bits\n");
    else {
        printf("bad bits at");
        for (size_t i = 0; i < bad; i++)
            printf(" %u", places[i]);
        printf("\n");
    }
}

int main(void)
{
    char line[1024];
    printf("places under convention %d: locators are products of (1 + X z)\n", LOCATOR_RECORDERS);
    while (fgets(line, sizeof line, stdin) != NULL) {
        uint16_t word[2 + LOCATOR_COEFFICIENTS];
        size_t n = numbers(line, word, sizeof word / sizeof *word);
        if (n > 0)
            print_word(word[0], word + 1, n - 1);
    }
    return 0;
}
