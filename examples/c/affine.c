/* Affine polynomials of code designers: terms at z^(2^i) alone, and a constant. Each line of standard input has one: the
   field degree m, the constant, then the coefficients of z, z^2, z^4, .., z^(2^(m-1)). Prints the roots, ascending; or,
   where they are many, the least and the space that the others differ from it by; or that there is none; or the number
   under which the polynomial is refused. */
#include "locator.h"
#include "numbers.h"
#include <stdio.h>

enum { WIDEST = 11, FEW = 8 };

/* What a refusal says. */
static const char *reason(uint16_t outcome)
{
    switch (outcome) {
    case 1: return "there is no field of this degree";
    case 20: return "there must be as many coefficients as the degree of the field";
    case 4: return "a coefficient or the constant is no element of the field";
    case 7: return "the list must have a slot for every element of the field";
    default: return "a refusal of another call";
    }
}

/* The roots of a space of dimension k. The list ascends, so that root i is the least root plus the sum of b_j over the
   bits j of i, where b_j is root 2^j plus the least: the b_j are a basis. */
static void print_roots(const uint16_t *roots, size_t count, unsigned k)
{
    if (count <= FEW) {
        printf("roots, %zu:", count);
        for (size_t i = 0; i < count; i++)
            printf(" %u", roots[i]);
    } else {
        printf("roots, %zu: %u plus any sum of", count, roots[0]);
        for (unsigned j = 0; j < k; j++)
            printf(" %u", roots[0] ^ roots[(size_t)1 << j]);
    }
    printf("\n");
}

/* The line of a polynomial. The list has a slot for every element, since all may be roots. */
static void print_polynomial(uint16_t m, uint16_t constant, const uint16_t *coeffs, size_t n)
{
    static uint16_t roots[LOCATOR_ELEMENTS];
    locator_space space = locator_affine(m, coeffs, n, constant, roots, LOCATOR_ELEMENTS);
    if (space.outcome != 0)
        printf("refused under %u: %s\n", space.outcome, reason(space.outcome));
    else if (space.count == 0)
        printf("no root\n");
    else
        print_roots(roots, space.count, space.dimension);
}

int main(void)
{
    char line[256];
    while (fgets(line, sizeof line, stdin) != NULL) {
        uint16_t word[3 + WIDEST];
        size_t n = numbers(line, word, sizeof word / sizeof *word);
        if (n >= 2)
            print_polynomial(word[0], word[1], word + 2, n - 2);
    }
    return 0;
}
