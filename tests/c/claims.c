/* claims: drives locator_check and locator_prove on the cases of tests/second/claims.py from standard input, and prints their lines. What is read is lent to be
   read only, between guards; an empty list is a null pointer every other time. What is accepted must be what the whole call lists, and what is made must be
   accepted. */
#define DRIVER "claims"
#include "lent.h"
#include "locator.h"

enum { LISTS = 6 };

/* a list, and a null pointer where it is empty and it is asked for */
#define EMPTY(l, null) ((l).n == 0 && (null) ? NULL : (l).at), (l).n

/* the whole call lists the same roots and multiplicities */
static void solved(uint16_t m, list f, list roots, list mults)
{
    uint16_t found[LOCATOR_ROOTS], times[LOCATOR_ROOTS];
    locator_found s = locator_solve(m, f.at, f.n, 1, found, LOCATOR_ROOTS, times, LOCATOR_ROOTS);
    expect(s.outcome == 0 && s.count == roots.n && s.count == mults.n, "another number of roots than the whole call has");
    for (size_t i = 0; i < s.count; i++)
        expect(found[i] == roots.at[i] && times[i] == mults.at[i], "another root or multiplicity than the whole call has");
}

/* the lines are of the six numbers of a case */
static void six(const char *what, uint16_t m, const size_t *n)
{
    printf("%s %u %zu %zu %zu %zu %zu %zu |", what, m, n[0], n[1], n[2], n[3], n[4], n[5]);
}

/* one claim */
static void check(uint16_t m, const size_t *n, int null)
{
    list l[LISTS];
    for (size_t i = 0; i < LISTS; i++)
        l[i] = lend(n[i]);
    locator_claim c = locator_check(m, EMPTY(l[0], null), EMPTY(l[1], null), EMPTY(l[2], null), EMPTY(l[3], null), EMPTY(l[4], null), EMPTY(l[5], null));
    expect(c.accepted <= 1 && (c.outcome == 0 || c.accepted == 0), "a refusal with a value, or a value above 1");
    six("check", m, n);
    printf(" %u %u\n", c.outcome, c.accepted);
    if (c.accepted)
        solved(m, l[0], l[1], l[2]);
    for (size_t i = 0; i < LISTS; i++)
        end_read(l[i]);
}

/* one polynomial to make the claim about, and five buffers, every slot of which is printed; what was made is accepted */
static void make(uint16_t m, const size_t *n, int null)
{
    list l[LISTS];
    l[0] = lend(n[0]);
    for (size_t i = 1; i < LISTS; i++) {
        l[i] = lend_room(n[i]);
        keep(l[i]);
    }
    locator_proved c = locator_prove(m, EMPTY(l[0], null), EMPTY(l[1], null), EMPTY(l[2], null), EMPTY(l[3], null), EMPTY(l[4], null), EMPTY(l[5], null));
    six("make", m, n);
    printf(" %u %u", c.outcome, c.count);
    for (size_t i = 1; i < LISTS; i++) {
        printf(" |");
        for (size_t k = 0; k < n[i]; k++)
            printf(" %u", l[i].at[k]);
        expect(c.outcome == 0 || unchanged(l[i]), "a refusal that writes");
    }
    printf("\n");
    if (c.outcome == 0) {
        locator_claim a = locator_check(m, LENT(l[0]), l[1].at, c.count, l[2].at, c.count, l[3].at, LOCATOR_COEFFICIENTS, l[4].at, LOCATOR_COEFFICIENTS,
                                        l[5].at, LOCATOR_COEFFICIENTS);
        expect(a.outcome == 0 && a.accepted == 1, "a claim that was made and is not accepted");
    } else
        expect(c.count == 0, "a refusal with a value");
    end_read(l[0]);
    for (size_t i = 1; i < LISTS; i++)
        end(l[i]);
}

int main(void)
{
    size_t count = 0;
    for (int kind = word(); kind != EOF; kind = word(), count++) {
        uint16_t m = number();
        size_t n[LISTS];
        for (size_t i = 0; i < LISTS; i++)
            n[i] = number();
        (kind ? make : check)(m, n, count % 2 == 0);
    }
    return fflush(stdout);
}
