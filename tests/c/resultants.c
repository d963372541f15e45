/* resultants: drives successive resultants on the cases of tests/second/resultants.py from standard input, and prints their lines. The routine refuses
   nothing, so that it is seen to here that it gets what it asks: a case that the search refuses has no line. */
#define DRIVER "resultants"
#include "lent.h"
#include "reference.h"
#include "resultants_face.h"

/* one case */
static void run(uint16_t m)
{
    size_t n = number(), slots = number();
    list f = lend(n), roots = lend(slots);
    if (refusal(m, f.at, f.n, 0) == 0 && slots >= DEGREE) {
        unsigned count = resultants_find(m, LENT(f), LENT(roots));
        printf("%u %zu | %u |", m, n, count);
        for (size_t i = 0; i < slots; i++)
            printf(" %u", roots.at[i]);
        putchar('\n');
    }
    end_read(f);
    end(roots);
}

int main(void)
{
    for (int m = word(); m != EOF; m = word())
        run((uint16_t)m);
    return fflush(stdout);
}
