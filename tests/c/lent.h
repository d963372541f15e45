/* What the drivers share: the numbers of standard input, and memory lent to the product. It stands between guards, so that a write outside it is seen; what
   is lent to be read only is compared with what it was. Whoever includes this defines, before, DRIVER, its own name. */
#include <stdint.h>
#include <stdio.h>
#include <stdlib.h>
#include <string.h>

enum { GUARD = 64, GUARDED = 0xA5A5 };

/* says what is wrong, behind the lines so far, and stops */
static inline void fail(const char *what)
{
    fflush(stdout);
    fprintf(stderr, DRIVER ": %s\n", what);
    exit(1);
}

/* stops where it does not hold */
static inline void expect(int holds, const char *what)
{
    if (!holds)
        fail(what);
}

/* a number of two bytes, or the end of the input */
static inline int word(void)
{
    int low = getchar(), high = getchar();
    return low == EOF || high == EOF ? EOF : low | high << 8;
}

/* a number of two bytes that must be there */
static inline uint16_t number(void)
{
    int w = word();
    expect(w != EOF, "the cases end early");
    return (uint16_t)w;
}

/* n numbers between guards, and room for a copy of them behind */
typedef struct { uint16_t *at; size_t n; } list;

/* a list as an argument: a pointer, then a count */
#define LENT(l) (l).at, (l).n

/* a list that holds no number of a field */
static inline list lend_room(size_t n)
{
    uint16_t *all = malloc((2 * n + 2 * GUARD) * sizeof *all);
    expect(all != NULL, "no memory");
    for (size_t i = 0; i < 2 * n + 2 * GUARD; i++)
        all[i] = GUARDED;
    return (list){all + GUARD, n};
}

/* what the list holds from now on is what it must hold */
static inline void keep(list l)
{
    memcpy(l.at + l.n + GUARD, l.at, l.n * sizeof *l.at);
}

/* n numbers from the input */
static inline list lend(size_t n)
{
    list l = lend_room(n);
    for (size_t i = 0; i < n; i++)
        l.at[i] = number();
    keep(l);
    return l;
}

/* does it hold what it must? */
static inline int unchanged(list l)
{
    return memcmp(l.at, l.at + l.n + GUARD, l.n * sizeof *l.at) == 0;
}

/* the guards are as they were; the list is given back */
static inline void end(list l)
{
    for (size_t i = 0; i < GUARD; i++)
        expect(l.at[i - GUARD] == GUARDED && l.at[l.n + i] == GUARDED, "a write outside lent memory");
    free(l.at - GUARD);
}

/* the same of a list that was lent to be read only */
static inline void end_read(list l)
{
    expect(unchanged(l), "a write to memory lent for reading");
    end(l);
}
