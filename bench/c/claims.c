/*
 * Claims of roots, for bench/claims, in field 11: the check and the making beside the whole call at cutoff 3, on 64 polynomials of a shape, drawn from a fixed
 * seed.
 *
 *   claims sets         a line for each set: call, shape
 *   claims pass C S K   K passes, 0 or 1, over the set, for counting: the difference of two counts is one pass
 *
 * The calls: solve, check (of the claim that is right, sent without zeros at the top) and prove. The shapes: split-N has N distinct roots and degree N; dense-N has degree N and any
 * coefficients.
 */
#include "locator.h"
#include <stdio.h>
#include <stdlib.h>
#include <string.h>

enum { CASES = 64, FIELD = 11, ELEMENTS = 2048 };

typedef struct {
    uint16_t f[LOCATOR_COEFFICIENTS], roots[LOCATOR_ROOTS], mults[LOCATOR_ROOTS];
    uint16_t h[LOCATOR_COEFFICIENTS], u[LOCATOR_COEFFICIENTS], v[LOCATOR_COEFFICIENTS];
    size_t n, count, nh, nu, nv;
} claim;

static unsigned solve(claim *c)
{
    return locator_solve(FIELD, c->f, c->n, 3, c->roots, LOCATOR_ROOTS, c->mults, LOCATOR_ROOTS).count;
}

static unsigned check(claim *c)
{
    return locator_check(FIELD, c->f, c->n, c->roots, c->count, c->mults, c->count, c->h, c->nh, c->u, c->nu, c->v, c->nv).accepted;
}

static unsigned prove(claim *c)
{
    return locator_prove(FIELD, c->f, c->n, c->roots, LOCATOR_ROOTS, c->mults, LOCATOR_ROOTS, c->h, LOCATOR_COEFFICIENTS, c->u, LOCATOR_COEFFICIENTS, c->v,
                         LOCATOR_COEFFICIENTS).count;
}

static const struct {
    const char *name;
    unsigned (*call)(claim *c);
} calls[] = {{"solve", solve}, {"check", check}, {"prove", prove}};
enum { CALLS = sizeof calls / sizeof *calls };

static const struct {
    const char *name;
    size_t degree;
    int split;
} shapes[] = {{"split-4", 4, 1}, {"split-8", 8, 1}, {"split-16", 16, 1}, {"split-32", 32, 1}, {"split-64", 64, 1}, {"dense-32", 32, 0}, {"dense-64", 64, 0}};
enum { SHAPES = sizeof shapes / sizeof *shapes };

/* an element */
static uint16_t draw(void)
{
    static uint32_t seed = 1;
    seed = seed * 1664525 + 1013904223;
    return (uint16_t)((seed >> 8) % ELEMENTS);
}

/* the product of z + r over distinct elements r */
static void split(claim *c, size_t degree)
{
    char taken[ELEMENTS] = {0};
    c->f[0] = 1;
    for (size_t d = 1; d <= degree; d++) {
        uint16_t r = draw();
        while (taken[r])
            r = draw();
        taken[r] = 1;
        for (size_t i = d; i > 0; i--)
            c->f[i] = (uint16_t)(c->f[i - 1] ^ locator_product(FIELD, c->f[i], r).value);
        c->f[0] = locator_product(FIELD, c->f[0], r).value;
    }
}

/* how many coefficients are sent: up to the highest that is not 0, and one at least */
static size_t sent(const uint16_t *p)
{
    size_t n = LOCATOR_COEFFICIENTS;
    while (n > 1 && p[n - 1] == 0)
        n--;
    return n;
}

/* K passes of a call over 64 polynomials; every claim is made before, and accepted */
static int pass(unsigned (*call)(claim *c), size_t shape, int times)
{
    static claim all[CASES];
    volatile unsigned sum = 0;
    for (int i = 0; i < CASES; i++) {
        all[i].n = shapes[shape].degree + 1;
        if (shapes[shape].split)
            split(&all[i], shapes[shape].degree);
        else
            for (size_t k = 0; k < all[i].n; k++) all[i].f[k] = (uint16_t)(draw() | (k + 1 == all[i].n));
        all[i].count = prove(&all[i]);
        all[i].nh = sent(all[i].h), all[i].nu = sent(all[i].u), all[i].nv = sent(all[i].v);
        if (check(&all[i]) != 1)
            return 1;
    }
    for (int t = 0; t < times; t++)
        for (int i = 0; i < CASES; i++) sum += call(&all[i]);
    return 0;
}

int main(int count, char **words)
{
    if (count == 2 && strcmp(words[1], "sets") == 0) {
        for (int c = 0; c < CALLS; c++)
            for (int s = 0; s < SHAPES; s++) printf("%s %s\n", calls[c].name, shapes[s].name);
        return 0;
    }
    if (count == 5 && strcmp(words[1], "pass") == 0)
        for (int c = 0; c < CALLS; c++)
            for (size_t s = 0; s < SHAPES; s++)
                if (strcmp(words[2], calls[c].name) == 0 && strcmp(words[3], shapes[s].name) == 0)
                    return pass(calls[c].call, s, atoi(words[4]));
    return 2;
}
