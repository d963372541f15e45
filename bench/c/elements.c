/*
 * The element calls of the C face, for bench/elements, on 64 elements or pairs of each field, drawn from a fixed seed.
 *
 *   elements sets         a line for each set: call, field
 *   elements pass C M K   K passes, 0 or 1, over the set, for counting: the difference of two counts is one pass
 *
 * The calls: product, inverse, root (the quadratic with a = 0) and quadratic (with a nonzero a).
 */
#include "locator.h"
#include <stdio.h>
#include <stdlib.h>
#include <string.h>

enum { CASES = 64 };

static unsigned product(uint16_t m, uint16_t a, uint16_t b)
{
    return locator_product(m, a, b).value;
}

static unsigned inverse(uint16_t m, uint16_t a, uint16_t b)
{
    (void)b;
    return locator_inverse(m, a).value;
}

static unsigned root(uint16_t m, uint16_t a, uint16_t b)
{
    (void)a;
    return locator_quadratic(m, 0, b).lower;
}

static unsigned quadratic(uint16_t m, uint16_t a, uint16_t b)
{
    return locator_quadratic(m, a, b).upper;
}

static const struct {
    const char *name;
    unsigned (*call)(uint16_t m, uint16_t a, uint16_t b);
} calls[] = {{"product", product}, {"inverse", inverse}, {"root", root}, {"quadratic", quadratic}};
enum { CALLS = sizeof calls / sizeof *calls };

static const uint16_t fields[] = {4, 8, 11};

/* a number below the bound */
static uint16_t draw(uint16_t bound)
{
    static uint32_t seed = 1;
    seed = seed * 1664525 + 1013904223;
    return (uint16_t)((seed >> 8) % bound);
}

/* K passes of a call over 64 pairs; a is not 0 */
static void pass(unsigned (*call)(uint16_t, uint16_t, uint16_t), uint16_t m, int times)
{
    uint16_t a[CASES], b[CASES];
    volatile unsigned sum = 0;
    for (int i = 0; i < CASES; i++) {
        a[i] = (uint16_t)(1 + draw((uint16_t)((1 << m) - 1)));
        b[i] = draw((uint16_t)(1 << m));
    }
    for (int t = 0; t < times; t++)
        for (int i = 0; i < CASES; i++) sum += call(m, a[i], b[i]);
}

int main(int count, char **words)
{
    if (count == 2 && !strcmp(words[1], "sets")) {
        for (int c = 0; c < CALLS; c++)
            for (int f = 0; f < 3; f++) printf("%s\t%d\n", calls[c].name, fields[f]);
        return 0;
    }
    if (count != 5 || strcmp(words[1], "pass")) return 2;
    for (int c = 0; c < CALLS; c++)
        if (!strcmp(words[2], calls[c].name)) pass(calls[c].call, (uint16_t)atoi(words[3]), atoi(words[4]));
    return 0;
}
