/* What the benchmarks share: numbers drawn from a fixed seed, the clock, and the product by shifting and adding, which uses no table of anything that is
   measured. */
#ifndef MEASURE_H
#define MEASURE_H
#include <stdint.h>
#include <time.h>
#include "fields.h"

static uint64_t state;

/* A number below some other, by xorshift. */
static inline unsigned draw(unsigned below)
{
    state ^= state << 13;
    state ^= state >> 7;
    state ^= state << 17;
    return (unsigned)(state >> 20) % below;
}

/* What is drawn from here on is that of set number k. */
static inline void draw_set(uint64_t k)
{
    state = 0x9E3779B97F4A7C15ull ^ k * 1000003u;
    for (int i = 0; i < 20; i++)
        draw(2);
}

/* Nanoseconds. */
static inline double now(void)
{
    struct timespec t;
    clock_gettime(CLOCK_MONOTONIC, &t);
    return (double)t.tv_sec * 1e9 + (double)t.tv_nsec;
}

/* The product in the field of 2^m elements. */
static inline unsigned product(int m, unsigned a, unsigned b)
{
    unsigned r = 0;
    for (; b != 0; b >>= 1) {
        if (b & 1)
            r ^= a;
        a <<= 1;
        if (a >> m)
            a ^= field_polynomial(m);
    }
    return r;
}
#endif
