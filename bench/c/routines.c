/*
 * The proved polynomial routines (libpoly_face.a) beside the same algorithms in plain C, in field 11 (2048 elements, z^11 + z^2 + 1).
 *
 * Both sides hold a monic divisor by the logs of its low coefficients, divide in place from the top, spread squares,
 * and run Euclid's loop on two buffers that change roles. Tables: logs of 2048 elements, even but for a 1 at 0, and
 * antilogs of four times the order, 0 at the odd places, so that a product by 0 needs no branch. Each side has its own.
 * The loops are here, and neither side knows the lengths before it is called.
 */
#include "../../tests/c/poly_face.h"
#include <stdio.h>
#include <stdlib.h>
#include <string.h>
#include <time.h>

enum { SIZE = 2048, ORDER = 2047, POLY = 2053, DEGREE = 32, LONG = 63, ROUNDS = 201 };

/* the tables of the C side, and those that the proved side lends */
static uint16_t logs[SIZE], antilogs[4 * ORDER], lent_logs[SIZE], lent_antilogs[4 * ORDER];

#define FIELD 11, lent_logs, SIZE, lent_antilogs, 4 * ORDER

static void make_tables(void)
{
    unsigned x = 1;
    for (unsigned j = 0; j < ORDER; j++) {
        antilogs[2 * j] = antilogs[2 * (j + ORDER)] = (uint16_t)x;
        logs[x] = (uint16_t)(2 * j);
        x <<= 1;
        if (x & SIZE)
            x ^= POLY;
    }
    logs[0] = 1;
}

static void log_row(const uint16_t *p, size_t n, uint16_t *row)
{
    for (size_t i = 0; i < n; i++)
        row[i] = logs[p[i]];
}

static void add_row(uint16_t t, const uint16_t *restrict row, size_t n, uint16_t *restrict r)
{
    if (t == 0)
        return;
    size_t s = logs[t];
    for (size_t i = 0; i < n; i++)
        r[i] ^= antilogs[s + row[i]];
}

static void divide(const uint16_t *restrict row, size_t n, uint16_t *restrict f, size_t len)
{
    for (size_t k = len - n; k-- > 0;)
        add_row(f[k + n], row, n, f + k);
}

static void square_mod(const uint16_t *restrict row, size_t n, uint16_t *restrict w, uint16_t *restrict s)
{
    for (size_t i = 0; i < n; i++) {
        size_t k = logs[w[i]];
        s[2 * i] = w[i] == 0 ? 0 : antilogs[k + k];
        s[2 * i + 1] = 0;
    }
    divide(row, n, s, 2 * n);
    memcpy(w, s, n * sizeof *w);
}

/* Divides r by its leading coefficient; returns how many coefficients it has up to that one. */
static size_t make_monic(uint16_t *r, size_t n)
{
    while (n > 0 && r[n - 1] == 0)
        n--;
    if (n == 0)
        return 0;
    size_t s = logs[antilogs[2 * ORDER - logs[r[n - 1]]]];
    for (size_t i = 0; i + 1 < n; i++)
        r[i] = antilogs[s + logs[r[i]]];
    return n;
}

/* One division of Euclid's: the remainder of b by monic a of degree n comes to the front of b, made monic. */
static size_t turn(uint16_t *restrict row, uint16_t *restrict a, size_t n, uint16_t *restrict b, size_t k)
{
    log_row(a, n, row);
    if (k < n)
        memset(b + k, 0, (n - k) * sizeof *b);
    else
        divide(row, n, b, k);
    a[n] = 1;
    return make_monic(b, n);
}

static size_t gcd(uint16_t *restrict row, uint16_t *restrict a, size_t n, uint16_t *restrict b, size_t k)
{
    for (;;) {
        size_t j = turn(row, a, n, b, k);
        if (j == 0)
            return n;
        size_t d = j - 1;
        size_t i = turn(row, b, d, a, n + 1);
        if (i == 0) {
            memcpy(a, b, d * sizeof *a);
            return d;
        }
        n = i - 1;
        k = d + 1;
    }
}

/* The C side of each export: noipa keeps its input and its lengths unknown, as they are to the proved side. */
static __attribute__((noipa)) void c_remainder(const uint16_t *row, size_t n, uint16_t *f, size_t len, uint16_t *r)
{
    divide(row, n, f, len);
    memcpy(r, f, n * sizeof *r);
}

static __attribute__((noipa)) void c_power_mod(const uint16_t *row, size_t n, unsigned k, uint16_t *w)
{
    uint16_t s[2 * DEGREE];
    for (unsigned i = 0; i < k; i++)
        square_mod(row, n, w, s);
}

static __attribute__((noipa)) size_t c_gcd(const uint16_t *p, size_t n, const uint16_t *f, size_t k, uint16_t *g)
{
    uint16_t row[DEGREE], b[DEGREE + 1];
    memcpy(b, f, k * sizeof *b);
    memcpy(g, p, n * sizeof *g);
    return gcd(row, g, n, b, k);
}

/* Numbers drawn by xorshift, below 2048. */
static void draw(uint64_t *seed, uint16_t *f, size_t n)
{
    for (size_t i = 0; i < n; i++) {
        *seed ^= *seed << 13;
        *seed ^= *seed >> 7;
        *seed ^= *seed << 17;
        f[i] = (uint16_t)(*seed >> 20 & (SIZE - 1));
    }
}

static double now(void)
{
    struct timespec t;
    clock_gettime(CLOCK_MONOTONIC, &t);
    return (double)t.tv_sec * 1e9 + (double)t.tv_nsec;
}

static int by_size(const void *a, const void *b)
{
    double x = *(const double *)a, y = *(const double *)b;
    return (x > y) - (x < y);
}

static double median(double *t)
{
    qsort(t, ROUNDS, sizeof *t, by_size);
    return t[ROUNDS / 2];
}

static const char *const names[] = {"remainder of degree 62 by 32", "ten squarings modulo degree 32", "gcd of degree 32 with 31"};
static uint16_t p[DEGREE], f[LONG], g[DEGREE];
static uint16_t ours[DEGREE + 1], theirs[DEGREE + 1];

/* The input of a routine that works on it: in s what the division uses up, in out what is squared. */
static void lay(int kind, uint16_t *s, uint16_t *out)
{
    if (kind == 0)
        memcpy(s, f, LONG * sizeof *s);
    else if (kind == 1)
        memcpy(out, g, DEGREE * sizeof *out);
}

/* A routine of the proved side, so many times on the same input; returns how many coefficients its result has. */
static size_t ours_run(int kind, uint32_t times)
{
    uint16_t row[DEGREE], s[LONG];
    size_t d = DEGREE;
    poly_log_row(FIELD, p, DEGREE, row, DEGREE);
    for (uint32_t i = 0; i < times; i++) {
        lay(kind, s, ours);
        if (kind == 0)
            poly_remainder(FIELD, row, DEGREE, s, LONG, ours, DEGREE);
        else if (kind == 1)
            poly_power_mod(FIELD, row, DEGREE, 10, ours, DEGREE);
        else
            d = poly_gcd(FIELD, p, DEGREE, g, DEGREE, ours, DEGREE + 1);
    }
    return d;
}

/* The same of the C side. */
static size_t theirs_run(int kind, uint32_t times)
{
    uint16_t row[DEGREE], s[LONG];
    size_t d = DEGREE;
    log_row(p, DEGREE, row);
    for (uint32_t i = 0; i < times; i++) {
        lay(kind, s, theirs);
        if (kind == 0)
            c_remainder(row, DEGREE, s, LONG, theirs);
        else if (kind == 1)
            c_power_mod(row, DEGREE, 10, theirs);
        else
            d = c_gcd(p, DEGREE, g, DEGREE, theirs);
    }
    return d;
}

/* Stops: the results are not the same. */
static void differ(const char *where, int n)
{
    fprintf(stderr, "polynomial: the two sides differ, %s %d\n", where, n);
    exit(1);
}

/* Random inputs, some with zeros on top and some with a shared power of z: both sides must agree. */
static void agree(uint64_t *seed)
{
    if (memcmp(logs, lent_logs, sizeof logs) != 0 || memcmp(antilogs, lent_antilogs, sizeof antilogs) != 0)
        differ("tables of field", 11);
    for (int n = 0; n < 3000; n++) {
        draw(seed, p, DEGREE);
        draw(seed, f, LONG);
        draw(seed, g, DEGREE);
        if (n % 3 == 1) {
            size_t zeros = *seed % DEGREE;
            memset(g + DEGREE - zeros, 0, zeros * sizeof *g);
        }
        if (n % 3 == 2) { /* a shared power of z */
            size_t low = *seed % DEGREE;
            memset(p, 0, low * sizeof *p);
            memset(g, 0, low * sizeof *g);
        }
        for (int kind = 0; kind < 3; kind++) {
            size_t a = ours_run(kind, 1), b = theirs_run(kind, 1);
            if (a != b || memcmp(ours, theirs, a * sizeof *ours) != 0)
                differ(names[kind], n);
        }
    }
    printf("both sides agree on 3000 random inputs of each routine\n\n");
}

/* Lends the tables to the proved side; returns how long it takes. */
static double lend(void)
{
    double t[ROUNDS];
    for (int round = 0; round < ROUNDS; round++) {
        double start = now();
        poly_tables(11, lent_logs, SIZE, lent_antilogs, 4 * ORDER);
        t[round] = now() - start;
    }
    return median(t);
}

int main(void)
{
    static const uint32_t times[] = {1000, 100, 500};
    uint64_t seed = 88172645463325252ull;
    make_tables();
    double lending = lend();
    agree(&seed);
    draw(&seed, p, DEGREE);
    draw(&seed, f, LONG);
    draw(&seed, g, DEGREE);
    f[LONG - 1] |= 1;
    g[DEGREE - 1] |= 1;
    printf("field 11, median of %d rounds          proved ns       C ns   proved / C\n", ROUNDS);
    for (int kind = 0; kind < 3; kind++) {
        double a[ROUNDS], b[ROUNDS];
        for (int round = 0; round < ROUNDS; round++) {
            double start = now();
            ours_run(kind, times[kind]);
            double middle = now();
            theirs_run(kind, times[kind]);
            a[round] = (middle - start) / times[kind];
            b[round] = (now() - middle) / times[kind];
        }
        double x = median(a), y = median(b);
        printf("%-36s %12.0f %10.0f %12.2f\n", names[kind], x, y, x / y);
    }
    printf("\nA round runs a routine %u, %u and %u times. The tables are lent to the proved side once, before all rounds: %.0f ns.\n",
           times[0], times[1], times[2], lending);
    return 0;
}
