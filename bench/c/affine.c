/*
 * The roots of affine polynomials in three ways, for bench/affine: the proved call, the value at every element, and
 * elimination in plain C. All of them get the same polynomials, drawn from a fixed seed.
 *
 *   affine check           every list against the values by shift-and-add products; a line for each set and way: set, way, right lists, lists
 *   affine time            a line for each set and way: set, way, nanoseconds a polynomial
 *   affine pass SET WAY K  K passes over the set, for counting: the difference of two counts is one pass
 *
 * A set is named by its field and the dimension of its roots, or "none".
 */
#ifdef __aarch64__
#include <arm_neon.h>
#else
#include <emmintrin.h>
#endif
#include <stdbool.h>
#include <stdio.h>
#include <stdlib.h>
#include <string.h>
#include "locator.h"
#include "measure.h"

enum { LISTS = 64, WIDEST = 11, ELEMENTS = LOCATOR_ELEMENTS, CHUNK = 8, NONE = -1 };

struct polynomial {
    int m;
    uint16_t coeffs[WIDEST], constant;
};

/* ---- what the ways in C hold in memory: logs, antilogs twice over, and the log of b^(2^i) for each basis element b = 2^j ---- */

static int held;
static unsigned order;
static uint16_t logs[ELEMENTS], antilogs[2 * ELEMENTS], power_logs[WIDEST][WIDEST];

static void hold(int m)
{
    if (held == m)
        return;
    held = m;
    order = (1u << m) - 1;
    for (unsigned j = 0, x = 1; j < order; j++) {
        antilogs[j] = antilogs[j + order] = (uint16_t)x;
        logs[x] = (uint16_t)j;
        x = x << 1 ^ (x >> (m - 1)) * field_polynomial(m);
    }
    for (int j = 0; j < m; j++)
        for (int i = 0; i < m; i++)
            power_logs[j][i] = (uint16_t)(((unsigned)j << i) % order);
}

/* The polynomial without its constant at each basis element. */
static void images_of(const struct polynomial *f, uint16_t *images)
{
    memset(images, 0, (size_t)f->m * sizeof *images);
    for (int i = 0; i < f->m; i++)
        if (f->coeffs[i] != 0) {
            const uint16_t *from = antilogs + logs[f->coeffs[i]];
            for (int j = 0; j < f->m; j++)
                images[j] ^= from[power_logs[j][i]];
        }
}

/* ---- the value at every element: that of x + 2^j is that of x plus the image of 2^j, eight at a time from 8 on ---- */

/* Which of sixteen values are 0, a bit for each; they are aligned to 16 bytes. */
static inline unsigned zeros(const uint16_t *values)
{
#ifdef __aarch64__
    static const uint8_t weights[16] = {1, 2, 4, 8, 16, 32, 64, 128, 1, 2, 4, 8, 16, 32, 64, 128};
    uint8x8_t low = vmovn_u16(vceqzq_u16(vld1q_u16(values))), high = vmovn_u16(vceqzq_u16(vld1q_u16(values + 8)));
    uint8x16_t found = vandq_u8(vcombine_u8(low, high), vld1q_u8(weights));
    return vaddv_u8(vget_low_u8(found)) | (unsigned)vaddv_u8(vget_high_u8(found)) << 8;
#else
    const __m128i *at = (const __m128i *)values, zero = _mm_setzero_si128();
    return (unsigned)_mm_movemask_epi8(_mm_packs_epi16(_mm_cmpeq_epi16(at[0], zero), _mm_cmpeq_epi16(at[1], zero)));
#endif
}

static size_t every(const struct polynomial *f, uint16_t *list)
{
    static uint16_t values[ELEMENTS] __attribute__((aligned(16)));
    uint16_t images[WIDEST];
    size_t s = 0;
    images_of(f, images);
    values[0] = f->constant;
    for (int j = 0; j < f->m; j++) {
        size_t half = (size_t)1 << j;
        for (size_t x = 0; x < half; x++)
            values[half + x] = values[x] ^ images[j];
    }
    for (unsigned x = 0; x < 1u << f->m; x += 16)
        for (unsigned bits = zeros(values + x); bits != 0; bits &= bits - 1)
            list[s++] = (uint16_t)(x + (unsigned)__builtin_ctz(bits));
    return s;
}

/* ---- elimination: vectors (image, element) with a pivot at the lowest bit of their image; those with image 0 are the kernel ---- */

/* The kernel's elements, each with a highest bit of its own that no other has, ascending; how many they are. */
static unsigned reduced(uint16_t *kernel, unsigned k)
{
    for (unsigned bit = WIDEST, done = k; bit-- > 0 && done > 0;)
        for (unsigned i = 0; i < done; i++)
            if (kernel[i] >> bit & 1) {
                uint16_t b = kernel[i];
                kernel[i] = kernel[--done];
                kernel[done] = b;
                for (unsigned j = 0; j < k; j++)
                    if (j != done && kernel[j] >> bit & 1)
                        kernel[j] ^= b;
                break;
            }
    return k;
}

static size_t eliminated(const struct polynomial *f, uint16_t *list)
{
    uint16_t images[WIDEST], elements[WIDEST], kernel[WIDEST], rest = f->constant, root = 0;
    unsigned k = 0;
    images_of(f, images);
    for (int j = 0; j < f->m; j++)
        elements[j] = (uint16_t)(1u << j);
    for (int j = 0; j < f->m; j++) {
        uint16_t image = images[j], element = elements[j], low = image & (uint16_t)-image;
        if (image == 0) {
            kernel[k++] = element;
            continue;
        }
        for (int i = j + 1; i < f->m; i++) {
            uint16_t with = images[i] & low ? 0xFFFF : 0;
            images[i] ^= image & with;
            elements[i] ^= element & with;
        }
        if (rest & low) {
            rest ^= image;
            root ^= element;
        }
    }
    if (rest != 0)
        return 0;
    reduced(kernel, k);
    for (unsigned i = k; i-- > 0;)
        if ((root ^ kernel[i]) < root)
            root ^= kernel[i];
    list[0] = root;
    for (unsigned i = 0; i < k; i++)
        for (size_t x = 0, half = (size_t)1 << i; x < half; x++)
            list[half + x] = list[x] ^ kernel[i];
    return (size_t)1 << k;
}

static size_t ours(const struct polynomial *f, uint16_t *list)
{
    return locator_affine((uint16_t)f->m, f->coeffs, (size_t)f->m, f->constant, list, ELEMENTS).count;
}

static const struct way {
    const char *name;
    size_t (*solve)(const struct polynomial *f, uint16_t *list);
} ways[] = {{"ours", ours}, {"every", every}, {"eliminated", eliminated}};

enum { WAYS = sizeof ways / sizeof *ways };

/* ---- inputs ---- */

static const struct set {
    const char *name;
    int m, dimension;
} sets[] = {
    {"11.0", 11, 0}, {"11.1", 11, 1}, {"11.5", 11, 5}, {"11.10", 11, 10}, {"11.11", 11, 11}, {"11.none", 11, NONE},
    {"8.0", 8, 0},   {"8.4", 8, 4},   {"8.8", 8, 8},   {"8.none", 8, NONE}, {"4.0", 4, 0},   {"4.4", 4, 4},
};

enum { SETS = sizeof sets / sizeof *sets };

static unsigned value_at(const struct polynomial *f, unsigned x)
{
    unsigned sum = f->constant;
    for (int i = 0; i < f->m; i++, x = product(f->m, x, x))
        sum ^= product(f->m, f->coeffs[i], x);
    return sum;
}

static size_t plain(const struct polynomial *f, uint16_t *list)
{
    size_t s = 0;
    for (unsigned x = 0; x < 1u << f->m; x++)
        if (value_at(f, x) == 0)
            list[s++] = (uint16_t)x;
    return s;
}

/* f becomes c f + f^2, so that it is zero at b too where c is its value there; places go round, since z^(2^m) = z at every element. */
static void widen(struct polynomial *f, unsigned b)
{
    struct polynomial wide = {f->m, {0}, 0};
    unsigned c = value_at(f, b);
    for (int i = 0; i < f->m; i++) {
        wide.coeffs[i] ^= (uint16_t)product(f->m, c, f->coeffs[i]);
        wide.coeffs[(i + 1) % f->m] ^= (uint16_t)product(f->m, f->coeffs[i], f->coeffs[i]);
    }
    *f = wide;
}

/* The polynomial outer of f, which is dense where outer is. */
static void follow(struct polynomial *f, const uint16_t *outer)
{
    struct polynomial made = {f->m, {0}, 0}, power = *f;
    for (int i = 0; i < f->m; i++) {
        for (int j = 0; j < f->m; j++) {
            made.coeffs[(i + j) % f->m] ^= (uint16_t)product(f->m, outer[i], power.coeffs[j]);
            power.coeffs[j] = (uint16_t)product(f->m, power.coeffs[j], power.coeffs[j]);
        }
    }
    *f = made;
}

/* A polynomial of the set: zero at chosen elements, then under a dense one; drawn again until it has as many roots as it should. */
static struct polynomial make(const struct set *set)
{
    const unsigned size = 1u << set->m;
    const int wanted = set->dimension == NONE ? set->m / 2 : set->dimension;
    uint16_t list[ELEMENTS], outer[WIDEST];
    for (;;) {
        struct polynomial f = {set->m, {1}, 0};
        for (int k = 0; k < wanted; k++)
            widen(&f, draw(size));
        for (int i = 0; i < set->m; i++)
            outer[i] = (uint16_t)draw(size);
        follow(&f, outer);
        if (plain(&f, list) != (size_t)1 << wanted)
            continue;
        f.constant = (uint16_t)(set->dimension == NONE ? draw(size) : value_at(&f, draw(size)));
        if (set->dimension != NONE || plain(&f, list) == 0)
            return f;
    }
}

static void make_all(const struct set *set, struct polynomial *all)
{
    draw_set((uint64_t)(set - sets + 1));
    for (size_t i = 0; i < LISTS; i++)
        all[i] = make(set);
}

/* ---- checking, timing, passes ---- */

static void check(const struct set *set)
{
    struct polynomial all[LISTS];
    size_t right[WAYS] = {0};
    make_all(set, all);
    hold(set->m);
    for (size_t i = 0; i < LISTS; i++) {
        uint16_t want[ELEMENTS], list[ELEMENTS];
        size_t s = plain(&all[i], want);
        for (size_t w = 0; w < WAYS; w++)
            right[w] += ways[w].solve(&all[i], list) == s && memcmp(list, want, s * sizeof *list) == 0;
    }
    for (size_t w = 0; w < WAYS; w++)
        printf("%s\t%s\t%zu\t%d\n", set->name, ways[w].name, right[w], LISTS);
}

/* The ways take turns; the least time of each chunk of polynomials counts, so that other work on the machine disturbs little. */
static void time_set(const struct set *set)
{
    static uint16_t list[ELEMENTS];
    struct polynomial all[LISTS];
    double least[WAYS][LISTS / CHUNK];
    make_all(set, all);
    hold(set->m);
    double begun = now();
    for (int round = 0; round < 15 || now() - begun < 5e8; round++)
        for (size_t w = 0; w < WAYS; w++)
            for (size_t c = 0; c < LISTS / CHUNK; c++) {
                double t = now();
                for (size_t i = c * CHUNK; i < (c + 1) * CHUNK; i++)
                    ways[w].solve(&all[i], list);
                t = now() - t;
                if (round == 0 || t < least[w][c])
                    least[w][c] = t;
            }
    for (size_t w = 0; w < WAYS; w++) {
        double sum = 0;
        for (size_t c = 0; c < LISTS / CHUNK; c++)
            sum += least[w][c];
        printf("%s\t%s\t%.0f\n", set->name, ways[w].name, sum / LISTS);
    }
    fflush(stdout);
}

static int passes(const char *set_name, const char *way_name, int k)
{
    static uint16_t list[ELEMENTS];
    for (const struct set *set = sets; set < sets + SETS; set++)
        for (size_t w = 0; w < WAYS; w++) {
            struct polynomial all[LISTS];
            if (strcmp(set->name, set_name) != 0 || strcmp(ways[w].name, way_name) != 0)
                continue;
            make_all(set, all);
            hold(set->m);
            for (int i = 0; i < k * LISTS; i++)
                ways[w].solve(&all[i % LISTS], list);
            return 0;
        }
    return 2;
}

int main(int argc, char **argv)
{
    if (argc == 5 && strcmp(argv[1], "pass") == 0)
        return passes(argv[2], argv[3], atoi(argv[4]));
    bool timing = argc == 2 && strcmp(argv[1], "time") == 0;
    if (!timing && (argc != 2 || strcmp(argv[1], "check") != 0))
        return 2;
    for (const struct set *set = sets; set < sets + SETS; set++)
        if (timing)
            time_set(set);
        else
            check(set);
    return 0;
}
