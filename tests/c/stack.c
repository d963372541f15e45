/* Runs every call of the C face on a painted stack, in every field, on a polynomial of the highest degree that splits, and prints the most that was used.
   The block corrector has eight wrong bits at strength 8, and then nine, which it turns away. The affine polynomials have one root, half of the elements
   as roots, every element, and none. The record that is written has as many roots as a record can have. The claims that are checked and made are
   about that polynomial, and one more is made about a polynomial that does not split. A word is encoded at every strength. Fails where it is more than LOCATOR_STACK. */
#define _GNU_SOURCE
#include "locator.h"
#include <stdio.h>
#include <string.h>
#include <ucontext.h>

enum { CALLS = 16, WIDEST = 11, PAINT = 0xA5 };

static const char *const name[CALLS] = {"product", "inverse", "position", "quadratic", "solve", "search", "begin", "step", "finish", "correct", "affine",
                                        "salvage", "write", "check", "encode", "prove"};
static unsigned char stack[1 << 20];
static ucontext_t home, there;
static uint16_t field, f[LOCATOR_COEFFICIENTS], roots[LOCATOR_ROOTS], mults[LOCATOR_ROOTS], table[LOCATOR_SLOTS], elements[LOCATOR_ELEMENTS];
static uint8_t word[LOCATOR_WORD], file[256], kept[256], record[LOCATOR_RECORD];
static int call;
static unsigned failed;

/* Zeros are a codeword: eight bits of it flipped are corrected, nine turned away. */
static void correct(void)
{
    for (unsigned k = 0; k < 9; k++)
        word[k * 28] ^= 16;
    failed |= locator_correct(8, word, LOCATOR_WORD).outcome != 24;
    word[0] ^= 16;
    locator_corrected c = locator_correct(8, word, LOCATOR_WORD);
    failed |= c.outcome != 0 || c.flips != 8;
}

/* A word with data at every strength. */
static void encode(void)
{
    memset(word, 0x5A, sizeof word);
    for (uint16_t t = 1; t <= 8; t++)
        failed |= locator_encode(t, word, LOCATOR_WORD).outcome;
    memset(word, 0, sizeof word);
}

/* One term alone, the trace, all zeros, and zeros beside a constant. */
static void affine(void)
{
    uint16_t one[WIDEST] = {5}, trace[WIDEST] = {1, 1, 1, 1, 1, 1, 1, 1, 1, 1, 1}, zeros[WIDEST] = {0};
    failed |= locator_affine(field, one, field, 9, elements, LOCATOR_ELEMENTS).count != 1;
    failed |= locator_affine(field, trace, field, 1, elements, LOCATOR_ELEMENTS).dimension != field - 1;
    failed |= locator_affine(field, zeros, field, 0, elements, LOCATOR_ELEMENTS).dimension != field;
    failed |= locator_affine(field, zeros, field, 7, elements, LOCATOR_ELEMENTS).count != 0;
}

/* Marks everywhere, and one record that is kept. */
static void salvage(void)
{
    static const uint8_t constant[7] = {0x4C, 0x52, 4, 0, 1, 1, 0};
    for (unsigned k = 0; k < sizeof file; k++)
        file[k] = k % 2 == 0 ? 0x4C : 0x52;
    memcpy(file + 100, constant, sizeof constant);
    locator_salvaged s = locator_salvage(file, sizeof file, kept, sizeof kept);
    failed |= s.outcome != 0 || s.length != sizeof constant;
}

/* The last 16 or 64 elements of the field; then a room one byte short. */
static void write_record(void)
{
    uint16_t size = (uint16_t)(1u << field), n = size < LOCATOR_ROOTS ? size : LOCATOR_ROOTS, last[LOCATOR_ROOTS];
    for (uint16_t k = 0; k < n; k++)
        last[k] = (uint16_t)(size - n + k);
    locator_written w = locator_write(field, 1, last, n, record, LOCATOR_RECORD);
    failed |= w.outcome != 0 || w.length != 7 + 2 * n;
    failed |= locator_write(field, 1, last, n, record, 6 + 2u * n).outcome != 7;
}

/* The polynomial of the highest degree is its roots' part, and the whole call left its roots: h is 1, u is 1 and v is 0. Then one root is left out, and h = z + r makes the longest way to "no". */
static void check(void)
{
    uint16_t one[1] = {1}, zero[1] = {0}, h[2] = {0, 1}, size = (uint16_t)(1u << field), n = size < LOCATOR_ROOTS ? size : LOCATOR_ROOTS;
    failed |= locator_check(field, f, LOCATOR_COEFFICIENTS, roots, n, mults, n, one, 1, one, 1, zero, 1).accepted != 1;
    h[0] = roots[n - 1];
    failed |= locator_check(field, f, LOCATOR_COEFFICIENTS, roots, n - 1u, mults, n - 1u, h, 2, one, 1, f, LOCATOR_COEFFICIENTS).accepted != 0;
}

/* The claim about that polynomial, and about one that does not split. */
static void prove(void)
{
    static uint16_t h[LOCATOR_COEFFICIENTS], u[LOCATOR_COEFFICIENTS], v[LOCATOR_COEFFICIENTS], dense[LOCATOR_COEFFICIENTS];
    failed |= locator_prove(field, f, LOCATOR_COEFFICIENTS, roots, LOCATOR_ROOTS, mults, LOCATOR_ROOTS, h, LOCATOR_COEFFICIENTS, u, LOCATOR_COEFFICIENTS, v,
                            LOCATOR_COEFFICIENTS).outcome;
    for (size_t i = 0; i < LOCATOR_COEFFICIENTS; i++)
        dense[i] = (uint16_t)((i * i + 1) % (1u << field));
    dense[LOCATOR_COEFFICIENTS - 1] = 1;
    locator_proved c = locator_prove(field, dense, LOCATOR_COEFFICIENTS, roots, LOCATOR_ROOTS, mults, LOCATOR_ROOTS, h, LOCATOR_COEFFICIENTS, u,
                                     LOCATOR_COEFFICIENTS, v, LOCATOR_COEFFICIENTS);
    failed |= c.outcome != 0;
    failed |= locator_check(field, dense, LOCATOR_COEFFICIENTS, roots, c.count, mults, c.count, h, LOCATOR_COEFFICIENTS, u, LOCATOR_COEFFICIENTS, v,
                            LOCATOR_COEFFICIENTS).accepted != 1;
}

static void go(void)
{
    switch (call) {
    case 0: failed |= locator_product(field, 3, 5).outcome; break;
    case 1: failed |= locator_inverse(field, 7).outcome; break;
    case 2: failed |= locator_position(field, 9, LOCATOR_RECORDERS).outcome; break;
    case 3: failed |= locator_quadratic(field, 1, 6).outcome; break;
    case 4: failed |= locator_solve(field, f, LOCATOR_COEFFICIENTS, 1, roots, LOCATOR_ROOTS, mults, LOCATOR_ROOTS).outcome; break;
    case 5: failed |= locator_search(field, f, LOCATOR_COEFFICIENTS, roots, LOCATOR_ROOTS, mults, LOCATOR_ROOTS).outcome; break;
    case 6: failed |= locator_begin(field, f, LOCATOR_COEFFICIENTS, 3, table, LOCATOR_SLOTS); break;
    case 7: while (locator_step(table, LOCATOR_SLOTS).done == 0 && failed == 0) ; break;
    case 8: failed |= locator_finish(table, LOCATOR_SLOTS, roots, LOCATOR_ROOTS).outcome; break;
    case 9: correct(); break;
    case 10: affine(); break;
    case 11: salvage(); break;
    case 12: write_record(); break;
    case 13: check(); break;
    case 14: encode(); break;
    case 15: prove(); break;
    }
}

/* f: the product of z + r over 16 or 64 elements r */
static void split_polynomial(void)
{
    unsigned size = 1u << field, degree = size < LOCATOR_ROOTS ? size : LOCATOR_ROOTS;
    memset(f, 0, sizeof f);
    f[0] = 1;
    for (unsigned k = 0; k < degree; k++) {
        uint16_t r = (uint16_t)((k * 7 + 1) % size);
        for (unsigned i = k + 1; i > 0; i--)
            f[i] = f[i - 1] ^ locator_product(field, f[i], r).value;
        f[0] = locator_product(field, f[0], r).value;
    }
}

static size_t used(void)
{
    size_t i = 0;
    memset(stack, PAINT, sizeof stack);
    getcontext(&there);
    there.uc_stack.ss_sp = stack;
    there.uc_stack.ss_size = sizeof stack;
    there.uc_link = &home;
    makecontext(&there, go, 0);
    swapcontext(&home, &there);
    while (i < sizeof stack && stack[i] == PAINT)
        i++;
    return sizeof stack - i;
}

int main(void)
{
    static const uint16_t fields[] = {4, 8, 11};
    size_t most[CALLS] = {0}, all = 0;
    for (int k = 0; k < 3; k++) {
        field = fields[k];
        split_polynomial();
        for (call = 0; call < CALLS; call++) {
            size_t u = used();
            if (most[call] < u)
                most[call] = u;
        }
    }
    printf("stack in bytes:");
    for (int i = 0; i < CALLS; i++) {
        printf(" %s %zu", name[i], most[i]);
        if (all < most[i])
            all = most[i];
    }
    printf("\n");
    if (failed != 0 || all > LOCATOR_STACK) {
        fprintf(stderr, "stack: %zu bytes where locator.h says %d (outcomes %u)\n", all, LOCATOR_STACK, failed);
        return 1;
    }
    return 0;
}
