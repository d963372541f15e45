/* What the libFuzzer targets share: the input as a tape of bytes, polynomials from it, outcomes as counters, and the input that is tried kept in a file.
   The product has no instrumentation: its outcomes are reported to libFuzzer as counters of their own. Whoever includes this declares, before, CALLS
   and the name of each. */
#include "reference.h"
#include <fcntl.h>
#include <stdio.h>
#include <string.h>
#include <sys/mman.h>
#include <unistd.h>

/* bytes of an input that are looked at; outcomes are below OUTCOMES, each with so many DETAILS for libFuzzer */
enum { INPUT = 1024, OUTCOMES = 32, DETAILS = 200 };

static unsigned long tally[CALLS][OUTCOMES];
__attribute__((section("__libfuzzer_extra_counters"))) static uint8_t reached[CALLS * OUTCOMES * DETAILS];

static void expect(int holds, const char *what)
{
    if (!holds) {
        fprintf(stderr, "fuzz: %s\n", what);
        abort();
    }
}

/* counts the call, and tells libFuzzer what came of it */
static void note(int call, unsigned outcome, unsigned detail)
{
    expect(outcome < OUTCOMES, "an outcome that is no number of RULES 8.3");
    tally[call][outcome]++;
    reached[((unsigned)call * OUTCOMES + outcome) * DETAILS + detail % DETAILS] = 1;
}

static void print_tally(void)
{
    for (int c = 0; c < CALLS; c++) {
        fprintf(stderr, "%s:", name[c]);
        for (int k = 0; k < OUTCOMES; k++)
            if (tally[c][k] != 0)
                fprintf(stderr, " outcome %d: %lu", k, tally[c][k]);
        fprintf(stderr, "\n");
    }
}

/* ---- the input */

static const uint8_t *tape;
static size_t left;

static unsigned byte(void)
{
    return left == 0 ? 0 : (left--, *tape++);
}

static unsigned word(void)
{
    unsigned low = byte();
    return low | byte() << 8;
}

static uint16_t degree(void)
{
    unsigned b = byte();
    return (uint16_t)(b % 8 == 7 ? word() : b % 8 == 6 ? b : b % 3 == 0 ? 4 : b % 3 == 1 ? 8 : 11);
}

/* an element of the field where there is one, or sometimes any number */
static uint16_t element(unsigned m, unsigned loose)
{
    unsigned x = word();
    return (uint16_t)(known(m) && !loose ? x % (1u << m) : x);
}

/* n coefficients, mostly up to two more than are accepted and always below most: any, or the product of z + r over numbers r, often the
   same again, times z^k */
static size_t polynomial(unsigned m, uint16_t *f, size_t most)
{
    unsigned kind = byte();
    size_t n = kind < 250 ? byte() % (DEGREE + 4) : word() % most;
    if (kind % 2 == 0 || !known(m) || n == 0 || n > DEGREE + 1) {
        for (size_t i = 0; i < n; i++)
            f[i] = element(m, kind % 16 == 0 && byte() % 8 == 0);
        return n;
    }
    memset(f, 0, n * sizeof *f);
    f[0] = 1;
    uint16_t r = 0;
    for (size_t d = 1; d < n; d++) {
        r = kind % 4 == 3 && byte() % 2 ? r : element(m, 0);
        for (size_t i = d; i > 0; i--)
            f[i] = (uint16_t)(f[i - 1] ^ times(m, f[i], r));
        f[0] = (uint16_t)times(m, f[0], r);
    }
    return n;
}

/* the input that is tried, in the file that FUZZ_LAST names: an emulator may end the program before libFuzzer has saved it. Zeros behind it change nothing */
static uint8_t *last;

/* once, before the first input */
static int start(void)
{
    const char *path = getenv("FUZZ_LAST");
    if (path != NULL) {
        int file = open(path, O_RDWR | O_CREAT | O_TRUNC, 0644);
        expect(file >= 0 && ftruncate(file, INPUT) == 0, "FUZZ_LAST cannot be written");
        last = mmap(NULL, INPUT, PROT_READ | PROT_WRITE, MAP_SHARED, file, 0);
        expect(last != MAP_FAILED, "FUZZ_LAST cannot be mapped");
    }
    return atexit(print_tally);
}

/* the tape is this input */
static void wind(const uint8_t *data, size_t size)
{
    tape = data;
    left = size < INPUT ? size : INPUT;
    if (last != NULL) {
        memset(last, 0, INPUT);
        memcpy(last, data, left);
    }
}
