/* Two decoders that need not trust each other. Each line of standard input has a field degree and the coefficients of a polynomial f, the constant first. One
   process finds the roots of f, makes the claim about them with locator_prove and sends it over a pipe; then it sends the claim again with a slip, one way after
   the other. The other process checks what comes, without looking for roots, and prints the claims that are right and what it says of each. */
#include "locator.h"
#include "numbers.h"
#include <stdio.h>
#include <stdlib.h>
#include <string.h>
#include <sys/wait.h>
#include <unistd.h>

/* What is sent: a word about it, f, and the claim. */
typedef struct {
    char about[40];
    uint16_t m, nf, count, f[LOCATOR_COEFFICIENTS], roots[LOCATOR_ROOTS], mults[LOCATOR_ROOTS];
    uint16_t h[LOCATOR_COEFFICIENTS], u[LOCATOR_COEFFICIENTS], v[LOCATOR_COEFFICIENTS];
} claim;

static void print(const char *name, const uint16_t *at, size_t n)
{
    while (n > 0 && at[n - 1] == 0 && name[1] == '\0')
        n--;
    printf("  %s:", name);
    for (size_t i = 0; i < n; i++)
        printf(" %u", at[i]);
    printf("\n");
}

/* The process that checks: until the pipe ends. */
static void checked(int from)
{
    claim c;
    while (read(from, &c, sizeof c) == (ssize_t)sizeof c) {
        locator_claim r = locator_check(c.m, c.f, c.nf, c.roots, c.count, c.mults, c.count, c.h, LOCATOR_COEFFICIENTS, c.u, LOCATOR_COEFFICIENTS, c.v, LOCATOR_COEFFICIENTS);
        if (r.accepted) {
            printf("field %u\n", c.m);
            print("f", c.f, c.nf);
            print("roots", c.roots, c.count);
            print("times", c.mults, c.count);
            print("h", c.h, LOCATOR_COEFFICIENTS);
            print("u", c.u, LOCATOR_COEFFICIENTS);
            print("v", c.v, LOCATOR_COEFFICIENTS);
        }
        if (r.outcome != 0)
            printf("%s: refused under %u\n", c.about, r.outcome);
        else
            printf("%s: %s\n", c.about, r.accepted ? "accepted" : "no");
    }
}

/* Sends a claim, with a word about it. */
static void send_claim(int to, claim c, const char *about)
{
    snprintf(c.about, sizeof c.about, "%s", about);
    if (write(to, &c, sizeof c) != (ssize_t)sizeof c)
        perror("partner"), exit(1);
}

/* h times z + r */
static void times_linear(claim *c, uint16_t r)
{
    uint16_t below = 0;
    for (size_t i = 0; i < LOCATOR_COEFFICIENTS; i++) {
        uint16_t here = c->h[i];
        c->h[i] = below ^ locator_product(c->m, r, here).value;
        below = here;
    }
}

/* Claims with a slip each. */
static void slips(int to, claim right)
{
    claim c = right;
    memcpy(c.u, right.v, sizeof c.u);
    memcpy(c.v, right.u, sizeof c.v);
    send_claim(to, c, "u and v are swapped");
    c = right;
    times_linear(&c, right.count ? right.roots[0] : 1);
    send_claim(to, c, "h has a root");
    if (right.count == 0)
        return;
    c = right;
    c.count--;
    send_claim(to, c, "a root is dropped");
    c = right;
    c.mults[0]++;
    send_claim(to, c, "a multiplicity is too high");
    c = right;
    c.mults[0] = 0;
    send_claim(to, c, "a multiplicity is 0");
    c = right;
    c.roots[0] = (uint16_t)(1u << c.m);
    send_claim(to, c, "a root is no element");
    if (right.count < 2)
        return;
    c = right;
    c.roots[0] = right.roots[1], c.roots[1] = right.roots[0];
    c.mults[0] = right.mults[1], c.mults[1] = right.mults[0];
    send_claim(to, c, "the roots do not ascend");
}

/* The process that makes claims: of each line. */
static int made(int to)
{
    char line[1024];
    while (fgets(line, sizeof line, stdin) != NULL) {
        uint16_t word[1 + LOCATOR_COEFFICIENTS];
        size_t n = numbers(line, word, sizeof word / sizeof *word);
        if (n < 2)
            continue;
        claim c = {.m = word[0], .nf = (uint16_t)(n - 1)};
        memcpy(c.f, word + 1, (n - 1) * sizeof *word);
        locator_proved r = locator_prove(c.m, c.f, c.nf, c.roots, LOCATOR_ROOTS, c.mults, LOCATOR_ROOTS, c.h, LOCATOR_COEFFICIENTS, c.u, LOCATOR_COEFFICIENTS,
                                         c.v, LOCATOR_COEFFICIENTS);
        if (r.outcome != 0) {
            fprintf(stderr, "partner: refused under %u\n", r.outcome);
            return 1;
        }
        c.count = r.count;
        send_claim(to, c, "the claim");
        slips(to, c);
    }
    return 0;
}

int main(void)
{
    int ends[2], status;
    if (pipe(ends) != 0)
        return 1;
    pid_t other = fork();
    if (other < 0)
        return 1;
    if (other == 0) {
        close(ends[1]);
        checked(ends[0]);
        return fflush(stdout) != 0;
    }
    close(ends[0]);
    int failed = made(ends[1]);
    close(ends[1]);
    return waitpid(other, &status, 0) != other || status != 0 || failed;
}
