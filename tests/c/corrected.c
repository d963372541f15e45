/* corrected: drives the block corrector of the C face on the cases of tests/second/blocks.py from standard input, and prints
   their lines. A word is lent at every alignment, between margins; a refusal must leave it as it was. */
#define DRIVER "corrected"
#include "lent.h"
#include "lent_bytes.h"
#include "locator.h"

/* how many bits of the word are not what they were */
static unsigned changed(block b)
{
    unsigned bits = 0;
    for (size_t i = 0; i < b.n; i++)
        for (unsigned x = b.at[i] ^ b.was[i]; x != 0; x &= x - 1)
            bits++;
    return bits;
}

/* one case; an empty word is lent as a null pointer too */
static void run(uint16_t strength, size_t bytes, size_t shift)
{
    block b = lend_block(bytes, shift);
    locator_corrected c = locator_correct(strength, bytes == 0 && shift % 2 == 0 ? NULL : b.at, bytes);
    expect(c.outcome == 0 || c.flips == 0, "a refusal with a value");
    expect(changed(b) == c.flips, "another number of bits changed than it says");
    printf("%u %zu | %u", strength, bytes, c.outcome);
    if (c.outcome == 0)
        printf(" %u", c.flips);
    print_block(b);
    end_block(b);
}

int main(void)
{
    size_t count = 0;
    for (int strength = word(); strength != EOF; strength = word())
        run((uint16_t)strength, number(), count++ % 8);
    return fflush(stdout);
}
