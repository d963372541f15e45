/* encoded: drives the block encoder of the C face on the cases of tests/second/blocks.py from standard input, and prints
   their lines. A word is lent at every alignment, between margins; a refusal must leave it as it was. */
#define DRIVER "encoded"
#include "block_rules.h"
#include "lent.h"
#include "lent_bytes.h"
#include "locator.h"

/* one case; an empty word is lent as a null pointer too */
static void run(uint16_t strength, size_t bytes, size_t shift)
{
    block b = lend_block(bytes, shift);
    locator_encoded e = locator_encode(strength, bytes == 0 && shift % 2 == 0 ? NULL : b.at, bytes);
    expect(e.outcome == 0 ? e.checks == 11 * strength : e.checks == 0, "another number of check bits");
    expect(e.outcome != 0 || is_codeword(b.at, strength), "a word that is no codeword");
    printf("%u %zu | %u", strength, bytes, e.outcome);
    if (e.outcome == 0)
        printf(" %u", e.checks);
    print_block(b);
    end_block(b);
}

int main(void)
{
    size_t count = 0;
    for (int strength = word(); strength != EOF; strength = word())
        run((uint16_t)strength, number(), count++ % 8);
    return fflush(stdout);
}
