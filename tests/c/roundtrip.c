/* There and back at every strength: words of noise are encoded by locator_encode, and by the rules (block_rules.h) what
   it makes is a codeword with their data; the corrector leaves it as it is, and brings it back with up to t of its bits
   flipped, and counts them. */
#define DRIVER "roundtrip"
#include "block_rules.h"
#include "lent.h"
#include "locator.h"

enum { TURNS = 20 };

/* a number below n that looks like nothing */
static unsigned noise(unsigned n)
{
    static uint32_t x = 1;
    x = x * 1664525 + 1013904223;
    return (x >> 8) % n;
}

/* the word is corrected to the codeword, by so many flips */
static void comes_back(unsigned t, const uint8_t *word, const uint8_t *codeword)
{
    uint8_t back[BLOCK_BYTES];
    memcpy(back, word, sizeof back);
    locator_corrected c = locator_correct((uint16_t)t, back, sizeof back);
    expect(c.outcome == 0 && c.flips == apart(word, codeword), "another number of flips");
    expect(memcmp(back, codeword, sizeof back) == 0, "a codeword that does not come back");
}

/* one word of noise, its check bits too */
static void turn(unsigned t)
{
    uint8_t word[BLOCK_BYTES], codeword[BLOCK_BYTES];
    for (size_t i = 0; i < BLOCK_BYTES; i++)
        word[i] = (uint8_t)noise(256);
    word[BLOCK_BYTES - 1] &= 127;
    memcpy(codeword, word, sizeof codeword);
    locator_encoded e = locator_encode((uint16_t)t, codeword, sizeof codeword);
    expect(e.outcome == 0 && e.checks == 11 * t, "another number of check bits");
    expect(is_codeword(codeword, t), "a word that is no codeword");
    for (unsigned j = e.checks; j < BLOCK_BITS; j++)
        expect(bit_of(codeword, j) == bit_of(word, j), "data that changed");
    memcpy(word, codeword, sizeof word);
    comes_back(t, word, codeword);
    for (unsigned k = 0; k < t; k++) {
        flip_bit(word, noise(BLOCK_BITS));
        comes_back(t, word, codeword);
    }
}

int main(void)
{
    for (unsigned t = 1; t <= STRONGEST; t++)
        for (unsigned k = 0; k < TURNS; k++)
            turn(t);
    printf("%d encoded words are codewords with their data, and come back from up to t flips\n", TURNS * STRONGEST);
    return 0;
}
