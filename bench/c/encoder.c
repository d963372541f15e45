/*
 * Block encoders beside each other, for bench/encoder: locator_encode, and Linux lib/bch.c in its usual build and in its
 * builds for one strength. All get the same data, drawn from a fixed seed.
 *
 *   encoder check         a line for each strength and encoder: strength, encoder, right words, words. A word is right
 *                         where it is a codeword by tests/c/block_rules.h and has the data that were given
 *   encoder pass T WHO K  K passes, 0 or 1, over the words, for counting: the difference of two counts is one pass
 */
#include "encoder.h"
#include "../../tests/c/block_rules.h"
#include "locator.h"
#include "measure.h"
#include <stdio.h>
#include <stdlib.h>
#include <string.h>

enum { WORDS = 64 };
static unsigned strength;

/* it serves every strength */
static bool start_ours(unsigned t)
{
    strength = t;
    return true;
}

/* its layout is that of the words */
static void copy(const uint8_t *from, uint8_t *to)
{
    memcpy(to, from, BLOCK_BYTES);
}

/* the call */
static void encode_ours(uint8_t *block)
{
    if (locator_encode((uint16_t)strength, block, BLOCK_BYTES).outcome != 0)
        abort();
}

static const struct corrector ours_layout = {"ours", start_ours, copy, copy, NULL};
static const struct block_encoder ours = {&ours_layout, encode_ours};
#define LISTED(name) &name##_encoder,
static const struct block_encoder *const encoders[] = {&ours, BCH_ENCODERS(LISTED)};
enum { ENCODERS = sizeof encoders / sizeof *encoders };

/* data in the bits in use, and noise in the check bits */
static void make(unsigned t, uint8_t words[WORDS][BLOCK_BYTES])
{
    draw_set(t);
    memset(words, 0, (size_t)WORDS * BLOCK_BYTES);
    for (size_t i = 0; i < WORDS; i++)
        for (unsigned j = 0; j < bits_in_use(t); j++)
            if (draw(2))
                flip_bit(words[i], j);
}

/* a codeword with the data of the word? */
static bool is_right(unsigned t, const uint8_t *word, const uint8_t *made)
{
    for (unsigned j = 11 * t; j < BLOCK_BITS; j++)
        if (bit_of(word, j) != bit_of(made, j))
            return false;
    return is_codeword(made, t);
}

/* right words of every encoder at every strength */
static int check(void)
{
    static uint8_t words[WORDS][BLOCK_BYTES];
    for (unsigned t = 1; t <= STRONGEST; t++) {
        make(t, words);
        for (size_t k = 0; k < ENCODERS; k++) {
            unsigned right = 0;
            if (!encoders[k]->layout->start(t))
                continue;
            for (size_t i = 0; i < WORDS; i++) {
                uint8_t block[BLOCK_BYTES], made[BLOCK_BYTES];
                encoders[k]->layout->load(words[i], block);
                encoders[k]->encode(block);
                encoders[k]->layout->store(block, made);
                right += is_right(t, words[i], made);
            }
            printf("%u\t%s\t%u\t%d\n", t, encoders[k]->layout->name, right, WORDS);
        }
    }
    return 0;
}

/* no pass or one, for counting */
static int pass(unsigned t, const char *who, int k)
{
    static uint8_t words[WORDS][BLOCK_BYTES], blocks[WORDS][BLOCK_BYTES];
    for (size_t c = 0; c < ENCODERS; c++) {
        if (strcmp(encoders[c]->layout->name, who) != 0 || !encoders[c]->layout->start(t))
            continue;
        make(t, words);
        for (size_t i = 0; i < WORDS; i++)
            encoders[c]->layout->load(words[i], blocks[i]);
        for (size_t i = 0; k == 1 && i < WORDS; i++)
            encoders[c]->encode(blocks[i]);
        return 0;
    }
    return 2;
}

int main(int argc, char **argv)
{
    if (argc == 2 && strcmp(argv[1], "check") == 0)
        return check();
    if (argc == 5 && strcmp(argv[1], "pass") == 0)
        return pass((unsigned)atoi(argv[2]), argv[3], atoi(argv[4]));
    return 2;
}
