/* The rules of the block corrector (docs/RULES.md section 7) in plain C, for the fuzz target and the benchmark: a word
   is 2047 bits in 256 bytes, bit j in byte j div 8 at weight 2^(j mod 8); its value at a^i is the sum of a^(i j) over
   its bits j, in the field of x^11 + x^2 + 1 with a = 2. Nothing here is the product's. */
#ifndef BLOCK_RULES_H
#define BLOCK_RULES_H
#include <stdint.h>

enum { BLOCK_BYTES = 256, BLOCK_BITS = 2047, STRONGEST = 8 };

/* a^0 to a^2046, made by doubling */
static inline const uint16_t *powers_of_a(void)
{
    static uint16_t powers[BLOCK_BITS];
    if (powers[0] == 0)
        for (unsigned j = 0, x = 1; j < BLOCK_BITS; j++, x = x << 1 ^ (x >> 10) * 2053)
            powers[j] = (uint16_t)x;
    return powers;
}

/* bit j of a word */
static inline unsigned bit_of(const uint8_t *word, unsigned j)
{
    return word[j / 8] >> j % 8 & 1;
}

/* flips bit j of a word */
static inline void flip_bit(uint8_t *word, unsigned j)
{
    word[j / 8] ^= (uint8_t)(1u << j % 8);
}

/* the word's value at a^i */
static inline unsigned word_at(const uint8_t *word, unsigned i)
{
    const uint16_t *powers = powers_of_a();
    unsigned sum = 0;
    for (unsigned j = 0, e = 0; j < BLOCK_BITS; j++, e = (e + i) % BLOCK_BITS)
        if (bit_of(word, j))
            sum ^= powers[e];
    return sum;
}

/* is the word zero at a^1 to a^(2t), and its last bit 0? */
static inline int is_codeword(const uint8_t *word, unsigned t)
{
    if (bit_of(word, BLOCK_BITS))
        return 0;
    for (unsigned i = 1; i <= 2 * t; i++)
        if (word_at(word, i) != 0)
            return 0;
    return 1;
}

/* in how many bits two words differ */
static inline unsigned apart(const uint8_t *one, const uint8_t *other)
{
    unsigned bits = 0;
    for (unsigned k = 0; k < BLOCK_BYTES; k++)
        for (unsigned x = one[k] ^ other[k]; x != 0; x &= x - 1)
            bits++;
    return bits;
}

#endif
