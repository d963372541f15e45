/* The face that every block corrector has in the benchmark bench/corrector. Only correct is timed and counted. */
#ifndef CORRECTOR_H
#define CORRECTOR_H
#include <stdbool.h>
#include <stdint.h>

struct corrector {
    const char *name;
    bool (*start)(unsigned t);                          /* false where it does not serve this strength */
    void (*load)(const uint8_t *word, uint8_t *block);  /* 256 bytes, bit j at x^j, into 256 bytes of its own layout */
    void (*store)(const uint8_t *block, uint8_t *word); /* and back */
    int (*correct)(uint8_t *block);                     /* flips what is wrong: how many bits, or -1: turned away */
};

extern const struct corrector bch_usual, bch_const_1, bch_const_2, bch_const_4, bch_const_8;

/* The bits in use at strength t: lib/bch.c takes whole bytes of data, and 11 t check bits. The bits above are 0. */
static inline unsigned bits_in_use(unsigned t)
{
    return (2047 - 11 * t) / 8 * 8 + 11 * t;
}
#endif
