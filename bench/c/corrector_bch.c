/* Linux lib/bch.c behind the face of bench/corrector. BCH_C names the file, which bench/lib.sh takes from Debian's
   linux-source-6.12. NAME is the corrector's name. Compiled with T it is the kernel's build for m = 11 and that
   strength alone (CONFIG_BCH_CONST_PARAMS), without it the usual build, which takes both at run time. */
#ifdef T
#define CONFIG_BCH_CONST_PARAMS
#define CONFIG_BCH_CONST_M 11
#define CONFIG_BCH_CONST_T T
#endif
#define JOINED(a, b) a##b
#define OWN(a, b) JOINED(a, b)
#define TEXT(a) #a
#define NAMED(a) TEXT(a)
#define bch_init OWN(NAME, _init)
#define bch_free OWN(NAME, _free)
#define bch_encode OWN(NAME, _encode)
#define bch_decode OWN(NAME, _decode)
#include BCH_C
#include "corrector.h"

enum { BYTES = 256 };
static struct bch_control *control;
static unsigned bits, data; /* how many bits are in use, and how many bytes of data */

/* The code of strength t, as long as whole bytes of data allow. */
static bool start(unsigned t)
{
#ifdef T
    if (t != T)
        return false;
#endif
    if (control)
        bch_free(control);
    control = bch_init(11, (int)t, 2053, false);
    bits = bits_in_use(t);
    data = (bits - 11 * t) / 8;
    return control != NULL;
}

/* The bit at x^j is bit bits - 1 - j from the front, the highest of a byte first: the data, then the check bits. */
static void turned(const uint8_t *from, uint8_t *to, bool from_block)
{
    memset(to, 0, BYTES);
    for (unsigned j = 0; j < bits; j++) {
        unsigned i = bits - 1 - j, in = from_block ? i ^ 7 : j, out = from_block ? j : i ^ 7;
        to[out / 8] |= (uint8_t)((from[in / 8] >> in % 8 & 1) << out % 8);
    }
}

/* From our layout. */
static void load(const uint8_t *word, uint8_t *block)
{
    turned(word, block, false);
}

/* And back. */
static void store(const uint8_t *block, uint8_t *word)
{
    turned(block, word, true);
}

/* Its user flips the bits that it names. */
static int correct(uint8_t *block)
{
    unsigned at[64];
    int n = bch_decode(control, block, data, block + data, NULL, NULL, at);
    for (int k = 0; k < n; k++)
        block[at[k] / 8] ^= (uint8_t)(1u << at[k] % 8);
    return n < 0 ? -1 : n;
}

const struct corrector NAME = {NAMED(NAME), start, load, store, correct};
