/* Linux lib/bch.c behind the face of bench/encoder, in the layout of bench/corrector; NAME and T as in corrector_bch.c. */
#include "corrector_bch.c"
#include "encoder.h"

/* Its user clears the check bits first. */
static void encode(uint8_t *block)
{
    memset(block + data, 0, (bits + 7) / 8 - data);
    bch_encode(control, block, data, block + data);
}

const struct block_encoder OWN(NAME, _encoder) = {&NAME, encode};
