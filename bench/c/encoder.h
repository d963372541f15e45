/* The face that every block encoder has in the benchmark bench/encoder. Only encode is counted. */
#ifndef ENCODER_H
#define ENCODER_H
#include "corrector.h"

struct block_encoder {
    const struct corrector *layout;  /* name, start, load and store */
    void (*encode)(uint8_t *block);  /* writes the check bits of a block in that layout */
};

#define BCH_ENCODERS(X) X(bch_usual) X(bch_const_1) X(bch_const_2) X(bch_const_3) X(bch_const_4) X(bch_const_5) X(bch_const_6) X(bch_const_7) X(bch_const_8)
#define DECLARED(name) extern const struct block_encoder name##_encoder;
BCH_ENCODERS(DECLARED)
#endif
