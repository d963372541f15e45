/* locator.h: the roots of locator polynomials over GF(2^m), m = 4, 8 or 11, a check of a partner's list
   of roots and the making of one, a corrector and an encoder of blocks over m = 11, salvage of job files,
   and a writer of their records. Link with liblocator.a or liblocator.so (tools/library builds them,
   tools/install installs them; then pkg-config --cflags --libs locator has the compiler's options).

   Every call is proved to do what stands over it, for every input (crates/locator/src/lib.rt has the
   contracts). docs/RULES.md has the rules in full: fields and element calls are its sections 1 and 2,
   polynomials 3 (affine ones 3.6), work tables 4, the block corrector and encoder 7, refusals and their
   order 8, salvage 11, writing records 12, claims of roots 14.

   FIELDS. m is 4, 8 or 11, with the polynomials x^4+x+1, x^8+x^4+x^3+x^2+1 and x^11+x^2+1. An element is
   a number below 2^m whose bits are coefficients, bit 0 the constant; a is the element 2.

   POLYNOMIALS. n coefficients, the constant first, n from 1 to 65. Zeros at the top are allowed. The
   cutoff is 1, 2 or 3, or 0 for the house default, which is 3; the roots do not depend on it, the number
   of steps does. An affine polynomial, with terms at z^(2^i) and a constant alone, has a call of its
   own, and m coefficients beside its constant.

   OUTCOMES. 0: accepted. Any other is the number under which the input was turned away:
       1  there is no field of degree m          6  the cutoff is above 3
       2  a polynomial has no coefficients       7  a list has under 64 slots (of an affine polynomial's
                                                    roots under 2^m, of h, u and v of a claim under 65),
                                                    the table has not 196 (for step and finish: nor 100,
                                                    as a stored one has), or the room for a salvaged file
                                                    or a record is shorter than that
       3  a polynomial has more than 65          8  the table is not sound
          coefficients, or a record over 64 roots
       4  an element, a coefficient or a root    9  the table cannot be stepped: the first factor above
          is 2^m or more                            the cutoff has level m, or the steps are at their limit
       5  every coefficient of the polynomial   10  the table is not done
          is 0 (of a claim: of f)               13  an inverse or a position of 0
                                                20  an affine polynomial has not m coefficients
                                                21  the convention is neither 0 nor 1
                                                22  the word has not 256 bytes, or its last bit is set
                                                23  the strength is not 1 to 8
                                                24  no codeword is within the strength
                                                25  the roots of a record are not strictly ascending
   Where two apply, the one that stands first in the call's order is given. A refusal writes nothing, and
   its other fields are 0.

   WORK TABLES. A new one has LOCATOR_SLOTS slots, and the degrees of its factors sum up to at most 64. One
   that was stored when polynomials had a degree of at most 32 has LOCATOR_STORED_SLOTS and a sum of at
   most 32. Its size says which it is: step and finish take both, begin writes new ones alone, and no table
   changes its size.

   MEMORY. All memory is the caller's, before and after: no call keeps a pointer. A list is a pointer,
   aligned for uint16_t, and the number of its elements; a word, a file or the room for a record is a
   pointer, which need not be aligned, and the number of its bytes. A count of 0 is an empty list, and
   its pointer is not looked at: it may be null. With any other count the pointer must point to so many
   elements. Memory that a call may write must not overlap other memory lent to the same call. A list
   that is const is only read.

   WHERE IT MAY RUN. No call allocates, waits, calls out or keeps state; each ends. So any of them may
   run in an interrupt or in several threads at once, each over memory of its own. The archive asks for
   nothing but memcpy and memset. LOCATOR_STACK bytes of stack are enough for any call.

   MACHINES. x86-64 and aarch64 Linux; 32-bit ARM (armhf Linux, and Cortex-M from M3 on), and wasm32:
   tools/library --target. What holds on each:
       counts      the proved code counts in 64 bits everywhere. Where size_t has 32, tools/c/narrow.c
                   widens them.
       results     at most 16 bytes. These come back in registers in the same way by the x86-64 and the
                   aarch64 conventions; a larger one would not, and is not to be added. Where pointers
                   have 32 bits, tools/c/narrow.c gives them as C expects there, on wasm32 through a
                   pointer as the first word.
       asked for   memcpy and memset; on 32-bit ARM the compiler's divisions of 64 bits too (libgcc).
       stack       the most measured, in bytes (tests/c/stack.c): x86-64 18,328, in locator_prove;
                   every other call takes less than 10,000. tests/machines measures the other machines
                   (aarch64 took 48,736 when tables still stood on the stack). wasm32 has a stack of
                   its own, 128 KB in locator.wasm. On x86-64 and aarch64 a frame probes the stack page
                   by page, so that it cannot step over a guard page; elsewhere it does not. */
#ifndef LOCATOR_H
#define LOCATOR_H

#include <stddef.h>
#include <stdint.h>

#ifdef __cplusplus
extern "C" {
#endif

/* The version. Scripts and packages take it from here, and tests/promises looks whether the other places
   that state it say the same. Its first number is that of liblocator.so's name. */
#define LOCATOR_VERSION "0.1.0"

/* The slots of a new work table, and of a stored one (WORK TABLES above); the fewest slots of a list of
   roots or multiplicities; the most coefficients; slots that are enough for the roots of an affine
   polynomial in any field; the bytes of a block corrector's word; the most bytes of a record that is
   written. */
#define LOCATOR_SLOTS 196
#define LOCATOR_STORED_SLOTS 100
#define LOCATOR_ROOTS 64
#define LOCATOR_COEFFICIENTS 65
#define LOCATOR_ELEMENTS 2048
#define LOCATOR_WORD 256
#define LOCATOR_RECORD 135

/* The conventions of a position, by how a locator is built from the bad bits, X = 2^place for each:
   Goppa codes: the product of (z + X), whose roots are the X themselves;
   recorders: the product of (1 + X z), whose roots are the inverses of the X. */
#define LOCATOR_GOPPA 0
#define LOCATOR_RECORDERS 1

/* Stack, in bytes, that is enough for any call (tests/c/stack.c measures it). */
#define LOCATOR_STACK 57344

/* The outcomes by name (OUTCOMES above says when each is given). 11 and 12 are of the records of a job
   file, and no call gives them: the program `roots` prints them. */
enum locator_outcome {
    LOCATOR_ACCEPTED = 0,
    LOCATOR_REFUSED_FIELD = 1,
    LOCATOR_REFUSED_EMPTY = 2,
    LOCATOR_REFUSED_LONG = 3,
    LOCATOR_REFUSED_ELEMENT = 4,
    LOCATOR_REFUSED_ALL_ZERO = 5,
    LOCATOR_REFUSED_CUTOFF = 6,
    LOCATOR_REFUSED_ROOM = 7,
    LOCATOR_REFUSED_UNSOUND = 8,
    LOCATOR_REFUSED_STUCK = 9,
    LOCATOR_REFUSED_NOT_DONE = 10,
    LOCATOR_REFUSED_MARK = 11,
    LOCATOR_REFUSED_SHORT = 12,
    LOCATOR_REFUSED_OF_ZERO = 13,
    LOCATOR_REFUSED_COUNT = 20,
    LOCATOR_REFUSED_CONVENTION = 21,
    LOCATOR_REFUSED_BLOCK = 22,
    LOCATOR_REFUSED_STRENGTH = 23,
    LOCATOR_REFUSED_FAR = 24,
    LOCATOR_REFUSED_ORDER = 25
};

/* What an outcome means, as static text for a message; "no such outcome" for a number that is none. It
   stands here and not in the library, which holds the proved code alone. */
static inline const char *locator_reason(uint16_t outcome)
{
    switch (outcome) {
    case LOCATOR_ACCEPTED: return "accepted";
    case LOCATOR_REFUSED_FIELD: return "there is no field of this degree";
    case LOCATOR_REFUSED_EMPTY: return "there are no coefficients";
    case LOCATOR_REFUSED_LONG: return "there are more than 65 coefficients, or 64 roots of a record";
    case LOCATOR_REFUSED_ELEMENT: return "an element, a coefficient or a root is 2^m or more";
    case LOCATOR_REFUSED_ALL_ZERO: return "every coefficient is 0";
    case LOCATOR_REFUSED_CUTOFF: return "the cutoff is above 3";
    case LOCATOR_REFUSED_ROOM: return "a buffer is too small, or a table has neither 196 nor 100 slots";
    case LOCATOR_REFUSED_UNSOUND: return "the table is not sound";
    case LOCATOR_REFUSED_STUCK: return "the table cannot be stepped";
    case LOCATOR_REFUSED_NOT_DONE: return "the table is not done";
    case LOCATOR_REFUSED_MARK: return "a record does not begin with its mark";
    case LOCATOR_REFUSED_SHORT: return "a record ends early";
    case LOCATOR_REFUSED_OF_ZERO: return "0 has no inverse and no position";
    case LOCATOR_REFUSED_COUNT: return "an affine polynomial has not m coefficients";
    case LOCATOR_REFUSED_CONVENTION: return "the convention is neither 0 nor 1";
    case LOCATOR_REFUSED_BLOCK: return "the word has not 256 bytes, or its last bit is set";
    case LOCATOR_REFUSED_STRENGTH: return "the strength is not 1 to 8";
    case LOCATOR_REFUSED_FAR: return "no codeword is within the strength";
    case LOCATOR_REFUSED_ORDER: return "the roots of a record are not strictly ascending";
    default: return "no such outcome";
    }
}

/* What an element call gives: the value, 0 where refused. */
typedef struct { uint16_t outcome, value; } locator_value;

/* What the quadratic gives: count is 0, 1 or 2. lower is the first root, upper the second; each is 0
   where there is none. doubled is 1 where there is one root, which is then double, else 0. */
typedef struct { uint16_t outcome, count, lower, upper, doubled; } locator_pair;

/* What was found: the number of roots and of steps. steps is 0 where the call takes none. */
typedef struct { uint16_t outcome, count, steps; } locator_found;

/* What an affine polynomial has: count roots, 0 where there is none, else 2^dimension. dimension is 0
   where there is no root, and where there is one. */
typedef struct { uint16_t outcome, count, dimension; } locator_space;

/* What a step gives: done is 1 where there was nothing to split, else 0. */
typedef struct { uint16_t outcome, done; } locator_stepped;

/* The product of a and b. Outcomes 0, 1, 4, in the order 1, 4. Writes nothing. */
locator_value locator_product(uint16_t m, uint16_t a, uint16_t b);

/* The x with a x = 1. Outcomes 0, 1, 4, 13, in the order 1, 4, 13. Writes nothing. */
locator_value locator_inverse(uint16_t m, uint16_t a);

/* The position of a root r of a locator: the place, from 0 to 2^m - 2, where the bad bit stands. With r
   = 2^j it is
       j                                 under LOCATOR_GOPPA: a product of (z + X), and X = r = 2^j;
       (2^m - 1 - j) modulo (2^m - 1)    under LOCATOR_RECORDERS: a product of (1 + X z), and X = 1/r;
                                         j = 0 stays 0.
   Under the wrong convention every place but 0 is the mirror image of the right one, and no call can
   tell.
   The places of a polynomial's roots are those of bad bits only where it has as many distinct roots as
   its degree (see locator_solve). Outcomes 0, 1, 4, 13, 21, in the order 1, 21, 4, 13. Writes nothing. */
locator_value locator_position(uint16_t m, uint16_t r, uint16_t convention);

/* The distinct roots of z^2 + a z + b, the lower number first. "No root" is outcome 0 with count 0;
   where a is 0 there is one root, double.
   Outcomes 0, 1, 4, in the order 1, 4. Writes nothing. */
locator_pair locator_quadratic(uint16_t m, uint16_t a, uint16_t b);

/* The whole call: all distinct roots of the polynomial, by splitting it along the trace. The roots fill
   the front of the list, ascending; the slots behind the last root are not written. The multiplicity of
   each root stands at the same place of the second list, mults: the largest e for which (z + r)^e
   divides the polynomial, from 1 to 64; the slots behind are not written. count is the number of
   distinct roots, steps that of the splitting steps at this cutoff.
   A decoder must compare count with the degree of its locator, where zeros at the top do not count. A
   polynomial is, up to a constant factor, the locator of a set of places exactly if it has as many
   distinct roots as its degree, none of them 0. Where count is less, the word has more bad bits than its
   code corrects, and the places of the roots that there are mean nothing: the word is not to be
   corrected by them (examples/c/recorder.c).
   Outcomes 0 and 1 to 7, in ascending order; 7 where room is under 64, and then where mult_room is. */
locator_found locator_solve(uint16_t m, const uint16_t *coeffs, size_t n, uint16_t cutoff, uint16_t *roots,
                            size_t room, uint16_t *mults, size_t mult_room);

/* The plain search: the same two lists in the same way, the roots by trying every element. steps is 0.
   Outcomes 0, 1 to 5 and 7, in ascending order; 7 where room is under 64, and then where mult_room is. */
locator_found locator_search(uint16_t m, const uint16_t *coeffs, size_t n, uint16_t *roots, size_t room,
                             uint16_t *mults, size_t mult_room);

/* The roots of an affine polynomial: constant + coeffs[0] z + coeffs[1] z^2 + coeffs[2] z^4 + .. +
   coeffs[m - 1] z^(2^(m-1)), by elimination on m rows of m + 1 bits; no element is tried, whatever the
   degree, up to 1024. It has no root, or its roots are one of them plus each element of a space over two
   values: 2^dimension roots. "None" is outcome 0 with count 0; one root is count 1 with dimension 0.
   Where every coefficient and the constant are 0, every element is a root, and dimension is m. The roots
   fill the front of the list, ascending; the slots behind the last root, all where there is none, are
   not written.
   Outcomes 0, 1, 20, 4, 7, in the order 1, 20, 4, 7: 20 where n is not m, whatever the coefficients are;
   4 where a coefficient or the constant is 2^m or more; 7 where room is under 2^m, however few the roots
   are. 5 is never given. examples/c/affine.c has an example. */
locator_space locator_affine(uint16_t m, const uint16_t *coeffs, size_t n, uint16_t constant,
                             uint16_t *roots, size_t room);

/* Begins a work table of 196 slots: m, the cutoff in force (1 to 3), the number of factors, the steps
   taken (0), then the factor of all distinct roots at level 0 (level, degree d, its d coefficients below
   the leading 1, the constant first), or no factor where there is no root; the other slots 0. Every slot
   is written, whatever the table held. Returns the outcome: 0 or 1 to 7, in ascending order; 7 where
   slots is not 196, also where it is 100. */
uint16_t locator_begin(uint16_t m, const uint16_t *coeffs, size_t n, uint16_t cutoff, uint16_t *table,
                       size_t slots);

/* One step: the first factor of a degree above the cutoff is replaced by the two parts that its level's
   trace bit makes of it, one level up, a constant one omitted, and slot 3 grows by 1. Where there is no
   such factor, done is 1 and nothing is written. Any table may be lent, begun or not, new or stored.
   Outcomes 0, 7, 8, 9, in the order 7, 8, 9; 7 where slots is neither 196 nor 100. */
locator_stepped locator_step(uint16_t *table, size_t slots);

/* Finish: every element at which some factor of a done table is zero, each once, ascending, at the front
   of the list; the slots behind the last are not written, nor is the table. count is their number; steps
   is 0. Any table may be lent, begun or not, new or stored.
   Outcomes 0, 7, 8, 10, in the order 7, 8, 10; 7 where slots is neither 196 nor 100, or room is under 64,
   whatever the size of the table. */
locator_found locator_finish(const uint16_t *table, size_t slots, uint16_t *roots, size_t room);

/* What the corrector gives: how many bits of the word it flipped, 0 where it was a codeword, and 0 where
   refused. */
typedef struct { uint16_t outcome, flips; } locator_corrected;

/* The block corrector. A word is 2047 bits in 256 bytes, bit j in byte j / 8 at weight 2^(j % 8); the
   last bit, at weight 128 of byte 255, is no bit of the word and must be 0. As a polynomial the word has
   bit j at x^j. It is a codeword of strength t, t from 1 to 8, if it is zero at a^1, a^2, .., a^(2t) in
   field 11. Two different codewords of strength t differ in more than 2t bits, so that at most one is
   within t bits of a word.

   If a codeword differs from the word in at most t bits, the word becomes that codeword, and flips is
   the number of bits in which it differed, 0 to t; no other bit of the lent memory changes. The word is
   turned away under 24 exactly if there is no such codeword: an accepted word is a codeword afterwards,
   always. What it was before the damage the call cannot know: where more than t bits are wrong, another
   codeword may be within t, and the word becomes that one.
   At strength 1 every word is within one bit of a codeword, and 24 is never given.

   Outcomes 0, 22, 23, 24, in this order: 22 where bytes is not 256 or the last bit is set, whatever the
   strength; 23 where strength is not 1 to 8; then 24. A refusal writes nothing.

   locator_encode makes codewords; examples/c/blocks.c records and corrects them. */
locator_corrected locator_correct(uint16_t strength, uint8_t *word, size_t bytes);

/* What the encoder gives: how many check bits the word has, 11 t, and 0 where refused. */
typedef struct { uint16_t outcome, checks; } locator_encoded;

/* The block encoder. Bits 11 t to 2046 of the word are its data: 2036 bits at strength 1, 1959 at
   strength 8. They stay as they are. Bits 0 to 11 t - 1, the check bits, are written, whatever they
   held, so that the word is a codeword of strength t. There is exactly one codeword with these data.
   locator_correct takes it with 0 flips, and gives it back where at most t of its bits are wrong;
   encoding a codeword changes nothing.

   Outcomes 0, 22, 23, in this order: 22 where bytes is not 256 or the last bit is set, whatever the
   strength; 23 where strength is not 1 to 8. A refusal writes nothing. examples/c/blocks.c has an
   example. */
locator_encoded locator_encode(uint16_t strength, uint8_t *word, size_t bytes);

/* What salvage gives: how many bytes it kept, 0 where refused. */
typedef struct { uint16_t outcome; size_t length; } locator_salvaged;

/* Salvage of a damaged job file. At each place, from the front on, a record is kept if its mark is
   there, it is complete, and the whole call would not refuse its field, coefficients or cutoff; what
   stands behind it comes next. Else one byte is dropped. The records kept are copied unaltered, in
   order, to the front of kept, length bytes in all; what is behind them is not written. A file of such
   records comes back unchanged, and salvaging what was kept changes nothing. The program `salvage`
   prints what was dropped as well. A job file has no checksum: a coefficient that was changed into
   another element gives a record that is kept, with other roots.
   Outcomes 0, 7; 7 where room is less than n, whatever the file holds. */
locator_salvaged locator_salvage(const uint8_t *file, size_t n, uint8_t *kept, size_t room);

/* What writing gives: how many bytes the record has, 0 where refused. */
typedef struct { uint16_t outcome, length; } locator_written;

/* Writes the job record of n roots, 0 to 64, strictly ascending: the mark 4C 52, m, the cutoff as it is
   given (0 stays 0), n + 1, and the n + 1 coefficients, two bytes each, low byte first, the constant
   first, of the monic polynomial with exactly these roots, each simple: the product of (z + r), which is
   1 where there are none. It fills the front of record, length bytes in all, 7 + 2 n, so that
   LOCATOR_RECORD bytes are room for any; what is behind it is not written, and the list of roots is only
   read. The same field, cutoff and roots give the same bytes. The reader accepts the record, whatever
   stands behind it, and the whole call on its coefficients lists the same roots, each with multiplicity
   1. The program `jobs` writes the records of lines of text.
   Outcomes 0, 1, 3, 4, 25, 6, 7, in the order 1, 3, 4, 25, 6, 7: 3 where n is above 64; 4 where a root
   is 2^m or more; 25 where a root is not above the one before it; 6 where the cutoff is above 3; 7 where
   room is less than 7 + 2 n. examples/c/record.c has an example. */
locator_written locator_write(uint16_t m, uint16_t cutoff, const uint16_t *roots, size_t n, uint8_t *record,
                              size_t room);

/* What the check of a claim gives: 1 where it is accepted, 0 for a plain "no" and where refused. */
typedef struct { uint16_t outcome, accepted; } locator_claim;

/* Checks a partner's list of roots of the polynomial f, without looking for roots. A claim is nr roots,
   beside each its multiplicity e, a cofactor h, and two polynomials u and v; each polynomial has 1 to 65
   coefficients, the constant first, and zeros at the top are ignored. It is accepted exactly if the
   roots are strictly ascending, ne is nr and each e at least 1, the product of (z + r)^e over the roots
   and h is f, and u h + v w = 1, where w is the remainder of z^(2^m) + z by h, or 0 if h is constant.
   Then roots and mults are what the whole call lists for f; and every f but 0 has a claim that is
   accepted. The work is bounded, however long the lists are and whatever the multiplicities say.
   Outcomes 0, 1, 2, 3, 4, 5: 2, then 3, where one of f, h, u and v has no coefficients, or too many; 4
   where one of their coefficients or a root is 2^m or more, whatever the multiplicities are; 5 where f
   is 0. Any other claim that is not accepted is a plain "no". examples/c/partner.c has an example. */
locator_claim locator_check(uint16_t m, const uint16_t *f, size_t nf, const uint16_t *roots, size_t nr,
                            const uint16_t *mults, size_t ne, const uint16_t *h, size_t nh,
                            const uint16_t *u, size_t nu, const uint16_t *v, size_t nv);

/* What the making of a claim gives: the number of roots. */
typedef struct { uint16_t outcome, count; } locator_proved;

/* Makes the claim about the polynomial f that locator_check accepts. The roots, ascending, and beside
   each its multiplicity fill the fronts of roots and mults, count slots each, as the whole call fills
   them. The first LOCATOR_COEFFICIENTS slots of h, u and v take the coefficients, the constant first,
   zeros above the top: h is f with z + r taken out as often as it divides, for every root r, and keeps
   the leading coefficient of f; v is the polynomial of a lower degree than h, 0 where h is constant, and
   u the one, with u h + v w = 1, where w is the remainder of z^(2^m) + z by h. There is one such claim.
   What is behind is not written.
   Outcomes 0, 1, 2, 3, 4, 5, 7: as the whole call's, without the cutoff; 7 where roots or mults has fewer
   than LOCATOR_ROOTS slots, or h, u or v fewer than LOCATOR_COEFFICIENTS. A refusal writes nothing.
   examples/c/partner.c has an example. */
locator_proved locator_prove(uint16_t m, const uint16_t *f, size_t nf, uint16_t *roots, size_t nr,
                             uint16_t *mults, size_t ne, uint16_t *h, size_t nh, uint16_t *u, size_t nu,
                             uint16_t *v, size_t nv);

#ifdef __cplusplus
}
#endif

#endif
