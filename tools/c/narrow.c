/* The calls of include/locator.h where pointers have 32 bits (armhf, cortex-m3, wasm32): the proved code counts in 64
   bits and hands a result over as 64-bit machines do, so tools/targets.sh has it put the result in a place that is
   lent (CALL_to), and each call here widens its counts and gives the result as C on this machine expects it. Nothing
   else happens here. It is not proved; tests/machines tries every call through it. */
#include "locator.h"

void locator_product_to(locator_value *to, uint16_t m, uint16_t a, uint16_t b);
void locator_inverse_to(locator_value *to, uint16_t m, uint16_t a);
void locator_position_to(locator_value *to, uint16_t m, uint16_t r, uint16_t convention);
void locator_quadratic_to(locator_pair *to, uint16_t m, uint16_t a, uint16_t b);
void locator_solve_to(locator_found *to, uint16_t m, const uint16_t *coeffs, uint64_t n, uint16_t cutoff,
                      uint16_t *roots, uint64_t room, uint16_t *mults, uint64_t mult_room);
void locator_search_to(locator_found *to, uint16_t m, const uint16_t *coeffs, uint64_t n, uint16_t *roots,
                       uint64_t room, uint16_t *mults, uint64_t mult_room);
void locator_affine_to(locator_space *to, uint16_t m, const uint16_t *coeffs, uint64_t n, uint16_t constant,
                       uint16_t *roots, uint64_t room);
void locator_begin_to(uint16_t *to, uint16_t m, const uint16_t *coeffs, uint64_t n, uint16_t cutoff, uint16_t *table,
                      uint64_t slots);
void locator_step_to(locator_stepped *to, uint16_t *table, uint64_t slots);
void locator_finish_to(locator_found *to, const uint16_t *table, uint64_t slots, uint16_t *roots, uint64_t room);
void locator_correct_to(locator_corrected *to, uint16_t strength, uint8_t *word, uint64_t bytes);
void locator_encode_to(locator_encoded *to, uint16_t strength, uint8_t *word, uint64_t bytes);
void locator_check_to(locator_claim *to, uint16_t m, const uint16_t *f, uint64_t nf, const uint16_t *roots,
                      uint64_t nr, const uint16_t *mults, uint64_t ne, const uint16_t *h, uint64_t nh,
                      const uint16_t *u, uint64_t nu, const uint16_t *v, uint64_t nv);
void locator_prove_to(locator_proved *to, uint16_t m, const uint16_t *f, uint64_t nf, uint16_t *roots, uint64_t nr,
                      uint16_t *mults, uint64_t ne, uint16_t *h, uint64_t nh, uint16_t *u, uint64_t nu, uint16_t *v,
                      uint64_t nv);
void locator_write_to(locator_written *to, uint16_t m, uint16_t cutoff, const uint16_t *roots, uint64_t n,
                      uint8_t *record, uint64_t room);

/* as the proved code lays it out: the length stands at byte 8 */
typedef struct { uint16_t outcome; _Alignas(8) uint64_t length; } wide_salvaged;
void locator_salvage_to(wide_salvaged *to, const uint8_t *file, uint64_t n, uint8_t *kept, uint64_t room);

/* GIVES(TYPE, CALL, WORDS): what CALL puts into its place */
#define GIVES(type, call, ...) type to; call##_to(&to, __VA_ARGS__); return to

locator_value locator_product(uint16_t m, uint16_t a, uint16_t b) { GIVES(locator_value, locator_product, m, a, b); }

locator_value locator_inverse(uint16_t m, uint16_t a) { GIVES(locator_value, locator_inverse, m, a); }

locator_value locator_position(uint16_t m, uint16_t r, uint16_t convention)
{
    GIVES(locator_value, locator_position, m, r, convention);
}

locator_pair locator_quadratic(uint16_t m, uint16_t a, uint16_t b)
{
    GIVES(locator_pair, locator_quadratic, m, a, b);
}

locator_found locator_solve(uint16_t m, const uint16_t *coeffs, size_t n, uint16_t cutoff, uint16_t *roots,
                            size_t room, uint16_t *mults, size_t mult_room)
{
    GIVES(locator_found, locator_solve, m, coeffs, n, cutoff, roots, room, mults, mult_room);
}

locator_found locator_search(uint16_t m, const uint16_t *coeffs, size_t n, uint16_t *roots, size_t room,
                             uint16_t *mults, size_t mult_room)
{
    GIVES(locator_found, locator_search, m, coeffs, n, roots, room, mults, mult_room);
}

locator_space locator_affine(uint16_t m, const uint16_t *coeffs, size_t n, uint16_t constant, uint16_t *roots,
                             size_t room)
{
    GIVES(locator_space, locator_affine, m, coeffs, n, constant, roots, room);
}

uint16_t locator_begin(uint16_t m, const uint16_t *coeffs, size_t n, uint16_t cutoff, uint16_t *table, size_t slots)
{
    GIVES(uint16_t, locator_begin, m, coeffs, n, cutoff, table, slots);
}

locator_stepped locator_step(uint16_t *table, size_t slots) { GIVES(locator_stepped, locator_step, table, slots); }

locator_found locator_finish(const uint16_t *table, size_t slots, uint16_t *roots, size_t room)
{
    GIVES(locator_found, locator_finish, table, slots, roots, room);
}

locator_corrected locator_correct(uint16_t strength, uint8_t *word, size_t bytes)
{
    GIVES(locator_corrected, locator_correct, strength, word, bytes);
}

locator_encoded locator_encode(uint16_t strength, uint8_t *word, size_t bytes)
{
    GIVES(locator_encoded, locator_encode, strength, word, bytes);
}

locator_claim locator_check(uint16_t m, const uint16_t *f, size_t nf, const uint16_t *roots, size_t nr,
                            const uint16_t *mults, size_t ne, const uint16_t *h, size_t nh, const uint16_t *u,
                            size_t nu, const uint16_t *v, size_t nv)
{
    GIVES(locator_claim, locator_check, m, f, nf, roots, nr, mults, ne, h, nh, u, nu, v, nv);
}

locator_proved locator_prove(uint16_t m, const uint16_t *f, size_t nf, uint16_t *roots, size_t nr, uint16_t *mults,
                             size_t ne, uint16_t *h, size_t nh, uint16_t *u, size_t nu, uint16_t *v, size_t nv)
{
    GIVES(locator_proved, locator_prove, m, f, nf, roots, nr, mults, ne, h, nh, u, nu, v, nv);
}

locator_salvaged locator_salvage(const uint8_t *file, size_t n, uint8_t *kept, size_t room)
{
    wide_salvaged to;
    locator_salvage_to(&to, file, n, kept, room);
    return (locator_salvaged){to.outcome, (size_t)to.length};
}

locator_written locator_write(uint16_t m, uint16_t cutoff, const uint16_t *roots, size_t n, uint8_t *record,
                              size_t room)
{
    GIVES(locator_written, locator_write, m, cutoff, roots, n, record, room);
}
