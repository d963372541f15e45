/* The inner routines on polynomials, in libpoly_face.a, for tests/c/routines.c and bench/c/routines.c. crates/poly_face/src/lib.rt says what each
   does and asks: the tables of the field, elements of it, and room of the right size. Nothing is refused here. A slice is a pointer, then a count. */
#include <stddef.h>
#include <stdint.h>

#define READ(x) const uint16_t *x, size_t x##_count
#define WRITTEN(x) uint16_t *x, size_t x##_count

void poly_tables(uint16_t m, WRITTEN(logs), WRITTEN(antilogs));
void poly_log_row(uint16_t m, READ(logs), READ(antilogs), READ(p), WRITTEN(row));
void poly_remainder(uint16_t m, READ(logs), READ(antilogs), READ(row), WRITTEN(f), WRITTEN(r));
uint16_t poly_evaluate(uint16_t m, READ(logs), READ(antilogs), READ(f), uint16_t x);
size_t poly_top(READ(r));
size_t poly_make_monic(uint16_t m, READ(logs), READ(antilogs), WRITTEN(r));
void poly_power_mod(uint16_t m, READ(logs), READ(antilogs), READ(row), uint16_t k, WRITTEN(w));
void poly_z_power(uint16_t m, READ(logs), READ(antilogs), READ(p), uint16_t k, WRITTEN(w));
void poly_trace_of(uint16_t m, READ(logs), READ(antilogs), READ(p), uint16_t b, WRITTEN(t));
size_t poly_gcd(uint16_t m, READ(logs), READ(antilogs), READ(p), READ(f), WRITTEN(g));
void poly_cofactor(uint16_t m, READ(logs), READ(antilogs), READ(p), READ(g), WRITTEN(h));
