/* Roots by successive resultants, in libresultants_face.a, for tests/c/resultants.c, tests/c/fuzz.c and bench/c/finders.c. crates/resultants_face/src/lib.rt
   says what it asks: a polynomial that the search accepts, and a list of 64 slots. Nothing is refused here. A slice is a pointer, then a count. */
#include <stddef.h>
#include <stdint.h>

uint16_t resultants_find(uint16_t m, const uint16_t *f, size_t f_count, uint16_t *roots, size_t roots_count);
