/* The face that every root finder has in the benchmark bench/peers. Only solve is timed and counted. */
#ifndef FINDER_H
#define FINDER_H
#include <stdbool.h>
#include <stddef.h>
#include <stdint.h>
#include "fields.h"

struct finder {
    const char *name;
    bool ascending;                                         /* promises its list in ascending order */
    bool (*start)(int m);                                   /* false where it does not serve the field of 2^m elements */
    void *(*prepare)(size_t n, const uint16_t *coeffs);     /* n coefficients, constant first, at most 65 */
    void (*solve)(void *job);
    size_t (*roots)(void *job, uint16_t *list);             /* what the last solve found, into at least 80 slots */
};

extern const struct finder bch_finder, bch_fixed_finder, flint_finder;
#endif
