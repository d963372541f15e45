/* The rules of docs/RULES.md sections 1 to 6 in plain C, for the fuzz targets: the fields by shift and add,
   places by trial, refusals 1 to 6, roots by evaluation at every element, multiplicities by division, steps by counting
   groups. Nothing here is the product's. */
#include <stddef.h>
#include <stdint.h>
#include <stdlib.h>
#include <string.h>

/* the limit of polynomials and of new tables, that of stored tables, and the slots of both: four of a head, and three for each factor of degree 1 */
enum { DEGREE = 64, STORED_DEGREE = 32, NEW_TABLE = 4 + 3 * DEGREE, STORED_TABLE = 4 + 3 * STORED_DEGREE, ELEMENTS = 2048 };

static inline int known(unsigned m)
{
    return m == 4 || m == 8 || m == 11;
}

/* the element 2 times a */
static inline unsigned twice(unsigned m, unsigned a)
{
    unsigned p = m == 4 ? 19 : m == 8 ? 285 : 2053;
    return a << 1 ^ (a >> (m - 1) & 1) * p;
}

static inline unsigned times(unsigned m, unsigned a, unsigned b)
{
    unsigned r = 0;
    for (; b != 0; b >>= 1, a = twice(m, a))
        r ^= (b & 1) * a;
    return r;
}

/* the j of the place X = 2^j that a root r, not 0, stands for: r = X where the locator has the factor z + X (convention
   0), r X = 1 where it has 1 + X z (1) */
static inline unsigned place_of(unsigned m, unsigned r, unsigned convention)
{
    unsigned j = 0, x = 1;
    while (convention == 0 ? x != r : times(m, x, r) != 1) {
        x = twice(m, x);
        j++;
    }
    return j;
}

static inline unsigned value_at(unsigned m, const uint16_t *f, size_t n, unsigned x)
{
    unsigned v = 0;
    while (n-- > 0)
        v = times(m, v, x) ^ f[n];
    return v;
}

/* how often f, n coefficients that are not all 0, can be divided by z + r: Horner's values are the quotient's coefficients */
static inline unsigned multiplicity(unsigned m, const uint16_t *f, size_t n, unsigned r)
{
    uint16_t g[DEGREE + 1];
    unsigned e = 0;
    memcpy(g, f, n * sizeof *g);
    for (; value_at(m, g, n, r) == 0; e++) {
        unsigned v = 0;
        for (size_t i = n--; i-- > 0;) {
            unsigned c = g[i];
            g[i] = (uint16_t)v;
            v = times(m, v, r) ^ c;
        }
    }
    return e;
}

/* refusals 1 to 6 in their order, 6 where it is asked for */
static inline unsigned refusal(unsigned m, const uint16_t *f, size_t n, unsigned cutoff)
{
    unsigned any = 0, large = 0;
    for (size_t i = 0; i < n; i++) {
        any |= f[i];
        large |= f[i] >> (m & 15);
    }
    return !known(m) ? 1 : n == 0 ? 2 : n > DEGREE + 1 ? 3 : large ? 4 : !any ? 5 : cutoff > 3 ? 6 : 0;
}

/* Tr(x), the sum of x^(2^i) for i below m */
static inline unsigned trace(unsigned m, unsigned x)
{
    unsigned sum = 0;
    for (unsigned i = 0; i < m; i++, x = times(m, x, x))
        sum ^= x;
    return sum;
}

/* a field's products, x times v at x 2^m + v, and the trace bits of each x, Tr(x) lowest: made once, since evaluating at every element takes many */
typedef struct { uint16_t *products, bits[ELEMENTS]; } field;

static inline const field *field_of(unsigned m)
{
    static field made[12];
    field *in = &made[m];
    unsigned size = 1u << m;
    if (in->products != NULL)
        return in;
    in->products = malloc((size_t)size * size * sizeof(uint16_t));
    if (in->products == NULL)
        abort();
    for (unsigned x = 0; x < size; x++) {
        uint16_t *row = in->products + (size_t)x * size;
        row[0] = 0;
        for (unsigned v = 1; v < size; v++)
            row[v] = (uint16_t)(twice(m, row[v >> 1]) ^ (v & 1) * x);
        for (unsigned i = 0, y = x; i < m; i++, y = twice(m, y))
            in->bits[x] |= (uint16_t)(trace(m, y) << i);
    }
    return in;
}

/* every element at which f, accepted, is zero, ascending; their number */
static inline unsigned all_roots(unsigned m, const uint16_t *f, size_t n, uint16_t roots[DEGREE])
{
    unsigned count = 0;
    for (unsigned x = 0; x < 1u << m; x++) {
        const uint16_t *row = field_of(m)->products + ((size_t)x << m);
        unsigned v = 0;
        for (size_t i = n; i-- > 0;)
            v = row[v] ^ f[i];
        if (v != 0)
            continue;
        if (count == DEGREE)
            abort();
        roots[count++] = (uint16_t)x;
    }
    return count;
}

/* how many groups, levels 0 to m - 1, have more than c members: at level i the roots that share their first i trace bits. Each is counted at its first */
static inline unsigned count_steps(unsigned m, unsigned c, const uint16_t *roots, unsigned count)
{
    const uint16_t *bits = field_of(m)->bits;
    unsigned steps = 0;
    for (unsigned level = 0; level < m; level++)
        for (unsigned i = 0; i < count; i++) {
            unsigned before = 0, members = 0;
            for (unsigned j = 0; j < count; j++)
                if (((bits[roots[i]] ^ bits[roots[j]]) & ((1u << level) - 1)) == 0) {
                    members++;
                    before += j < i;
                }
            steps += before == 0 && members > c;
        }
    return steps;
}
