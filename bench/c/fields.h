/* The field polynomials (RULES 1.1). */
#ifndef FIELDS_H
#define FIELDS_H
static inline unsigned field_polynomial(int m)
{
    return m == 4 ? 19 : m == 8 ? 285 : 2053;
}
#endif
