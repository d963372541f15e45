/* The numbers of a line of text, for the examples that read polynomials. */
#ifndef NUMBERS_H
#define NUMBERS_H
#include <stdint.h>
#include <stdlib.h>

/* The numbers of a line, one that does not fit 16 bits as 65535, at most room of them. Returns how many. */
static inline size_t numbers(const char *line, uint16_t *to, size_t room)
{
    size_t n = 0;
    char *behind;
    for (unsigned long x = strtoul(line, &behind, 10); behind != line && n < room; x = strtoul(line, &behind, 10)) {
        to[n++] = x > UINT16_MAX ? UINT16_MAX : (uint16_t)x;
        line = behind;
    }
    return n;
}
#endif
