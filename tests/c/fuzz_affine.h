/* The part of tests/c/fuzz.c on affine polynomials (docs/RULES.md section 3.6): coefficients that are any numbers, or those of a map with many zeros; a
   constant that is any number, or a value of the map. The roots are judged by the value at every element, each from that of one element below. */

enum { WIDEST = 11, COEFFICIENTS = 40 };

/* x^(2^i) */
static unsigned squared(unsigned m, unsigned x, unsigned i)
{
    for (; i > 0; i--)
        x = times(m, x, x);
    return x;
}

/* the sum of f[i] x^(2^i) */
static unsigned map_at(unsigned m, const uint16_t *f, unsigned x)
{
    unsigned sum = 0;
    for (unsigned i = 0; i < m; i++)
        sum ^= times(m, f[i], squared(m, x, i));
    return sum;
}

/* coefficients of g(z)^2 + g(b) g(z), which is zero where g is and at b; places go round, since z^(2^m) = z at every element */
static void widen(unsigned m, uint16_t *g, unsigned b)
{
    uint16_t wider[WIDEST];
    unsigned c = map_at(m, g, b);
    for (unsigned i = 0; i < m; i++)
        wider[i] = (uint16_t)(times(m, c, g[i]) ^ times(m, g[(i + m - 1) % m], g[(i + m - 1) % m]));
    memcpy(g, wider, m * sizeof *g);
}

/* n coefficients: any, few, or of a map that is zero at chosen elements */
static void write_map(unsigned m, uint16_t *f, size_t n)
{
    unsigned kind = byte();
    for (size_t i = 0; i < n; i++)
        f[i] = kind % 4 == 0 && byte() % 2 == 0 ? 0 : element(m, kind % 16 == 1 && byte() % 8 == 0);
    if (!known(m) || n != m || kind % 4 < 2)
        return;
    memset(f, 0, n * sizeof *f);
    f[kind / 4 % m] = 1;
    for (unsigned k = byte() % (m + 1); k > 0; k--)
        widen(m, f, element(m, 0));
}

/* a list of 2^m slots, one less, one more, or of any length */
static size_t slots_for(unsigned m)
{
    unsigned b = byte();
    size_t usual = known(m) ? (size_t)1 << m : 2048;
    return b < 192 ? usual : b < 240 ? usual + b % 4 - 2 : word() % LONGEST;
}

/* the slots hold each zero of the map plus the constant, ascending, and no other; those behind are as they were */
static void check_space(unsigned m, const uint16_t *f, unsigned constant, locator_space s)
{
    static uint16_t value[ELEMENTS];
    size_t count = 0;
    value[0] = (uint16_t)constant;
    for (unsigned j = 0; j < m; j++) {
        unsigned image = map_at(m, f, 1u << j);
        for (unsigned x = 0; x < 1u << j; x++)
            value[x | 1u << j] = (uint16_t)(value[x] ^ image);
    }
    for (unsigned x = 0; x < 1u << m; x++)
        if (value[x] == 0) {
            expect(count < s.count && roots.at[count] == x, "another root of an affine polynomial");
            count++;
        }
    expect(count == s.count, "a root too many of an affine polynomial");
    expect(count == 0 ? s.dimension == 0 : s.dimension <= m && count == (size_t)1 << s.dimension, "another dimension");
    kept_from(&roots, count);
}

/* the whole call finds the same where the degree is within its limit and the polynomial is not zero */
static void check_whole(unsigned m, const uint16_t *f, unsigned constant, locator_space s)
{
    uint16_t dense[DEGREE + 1] = {(uint16_t)constant}, found[DEGREE], often[DEGREE];
    unsigned any = constant;
    for (unsigned i = 0; i < m; i++) {
        if (f[i] != 0 && 1u << i > DEGREE)
            return;
        any |= f[i];
        if (f[i] != 0)
            dense[1u << i] = f[i];
    }
    if (any == 0)
        return;
    locator_found whole = locator_solve((uint16_t)m, dense, DEGREE + 1, 2, found, DEGREE, often, DEGREE);
    expect(whole.outcome == 0 && whole.count == s.count && memcmp(found, roots.at, s.count * sizeof *found) == 0, "the whole call finds other roots");
}

/* one affine polynomial, of any field, count and constant, in a list of any length */
static void affine(void)
{
    static uint16_t f[COEFFICIENTS], old[LONGEST];
    uint16_t m = degree();
    unsigned kind = byte(), large = 0;
    size_t n = kind % 8 != 0 && known(m) ? m : kind % 16 == 0 ? byte() % COEFFICIENTS : m % 32u + byte() % 3, room = slots_for(m);
    write_map(m, f, n);
    uint16_t constant = element(m, kind % 32 == 1);
    if (known(m) && n == m && constant >> m == 0 && kind % 4 == 2)
        constant = (uint16_t)map_at(m, f, constant);
    int front = byte() % 2;
    noise(old, room);
    lend(&coefficients, n, f, front);
    lend(&roots, room, old, !front);
    locator_space s = locator_affine(m, n == 0 && front ? NULL : coefficients.at, n, constant, room == 0 ? NULL : roots.at, room);
    note(AFFINE, s.outcome, s.outcome != 0 ? m : s.count == 0 ? 50u + m : s.dimension + m % 3u * 12u);
    for (size_t i = 0; i < n; i++)
        large |= f[i] >> (m & 15);
    large |= constant >> (m & 15);
    expect(s.outcome == (!known(m) ? 1 : n != m ? 20 : large ? 4 : room >> m == 0 ? 7 : 0), "another outcome of an affine polynomial");
    kept_from(&coefficients, 0);
    if (s.outcome == 0) {
        check_space(m, f, constant, s);
        check_whole(m, f, constant, s);
        return;
    }
    expect(s.count == 0 && s.dimension == 0, "a refusal with values");
    kept_from(&roots, 0);
}
