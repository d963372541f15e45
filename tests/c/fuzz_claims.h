/* Claims' part of tests/c/fuzz.c (docs/RULES.md section 14): the claim about any polynomial is made, in buffers of any length, and must be accepted; with any of
   its numbers changed it is accepted exactly if a plain reading of the rules accepts it. Lists may be longer than any polynomial has roots, and multiplicities
   near 2^16 many times, so that a sum of 16 bits would wrap. What is lent stands against pages that cannot be touched. */

enum { BUFFERS = 5, HIGHEST = DEGREE + 1 };

static list cofactor, first, second;

/* a + c z^k b, on HIGHEST * 2 coefficients */
typedef struct { uint16_t at[2 * HIGHEST + 2]; } wide;

static wide product_of(unsigned m, const uint16_t *a, size_t na, const uint16_t *b, size_t nb)
{
    wide r = {{0}};
    for (size_t i = 0; i < na; i++)
        for (size_t k = 0; k < nb; k++)
            r.at[i + k] ^= (uint16_t)times(m, a[i], b[k]);
    return r;
}

/* the highest place that is not 0, and one more */
static size_t top_of(const uint16_t *p, size_t n)
{
    while (n > 0 && p[n - 1] == 0)
        n--;
    return n;
}

/* the remainder by h with d coefficients, the highest of which is not 0 */
static void reduced(unsigned m, wide *a, const uint16_t *h, size_t d)
{
    uint16_t inverse = 1;
    while (times(m, inverse, h[d - 1]) != 1)
        inverse++;
    for (size_t n = 2 * HIGHEST + 2; n >= d; n--) {
        uint16_t c = (uint16_t)times(m, a->at[n - 1], inverse);
        for (size_t i = 0; c != 0 && i < d; i++)
            a->at[n - d + i] ^= (uint16_t)times(m, c, h[i]);
    }
}

/* the sentence of the rules, of a claim that no test refuses */
static int acceptable(unsigned m, const uint16_t *f, size_t nf, const uint16_t *r, size_t nr, const uint16_t *e, size_t ne, const uint16_t *h, size_t nh,
                      const uint16_t *u, size_t nu, const uint16_t *v, size_t nv)
{
    unsigned long sum = 0;
    size_t d = top_of(h, nh);
    wide whole = {{0}}, w = {{0, 1}};
    if (nr != ne || d == 0)
        return 0;
    for (size_t i = 0; i < nr; i++) {
        if (e[i] == 0 || (i > 0 && r[i - 1] >= r[i]))
            return 0;
        sum += e[i];
    }
    if (sum + d > HIGHEST)
        return 0;
    memcpy(whole.at, h, d * sizeof *h);
    for (size_t i = 0; i < nr; i++)
        for (size_t k = 0; k < e[i]; k++) {
            const uint16_t linear[2] = {r[i], 1};
            whole = product_of(m, whole.at, HIGHEST, linear, 2);
        }
    for (size_t i = 0; i < 2 * HIGHEST; i++)
        if (whole.at[i] != (i < nf ? f[i] : 0))
            return 0;
    reduced(m, &w, h, d);
    for (unsigned k = 0; k < m; k++) {
        w = product_of(m, w.at, HIGHEST, w.at, HIGHEST);
        reduced(m, &w, h, d);
    }
    w.at[1] ^= 1;
    reduced(m, &w, h, d);
    wide x = product_of(m, u, nu, h, nh), y = product_of(m, v, nv, w.at, HIGHEST);
    for (size_t i = 0; i < 2 * HIGHEST; i++)
        if ((x.at[i] ^ y.at[i]) != (i == 0))
            return 0;
    return 1;
}

/* is a number of these 2^m or more? */
static int some_large(unsigned m, const uint16_t *p, size_t n)
{
    for (size_t i = 0; i < n; i++)
        if (p[i] >> (m & 15) != 0)
            return 1;
    return 0;
}

/* a claim with perhaps some numbers changed, and lists that are perhaps longer or shorter */
typedef struct { uint16_t f[MOST], r[LONGEST], e[LONGEST], h[MOST], u[MOST], v[MOST]; size_t nf, nr, ne, nh, nu, nv; } sent;

/* one slip, or none */
static void slip(unsigned m, sent *s)
{
    unsigned kind = byte(), at = byte();
    uint16_t *const part[] = {s->f, s->r, s->e, s->h, s->u, s->v};
    size_t *const size[] = {&s->nf, &s->nr, &s->ne, &s->nh, &s->nu, &s->nv};
    unsigned which = kind / 8 % 6;
    size_t n = *size[which];
    if (kind % 8 < 2)
        return;
    if (kind % 8 == 2) {
        *size[which] = word() % MOST;
        for (size_t i = n; i < *size[which]; i++)
            part[which][i] = 0;
    } else if (kind % 8 == 3) { /* more roots than any polynomial has, and sums near 2^16 times their number */
        s->nr = s->ne = word() % LONGEST;
        for (size_t i = 0; i < s->nr; i++) {
            s->r[i] = (uint16_t)(known(m) ? i % (1u << m) : i);
            s->e[i] = (uint16_t)(at % 4 == 0 ? 65535 : at % 4 == 1 ? 65536 - at : at % 4 == 2 ? 1 : word());
        }
    } else if (kind % 8 == 4 && s->nu <= MOST && s->nv <= MOST) {
        sent was = *s;
        memcpy(s->u, was.v, sizeof s->u), memcpy(s->v, was.u, sizeof s->v);
        s->nu = was.nv, s->nv = was.nu;
    } else if (n > 0)
        part[which][at % n] ^= element(m, kind % 8 == 7);
}

/* what is sent, to the check */
static void check_sent(unsigned m, const sent *s, int front)
{
    lend(&coefficients, s->nf, s->f, front);
    lend(&roots, s->nr, s->r, !front);
    lend(&mults, s->ne, s->e, front);
    lend(&cofactor, s->nh, s->h, !front);
    lend(&first, s->nu, s->u, front);
    lend(&second, s->nv, s->v, !front);
    locator_claim c = locator_check((uint16_t)m, coefficients.at, s->nf, s->nr == 0 ? NULL : roots.at, s->nr, s->ne == 0 ? NULL : mults.at, s->ne, cofactor.at, s->nh,
                                    first.at, s->nu, second.at, s->nv);
    unsigned empty = !s->nf || !s->nh || !s->nu || !s->nv, many = s->nf > HIGHEST || s->nh > HIGHEST || s->nu > HIGHEST || s->nv > HIGHEST;
    unsigned large = some_large(m, s->f, s->nf) || some_large(m, s->r, s->nr) || some_large(m, s->h, s->nh) || some_large(m, s->u, s->nu) || some_large(m, s->v, s->nv);
    unsigned out = !known(m) ? 1 : empty ? 2 : many ? 3 : large ? 4 : top_of(s->f, s->nf) == 0 ? 5 : 0;
    int yes = out == 0 && acceptable(m, s->f, s->nf, s->r, s->nr, s->e, s->ne, s->h, s->nh, s->u, s->nu, s->v, s->nv);
    note(CHECK, c.outcome, c.accepted + 2 * (unsigned)(s->nr % 80));
    expect(c.outcome == out && c.accepted == yes, "another answer of the check");
    list *const lent[] = {&coefficients, &roots, &mults, &cofactor, &first, &second};
    for (size_t i = 0; i < 6; i++)
        kept_from(lent[i], 0);
}

/* a polynomial of any field, and buffers of any length */
static void claims(void)
{
    static sent s;
    static uint16_t old[MOST];
    uint16_t m = degree();
    int front = byte() % 2;
    memset(&s, 0, sizeof s);
    s.nf = polynomial(m, s.f, MOST);
    size_t room[BUFFERS];
    for (size_t i = 0; i < BUFFERS; i++)
        room[i] = i < 2 ? length(DEGREE, STORED_DEGREE) : length(HIGHEST, STORED_DEGREE + 1);
    unsigned out = refusal(m, s.f, s.nf, 0);
    if (out == 0 && (room[0] < DEGREE || room[1] < DEGREE || room[2] < HIGHEST || room[3] < HIGHEST || room[4] < HIGHEST))
        out = 7;
    noise(old, MOST);
    list *const lent[BUFFERS] = {&roots, &mults, &cofactor, &first, &second};
    lend(&coefficients, s.nf, s.f, front);
    for (size_t i = 0; i < BUFFERS; i++)
        lend(lent[i], room[i], old, i % 2 == 0 ? !front : front);
    locator_proved p = locator_prove(m, s.nf == 0 ? NULL : coefficients.at, s.nf, roots.at, room[0], mults.at, room[1], cofactor.at, room[2], first.at, room[3], second.at,
                                     room[4]);
    note(PROVE, p.outcome, p.count);
    expect(p.outcome == out && (out == 0 || p.count == 0) && p.count <= DEGREE, "another outcome of the making");
    kept_from(&coefficients, 0);
    for (size_t i = 0; i < BUFFERS; i++)
        kept_from(lent[i], out != 0 ? 0 : i < 2 ? p.count : HIGHEST);
    if (out != 0)
        return;
    s.nr = s.ne = p.count;
    s.nh = s.nu = s.nv = HIGHEST;
    memcpy(s.r, roots.at, p.count * sizeof *s.r);
    memcpy(s.e, mults.at, p.count * sizeof *s.e);
    memcpy(s.h, cofactor.at, HIGHEST * sizeof *s.h);
    memcpy(s.u, first.at, HIGHEST * sizeof *s.u);
    memcpy(s.v, second.at, HIGHEST * sizeof *s.v);
    size_t d = top_of(s.h, HIGHEST);
    expect(acceptable(m, s.f, s.nf, s.r, s.nr, s.e, s.ne, s.h, s.nh, s.u, s.nu, s.v, s.nv), "a claim that was made and is not acceptable");
    expect(top_of(s.v, HIGHEST) < d, "v has not a lower degree than h");
    check_sent(m, &s, front);
    for (unsigned k = byte() % 3; k > 0; k--)
        slip(m, &s);
    check_sent(m, &s, !front);
}
