/* routines: drives the inner routines on polynomials on the cases of tests/second/polynomials.py from standard input, and prints their lines. The routines
   refuse nothing, so that it is seen to here that they get what they ask: a case over an unknown field, with a number outside it, or with lists of
   other lengths than its kind has, has no line. */
#define DRIVER "routines"
#include "lent.h"
#include "poly_face.h"
#include "reference.h"

enum { REMAINDER = 1, SQUARE, Z_POWER, TRACE, GCD, QUOTIENT, VALUE, TOP, MONIC };
enum { MOST_P = DEGREE, MOST_F = 2 * DEGREE };

/* a field's tables, lent by the product where they are first asked for */
typedef struct { list logs, antilogs; } tables;

static tables lent[12];

/* those of a known field */
static tables tables_of(uint16_t m)
{
    tables *t = &lent[m];
    if (t->logs.at == NULL) {
        *t = (tables){lend_room(1u << m), lend_room(4 * ((1u << m) - 1))};
        poly_tables(m, LENT(t->logs), LENT(t->antilogs));
        keep(t->logs);
        keep(t->antilogs);
    }
    return *t;
}

/* a case: the field, k, monic p without its leading 1, and f */
typedef struct { uint16_t m, k; tables in; list p, f; } given;

#define FIELD(c) (c).m, LENT((c).in.logs), LENT((c).in.antilogs)

/* a list with room for `size` numbers that begins as this one */
static list copied(list from, size_t size)
{
    list l = lend_room(size);
    memcpy(l.at, from.at, from.n * sizeof *l.at);
    return l;
}

/* the row of a polynomial */
static list row_of(given c, list p)
{
    list row = lend_room(p.n);
    poly_log_row(FIELD(c), LENT(p), LENT(row));
    keep(row);
    return row;
}

/* the line of a kind: the first n numbers of a list */
static void print_line(int kind, list l, size_t n)
{
    printf("%d", kind);
    for (size_t i = 0; i < n; i++)
        printf(" %u", l.at[i]);
    putchar('\n');
}

/* 1: the remainder of f by p */
static void run_remainder(given c)
{
    list row = row_of(c, c.p), f = copied(c.f, c.f.n), r = lend_room(c.p.n);
    poly_remainder(FIELD(c), LENT(row), LENT(f), LENT(r));
    print_line(REMAINDER, r, r.n);
    end_read(row);
    end(f);
    end(r);
}

/* 2: the square of f modulo p; f is as long as p */
static void run_square(given c)
{
    if (c.f.n != c.p.n)
        return;
    list row = row_of(c, c.p), w = copied(c.f, c.f.n);
    poly_power_mod(FIELD(c), LENT(row), 1, LENT(w));
    print_line(SQUARE, w, w.n);
    end_read(row);
    end(w);
}

/* 3: z^(2^k) modulo p */
static void run_z_power(given c)
{
    list w = lend_room(c.p.n);
    poly_z_power(FIELD(c), LENT(c.p), c.k, LENT(w));
    print_line(Z_POWER, w, w.n);
    end(w);
}

/* 4: Tr(a^k z) modulo p; a^k is the antilog of 2k */
static void run_trace(given c)
{
    size_t twice = 2 * (size_t)c.k;
    if (twice >= c.in.antilogs.n)
        return;
    list t = lend_room(c.p.n);
    poly_trace_of(FIELD(c), LENT(c.p), c.in.antilogs.at[twice], LENT(t));
    print_line(TRACE, t, t.n);
    end(t);
}

/* 5: the monic greatest common divisor of p and f; f has at most one coefficient more than p can have */
static void run_gcd(given c)
{
    if (c.f.n > MOST_P + 1)
        return;
    list g = lend_room(c.p.n + 1);
    size_t d = poly_gcd(FIELD(c), LENT(c.p), LENT(c.f), LENT(g));
    expect(d <= c.p.n, "a divisor of a higher degree");
    print_line(GCD, g, d);
    end(g);
}

/* 6: the quotient of p by the monic polynomial with the low coefficients f; f is no longer */
static void run_quotient(given c)
{
    if (c.p.n < c.f.n)
        return;
    list h = lend_room(c.p.n - c.f.n);
    poly_cofactor(FIELD(c), LENT(c.p), LENT(c.f), LENT(h));
    print_line(QUOTIENT, h, h.n);
    end(h);
}

/* 7: the value of f at the element that p holds */
static void run_value(given c)
{
    if (c.p.n > 0)
        printf("%d %u\n", VALUE, poly_evaluate(FIELD(c), LENT(c.f), c.p.at[0]));
}

/* 8: the degree of f */
static void run_top(given c)
{
    size_t k = poly_top(LENT(c.f));
    if (k == 0)
        printf("%d none\n", TOP);
    else
        printf("%d %zu\n", TOP, k - 1);
}

/* 9: f made monic */
static void run_monic(given c)
{
    list r = copied(c.f, c.f.n);
    size_t j = poly_make_monic(FIELD(c), LENT(r));
    expect(j <= r.n, "more coefficients than there were");
    if (j == 0)
        printf("%d none\n", MONIC);
    else
        print_line(MONIC, r, j - 1);
    end(r);
}

/* the routine of each kind */
static void (*const run[])(given) = {
    [REMAINDER] = run_remainder, [SQUARE] = run_square, [Z_POWER] = run_z_power, [TRACE] = run_trace, [GCD] = run_gcd,
    [QUOTIENT] = run_quotient, [VALUE] = run_value, [TOP] = run_top, [MONIC] = run_monic,
};

/* are all numbers of the list below the size? */
static int all_below(list l, unsigned size)
{
    for (size_t i = 0; i < l.n; i++)
        if (l.at[i] >= size)
            return 0;
    return 1;
}

/* the next case; 0 where there is none, or it is too long */
static int run_case(void)
{
    int kind = getchar(), m = getchar(), k = getchar(), p_count = getchar(), f_count = getchar();
    if (f_count == EOF || p_count > MOST_P || f_count > MOST_F)
        return 0;
    list p = lend((size_t)p_count), f = lend((size_t)f_count);
    if (known((unsigned)m) && all_below(p, 1u << m) && all_below(f, 1u << m) && kind >= REMAINDER && kind <= MONIC)
        run[kind]((given){(uint16_t)m, (uint16_t)k, tables_of((uint16_t)m), p, f});
    end_read(p);
    end_read(f);
    return 1;
}

int main(void)
{
    while (run_case())
        continue;
    for (size_t m = 0; m < sizeof lent / sizeof *lent; m++)
        if (lent[m].logs.at != NULL) {
            end_read(lent[m].logs);
            end_read(lent[m].antilogs);
        }
    return fflush(stdout);
}
