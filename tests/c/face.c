/* face elements|tables|affine: drives the C face on the cases of tests/second/elements.py, tables.py or affine.py from standard input, and prints their
   lines. */
#define DRIVER "face"
#include "lent.h"
#include "locator.h"

enum { BEGIN, STEP, FINISH, WHOLE, SEARCH };

static void print_slots(list l)
{
    printf(" |");
    for (size_t i = 0; i < l.n; i++)
        printf(" %u", l.at[i]);
}

static void print_last(list l)
{
    print_slots(l);
    putchar('\n');
}

/* what a refusal must leave: zeros in the answer, nothing written */
static void refused(unsigned values, list l)
{
    expect(values == 0, "a refusal with a value");
    expect(unchanged(l), "a refusal that writes");
}

static void print_found(int op, locator_found f, list roots)
{
    printf("%d %u", op, f.outcome);
    if (f.outcome != 0)
        refused(f.count | f.steps, roots);
    else if (op == WHOLE)
        printf(" %u %u", f.count, f.steps);
    else {
        expect(f.steps == 0, "steps where none are taken");
        printf(" %u", f.count);
    }
    print_slots(roots);
}

/* of the whole call and the search: the multiplicities behind the roots */
static void print_both(int op, locator_found f, list roots, list mults)
{
    if (f.outcome != 0)
        refused(0, mults);
    print_found(op, f, roots);
    print_last(mults);
}

static void run_step(void)
{
    list table = lend(number());
    locator_stepped s = locator_step(LENT(table));
    if (s.outcome != 0)
        refused(s.done, table);
    expect(s.done <= 1, "done is neither 0 nor 1");
    if (s.done)
        printf("%d done", STEP);
    else
        printf("%d %u", STEP, s.outcome);
    print_last(table);
    end(table);
}

static void run_finish(void)
{
    size_t slots = number(), room = number();
    list table = lend(slots), roots = lend(room);
    print_found(FINISH, locator_finish(LENT(table), LENT(roots)), roots);
    putchar('\n');
    end_read(table);
    end(roots);
}

static void run_begin(void)
{
    uint16_t m = number(), cutoff = number();
    size_t n = number(), slots = number();
    list coeffs = lend(n), table = lend(slots);
    uint16_t outcome = locator_begin(m, LENT(coeffs), cutoff, LENT(table));
    if (outcome != 0)
        refused(0, table);
    printf("%d %u", BEGIN, outcome);
    print_last(table);
    end_read(coeffs);
    end(table);
}

/* the whole call and the search */
static void run_engine(int op)
{
    uint16_t m = number(), cutoff = op == SEARCH ? 0 : number();
    size_t n = number(), room = number(), mult_room = number();
    list coeffs = lend(n), roots = lend(room), mults = lend(mult_room);
    if (op == WHOLE)
        print_both(op, locator_solve(m, LENT(coeffs), cutoff, LENT(roots), LENT(mults)), roots, mults);
    else
        print_both(op, locator_search(m, LENT(coeffs), LENT(roots), LENT(mults)), roots, mults);
    end_read(coeffs);
    end(roots);
    end(mults);
}

static void tables(void)
{
    for (int op = getchar(); op != EOF; op = getchar()) {
        if (op == STEP)
            run_step();
        else if (op == FINISH)
            run_finish();
        else if (op == BEGIN)
            run_begin();
        else
            run_engine(op);
    }
}

static void print_value(locator_value v)
{
    if (v.outcome == 0) {
        printf(" | 0 %u", v.value);
        return;
    }
    expect(v.value == 0, "a refusal with a value");
    printf(" | %u", v.outcome);
}

static void print_pair(locator_pair p)
{
    expect((p.count > 1 || p.upper == 0) && (p.count > 0 || p.lower == 0), "a root that is not there");
    expect(p.outcome == 0 || p.count == 0, "a refusal with a value");
    expect(p.doubled == (p.count == 1), "doubled where there is not one root");
    if (p.outcome != 0)
        printf(" | %u\n", p.outcome);
    else if (p.count == 0)
        printf(" | 0 0\n");
    else if (p.count == 1)
        printf(" | 0 1 %u double\n", p.lower);
    else
        printf(" | 0 %u %u %u\n", p.count, p.lower, p.upper);
}

static void elements(void)
{
    for (int m = word(); m != EOF; m = word()) {
        uint16_t a = number(), b = number(), convention = number();
        printf("%d %u %u %u", m, a, b, convention);
        print_value(locator_product((uint16_t)m, a, b));
        print_value(locator_inverse((uint16_t)m, a));
        print_value(locator_position((uint16_t)m, a, convention));
        print_pair(locator_quadratic((uint16_t)m, a, b));
    }
}

static void print_space(locator_space s, list roots)
{
    if (s.outcome != 0) {
        printf("%u", s.outcome);
        refused(s.count | s.dimension, roots);
    } else if (s.count == 0) {
        printf("none");
        expect(s.dimension == 0, "a dimension where there is no root");
        expect(unchanged(roots), "no root, and a write");
    } else
        printf("0 %u %u", s.count, s.dimension);
    print_last(roots);
}

static void affine(void)
{
    for (int m = word(); m != EOF; m = word()) {
        size_t n = number();
        uint16_t constant = number();
        size_t room = number();
        list coeffs = lend(n), roots = lend(room);
        printf("%d %zu %zu | ", m, n, room);
        print_space(locator_affine((uint16_t)m, LENT(coeffs), constant, LENT(roots)), roots);
        end_read(coeffs);
        end(roots);
    }
}

int main(int count, char **words)
{
    if (count == 2 && strcmp(words[1], "elements") == 0)
        elements();
    else if (count == 2 && strcmp(words[1], "tables") == 0)
        tables();
    else if (count == 2 && strcmp(words[1], "affine") == 0)
        affine();
    else
        fail("which cases: elements, tables or affine?");
    return fflush(stdout);
}
