/* A libFuzzer target over the C face: arbitrary field degrees, elements, coefficients, affine polynomials, cutoffs, tables, words, lists of roots and lengths. Each list that is lent stands against
   a page that cannot be touched, before it or behind it, with guards on its other side. What the calls give is compared with short functions of its own:
   the refusals and their order, soundness, products, values; a refusal writes nothing; begin, steps and finish give the roots of the whole call, of the search and of successive resultants;
   an affine polynomial has the roots that its values say; planted errors come back, and what the corrector accepts is a codeword; salvage keeps what a plain walk keeps;
   a record that is written is that of its roots, and is read back; a claim that is made is accepted, and one with a slip exactly if it is right. tests/fuzz builds and runs it. */
#define _GNU_SOURCE
#include "locator.h"
#include "resultants_face.h"

enum { PAGE = 65536, MOST = 512, LONGEST = 4096, GUARD = 64, GUARDED = 0xA5A5 };
enum { PRODUCT, INVERSE, POSITION, QUADRATIC, SOLVE, SEARCH, BEGIN, STEP, FINISH, CORRECT, AFFINE, SALVAGE, WRITE, ENCODE, CHECK, PROVE, CALLS };

static const char *const name[CALLS] = {"product", "inverse", "position", "quadratic", "solve", "search", "begin", "step", "finish", "correct", "affine",
                                        "salvage", "write", "encode", "check", "prove"};
#include "fuzz.h"

/* the header says the numbers of the rules */
_Static_assert(LOCATOR_ROOTS == DEGREE && LOCATOR_COEFFICIENTS == DEGREE + 1 && LOCATOR_RECORD == 7 + 2 * DEGREE, "another limit");
_Static_assert(LOCATOR_SLOTS == NEW_TABLE && LOCATOR_STORED_SLOTS == STORED_TABLE, "another size of a table");

/* ---- lent memory */

typedef struct { uint16_t *at, *low; size_t n; uint16_t was[LONGEST]; } list;

static list coefficients, table, roots, mults;

/* n slots of a list, against the page behind it or before it */
static void lend(list *l, size_t n, const uint16_t *from, int front)
{
    const size_t all = PAGE / sizeof(uint16_t);
    if (l->low == NULL) {
        char *room = mmap(NULL, 3 * PAGE, PROT_NONE, MAP_PRIVATE | MAP_ANONYMOUS, -1, 0);
        expect(room != MAP_FAILED && mprotect(room + PAGE, PAGE, PROT_READ | PROT_WRITE) == 0, "no memory");
        l->low = (uint16_t *)(room + PAGE);
    }
    l->n = n;
    l->at = front ? l->low : l->low + (all - n);
    for (size_t i = 0; i < GUARD; i++)
        l->at[front ? (ptrdiff_t)(n + i) : -(ptrdiff_t)(i + 1)] = GUARDED;
    if (n > 0) {
        memcpy(l->at, from, n * sizeof *from);
        memcpy(l->was, from, n * sizeof *from);
    }
}

/* the slots from k on are as they were, and so are the guards */
static void kept_from(const list *l, size_t k)
{
    int front = l->at == l->low;
    for (size_t i = k; i < l->n; i++)
        expect(l->at[i] == l->was[i], "a slot was written that should not be");
    for (size_t i = 0; i < GUARD; i++)
        expect(l->at[front ? (ptrdiff_t)(l->n + i) : -(ptrdiff_t)(i + 1)] == GUARDED, "a write outside lent memory");
}

/* what the list holds becomes what it was */
static void keep(list *l)
{
    memcpy(l->was, l->at, l->n * sizeof *l->at);
}

/* a length that is often the usual one, or about it, or about the one that was usual before the limit rose */
static size_t length(size_t usual, size_t before)
{
    unsigned b = byte();
    return b < 176 ? usual : b < 212 ? usual + b % 5 - 2 : b < 240 ? before + b % 5 - 2 : word() % MOST;
}

/* ---- the element calls */

/* one of the two conventions, or a number that is none: some that are near them or have their low byte, or any */
static uint16_t convention(void)
{
    static const uint16_t others[] = {2, 3, 256, 257, 65535, 32768, 4, 255};
    unsigned b = byte();
    return (uint16_t)(b % 8 < 6 ? b % 2 : b % 8 == 6 ? others[b / 8 % 8] : word());
}

/* the position under any convention: the refusals in the order 1, 21, 4, 13 */
static void positions(uint16_t m, uint16_t r)
{
    uint16_t way = convention();
    locator_value j = locator_position(m, r, way);
    unsigned out = !known(m) ? 1 : way > 1 ? 21 : r >> m != 0 ? 4 : r == 0 ? 13 : 0;
    expect(j.outcome == out, "another outcome of the position");
    expect(j.value == (out != 0 ? 0 : place_of(m, r, way)), "another position");
    note(POSITION, j.outcome, out == 0 ? m + way * 16u : m);
}

static void elements(void)
{
    uint16_t m = degree(), a = element(m, byte() % 8 == 0), b = element(m, byte() % 8 == 0);
    unsigned first = !known(m) ? 1 : a >> m != 0 ? 4 : 0, both = first != 0 ? first : b >> (m & 15) != 0 ? 4 : 0, one = first != 0 ? first : a == 0 ? 13 : 0;
    locator_value p = locator_product(m, a, b), i = locator_inverse(m, a);
    locator_pair q = locator_quadratic(m, a, b);
    expect(p.outcome == both && q.outcome == both && i.outcome == one, "another outcome of an element call");
    expect(p.value == (both ? 0 : times(m, a, b)), "another product");
    expect(one ? i.value == 0 : times(m, a, i.value) == 1, "another inverse");
    positions(m, a);
    uint16_t f[3] = {b, a, 1};
    expect(q.count <= 2 && (both == 0 || q.count == 0), "another number of roots");
    expect(q.count > 0 ? value_at(m, f, 3, q.lower) == 0 : q.lower == 0, "no root of the quadratic");
    expect(q.doubled == (both == 0 && a == 0) && (q.doubled == 0 || q.count == 1), "double where a is not 0, or not where it is");
    expect(q.count > 1 ? q.upper > q.lower && value_at(m, f, 3, q.upper) == 0 : q.upper == 0, "no second root of the quadratic");
    note(PRODUCT, p.outcome, m);
    note(INVERSE, i.outcome, m);
    note(QUADRATIC, q.outcome, q.count);
}

/* ---- polynomials */

static void noise(uint16_t *to, size_t n)
{
    uint16_t x = (uint16_t)(byte() * 257 + 1);
    for (size_t i = 0; i < n; i++)
        to[i] = (uint16_t)(x = (uint16_t)(x * 25173 + 13849));
}

/* roots at the front of the list: ascending, below 2^m; the rest of it as it was */
static void check_roots(unsigned m, locator_found found)
{
    if (found.outcome != 0)
        expect(found.count == 0 && found.steps == 0, "a refusal with values");
    expect(found.count <= DEGREE && found.count <= roots.n, "too many roots");
    for (size_t i = 0; i < found.count; i++)
        expect(roots.at[i] >> m == 0 && (i == 0 || roots.at[i - 1] < roots.at[i]), "roots out of order");
    kept_from(&roots, found.count);
}

/* a begun table is stepped until it is done: as many steps as the whole call's */
static void step_out(unsigned m, unsigned steps)
{
    locator_stepped s;
    unsigned taken = 0;
    for (;; taken++) {
        keep(&table);
        s = locator_step(table.at, table.n);
        note(STEP, s.outcome, 50 + s.done);
        expect(s.outcome == 0 && taken <= m * DEGREE, "a begun table that cannot be stepped");
        if (s.done)
            break;
        expect(table.at[3] == taken + 1 && table.at[0] == m, "a step that is not counted");
        kept_from(&table, table.n);
    }
    kept_from(&table, 0);
    expect(taken == steps, "other steps than the whole call's");
}

/* what is lent for a polynomial, and the refusal that it must meet before the sizes of lists are looked at, with the cutoff and without */
typedef struct { uint16_t m, cutoff, f[MOST], old[MOST]; size_t n, room, mult_room, slots; int front; unsigned out, searched; } job;

/* both lists are lent for an engine */
static void lend_both(const job *j, int front)
{
    lend(&roots, j->room, j->old, front);
    lend(&mults, j->mult_room, j->old, !front);
}

/* what an engine found: roots, and beside each how often it divides; the rest of both lists as it was */
static void check_both(const job *j, locator_found found)
{
    check_roots(j->m & 15, found);
    for (size_t i = 0; i < found.count; i++)
        expect(mults.at[i] > 0 && mults.at[i] == multiplicity(j->m, j->f, j->n, roots.at[i]), "another multiplicity");
    kept_from(&mults, found.count);
}

/* successive resultants on a polynomial that the whole call accepts: its roots, and the rest of the list as it was */
static void by_resultants(const job *j, locator_found a, const uint16_t *found)
{
    lend(&roots, j->room, j->old, j->front);
    unsigned count = resultants_find(j->m, coefficients.at, j->n, roots.at, j->room);
    expect(count == a.count && memcmp(found, roots.at, count * sizeof *found) == 0, "the whole call and successive resultants differ");
    kept_from(&roots, count);
}

/* the whole call, and the search beside it. The roots are put where they can be compared */
static locator_found engines(const job *j, uint16_t *found)
{
    int full = j->room >= DEGREE && j->mult_room >= DEGREE;
    lend_both(j, !j->front);
    locator_found a = locator_solve(j->m, j->n == 0 && j->front ? NULL : coefficients.at, j->n, j->cutoff, j->room == 0 ? NULL : roots.at, j->room,
                                    j->mult_room == 0 ? NULL : mults.at, j->mult_room);
    note(SOLVE, a.outcome, a.count + a.steps / 8 * (DEGREE + 1));
    expect(a.outcome == (j->out ? j->out : full ? 0 : 7), "another outcome of the whole call");
    check_both(j, a);
    memcpy(found, roots.at, a.count * sizeof *found);
    lend_both(j, j->front);
    locator_found b = locator_search(j->m, coefficients.at, j->n, roots.at, j->room, mults.at, j->mult_room);
    note(SEARCH, b.outcome, b.count);
    expect(b.outcome == (j->searched ? j->searched : full ? 0 : 7) && b.steps == 0, "another outcome of the search");
    check_both(j, b);
    if (a.outcome == 0) {
        expect(a.count == b.count && memcmp(found, roots.at, a.count * sizeof *found) == 0, "the whole call and the search differ");
        by_resultants(j, a, found);
    }
    return a;
}

/* steps until done and finish, on the lent table: the roots and steps of the whole call */
static void to_the_end(const job *j, locator_found a, const uint16_t *found)
{
    step_out(j->m, a.steps);
    lend(&roots, j->room, j->old, !j->front);
    locator_found c = locator_finish(table.at, table.n, roots.at, j->room);
    note(FINISH, c.outcome, c.count);
    expect(c.outcome == 0 && c.count == a.count && c.steps == 0, "finish finds other roots than the whole call");
    check_roots(j->m, c);
    expect(memcmp(found, roots.at, a.count * sizeof *found) == 0, "finish and the whole call differ");
    kept_from(&table, 0);
}

/* begin, steps until done, finish; and the same from the table that begin wrote before the limit rose, where the roots are few enough */
static void in_steps(const job *j, locator_found a, const uint16_t *found)
{
    uint16_t stored[STORED_TABLE];
    lend(&table, j->slots, j->old, j->front);
    unsigned begun = locator_begin(j->m, coefficients.at, j->n, j->cutoff, table.at, j->slots);
    note(BEGIN, begun, begun == 0 ? table.at[5] : 0);
    expect(begun == (j->out ? j->out : j->slots != NEW_TABLE ? 7 : 0), "another outcome of begin");
    kept_from(&table, begun != 0 ? 0 : j->slots);
    if (begun != 0 || a.outcome != 0)
        return;
    memcpy(stored, table.at, sizeof stored);
    to_the_end(j, a, found);
    if (a.count > STORED_DEGREE)
        return;
    lend(&table, STORED_TABLE, stored, !j->front);
    to_the_end(j, a, found);
}

static void polynomials(void)
{
    static job j;
    static uint16_t found[MOST];
    j.m = degree();
    j.cutoff = (uint16_t)(byte() % 8 == 7 ? word() : byte() % 5);
    j.n = polynomial(j.m, j.f, MOST);
    j.room = length(DEGREE, STORED_DEGREE);
    j.mult_room = length(DEGREE, STORED_DEGREE);
    j.slots = length(NEW_TABLE, STORED_TABLE);
    j.front = byte() % 2;
    j.out = refusal(j.m, j.f, j.n, j.cutoff);
    j.searched = refusal(j.m, j.f, j.n, 0);
    noise(j.old, MOST);
    lend(&coefficients, j.n, j.f, j.front);
    locator_found a = engines(&j, found);
    in_steps(&j, a, found);
    kept_from(&coefficients, 0);
}

/* ---- tables that somebody else wrote */

/* is there a table of so many slots, and how far may the sum of its degrees go? */
static int is_size(size_t slots)
{
    return slots == NEW_TABLE || slots == STORED_TABLE;
}

static unsigned limit_of(size_t slots)
{
    return slots < NEW_TABLE ? STORED_DEGREE : DEGREE;
}

/* what the slots say: is the table sound, is it done, is its first factor above the cutoff stuck? */
typedef struct { int sound, done, stuck; unsigned sum; } judged;

static judged judge(const uint16_t *t, size_t slots)
{
    judged no = {0, 0, 0, 0};
    if (!is_size(slots))
        return no;
    unsigned m = t[0], c = t[1], sum = 0, above = 0, stuck = 0, limit = limit_of(slots);
    size_t at = 4;
    if (!known(m) || c < 1 || c > 3 || t[2] > limit)
        return no;
    for (unsigned k = 0; k < t[2]; k++) {
        if (at + 2 > slots || t[at] > m || t[at + 1] < 1 || t[at + 1] > limit || at + 2 + t[at + 1] > slots)
            return no;
        sum += t[at + 1];
        if (!above && t[at + 1] > c) {
            above = 1;
            stuck = t[at] == m;
        }
        for (size_t end = at + 2 + t[at + 1], i = at + 2; i < end; i++)
            if (t[i] >> m != 0)
                return no;
        at += 2 + t[at + 1];
    }
    if (sum > limit || t[3] > m * (sum / (c + 1)))
        return no;
    for (; at < slots; at++)
        if (t[at] != 0)
            return no;
    return (judged){1, !above, above && (stuck || t[3] == m * (sum / (c + 1))), sum};
}

/* a table of factors as the input has them, with perhaps a slot changed, or a sum that may be one above its limit; or any slots */
static void write_table(uint16_t *t, size_t n)
{
    unsigned kind = byte();
    memset(t, 0, n * sizeof *t);
    if (kind % 8 == 0 || n < STORED_TABLE) {
        for (size_t i = 0; i < n; i++)
            t[i] = (uint16_t)word();
        return;
    }
    unsigned m = t[0] = degree(), limit = limit_of(n) + (kind % 8 == 2), factors = byte() % (limit + 1), sum = 0;
    size_t at = 4;
    t[1] = (uint16_t)(byte() % 3 + 1);
    for (; t[2] < factors && sum < limit; t[2]++) {
        unsigned d = byte() % (limit - sum) + 1, level = byte();
        if (at + 2 + d > n)
            break;
        t[at] = (uint16_t)(known(m) ? level % (m + 1) : level);
        t[at + 1] = (uint16_t)d;
        for (size_t i = 0; i < d; i++)
            t[at + 2 + i] = element(m, 0);
        at += 2 + d;
        sum += d;
    }
    t[3] = (uint16_t)(byte() % (m * (sum / (t[1] + 1u)) + 1u));
    if (kind % 8 == 1)
        t[byte() % n] = (uint16_t)word();
}

/* is x a zero of some factor? */
static int zero_of_some(const uint16_t *t, unsigned x)
{
    uint16_t f[LOCATOR_COEFFICIENTS];
    size_t at = 4;
    for (unsigned k = 0; k < t[2]; k++) {
        memcpy(f, t + at + 2, t[at + 1] * sizeof *f);
        f[t[at + 1]] = 1;
        if (value_at(t[0], f, t[at + 1] + 1u, x) == 0)
            return 1;
        at += 2 + t[at + 1];
    }
    return 0;
}

static void tables(void)
{
    static uint16_t t[MOST], old[MOST];
    unsigned front = byte() % 4;
    size_t slots = front / 2 ? length(NEW_TABLE, STORED_TABLE) : length(STORED_TABLE, NEW_TABLE), room = length(DEGREE, STORED_DEGREE);
    front %= 2;
    write_table(t, slots);
    noise(old, room);
    judged was = judge(t, slots);
    lend(&table, slots, t, front);
    lend(&roots, room, old, !front);
    locator_found f = locator_finish(table.at, slots, roots.at, room);
    note(FINISH, f.outcome, f.count);
    expect(f.outcome == (!is_size(slots) || room < DEGREE ? 7 : !was.sound ? 8 : !was.done ? 10 : 0) && f.steps == 0, "another outcome of finish");
    check_roots(t[0] & 15, f);
    kept_from(&table, 0);
    for (size_t i = 0; i < f.count; i++)
        expect(zero_of_some(t, roots.at[i]), "a number that is no root of a factor");
    locator_stepped s = locator_step(table.at, slots);
    note(STEP, s.outcome, s.done);
    expect(s.outcome == (!is_size(slots) ? 7 : !was.sound ? 8 : was.stuck ? 9 : 0), "another outcome of step");
    expect(s.done == (s.outcome == 0 && was.done), "done where it is not");
    if (s.outcome != 0 || s.done) {
        kept_from(&table, 0);
        return;
    }
    kept_from(&table, slots);
    judged now = judge(table.at, slots);
    expect(now.sound && now.sum == was.sum && table.at[3] == t[3] + 1 && table.at[0] == t[0] && table.at[1] == t[1], "a step that breaks the table");
}

/* ---- affine polynomials */

#include "fuzz_affine.h"

/* ---- the block corrector and encoder */

#include "fuzz_words.h"

/* ---- salvage */

#include "fuzz_salvage.h"

/* ---- writing records */

#include "fuzz_writer.h"

/* ---- claims of roots */

#include "fuzz_claims.h"

int LLVMFuzzerInitialize(int *count, char ***words)
{
    (void)count, (void)words;
    return start();
}

int LLVMFuzzerTestOneInput(const uint8_t *data, size_t size)
{
    wind(data, size);
    unsigned kind = byte();
    if (kind % 8 == 0)
        elements();
    else if (kind % 16 == 1)
        correct_word();
    else if (kind % 16 == 9)
        encode_word();
    else if (kind % 8 == 2)
        affine();
    else if (kind % 8 == 3)
        salvage();
    else if (kind % 16 == 5)
        write_one();
    else if (kind % 16 == 13)
        claims();
    else if (kind % 2 == 0)
        polynomials();
    else
        tables();
    return 0;
}
