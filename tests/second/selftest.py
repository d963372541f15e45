"""Checks of the second program against docs/RULES.md and against itself.

    selftest.py [--seed S] [--count N]

Exits with 1 at a failure; prints how often each check was made. N of 1000, or above, takes every row of products of every field; below, of field 11 so many
in a thousand. The gate runs it with 24 (tests/compare).
"""

import argparse
import itertools
import random
import sys

sys.dont_write_bytecode = True

import affine
import blocks
import corrector
import elements
import field
import lists
import polynomials
import records
import reference as R
import sheet
import sizes
import tables
import writer
from sizes import sized

counts = {}
failures = []


def check(name, truth, *about):
    counts[name] = counts.get(name, 0) + 1
    if not truth:
        failures.append(name)
        if len(failures) <= 20:
            print("FAILED: %s %s" % (name, about), file=sys.stderr)


def stale(n):
    return tuple((40000 + i) % 65536 for i in range(n))


def run(m, coefficients, cutoff):
    """Begin, steps until done, finish: (roots, steps, every table)."""
    outcome, _, table = R.begin(m, coefficients, cutoff, stale(R.SLOTS))
    passed = [table]
    while True:
        outcome, _, table = R.step(passed[-1])
        if outcome == R.DONE:
            break
        if outcome != 0:
            return outcome, None, passed
        passed.append(table)
    lent = stale(R.MOST_ROOTS + 8)
    _, (s,), memory = R.finish(table, lent)
    check("finish leaves the slots behind", memory[s:] == lent[s:])
    return list(memory[:s]), len(passed) - 1, passed


# The fields.


def elements_taken(rng, q, count):
    """All elements, or so many in a thousand of a large field."""
    return range(q) if q <= 256 or count >= 1000 else sorted(rng.sample(range(q), q * count // 1000))


def check_fields(rng, count):
    check("field polynomials", field.POLYNOMIALS == {4: 19, 8: 285, 11: 2053})
    for m in field.DEGREES:
        q = field.size(m)
        tables_of_logs = field.logs(m)
        for a in elements_taken(rng, q, count):
            same = all(tables_of_logs.product(a, b) == c for b, c in enumerate(field.row(m, a)))
            check("rows of products by logarithms equal the plain ones", same, m, a)
            if a:
                check("inverses", tables_of_logs.inverse(a) == field.inverse(m, a), m, a)
                check("positions", field.power(m, 2, tables_of_logs.log[a]) == a if m < 11 or a % 64 == 1 else
                      field.position(m, a, 0) == tables_of_logs.log[a], m, a)
                mirrored = (q - 1 - field.position(m, a, 0)) % (q - 1)
                check("mirrored positions", field.position(m, a, 1) == mirrored, m, a)
        check("powers of a run through every nonzero element", sorted(field.powers(m)) == list(range(1, q)), m)
        bits = [field.trace_bits(m, x) for x in range(q)]
        check("no two elements share their trace bits", len(set(bits)) == q, m)
        for x in range(q):
            t = field.trace(m, x)
            fact = {4: x >> 3, 8: x >> 5, 11: x ^ x >> 9}[m] & 1
            check("traces", t in (0, 1) and t == field.trace_of(m, x) == fact, m, x)
            again = tuple(field.trace(m, field.product(m, field.power(m, 2, i), x)) for i in range(m))
            check("trace bits", again == bits[x], m, x)
        half = field.half_table(m)
        for i in range(q):
            j = half[i]
            if field.trace(m, i):
                check("entries of the quadratic table", j == 65535, m, i)
            else:
                check("entries of the quadratic table", j % 2 == 0 and field.product(m, j, j) ^ j == i, m, i)
        pairs = [(a, b) for a in range(q) for b in range(q)]
        if m > 4:
            pairs = rng.sample(pairs, min(3000, 3 * count))
        for a, b in pairs:
            if a == 0:
                roots = [x for x in range(q) if field.product(m, x, x) == b]
                single = len(roots) == 1
            else:
                inverse = tables_of_logs.inverse(a)
                j = half[field.product(m, b, field.product(m, inverse, inverse))]
                roots = [] if j == 65535 else sorted((field.product(m, a, j), field.product(m, a, j ^ 1)))
                single = len(roots) != 1
            check("quadratics by the table equal those by trial", single and roots == field.quadratic(m, a, b), m, a, b)
    printed = [0, 6, 10, 12, 8, 14, 2, 4] + [65535] * 8
    check("the quadratic table for m = 4, as RULES 2.3 has it", field.half_table(4) == printed)


def check_elements():
    check("element refusals", R.product(5, 99, 99)[0] == 1)
    check("element refusals", R.product(260, 1, 1)[0] == 1)
    check("element refusals", R.product(4, 16, 0)[0] == 4 and R.product(4, 0, 16)[0] == 4)
    check("element refusals", R.inverse(5, 0)[0] == 1 and R.inverse(4, 16)[0] == 4)
    check("element refusals", R.inverse(4, 0)[0] == 13)
    check("element refusals", R.quadratic(11, 0, 2048)[0] == 4 and R.quadratic(12, 0, 0)[0] == 1)
    check("element answers", R.quadratic(4, 1, 8) == (R.NONE, (), ()))
    check("element answers", R.quadratic(4, 1, 6) == (0, ((2, 1), (3, 1)), ()))
    check("element answers", R.quadratic(4, 0, 2) == (0, ((5, 2),), ()))
    check("element answers", R.quadratic(4, 1, 0) == (0, ((0, 1), (1, 1)), ()))
    for convention, place in ((0, 4), (1, 11)):
        check("element answers", R.position(4, 3, convention) == (0, (place,), ()))
        check("element answers", R.position(4, 1, convention) == (0, (0,), ()))
    check("element lines", elements.line(4, 3, 2, 0) == "4 3 2 0 | 0 6 | 0 14 | 0 4 | 0 2 1 2")
    check("element lines", elements.line(4, 3, 2, 1) == "4 3 2 1 | 0 6 | 0 14 | 0 11 | 0 2 1 2")
    check("element lines", elements.line(4, 1, 8, 1) == "4 1 8 1 | 0 8 | 0 1 | 0 0 | 0 0")
    check("element lines", elements.line(4, 0, 2, 1) == "4 0 2 1 | 0 0 | 13 | 13 | 0 1 5 double")
    check("element lines", elements.line(4, 1, 16, 0) == "4 1 16 0 | 4 | 0 1 | 0 0 | 4")
    check("element lines", elements.line(4, 16, 1, 256) == "4 16 1 256 | 4 | 4 | 21 | 4")
    check("element lines", elements.line(260, 1, 1, 2) == "260 1 1 2 | 1 | 1 | 1 | 1")


def check_positions(rng):
    """The order of the position's refusals, and that a locator's roots give back its places under its convention."""
    for m, convention, r in itertools.product((4, 8, 11, 5, 260), (0, 1, 2, 3, 256, 65535), (0, 1, 65535)):
        applies = ((1, m not in (4, 8, 11)), (21, convention > 1), (4, r == 65535), (13, r == 0))
        first = next((number for number, holds in applies if holds), 0)
        check("order of a position's refusals", R.position(m, r, convention)[0] == first, m, r, convention)
    for m in field.DEGREES:
        for _ in range(20):
            places = sorted(rng.sample(range(field.size(m) - 1), 8))
            for convention in R.CONVENTIONS:
                locator = [1]
                for j in places:
                    x = field.power(m, 2, j)
                    locator = R.multiply(m, locator, [x, 1] if convention == 0 else [1, x])
                found = sorted(R.position(m, r, convention)[1][0] for r in R.zeros(m, locator))
                check("the roots of a locator give back its places", found == places, m, convention, places)


# The figures of docs/RULES.md section 10.


def check_figures():
    name = "bench figures"

    def figure(m, f, cutoff, roots, steps):
        lent, mults = stale(R.MOST_ROOTS + 3), stale(R.MOST_ROOTS + 2)
        outcome, values, memory = R.whole(m, f, cutoff, lent, mults)
        expected = tuple(roots) + lent[len(roots):]
        check(name, (outcome, values, memory[0]) == (0, (len(roots), steps), expected), m, f, cutoff)
        check(name, R.search(m, f, lent, mults) == (0, (len(roots),), memory), m, f)
        check(name, run(m, f, cutoff)[:2] == (roots, steps), m, f, cutoff)

    for cutoff, steps in ((1, 4), (2, 3), (3, 0), (0, 0)):
        figure(4, [6, 7, 0, 1], cutoff, [1, 2, 3], steps)
    passed = run(4, [6, 7, 0, 1], 1)[2]
    third = (4, 1, 2, 3, 3, 1, 1, 3, 2, 6, 1)
    fourth = (4, 1, 3, 4, 3, 1, 1, 4, 1, 2, 4, 1, 3)
    check(name, passed[3] == sized(third, R.SLOTS))
    check(name, passed[4] == sized(fourth, R.SLOTS))
    figure(4, [1, 0, 0, 1], 1, [1, 6, 7], 4)
    figure(4, [1, 0, 0, 1], 2, [1, 6, 7], 2)
    figure(4, [1, 0, 0, 1], 0, [1, 6, 7], 0)
    for cutoff in (1, 2, 3):
        figure(4, [2, 0, 1], cutoff, [5], 0)
        figure(4, [8, 1, 1], cutoff, [], 0)
        figure(4, [3, 2], cutoff, [8], 0)
        figure(4, [7], cutoff, [], 0)
    figure(4, [6, 1, 1], 3, [2, 3], 0)
    for cutoff, steps in ((1, 15), (2, 7), (3, 7)):
        figure(4, [0, 1] + [0] * 14 + [1], cutoff, list(range(16)), steps)
    figure(11, [0, 1, 1, 0], 1, [0, 1], 1)
    least, most = R.MOST_ROOTS, R.MOST_COEFFICIENTS
    lent = stale(least)
    for f, cutoff, number in (([0, 0], 1, 5), ([16, 1], 1, 4), ([3, 2], 4, 6)):
        check(name, R.whole(4, f, cutoff, lent, lent) == (number, (), (lent, lent)))
        check(name, R.begin(4, f, cutoff, stale(R.SLOTS)) == (number, (), stale(R.SLOTS)))
    check(name, R.whole(4, [3, 2], 3, lent, lent)[0] == 0)
    for f, number in (([0, 0], 5), ([16, 1], 4)):
        check(name, R.search(4, f, lent, lent) == (number, (), (lent, lent)))
    for call in (lambda f: R.whole(4, f, 0, lent, lent)[0], lambda f: R.search(4, f, lent, lent)[0],
                 lambda f: R.begin(4, f, 0, stale(R.SLOTS))[0]):
        check(name, call([1] * most) == 0 and call([1] * (most + 1)) == 3 and call([1] * most + [0]) == 3 and call([]) == 2)
    for memory in ((stale(least - 1), lent), (lent, stale(least - 1)), (stale(R.STORED_ROOTS), stale(R.STORED_ROOTS))):
        check(name, R.whole(4, [3, 2], 0, *memory) == (7, (), memory))
        check(name, R.search(4, [3, 2], *memory) == (7, (), memory))
    done = run(4, [6, 7, 0, 1], 1)[2][-1]
    for table in (sized(done, slots) for slots in (*sizes.ABOUT_TABLES, 0)):
        if len(table) != R.SLOTS:
            check(name, R.begin(4, [3, 2], 0, table) == (7, (), table))
        if len(table) in (R.SLOTS, R.STORED_SLOTS):
            check(name, R.step(table) == (R.DONE, (), table))
            check(name, R.finish(table, lent) == (0, (3,), (1, 2, 3) + lent[3:]))
            check(name, R.finish(table, lent[1:]) == (7, (), lent[1:]))
        else:
            check(name, R.step(table) == (7, (), table))
            check(name, R.finish(table, lent) == (7, (), lent))
    double = R.write_table(4, 1, 0, [(0, [0, 0, 1])])  # P = z^2
    outcome, _, table = R.step(double)
    check(name, outcome == 0 and table == R.write_table(4, 1, 1, [(1, [0, 1]), (1, [0, 1])]))
    check(name, R.finish(table, lent) == (0, (1,), (0,) + lent[1:]))


def check_sizes():
    """The numbers of the two sizes of a table, and tables that are sound in one of them alone."""
    name = "sizes of tables"
    check(name, R.LIMITS == {196: 64, 100: 32} and R.SLOTS == 196 and R.MOST_COEFFICIENTS == 65 and writer.MOST_BYTES == 135)
    check(name, sizes.ABOUT == (31, 32, 33, 34, 63, 64, 65, 66) and sizes.ABOUT_TABLES == (99, 100, 101, 195, 196, 197))
    for m, c, total in itertools.product(field.DEGREES, (1, 2, 3), sizes.ABOUT):
        for slots, most in R.LIMITS.items():
            table = R.write_table(m, c, 0, [(0, [1] * total + [1])], slots)
            outcome, _, after = R.step(table)
            check(name, outcome == (0 if total <= most else 8) and len(after) == slots, m, c, total, slots)
            for more, number in ((0, 9 if total <= most else 8), (1, 8)):
                full = table[:3] + (m * (total // (c + 1)) + more,) + table[4:]
                check(name, R.step(full) == (number, (), full), m, c, total, slots)


def check_stored(rng, count):
    """A table of the stored size is stepped and finished as the same front in the other."""
    for m in field.DEGREES:
        maker = tables.Maker(m, rng)
        for _ in range(count):
            f, cutoff = maker.polynomial(R.STORED_ROOTS), rng.randrange(1, 4)
            roots, steps, passed = run(m, f, cutoff)
            stored = maker.begun(f, cutoff, R.STORED_SLOTS)
            check("stored tables: each step", [sized(table, R.SLOTS) for table in stored] == passed, m, f, cutoff)
            check("stored tables: the roots", R.finish(stored[-1], stale(R.MOST_ROOTS))[1:] == (
                (len(roots),), tuple(roots) + stale(R.MOST_ROOTS)[len(roots):]), m, f, cutoff)


# Order of refusals, stated the other way: the least number that applies.


def check_orders(rng, count):
    for _ in range(count):
        m = rng.choice((4, 8, 11, 4, 8, 11, 0, 5, 260))
        q = 1 << m if m in (4, 8, 11) else None
        n = rng.choice((0, 1, 2, R.MOST_COEFFICIENTS, *sizes.ABOUT[-2:], rng.choice(sizes.ABOUT)))
        top = rng.choice((1, 16, 17, 256, 257, 2048, 2049, 65536))
        f = [rng.randrange(top) for _ in range(n)]
        if f and rng.randrange(8) == 0:
            f[rng.randrange(n)] = 65535
        cutoff = rng.choice((0, 1, 2, 3, 4, 65535))
        room, mult_room = (rng.choice((0, R.MOST_ROOTS, *sizes.ABOUT)) for _ in range(2))
        slots = rng.choice((0, R.SLOTS, R.SLOTS, *sizes.ABOUT_TABLES))
        applies = {
            1: q is None,
            2: n == 0,
            3: n > R.MOST_COEFFICIENTS,
            4: q is not None and any(c >= q for c in f),
            5: n > 0 and sum(f) == 0,
            6: cutoff > 3,
            7: room < R.MOST_ROOTS or mult_room < R.MOST_ROOTS,
        }
        first = min([no for no in applies if applies[no]], default=0)
        check("order of refusals", R.whole(m, f, cutoff, stale(room), stale(mult_room))[0] == first, m, f, cutoff, room)
        first = min([no for no in applies if applies[no] and no != 6], default=0)
        check("order of refusals", R.search(m, f, stale(room), stale(mult_room))[0] == first, m, f, room)
        applies[7] = slots != R.SLOTS
        first = min([no for no in applies if applies[no]], default=0)
        check("order of refusals", R.begin(m, f, cutoff, stale(slots))[0] == first, m, f, cutoff, slots)


# Polynomials.


def horner(m, f, x):
    value = 0
    for c in reversed(f):
        value = field.product(m, value, x) ^ c
    return value


def check_polynomials(rng, count):
    for m in field.DEGREES:
        maker = polynomials.Maker(m, rng)
        for number in range(count):
            p = maker.monic_of(maker.size_of())
            f = R.trim(maker.any_list(rng.randrange(R.MOST_COEFFICIENTS + 1)))
            quotient, rest = R.divide(m, f, p)
            check("f = quotient p + remainder",
                  R.add(R.multiply(m, quotient, p), rest) == f and len(rest) < len(p), m, p, f)
            g = R.gcd(m, p, f)
            check("the gcd divides both", g[-1] == 1 and not R.remainder(m, p, g) and not R.remainder(m, f, g), m, p, f)
            k = rng.randrange(m)
            term = R.remainder(m, [0, field.power(m, 2, k)], p)
            total = []
            for _ in range(m):
                total = R.add(total, term)
                term = R.remainder(m, R.multiply(m, term, term), p)
            check("Tr(a^i z) modulo p by squaring", total == R.remainder(m, R.trace_polynomial(m, k), p), m, p, k)
            d = rng.randrange(1, min(R.MOST_ROOTS, field.size(m)))
            chosen = rng.sample(range(field.size(m)), d + 1)
            i = rng.randrange(d + 1)
            j = rng.randrange(i, d + 1)
            left, right = R.from_roots(m, chosen[:j]), R.from_roots(m, chosen[i:])
            check("the gcd of split polynomials", R.gcd(m, left, R.scale(m, right, maker.nonzero())) ==
                  R.from_roots(m, chosen[i:j]), m, chosen, i, j)
            if number < 12:
                every = [x for x in range(field.size(m)) if horner(m, p, x) == 0]
                check("roots by Horner and the plain product", every == R.zeros(m, p), m, p)
            x = rng.randrange(field.size(m))
            check("one value by Horner", horner(m, f, x) == R.value_at(m, f, x), m, f, x)
        for i in range(m):
            f = R.trace_polynomial(m, i)
            for x in rng.sample(range(field.size(m)), 16):
                check("Tr(a^i z) at an element", R.value_at(m, f, x) == field.trace_bits(m, x)[i], m, i, x)


# Affine polynomials.


def written_out(m, coefficients, constant):
    """The polynomial of degree up to 2^(m-1), with its zeros between the terms."""
    f = [constant] + [0] * 2 ** (m - 1)
    for i, c in enumerate(coefficients):
        f[2**i] = c
    return f


def rank(rows):
    """The rank over two values of rows of bits, by elimination."""
    found = 0
    rows = list(rows)
    while rows:
        pivot = rows.pop()
        if pivot:
            found += 1
            low = pivot & -pivot
            rows = [row ^ pivot if row & low else row for row in rows]
    return found


def check_affine(rng, count):
    """Roots by Horner on the polynomial written out; the rank of the images of the basis; sums of three roots; the whole call where the degree allows."""
    terms = R.MOST_ROOTS.bit_length()  # at z, z^2, z^4, .. within the limit
    for m in field.DEGREES:
        maker, q = affine.Maker(m, rng), field.size(m)
        for number in range(count):
            k = number % (m + 1)
            f = maker.of_dimension(k) if number % 3 else maker.elements(m)
            if number % 5 == 0:
                f[terms:] = [0] * len(f[terms:])
            constant = maker.with_roots(f) if number % 4 else rng.randrange(q)
            lent = stale(q + number % 3)
            outcome, values, memory = R.affine(m, f, constant, lent)
            images = [R.affine_at(m, f, 0, 1 << j) for j in range(m)]
            solvable = rank(images) == rank(images + [constant])
            check("affine: none exactly where the constant adds to the rank", (outcome == 0) == solvable, m, f, constant)
            s = values[0] if solvable else 0
            roots = memory[:s]
            check("affine: slots behind the roots", memory[s:] == lent[s:], m, f, constant)
            check("affine: values", values == ((2 ** (m - rank(images)), m - rank(images)) if solvable else ()), m, f, constant)
            long = written_out(m, f, constant)
            for x in rng.sample(range(q), 8):
                check("affine: one value by Horner", (horner(m, long, x) == 0) == (x in roots), m, f, constant, x)
            if s > 2:
                x, y, z = (rng.choice(roots) for _ in range(3))
                check("affine: sums of three roots are roots", x ^ y ^ z in roots, m, f, constant)
            if any(long[:R.MOST_COEFFICIENTS]) and not any(long[R.MOST_COEFFICIENTS:]):
                check("affine: the roots of the whole call", list(roots) == R.zeros(m, long), m, f, constant)


def check_affine_figures(rng):
    """What can be said without computing, and the order 1, 20, 4, 7, stated the other way."""
    for m in field.DEGREES:
        q, zeros = field.size(m), [0] * m
        every = tuple(range(q))
        check("affine figures", R.affine(m, zeros, 0, stale(q)) == (0, (q, m), every))
        check("affine figures", R.affine(m, zeros, 1, stale(q)) == (R.NONE, (), stale(q)))
        check("affine figures", R.affine(m, [1] + zeros[1:], 5, stale(q)) == (0, (1, 0), (5,) + stale(q)[1:]))
        traced = tuple(x for x in every if field.trace(m, x) == 1)
        check("affine figures", R.affine(m, [1] * m, 1, stale(q)) == (0, (q // 2, m - 1), traced + stale(q)[q // 2:]))
    check("affine figures", R.affine(4, [1, 1, 0, 0], 6, stale(16)) == (0, (2, 1), (2, 3) + stale(16)[2:]))
    check("affine figures", R.affine(4, [1, 1, 0, 0], 8, stale(16)) == (R.NONE, (), stale(16)))
    for m, n, large, room in itertools.product((4, 8, 11, 5, 260), (0, 3, 4, 8, 11, 12), (False, True), (0, 15, 255, 2047, 2048)):
        known = m in field.DEGREES
        f = [0] * n
        applies = {1: not known, 20: known and n != m, 4: known and large, 7: known and room < field.size(m)}
        first = next((number for number in (1, 20, 4, 7) if applies[number]), 0)
        constant = 65535 if large else 0
        check("affine: order of refusals", R.affine(m, f, constant, stale(room))[0] == first, m, n, large, room)


# Tables.


def lcp(s, t):
    n = 0
    while n < len(s) and s[n] == t[n]:
        n += 1
    return n


def steps_by_prefixes(m, roots, c):
    """A third count of the steps, from sorted trace bits."""
    bits = sorted(field.trace_bits(m, r) for r in roots)
    steps = 0
    for p in range(len(bits) - c):
        before = lcp(bits[p - 1], bits[p]) if p else -1
        steps += max(0, min(lcp(bits[p], bits[p + c]), m - 1) - before)
    return steps


def expected_tables(m, roots, c):
    """Each table from begin to done, from groups of roots alone."""
    current = [(0, list(roots))] if roots else []
    steps = 0
    while True:
        yield R.write_table(m, c, steps, [(level, R.from_roots(m, group)) for level, group in current])
        places = [k for k, (_, group) in enumerate(current) if len(group) > c]
        if not places:
            return
        level, group = current[places[0]]
        halves = [[r for r in group if field.trace_bits(m, r)[level] == bit] for bit in (0, 1)]
        current[places[0]:places[0] + 1] = [(level + 1, half) for half in halves if half]
        steps += 1


def check_begun(m, roots, c, passed):
    for table in passed:
        sound = R.read_table(table)
        check("begun tables are sound", sound is not None, table)
        _, _, steps, factors = sound
        prefixes = []
        for level, f in factors:
            found = R.zeros(m, f)
            check("a factor has its degree in roots", len(found) == len(f) - 1, table)
            bits = {field.trace_bits(m, r)[:level] for r in found}
            check("a factor's roots share their bits", len(bits) == 1, table)
            prefix = bits.pop()
            check("a factor holds the whole group",
                  found == [r for r in roots if field.trace_bits(m, r)[:level] == prefix], table)
            prefixes.append(prefix)
        check("factors ascend by trace bits", prefixes == sorted(prefixes), table)


def check_multiplicities(m, f, roots, mults):
    """The product of (z + r)^e divides f, and the cofactor has no root."""
    product = R.from_roots(m, [r for r, e in zip(roots, mults) for _ in range(e)])
    cofactor, rest = R.divide(m, f, product)
    check("multiplicities", min(mults, default=1) >= 1 and rest == [] and R.zeros(m, cofactor) == [], m, f)


def check_whole(rng, count):
    for m in field.DEGREES:
        maker = tables.Maker(m, rng)
        for number in range(count):
            f = rng.choice((maker.polynomial, maker.repeated))()
            cutoff = rng.randrange(4)
            c = cutoff or 3
            lent, old = stale(sizes.room(rng)), stale(sizes.room(rng))
            outcome, (s, steps), (memory, mults) = R.whole(m, f, cutoff, lent, old)
            roots = list(memory[:s])
            check("whole call: the list", outcome == 0 and memory[s:] == lent[s:] and roots == sorted(set(roots)))
            check_multiplicities(m, f, roots, mults[:s])
            check("multiplicities: the list", mults[s:] == old[s:])
            check("plain search equals the whole call", R.search(m, f, lent, old) == (0, (s,), (memory, mults)), m, f)
            found, walked, passed = run(m, f, cutoff)
            check("begin, steps, finish give the same roots and steps", (found, walked) == (roots, steps), m, f, cutoff)
            check("steps by prefixes", steps_by_prefixes(m, roots, c) == steps, m, roots, c)
            check("every table from groups", list(expected_tables(m, roots, c)) == passed, m, f, cutoff)
            if number < count // 8:
                check_begun(m, roots, c, passed)


def sound_again(table):
    """The paragraph on soundness once more, slot by slot."""
    slots, most = list(table), R.LIMITS[len(table)]
    m, c, count, steps = (slots.pop(0) for _ in range(4))
    if m not in (4, 8, 11) or c not in (1, 2, 3) or not count <= most:
        return False
    s = 0
    for _ in range(count):
        if len(slots) < 2:
            return False
        level, d = slots.pop(0), slots.pop(0)
        s += d
        if not (level <= m and d >= 1 and s <= most and d <= len(slots)):
            return False
        for _ in range(d):
            if not slots.pop(0) < 2**m:
                return False
    return steps <= m * (s // (c + 1)) and not any(slots)


def check_tables(rng, count):
    for m in field.DEGREES:
        maker = tables.Maker(m, rng)
        every = list(maker.edges())
        every += [maker.foreign() for _ in range(count)] + [maker.done_foreign() for _ in range(count)]
        for table in every:
            check("foreign tables are sound", sound_again(table) and R.read_table(table) is not None, table)
            first = R.read_table(table)
            union = set()
            for _, f in first[3]:
                union.update(R.zeros(m, f))
            while True:
                before = R.read_table(table)
                outcome, _, after = R.step(table)
                above = [f for f in before[3] if len(f[1]) - 1 > before[1]]
                if outcome != 0:
                    check("a step not taken writes nothing", after == table)
                    check("done has no factor above", (outcome == R.DONE) == (not above), table)
                    check("9 is by the first factor above", (outcome == 9) == bool(
                        above and (above[0][0] == m or before[2] == R.limit(m, before[1], before[3]))), table)
                    break
                check("a step keeps the table sound", sound_again(after), table)
                table = after
            outcome, values, memory = R.finish(table, stale(R.MOST_ROOTS))
            if above:
                check("finish before done gives 10", (outcome, values, memory) == (10, (), stale(R.MOST_ROOTS)))
            else:
                check("steps keep the union of the roots", list(memory[:values[0]]) == sorted(union), table)
        damages = [damaged for table in rng.sample(every, min(20, len(every))) for damaged in maker.damage(table)]
        for damaged in damages + list(maker.sums()):
            truth = sound_again(damaged)
            check("soundness of damaged tables", truth == (R.read_table(damaged) is not None), damaged)
            check("an unsound table gives 8", truth != (R.step(damaged)[0] == 8) and
                  truth != (R.finish(damaged, stale(R.MOST_ROOTS))[0] == 8), damaged)


# Records.


def check_records(rng, count):
    example = records.EXAMPLE
    lines = ["1 0 3 4 1 2 3", "2 1", "3 0 3 0 1 6 7"]
    check("the input of three records of RULES 6.4", R.roots_lines(example) == lines)
    stop = b"roots: reading stopped at record 4 (byte 33): %s; the rest was not read; `salvage` keeps what can be kept\n"
    check("nothing is said where reading ends", records.said_of("roots", example) == b"")
    check("reading stops without a mark", records.said_of("roots", example + b"\x4c\x53\x04") == stop % b"its mark is missing")
    check("reading stops at a record that ends early", records.said_of("roots", example + b"\x4c\x52\x04") == stop % b"it ends early")
    check("no input, no line", R.roots_lines(b"") == [])
    for length in range(len(example) + 1):
        whole = [line for line, end in zip(lines, (13, 20, 33)) if end <= length]
        if length not in (0, 13, 20, 33):
            whole.append("%d 12" % (len(whole) + 1))
        check("the example cut short", R.roots_lines(example[:length]) == whole, length)
    check("reader", R.read_record(example, 0) == (0, (4, 1, 5, 8, 13), ()))
    check("reader", R.read_record(example, 13) == (1, (20,), ()))
    check("reader", R.read_record(example, 20) == (0, (4, R.HOUSE, 25, 8, 33), ()))
    for at in (33, 34, 100, 10**6):
        check("reader", R.read_record(example, at) == (R.END, (), ()))
    make, most = records.record, R.MOST_COEFFICIENTS
    for data, number in (
        (make(5, 9, []), 1),
        (make(5, 9, [65535] * (most + 1)), 1),
        (make(4, 9, []), 2),
        *((make(4, 9, [65535] * n), 4 if n <= most else 3) for n in sizes.ABOUT),
        (make(4, 9, [0] * most), 5),
        (make(4, 9, [1] * most), 6),
        (make(4, 9, [65535] * 255), 3),
        (make(4, 9, [16, 0]), 4),
        (make(4, 9, [0, 0]), 5),
        (make(4, 4, [1]), 6),
        (make(4, 255, [1]), 6),
        (make(5, 9, [1] * (most + 1))[:-1], 12),
        (make(4, 9, [1] * 255)[:-1], 12),
        (make(4, 9, [], n=1), 12),
        (b"\x00", 12),
        (b"\x00\x00", 11),
        (b"\x4c\x53", 11),
        (b"\x4c\x52", 12),
        (b"\x4c\x52\x04\x01", 12),
    ):
        values = (len(data),) if number < 7 else ()
        check("reader", R.read_record(data, 0) == (number, values, ()), data)
    check("reader", R.read_record(make(8, 1, [1] * most), 0) == (0, (8, 1, 5, 2 * most, writer.MOST_BYTES), ()))
    check("no roots, no space behind", R.roots_lines(make(4, 1, [8, 1, 1])) == ["1 0 0 0"])
    check("the program stops after 11", R.roots_lines(b"\x00\x00" + example) == ["1 11"])
    lengths = set()
    for kind, data in records.make_files(rng.randrange(1000), count):
        if kind.startswith("limit"):
            lengths.add(len(data))
            cut = R.roots_lines(data[:65536])
            check("what is behind 65,536 bytes is ignored", R.roots_lines(data) == cut, kind)
            if kind == "limit-exact":
                exact = cut
                check("exactly 65,536 bytes end without 12", " 12" not in cut[-1][-3:] or cut[-1].count(" ") > 1)
            if kind == "limit-one-more-record":
                check("a record behind the limit has no line", cut == exact)
            if kind.startswith("limit-cut-") and "wrong" not in kind and not kind.endswith("-13"):
                check("a record cut by the limit gives 12", cut[-1].split()[1:] == ["12"], kind)
    check("sizes about the limit", {65535, 65536, 65537} <= lengths)


# Writing records.


def check_written(m, cutoff, roots):
    """The product is monic, 0 exactly at the roots, and that of logarithms; the record is read back, whatever is behind it, and the rest of the room stays."""
    lent = bytes(range(writer.MOST_BYTES + 29))
    outcome, (length,), memory = writer.write(m, cutoff, roots, lent)
    f = writer.product_of(m, roots)
    plain = m < 11 and (len(f) < 18 or len(f) in sizes.ABOUT)
    every = [x for x in range(field.size(m)) if horner(m, f, x) == 0] if plain else R.zeros(m, f)
    check("writer: 0 exactly at the roots", every == roots and f[-1] == 1 and len(f) == len(roots) + 1, m, roots)
    check("writer: the product by logarithms", f == R.from_roots(m, roots), m, roots)
    check("writer: length and memory", (outcome, length, memory[length:]) == (0, 7 + 2 * len(roots), lent[length:]), m, roots)
    check("writer: the record", memory[:length] == records.record(m, cutoff, f), m, roots)
    stated = R.HOUSE if cutoff == 0 else cutoff
    check("writer: the reader gives it back", R.read_record(memory, 0) == (0, (m, stated, 5, 2 * len(f), length), ()), m, roots)
    _, (s, steps), (found, mults) = R.whole(m, R.coefficients_of(memory[5:length]), cutoff, stale(R.MOST_ROOTS), stale(R.MOST_ROOTS))
    check("writer: the whole call lists the roots, each once", list(found[:s]) == roots and set(mults[:s]) <= {1}, m, roots)
    line = text_line(m, cutoff, roots)
    check("lists: the record of a line", lists.jobs(line) == (memory[:length], []), line)
    check("lists: roots prints the roots again", lists.back(lists.walk(line)) == R.roots_lines(memory[:length]), line)


def text_line(m, cutoff, roots):
    """A line of a list."""
    return " ".join(str(x) for x in (m, cutoff, *roots)).encode()


def check_writer(rng):
    """Every number of roots in each field, and the rooms about a record's length."""
    for m in field.DEGREES:
        maker = writer.Maker(m, rng)
        for n in range(maker.most + 1):
            check_written(m, maker.cutoff(), maker.roots(n))
        roots = maker.roots(9)
        for room in range(40):
            expected = 0 if room >= 25 else 7
            check("writer: room", writer.write(m, 1, roots, bytes(room))[0] == expected, m, room)
    check("writer: figures", writer.write(4, 1, [1, 2, 3], b"") == (7, (), b""))
    check("writer: figures", writer.write(4, 1, [1, 2, 3], bytes(14)) == (0, (13,), records.EXAMPLE[:13] + b"\0"))
    check("writer: figures", writer.write(4, 0, [1, 6, 7], bytes(13)) == (0, (13,), records.EXAMPLE[20:]))
    check("writer: figures", writer.write(11, 2, [], bytes(7)) == (0, (7,), bytes.fromhex("4C520B02010100")))
    check("writer: figures", writer.product_of(4, range(16)) == [0, 1] + [0] * 14 + [1])


def check_writer_orders(rng, count):
    """The order of refusals, stated the other way: the first of the order's numbers that applies."""
    for _ in range(count):
        m = rng.choice((4, 8, 11, 4, 8, 11, 0, 5, 260))
        n = rng.choice((0, 1, 2, 3, *sizes.ABOUT))
        top = rng.choice((16, 17, 256, 257, 2048, 2049, 65536))
        roots = [rng.randrange(top) for _ in range(n)]
        if rng.randrange(4):
            roots = sorted(set(roots))
        cutoff, room = rng.choice((0, 1, 3, 4, 65535)), rng.choice((0, 6, 7, 9, writer.MOST_BYTES - 1, writer.MOST_BYTES, writer.MOST_BYTES + 9))
        lent = rng.randbytes(room)
        outcome = writer.write(m, cutoff, roots, lent)
        applies = {1: m not in (4, 8, 11), 3: len(roots) > R.MOST_ROOTS, 4: max(roots, default=0) >> min(m, 16) > 0, 25: roots != sorted(set(roots)), 6: cutoff > 3,
                   7: room < 7 + 2 * len(roots)}
        first = next((number for number in (1, 3, 4, 25, 6, 7) if applies[number]), 0)
        check("writer: order of refusals", outcome[0] == first and (first == 0 or outcome[1:] == ((), lent)), m, cutoff, roots, room)


NOT_DECIMAL = "jobs: line %d: not decimal numbers: m, a cutoff and roots"


def check_lists():
    """The example of RULES 12.3, and lines that are not as they should be."""
    example, one = records.EXAMPLE[:13] + records.EXAMPLE[20:], records.EXAMPLE[:13]
    check("lists: the example", lists.jobs(lists.EXAMPLE) == (example, ["jobs: line 2: refused under 1"]))
    check("lists: no input", lists.jobs(b"") == (b"", []))
    for data in (b"4 1 1 2 3", b"\t4\r1 1  2 3\r\n\n \n", b"04 001 1 2 0000000000000000000000003\n"):
        check("lists: blanks, line ends and zeros", lists.jobs(data) == (one, []), data)
    for bad in (b"4", b"65536", b"4 1 1 -2", b"+4 1", b"x", b"4 1\x00", b"4 1 \x80", b"4\x0b1", b"4 1" + b" 1" * (R.MOST_ROOTS + 8) + b" x"):
        check("lists: not decimal numbers", lists.jobs(b"\n" + bad + b"\n4 1 1 2 3") == (one, [NOT_DECIMAL % 2]), bad)
    for asked, number in ((b"65540 1", 1), (b"4 65536", 6), (b"4 0 1 65538", 4), (b"4 1 2 1", 25), (b"4 9 2 1 70000", 4), (b"11 9" + b" 1" * (R.MOST_ROOTS + 1), 3),
                          (b"11 9" + b" 1" * R.MOST_ROOTS, 25)):
        check("lists: refused", lists.jobs(asked) == (b"", ["jobs: line 1: refused under %d" % number]), asked)
    full = text_line(11, 1, range(R.MOST_ROOTS + 1))
    check("lists: the numbers behind a root too many", lists.jobs(full + b" 5 70000")[1] == lists.jobs(full)[1] == ["jobs: line 1: refused under 3"])
    told = ["jobs: line 65530 is cut off at byte 65,536: no record of it was written; the rest was not read"]
    check("lists: a line that is cut off", lists.jobs(b"\n" * 65529 + b"4 1 1 2 3") == (b"", told))
    check("lists: its line feed behind the limit", lists.jobs(b"\n" * 65529 + b"4 1 1 2\n") == (b"", told))
    check("lists: an input that ends at the limit", lists.jobs(b"\n" * 65527 + b"4 1 1 2 3") == (one, []))


# The sheet.


def highest_by_products(data, m):
    """The record that RULES 13.2 names, by products of whole numbers, from the lines of `roots`."""
    best = None
    for line, (outcome, at, values) in zip(R.roots_lines(data), sheet.outcomes(data)):
        if outcome != 0 or values[0] != m:
            continue
        number, _, s, steps = (int(word) for word in line.split()[:4])
        limit = m * (s // ((data[at + 3] or 3) + 1))
        if limit > 0 and (best is None or best[1] * limit < steps * best[2]):
            best = number, steps, limit
    return best


def check_sheet_of(data):
    """A sheet adds up to the outcomes given; its highest records are those by products; its sums those of the lines of `roots`."""
    rows, apart = figures = sheet.sheet(data)
    lines = [[int(word) for word in line.split()] for line in R.roots_lines(data)]
    check("sheet: the outcomes given", sheet.given(figures) == len(lines))
    check("sheet: those apart", all(count == sum(line[1] == number for line in lines) for number, count in apart.items()))
    for number in sheet.REFUSED:
        check("sheet: refused records", sum(row[number] for row in rows.values()) == sum(line[1] == number for line in lines))
    for column, place in (("roots", 2), ("steps", 3)):
        check("sheet: sums", sum(row[column] for row in rows.values()) == sum(line[place] for line in lines if line[1] == 0))
    for m, row in rows.items():
        check("sheet: highest by products", row["highest"] == highest_by_products(data, m), m, row)
        check("sheet: steps are within their limit", row["highest"] is None or 0 < row["highest"][1] <= row["highest"][2], m, row)
    return figures


def check_sheet(rng, count):
    """The example of RULES 13.4, empty input, and sums of joined files."""
    printed = [sheet.HEAD, "4 2 0 0 0 0 0 6 4 1 4 4", "8 0 0 0 0 0 0 0 0 - - -", "11 0 0 0 0 0 0 0 0 - - -", "unknown 1 mark 0 short 0"]
    check("sheet: the example", sheet.sheet_lines(records.EXAMPLE) == printed)
    check("sheet: empty input", sheet.sheet_lines(b"") == [sheet.HEAD] + ["%d 0 0 0 0 0 0 0 0 - - -" % m for m in field.DEGREES] + ["unknown 0 mark 0 short 0"])
    maker = sheet.Maker(rng)
    for number in range(count):
        first, second = maker.clean(0, 8), sheet.any_end(maker)
        sheets = [check_sheet_of(data) for data in (first, second, first + second)]
        check("sheet: joined files", sheet.joined(*sheets[:2]) == sheets[2], first, second)
    for kind, data in sheet.ties(maker):
        check_sheet_of(data)
    two = records.record(4, 1, R.from_roots(4, [1, 2, 3]))
    for data, record in ((two * 3, 1), (records.record(4, 1, [1]) + two * 2, 2), (records.record(4, 9, [1]) * 3 + two, 4)):
        check("sheet: ties go to the earlier, refused ones counted", sheet.sheet(data)[0][4]["highest"] == (record, 4, 4))


# The block corrector.


def check_codewords(rng):
    """Generators by their degree, and codewords by the definition."""
    check("the generator of strength 8", corrector.generator(8) == 317645624157077156049808851)
    everywhere = bytes([255] * 255 + [127])
    for t in blocks.STRENGTHS:
        check("a generator's degree", corrector.generator(t).bit_length() == 11 * t + 1, t)
        check("all ones", corrector.is_codeword(everywhere, t) and corrector.is_codeword(bytes(256), t), t)
        word = blocks.any_codeword(rng, t)
        for weaker in range(1, t + 1):
            check("codewords of a strength are codewords of those below", corrector.is_codeword(word, weaker), t)
        for bit in rng.sample(range(corrector.BITS), 16):
            check("one bit makes no codeword", not corrector.is_codeword(corrector.flipped(word, [bit]), t), t, bit)


def check_corrector(rng, count):
    """What is planted comes back; at most one set of places is met; trial of places says the same."""
    for t in blocks.STRENGTHS:
        for number in range(count):
            word = blocks.any_codeword(rng, t)
            places = sorted(rng.sample(range(corrector.BITS), number % (t + 5)))
            received = corrector.flipped(word, places)
            met = list(corrector.candidates(received, t))
            check("no two codewords qualify", len(met) < 2, t, places)
            answer = corrector.correct(t, received)
            if len(places) <= t:
                check("planted errors come back", answer == (0, len(places), word) and met == [places], t, places)
            check("only codewords are given", answer[0] == 24 or corrector.is_codeword(answer[2], t), t, places)
            check("at strength 1 every word is within a bit of a codeword", t > 1 or answer[0] == 0, places)
            if t < 3 or (t == 3 and number < 4):
                check("corrections by trial of places", corrector.by_trial(t, received) == answer, t, places)


def check_encoder(rng):
    """A codeword with the data of the word, whatever the check bits were; a codeword stays."""
    for t in blocks.STRENGTHS:
        word = blocks.any_word(rng)
        outcome, checks, after = corrector.encode(t, word)
        check("11 t check bits", (outcome, checks) == (0, 11 * t), t)
        check("encoded words are codewords", corrector.is_codeword(after, t), t)
        check("data stay", (int.from_bytes(after, "little") ^ int.from_bytes(word, "little")) >> checks == 0, t)
        other = corrector.flipped(word, rng.sample(range(checks), 5))
        check("check bits do not matter", corrector.encode(t, other) == (0, checks, after), t)
        check("a codeword is encoded already", corrector.encode(t, after) == (0, checks, after), t)


def check_block_refusals():
    """22 before 23 before 24; nothing is written."""
    zeros, last = bytes(256), bytes(255) + b"\x80"
    for strength, word, number in ((8, last, 22), (0, last, 22), (9, b"", 22), (1, bytes(257), 22), (1, bytes(255), 22),
                                   (0, zeros, 23), (9, zeros, 23), (65535, zeros, 23), (256, zeros, 23),
                                   (2, corrector.flipped(zeros, (0, 1, 2, 3)), 24)):
        check("block refusals", corrector.correct(strength, word) == (number, 0, word), strength, len(word))
    check("block lines", blocks.line(1, b"\x01", (22, 0, b"\x01")) == "1 1 | 22 | 01")
    check("block lines", blocks.line(1, b"", (22, 0, b"")) == "1 0 | 22 |")
    check("block lines", blocks.line(8, zeros, (0, 0, zeros)) == "8 256 | 0 0 | " + "00" * 256)


# The case formats.


def check_formats(rng):
    for case in polynomials.make_cases(rng.randrange(1000), 90):
        polynomials.check(case)
        back = list(polynomials.unpack(polynomials.pack(*case)))
        check("polynomial cases survive packing", back == [tuple(case)], case)
        polynomials.line(case)
    for _ in range(50):
        table = tuple(rng.randrange(65536) for _ in range(rng.choice((0, *sizes.ABOUT_TABLES))))
        lent = tuple(rng.randrange(65536) for _ in range(rng.choice((0, R.MOST_ROOTS - 1, R.MOST_ROOTS))))
        data = tables.pack_begin(4, [6, 7, 0, 1], 1, table) + tables.pack_step(table) + tables.pack_finish(table, lent)
        back = list(tables.Tape(data).answers())
        direct = [(0, R.begin(4, [6, 7, 0, 1], 1, table)), (1, R.step(table)), (2, R.finish(table, lent))]
        check("table cases survive packing", back == direct)
    every = [(m, tuple(f), constant, tuple(lent)) for m, f, constant, lent in affine.make_cases(rng.randrange(1000), 1)]
    check("affine cases survive packing", list(affine.unpack(b"".join(affine.pack(*case) for case in every))) == every)
    every = [(m, cutoff, tuple(roots), lent) for m, cutoff, roots, lent in writer.make_cases(rng.randrange(1000), 1)]
    check("writer cases survive packing", list(writer.unpack(b"".join(writer.pack(*case) for case in every))) == every)
    every = list(blocks.make_cases(rng.randrange(1000), 1))
    check("block cases survive packing", list(blocks.unpack(b"".join(blocks.pack(*case) for case in every))) == every)


def main():
    parser = argparse.ArgumentParser(
        description=__doc__, epilog="Exit status: 0 no check failed; 1 one did; 2 unknown words.", formatter_class=argparse.RawDescriptionHelpFormatter
    )
    parser.add_argument("--seed", type=int, default=1)
    parser.add_argument("--count", type=int, default=1000)
    options = parser.parse_args()
    rng = random.Random(options.seed)
    check_fields(rng, options.count)
    check_elements()
    check_positions(rng)
    check_figures()
    check_sizes()
    check_stored(rng, options.count // 4)
    check_orders(rng, 3 * options.count)
    check_polynomials(rng, options.count)
    check_affine(rng, options.count)
    check_affine_figures(rng)
    check_whole(rng, options.count)
    check_tables(rng, options.count // 4)
    check_records(rng, 60)
    check_writer(rng)
    check_writer_orders(rng, 3 * options.count)
    check_lists()
    check_sheet(rng, options.count // 2)
    check_codewords(rng)
    check_corrector(rng, options.count // 8)
    check_encoder(rng)
    check_block_refusals()
    check_formats(rng)
    for name, count in counts.items():
        print("%s: %d" % (name, count))
    print("checks: %d, failures: %d" % (sum(counts.values()), len(failures)))
    return 1 if failures else 0


if __name__ == "__main__":
    sys.exit(main())
