"""Sections 1 to 6 of docs/RULES.md by plain methods.

Every call returns (outcome, values, memory): the outcome is 0 or a refusal's
number, or one of the words DONE, NONE, END, which have no number; the values
are a tuple; the memory is the lent list or table as it stands afterwards
(() where none is lent; a pair where two lists are lent). Lent memory that
comes in is never changed in place.
"""

import functools
import operator

import field

DONE = "done"  # step: no factor is above the cutoff
NONE = "none"  # quadratic, affine polynomial: no root
END = "end"  # reader: no byte remains
HOUSE = "house"  # a record's cutoff 0

CONVENTIONS = (0, 1)  # of a position: Goppa, recorders
HOUSE_CUTOFF = 3
MOST_ROOTS = 64  # the limit: of a degree, of a table's factors and their sum; the fewest slots of a list
MOST_COEFFICIENTS = MOST_ROOTS + 1
STORED_ROOTS = 32  # the limit of tables that were stored before it grew
HEAD_SLOTS = 4
SLOTS = HEAD_SLOTS + 3 * MOST_ROOTS  # so many factors of degree 1 fill a table
STORED_SLOTS = HEAD_SLOTS + 3 * STORED_ROOTS
LIMITS = {SLOTS: MOST_ROOTS, STORED_SLOTS: STORED_ROOTS}  # a table's limit by its size
MARK = b"\x4c\x52"
MOST_BYTES = 65536


# Element calls: 1, 4, 13; position: 1, 21, 4, 13.


def refused_elements(m, elements):
    if m not in field.DEGREES:
        return 1
    if any(x >= field.size(m) for x in elements):
        return 4
    return 0


def product(m, a, b):
    refusal = refused_elements(m, (a, b))
    if refusal:
        return refusal, (), ()
    return 0, (field.product(m, a, b),), ()


def inverse(m, a):
    refusal = refused_elements(m, (a,))
    if refusal:
        return refusal, (), ()
    if a == 0:
        return 13, (), ()
    return 0, (field.inverse(m, a),), ()


def position(m, r, convention):
    if m not in field.DEGREES:
        return 1, (), ()
    if convention not in CONVENTIONS:
        return 21, (), ()
    if r >= field.size(m):
        return 4, (), ()
    if r == 0:
        return 13, (), ()
    return 0, (field.position(m, r, convention),), ()


def quadratic(m, a, b):
    refusal = refused_elements(m, (a, b))
    if refusal:
        return refusal, (), ()
    roots = field.quadratic(m, a, b)
    if not roots:
        return NONE, (), ()
    return 0, tuple((r, multiplicity(m, [b, a, 1], r)) for r in roots), ()


# Polynomials over the field: lists, constant first, the last entry not 0;
# the empty list is the zero polynomial.


def trim(f):
    f = list(f)
    while f and f[-1] == 0:
        f.pop()
    return f


def degree(f):
    """The place of the highest nonzero coefficient; None if there is none."""
    places = [i for i, c in enumerate(f) if c != 0]
    return places[-1] if places else None


def add(f, g):
    longer, shorter = (f, g) if len(f) >= len(g) else (g, f)
    total = list(longer)
    for i, c in enumerate(shorter):
        total[i] ^= c
    return trim(total)


def scale(m, f, c):
    times = field.logs(m).product
    return trim(times(c, x) for x in f)


def multiply(m, f, g):
    times = field.logs(m).product
    total = [0] * (len(f) + len(g))
    for i, x in enumerate(f):
        for j, y in enumerate(g):
            total[i + j] ^= times(x, y)
    return trim(total)


def monic(m, f):
    """f divided by its leading coefficient; f is not zero."""
    f = trim(f)
    return scale(m, f, field.logs(m).inverse(f[-1]))


def divide(m, f, p):
    """Quotient and remainder of the schoolbook division; p is not zero."""
    tables = field.logs(m)
    exp, log = tables.exp, tables.log
    p = trim(p)
    rest = trim(f)
    d = len(p) - 1
    lead = tables.inverse(p[-1])
    below = [(i, log[c]) for i, c in enumerate(p[:-1]) if c]
    quotient = [0] * max(len(rest) - d, 0)
    for top in range(len(rest) - 1, d - 1, -1):
        c = tables.product(rest[top], lead)
        if c == 0:
            continue
        quotient[top - d] = c
        rest[top] = 0
        base, shift = log[c], top - d
        for i, l in below:
            rest[i + shift] ^= exp[base + l]
    return trim(quotient), trim(rest)


def remainder(m, f, p):
    return divide(m, f, p)[1]


def gcd(m, f, g):
    """The monic greatest common divisor by Euclid; f and g not both zero."""
    f, g = trim(f), trim(g)
    while g:
        f, g = g, remainder(m, f, g)
    return monic(m, f)


def value_at(m, f, x):
    """The sum of c_i x^i, term by term."""
    tables = field.logs(m)
    total = 0
    for i, c in enumerate(f):
        total ^= tables.product(c, tables.power(x, i))
    return total


_power_logs = {}


def power_logs(m):
    """For each i up to the limit the logarithms of x^i, of every nonzero x in ascending order."""
    if m not in _power_logs:
        tables = field.logs(m)
        _power_logs[m] = [[l * i % tables.order for l in tables.log[1:]] for i in range(MOST_COEFFICIENTS)]
    return _power_logs[m]


def zeros(m, f):
    """Every element at which f, of a degree within the limit, is 0, ascending."""
    return list(_zeros(m, tuple(trim(f))))


@functools.lru_cache(maxsize=20000)
def _zeros(m, f):
    """The terms of f are added up at all nonzero elements side by side."""
    tables = field.logs(m)
    if not f:
        return list(range(field.size(m)))
    totals = [0] * tables.order
    for i, c in enumerate(f):
        if c:
            multiples = tables.exp[tables.log[c]:]  # at l the product of c and a^l
            totals = list(map(operator.xor, totals, map(multiples.__getitem__, power_logs(m)[i])))
    return [0] * (f[0] == 0) + [x for x, total in enumerate(totals, 1) if total == 0]


def multiplicity(m, f, r):
    """How often f, which is not zero, can be divided by z + r."""
    times = 0
    quotient, rest = divide(m, f, [r, 1])
    while not rest:
        times += 1
        quotient, rest = divide(m, quotient, [r, 1])
    return times


def from_roots(m, roots):
    """The product of (z + r)."""
    f = [1]
    for r in roots:
        f = multiply(m, f, [r, 1])
    return f


def trace_polynomial(m, i):
    """Tr(a^i z) written out: the sum of (a^i)^(2^j) z^(2^j), degree 2^(m-1)."""
    f = [0] * (2 ** (m - 1) + 1)
    c = field.power(m, field.A, i)
    for j in range(m):
        f[2**j] = c
        c = field.product(m, c, c)
    return f


# Whole call and begin: 1 to 7 ascending; plain search without 6.


def refused_polynomial(m, coefficients, cutoff):
    """Numbers 1 to 6; give cutoff 0 where no cutoff is taken."""
    if m not in field.DEGREES:
        return 1
    if len(coefficients) == 0:
        return 2
    if len(coefficients) > MOST_COEFFICIENTS:
        return 3
    if any(c >= field.size(m) for c in coefficients):
        return 4
    if all(c == 0 for c in coefficients):
        return 5
    if cutoff > 3:
        return 6
    return 0


def in_force(cutoff):
    return HOUSE_CUTOFF if cutoff == 0 else cutoff


def groups(m, roots, level):
    """The roots gathered by their first `level` trace bits, in ascending order."""
    found = {}
    for r in roots:
        found.setdefault(field.trace_bits(m, r)[:level], []).append(r)
    return [found[bits] for bits in sorted(found)]


def count_steps(m, roots, c):
    """Groups with more than c members, levels 0 to m-1."""
    steps = 0
    for level in range(m):
        steps += sum(1 for group in groups(m, roots, level) if len(group) > c)
    return steps


def fill(roots, lent):
    return tuple(roots) + tuple(lent[len(roots):])


def fill_both(m, coefficients, roots, memory):
    """Both lent lists: the roots, and beside each its multiplicity."""
    lent, mults = memory
    return fill(roots, lent), fill([multiplicity(m, coefficients, r) for r in roots], mults)


def refused_lists(memory):
    """7, for the root list and then for the list of multiplicities."""
    return 7 if any(len(lent) < MOST_ROOTS for lent in memory) else 0


def whole(m, coefficients, cutoff, lent, mults):
    memory = tuple(lent), tuple(mults)
    refusal = refused_polynomial(m, coefficients, cutoff) or refused_lists(memory)
    if refusal:
        return refusal, (), memory
    roots = zeros(m, coefficients)
    steps = count_steps(m, roots, in_force(cutoff))
    return 0, (len(roots), steps), fill_both(m, coefficients, roots, memory)


def search(m, coefficients, lent, mults):
    memory = tuple(lent), tuple(mults)
    refusal = refused_polynomial(m, coefficients, 0) or refused_lists(memory)
    if refusal:
        return refusal, (), memory
    roots = zeros(m, coefficients)
    return 0, (len(roots),), fill_both(m, coefficients, roots, memory)


# Affine polynomials: 1, 20, 4, 7. Coefficient i belongs to z^(2^i).


_power_rows = {}


def power_rows(m):
    """For each x the elements x, x^2, x^4, ..., x^(2^(m-1)), by plain squares."""
    if m not in _power_rows:
        square = field.squares(m)
        rows = []
        for x in range(field.size(m)):
            row = [x]
            while len(row) < m:
                row.append(square[row[-1]])
            rows.append(row)
        _power_rows[m] = rows
    return _power_rows[m]


def affine_at(m, coefficients, constant, x):
    """The constant and the sum of c_i x^(2^i), term by term."""
    times = field.logs(m).product
    total = constant
    for c, power in zip(coefficients, power_rows(m)[x]):
        total ^= times(c, power)
    return total


def refused_affine(m, coefficients, constant, room):
    if m not in field.DEGREES:
        return 1
    if len(coefficients) != m:
        return 20
    if any(c >= field.size(m) for c in (*coefficients, constant)):
        return 4
    if room < field.size(m):
        return 7
    return 0


def affine(m, coefficients, constant, lent):
    """Every element is tried. The values are the number of roots and the k of
    which it is the power 2^k."""
    lent = tuple(lent)
    refusal = refused_affine(m, coefficients, constant, len(lent))
    if refusal:
        return refusal, (), lent
    roots = [x for x in range(field.size(m)) if affine_at(m, coefficients, constant, x) == 0]
    if not roots:
        return NONE, (), lent
    (k,) = (k for k in range(m + 1) if 2**k == len(roots))
    return 0, (len(roots), k), fill(roots, lent)


# The work table.


def write_table(m, c, steps, factors, slots=SLOTS):
    """Factors are (level, monic polynomial)."""
    table = [m, c, len(factors), steps]
    for level, f in factors:
        table += [level, len(f) - 1] + f[:-1]
    if len(table) > slots:
        raise ValueError("the factors do not fit the table")
    return tuple(table + [0] * (slots - len(table)))


def limit(m, c, factors):
    s = sum(len(f) - 1 for _, f in factors)
    return m * (s // (c + 1))


def read_table(table):
    """(m, c, steps, factors) of a sound table of either size; None if not sound."""
    slots, most = len(table), LIMITS[len(table)]
    m, c, count, steps = table[:HEAD_SLOTS]
    if m not in field.DEGREES:
        return None
    if not 1 <= c <= 3:
        return None
    if count > most:
        return None
    at = HEAD_SLOTS
    total = 0
    factors = []
    for _ in range(count):
        if at + 2 > slots:
            return None
        level, d = table[at], table[at + 1]
        at += 2
        if level > m or d < 1:
            return None
        total += d
        if total > most or at + d > slots:
            return None
        below = list(table[at:at + d])
        at += d
        if any(x >= field.size(m) for x in below):
            return None
        factors.append((level, below + [1]))
    if steps > limit(m, c, factors):
        return None
    if any(x != 0 for x in table[at:]):
        return None
    return m, c, steps, factors


def first_above(c, factors):
    for place, (_, f) in enumerate(factors):
        if len(f) - 1 > c:
            return place
    return None


def begin(m, coefficients, cutoff, table):
    table = tuple(table)
    refusal = refused_polynomial(m, coefficients, cutoff)
    if refusal:
        return refusal, (), table
    if len(table) != SLOTS:
        return 7, (), table
    roots = zeros(m, coefficients)
    factors = [(0, from_roots(m, roots))] if roots else []
    return 0, (), write_table(m, in_force(cutoff), 0, factors)


def split(m, level, p):
    """g and h of a step (RULES 4.3)."""
    g = gcd(m, p, remainder(m, trace_polynomial(m, level), p))
    h, rest = divide(m, p, g)
    if rest:
        raise ValueError("the divisor does not divide")
    return g, h


def step(table):
    table = tuple(table)
    if len(table) not in LIMITS:
        return 7, (), table
    sound = read_table(table)
    if sound is None:
        return 8, (), table
    m, c, steps, factors = sound
    place = first_above(c, factors)
    if place is None:
        return DONE, (), table
    level, p = factors[place]
    if level == m or steps == limit(m, c, factors):
        return 9, (), table
    parts = [(level + 1, f) for f in split(m, level, p) if len(f) > 1]
    factors[place:place + 1] = parts
    return 0, (), write_table(m, c, steps + 1, factors, len(table))


def finish(table, lent):
    """The memory is the root list; the table is not written."""
    table = tuple(table)
    lent = tuple(lent)
    if len(table) not in LIMITS or len(lent) < MOST_ROOTS:
        return 7, (), lent
    sound = read_table(table)
    if sound is None:
        return 8, (), lent
    m, c, _, factors = sound
    if first_above(c, factors) is not None:
        return 10, (), lent
    found = set()
    for _, f in factors:
        found.update(zeros(m, f))
    return 0, (len(found),), fill(sorted(found), lent)


# Job records and the program.


def read_record(data, at):
    """Accepted: (m, cutoff, start, length, next), the coefficient bytes being
    data[start:start + length]. Refused with 1 to 6: (next,). The memory is ()
    as the file is only read."""
    remaining = len(data) - at
    if remaining <= 0:
        return END, (), ()
    if remaining == 1:
        return 12, (), ()
    if data[at:at + 2] != MARK:
        return 11, (), ()
    if remaining < 5:
        return 12, (), ()
    m, cutoff, n = data[at + 2], data[at + 3], data[at + 4]
    if remaining < 5 + 2 * n:
        return 12, (), ()
    start = at + 5
    behind = start + 2 * n
    refusal = refused_polynomial(m, coefficients_of(data[start:behind]), cutoff)
    if refusal:
        return refusal, (behind,), ()
    stated = HOUSE if cutoff == 0 else cutoff
    return 0, (m, stated, start, 2 * n, behind), ()


def salvage(data):
    """The records kept of a damaged file, and the dropped stretches, each [start, length]."""
    kept, dropped, at = [], [], 0
    while at < len(data):
        outcome, values, _ = read_record(data, at)
        if outcome == 0:
            kept.append(data[at:values[-1]])
            at = values[-1]
            continue
        if dropped and sum(dropped[-1]) == at:
            dropped[-1][1] += 1
        else:
            dropped.append([at, 1])
        at += 1
    return kept, dropped


def salvage_lines(data):
    """The lines of the program `salvage` on this standard input, and what it puts into kept.lr."""
    kept, dropped = salvage(data[:MOST_BYTES])
    return ["%d %d" % (start, length) for start, length in dropped] + [str(len(kept))], b"".join(kept)


def coefficients_of(part):
    return [part[i] + 256 * part[i + 1] for i in range(0, len(part), 2)]


def roots_lines(data):
    """The lines of the program `roots` on this standard input."""
    data = data[:MOST_BYTES]
    lines = []
    at = 0
    number = 0
    while True:
        outcome, values, _ = read_record(data, at)
        if outcome == END:
            return lines
        number += 1
        if outcome in (11, 12):
            lines.append("%d %d" % (number, outcome))
            return lines
        at = values[-1]
        if outcome != 0:
            lines.append("%d %d" % (number, outcome))
            continue
        m, stated, start, length, _ = values
        cutoff = 0 if stated == HOUSE else stated
        coefficients = coefficients_of(data[start:start + length])
        outcome, found, (memory, _) = whole(m, coefficients, cutoff, *[[0] * MOST_ROOTS] * 2)
        if outcome != 0:
            raise ValueError("the reader let a refused record through")
        s, steps = found
        fields = [number, 0, s, steps] + list(memory[:s])
        lines.append(" ".join(str(x) for x in fields))
