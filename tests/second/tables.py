"""Cases and expected lines for begin, step, finish, the whole call and the search.

    tables.py cases --seed S --count N > cases.bin
    tables.py lines < cases.bin
    tables.py tally < cases.bin

N is the number of random polynomials and of foreign tables in each field.
Numbers are 16 bits, low byte first, except the first byte of a case, the op:

    0 begin   m, cutoff, n, slots, n coefficients, the old table's slots
    1 step    slots, the slots
    2 finish  slots, room, the slots, the list's old contents
    3 whole   m, cutoff, n, room, room of the second list, n coefficients, the
              lists' old contents
    4 search  m, n, room, room of the second list, n coefficients, the lists'
              old contents

A line is the op, the outcome (0, `done` or the number), for an accepted
finish, whole call or search the number of roots, for the whole call that of
the steps, `|`, and every slot afterwards of the table (begin and step) or of
the list (finish), or of both lists with `|` between (whole and search).
"""

import argparse
import itertools
import random
import struct
import sys

sys.dont_write_bytecode = True

import field
import polynomials
import reference as R
import sizes
from sizes import sized

BEGIN, STEP, FINISH, WHOLE, SEARCH = range(5)
OPS = ("begin", "step", "finish", "whole", "search")
GOOD = [6, 7, 0, 1]  # the first figure of RULES 10
DRAWN = 150  # the most changes behind its head that are made to a table


def pack_numbers(numbers):
    return struct.pack("<%dH" % len(numbers), *numbers)


def pack_begin(m, coefficients, cutoff, table):
    head = (m, cutoff, len(coefficients), len(table))
    return bytes((BEGIN,)) + pack_numbers(list(head) + list(coefficients) + list(table))


def pack_step(table):
    return bytes((STEP,)) + pack_numbers([len(table)] + list(table))


def pack_finish(table, lent):
    return bytes((FINISH,)) + pack_numbers([len(table), len(lent)] + list(table) + list(lent))


def pack_whole(m, coefficients, cutoff, lent, mults):
    head = [m, cutoff, len(coefficients), len(lent), len(mults)]
    return bytes((WHOLE,)) + pack_numbers(head + list(coefficients) + list(lent) + list(mults))


def pack_search(m, coefficients, lent, mults):
    head = [m, len(coefficients), len(lent), len(mults)]
    return bytes((SEARCH,)) + pack_numbers(head + list(coefficients) + list(lent) + list(mults))


def drawn_cutoff(rng):
    """1, 2 or 3, as they are stated; 2 twice as often."""
    return rng.randrange(4) or 2


class Tape:
    def __init__(self, data):
        self.data = data
        self.at = 0

    def numbers(self, count):
        end = self.at + 2 * count
        if end > len(self.data):
            sys.exit("tables.py: the cases end early")
        found = list(struct.unpack("<%dH" % count, self.data[self.at:end]))
        self.at = end
        return found

    def answers(self):
        """(op, answer) for each case."""
        while self.at < len(self.data):
            op = self.data[self.at]
            self.at += 1
            if op == BEGIN:
                m, cutoff, n, slots = self.numbers(4)
                coefficients = self.numbers(n)
                yield op, R.begin(m, coefficients, cutoff, self.numbers(slots))
            elif op == STEP:
                (slots,) = self.numbers(1)
                yield op, R.step(self.numbers(slots))
            elif op == FINISH:
                slots, room = self.numbers(2)
                table = self.numbers(slots)
                yield op, R.finish(table, self.numbers(room))
            elif op == WHOLE:
                m, cutoff, n, room, mult_room = self.numbers(5)
                coefficients = self.numbers(n)
                yield op, R.whole(m, coefficients, cutoff, self.numbers(room), self.numbers(mult_room))
            elif op == SEARCH:
                m, n, room, mult_room = self.numbers(4)
                coefficients = self.numbers(n)
                yield op, R.search(m, coefficients, self.numbers(room), self.numbers(mult_room))
            else:
                sys.exit("tables.py: unknown op %d" % op)


def line(op, answer):
    outcome, values, memory = answer
    lists = memory if op in (WHOLE, SEARCH) else (memory,)
    words = [op, outcome] + list(values) + [word for slots in lists for word in ("|", *slots)]
    return " ".join(str(x) for x in words)


# The generator.


class Maker:
    def __init__(self, m, rng):
        self.m = m
        self.rng = rng
        self.q = field.size(m)
        self.polynomials = polynomials.Maker(m, rng)

    def noise(self, n):
        return list(struct.unpack("<%dH" % n, self.rng.randbytes(2 * n)))

    def limit(self):
        """The limit of one of the two sizes."""
        return self.rng.choice(tuple(R.LIMITS.values()))

    def polynomial(self, most=None):
        """Coefficients of a polynomial that is not zero and of degree at most `most`, else the limit of one of the two sizes."""
        rng = self.rng
        most = self.limit() if most is None else most
        shape = rng.randrange(8)
        if shape < 3:  # distinct roots
            d = min(rng.randrange(most + 1), self.q)
            f = R.from_roots(self.m, rng.sample(range(self.q), d))
        elif shape == 3:  # neighbours, which share trace bits
            d = min(rng.randrange(most + 1), self.q)
            order = sorted(range(self.q), key=lambda x: field.trace_bits(self.m, x))
            start = rng.randrange(self.q - d + 1)
            f = R.from_roots(self.m, order[start:start + d])
        elif shape < 7:
            f = self.polynomials.monic_of(rng.randrange(most + 1))
        else:
            f = self.polynomials.any_list(1 + rng.randrange(most + 1))
            if R.degree(f) is None:
                f = [1]
        f = R.scale(self.m, f, rng.choice((1, self.polynomials.nonzero())))
        return self.polynomials.with_zeros_on_top(f, most + 1)

    def repeated(self):
        """Coefficients of a product of powers of z + r and of a rest, of degree at most the limit of one of the two sizes."""
        rng, most = self.rng, self.limit()
        f, left = [1], rng.choice((most, 1 + rng.randrange(most)))
        for r in rng.sample(range(self.q), min(self.q, 1 + rng.randrange(8))):
            e = min(left, rng.choice((1, 2, 3, 4, 8, 1 + rng.randrange(most))))
            f = R.multiply(self.m, f, R.from_roots(self.m, [r] * e))
            left -= e
        if rng.randrange(2):
            f = R.multiply(self.m, f, self.polynomials.monic_of(rng.randrange(left + 1)))
        f = R.scale(self.m, f, rng.choice((1, self.polynomials.nonzero())))
        return self.polynomials.with_zeros_on_top(f, most + 1)

    def begun(self, f, cutoff, slots=R.SLOTS):
        """The begun table in so many slots, within its limit, and its followers, up to the one that is done."""
        outcome, _, table = R.begin(self.m, f, cutoff, [0] * R.SLOTS)
        tables = [sized(table, slots)]
        while outcome == 0:
            outcome, _, table = R.step(tables[-1])
            if outcome == 0:
                tables.append(table)
        return tables

    def foreign_factors(self, total):
        """Random factors with degrees that sum to `total`."""
        rng = self.rng
        small = rng.randrange(3)
        factors = []
        left = total
        while left:
            most = (left, min(left, 3), 1)[small] if rng.randrange(4) else left
            d = 1 + rng.randrange(most)
            if factors and rng.randrange(4) == 0 and len(factors[-1][1]) - 1 <= left:
                f = list(rng.choice(factors)[1])  # repeated
                if len(f) - 1 > left:
                    continue
            else:
                f = self.polynomials.monic_of(d)
            level = rng.choice((0, self.m, self.m - 1, rng.randrange(self.m + 1), rng.randrange(self.m + 1)))
            if rng.randrange(5) == 0:  # all of it goes to one side
                level = rng.randrange(self.m)
                bit = rng.randrange(2)
                side = [x for x in range(self.q) if field.trace_bits(self.m, x)[level] == bit]
                f = R.from_roots(self.m, rng.sample(side, min(d, len(side))))
            factors.append((level, f))
            left -= len(f) - 1
        return factors

    def foreign(self):
        rng = self.rng
        c = 1 + rng.randrange(3)
        slots, limit = rng.choice(tuple(R.LIMITS.items()))
        total = rng.choice((0, 1, 2, limit - 1, limit, rng.randrange(limit + 1), rng.randrange(limit + 1)))
        factors = self.foreign_factors(total)
        most = R.limit(self.m, c, factors)
        steps = rng.choice((0, most, max(most - 1, 0), rng.randrange(most + 1), rng.randrange(most + 1)))
        return R.write_table(self.m, c, steps, factors, slots)

    def done_foreign(self):
        """A foreign table on which finish is accepted."""
        rng = self.rng
        c = 1 + rng.randrange(3)
        slots, limit = rng.choice(tuple(R.LIMITS.items()))
        factors = []
        left = rng.choice((limit, rng.randrange(limit + 1)))
        pool = [rng.randrange(self.q) for _ in range(4)]
        while left:
            d = 1 + rng.randrange(min(c, left))
            if rng.randrange(2):
                f = R.from_roots(self.m, [rng.choice(pool) for _ in range(d)])
            else:
                f = self.polynomials.monic_of(d)
            factors.append((rng.randrange(self.m + 1), f))
            left -= d
        most = R.limit(self.m, c, factors)
        return R.write_table(self.m, c, rng.choice((0, most, rng.randrange(most + 1))), factors, slots)

    def full(self, slots, c):
        """Sound tables of a size whose sum is at its limit: linear factors and one factor, and the steps at their limit and below it."""
        m, q, limit = self.m, self.q, R.LIMITS[slots]
        most = m * (limit // (c + 1))
        yield R.write_table(m, c, 0, [(m, [q - 1, 1])] * limit, slots)
        yield R.write_table(m, c, 0, [(0, [0] * limit + [1])], slots)
        yield R.write_table(m, c, most, [(0, [1, 1])] * limit, slots)
        yield R.write_table(m, c, most - 1, [(m - 1, [q - 1] * limit + [1])], slots)
        yield R.write_table(m, c, most, [(0, [0] * limit + [1])], slots)
        yield R.write_table(m, c, 0, [(m, [1] * limit + [1])], slots)

    def edges(self):
        """Sound tables at the limits of the layout, of both sizes."""
        m, q = self.m, self.q
        one = [1, 1]
        for c, (slots, limit) in itertools.product((1, 2, 3), R.LIMITS.items()):
            yield R.write_table(m, c, 0, [], slots)
            yield from self.full(slots, c)
            d = c + 1
            for level in (0, m - 1, m):
                for below in ([0] * d, [1] + [0] * (d - 1), [q - 1] * d):
                    # one factor just above the cutoff among linear ones
                    tail = [(level, below + [1])]
                    yield R.write_table(m, c, 0, [(m, one)] * (limit - d) + tail, slots)
                    yield R.write_table(m, c, 0, tail + [(m, [0, 1])] * (limit - d), slots)
                for steps in (0, m - 1, m):
                    yield R.write_table(m, c, steps, tail, slots)
            # first factor above the cutoff at level m, a later one not, and back
            big, small = [1] * d + [1], [0] * d + [1]
            yield R.write_table(m, c, 0, [(m, big), (0, small)], slots)
            yield R.write_table(m, c, 0, [(0, big), (m, small)], slots)
            yield R.write_table(m, c, 0, [(m, one), (0, big), (m, small)], slots)

    def sums(self):
        """Tables of either size whose sum is about either limit: sound in one size and not in the other, and in none. Some are cut."""
        m = self.m
        for c, total in itertools.product((1, 2, 3), sizes.ABOUT):
            for degrees in ([total], [total - 1, 1], [1, total - 1], [total // 2, total - total // 2], [c] * (total // c) + [total % c] * (total % c > 0)):
                factors = [(0, [1] * d + [1]) for d in degrees]
                for steps in (0, m * (total // (c + 1)), m * (total // (c + 1)) + 1):
                    for slots in sizes.TABLES:
                        yield sized(R.write_table(m, c, steps, factors, 2 * R.SLOTS), slots)

    def damage(self, table):
        """One slot of the table changed: its head by every value, and at most so many changes behind it."""
        rng, m, q = self.rng, self.m, self.q
        m_now, c, steps, factors = R.read_table(table)
        most = R.limit(m_now, c, factors)
        head, changes = [], []
        for value in (0, 1, 2, 3, 4, 5, 7, 8, 9, 10, 11, 12, 13, 16, 260, 264, 267, 65535):
            head.append((0, value))
        for value in (0, 1, 2, 3, 4, 5, 16, 257, 65535):
            head.append((1, value))
        for value in (0, len(factors) - 1, len(factors) + 1, *sizes.ABOUT, 256 + len(factors), 65535):
            head.append((2, max(value, 0)))
        for value in (0, steps + 1, most - 1, most, most + 1, m * R.LIMITS[len(table)], 32768, 65535):
            head.append((3, max(value, 0)))
        at = R.HEAD_SLOTS
        for level, f in factors:
            d = len(f) - 1
            for value in (0, level + 1, m - 1, m, m + 1, 256, 65535):
                changes.append((at, value))
            for value in (0, d - 1, d + 1, R.LIMITS[len(table)], R.LIMITS[len(table)] + 1, 256 + d, 65534, 65535):
                changes.append((at + 1, value))
            for place in range(at + 2, at + 2 + d):
                for value in (q - 1, q, q + rng.randrange(q), 65535, rng.randrange(q)):
                    changes.append((place, value))
            at += 2 + d
        for place in range(at, len(table)):
            changes.append((place, rng.choice((1, q - 1, q, 65535))))
        for place, value in head + rng.sample(changes, min(DRAWN, len(changes))):
            if table[place] != value:
                yield table[:place] + (value,) + table[place + 1:]

    def bad_lists(self):
        """Coefficients that meet 2 to 5, or just do not."""
        q, most = self.q, R.MOST_COEFFICIENTS
        return (
            GOOD,
            [],
            *([1] * n for n in sizes.ABOUT),
            [0] * (most + 1),
            [1] * most + [0],
            [q] * (most + 1),
            [1] * 255,
            [1] * 256 + [0] * 4,
            [q, 1],
            [1] * (most - 1) + [q],
            [0] * (most - 1) + [65535],
            [0, q + 1],
            [0],
            [0] * most,
            [0] * (most - 1) + [1],
            [q - 1],
        )

    def begins(self, count):
        rng, m = self.rng, self.m
        for number in range(count):
            f = self.polynomial()
            yield pack_begin(m, f, drawn_cutoff(rng), self.noise(R.SLOTS))
        # every refusal, and each with those behind it in the order
        bad_lists = self.bad_lists()
        for degree in (m, 0, 1, 5, 13, 255, 256 + m, 65535):
            known = degree == m
            for f in bad_lists:
                for cutoff in (2, 3, 4, 65535) if known else (2, 4):
                    for slots in (R.SLOTS, R.SLOTS - 1, R.STORED_SLOTS, 0) if known else (R.SLOTS, R.STORED_SLOTS):
                        yield pack_begin(degree, f, cutoff, self.noise(slots))
        for slots in (1, 3, 4, 50, *sizes.ABOUT_TABLES, 256 + R.SLOTS, 2 * R.SLOTS):
            yield pack_begin(m, GOOD, 2, self.noise(slots))

    def wholes(self, count):
        """The whole call and the search, accepted and refused."""
        rng, m = self.rng, self.m
        powers = [R.from_roots(m, [r] * e) for r in (0, 1, self.q - 1) for e in (1, 2, R.MOST_ROOTS - 1, R.MOST_ROOTS)]
        repeated = powers + [self.repeated() for _ in range(count)]
        for f in [self.polynomial() for _ in range(count)] + repeated:
            room, mult_room = sizes.room(rng), sizes.room(rng)
            yield pack_whole(m, f, drawn_cutoff(rng), self.noise(room), self.noise(mult_room))
            yield pack_search(m, f, self.noise(room), self.noise(mult_room))
        least = R.MOST_ROOTS
        short = ((least - 1, least), (least, least - 1), (0, least + 8), (least + 8, 0), (0, 0))
        for degree in (m, 0, 1, 5, 13, 256 + m, 65535):
            known = degree == m
            for f in self.bad_lists():
                for rooms in ((least, least), *(short if known else short[:2])):
                    for cutoff in (2, 3, 4, 65535) if known else (2, 4):
                        yield pack_whole(degree, f, cutoff, *map(self.noise, rooms))
                    yield pack_search(degree, f, *map(self.noise, rooms))
        for rooms in itertools.product(sizes.ABOUT, repeat=2):
            yield pack_whole(m, GOOD, 2, *map(self.noise, rooms))
            yield pack_search(m, GOOD, *map(self.noise, rooms))

    def both(self, table, room=None):
        """The table for step and for finish."""
        room = sizes.room(self.rng) if room is None else room
        yield pack_step(table)
        yield pack_finish(table, self.noise(room))

    def cases(self, count):
        rng, m = self.rng, self.m
        yield from self.begins(count)
        yield from self.wholes(count)
        bases = []
        for number in range(count):
            slots = sizes.TABLES[number % 2]
            tables = self.begun(self.polynomial(R.LIMITS[slots]), drawn_cutoff(rng), slots)
            if number < 24:
                for table in tables:
                    yield from self.both(table)
            else:
                yield from self.both(rng.choice(tables))
                yield from self.both(tables[-1])
            bases.append(rng.choice(tables))
        edges = list(self.edges())
        for table in edges + list(self.sums()):
            yield from self.both(table)
        foreign = [self.foreign() for _ in range(count)]
        foreign += [self.done_foreign() for _ in range(count)]
        for number, table in enumerate(foreign):
            yield from self.both(table)
            if number % 12 == 0:  # and what its steps make of it
                outcome, _, table = R.step(table)
                while outcome == 0:
                    yield from self.both(table)
                    outcome, _, table = R.step(table)
        # the table of the first figure with its followers, full ones, a few of each kind
        chosen = [t for c, slots in ((1, R.SLOTS), (2, R.STORED_SLOTS), (3, R.SLOTS)) for t in self.begun(GOOD, c, slots)]
        chosen += rng.sample(bases, min(4, count)) + rng.sample(foreign, min(4, count))
        chosen += [t for slots in sizes.TABLES for t in itertools.islice(self.full(slots, 1), 2)]
        for table in chosen:
            for damaged in self.damage(table):
                yield from self.both(damaged)
        yield from self.lengths()
        for number in range(count):
            yield from self.both(tuple(self.noise(sizes.TABLES[number % 2])))

    def lengths(self):
        """Lengths and rooms, on tables that are done, not done, not sound."""
        m = self.m
        done = self.begun(GOOD, 1)[-1]
        fresh = self.begun(GOOD, 1)[0]
        stuck = R.write_table(m, 1, 0, [(m, [1, 1, 1])])
        unsound = done[:R.STORED_SLOTS - 1] + (1,)
        for table in (done, fresh, stuck, unsound, tuple(self.noise(R.SLOTS)), ()):
            for slots in (0, 1, 4, *sizes.ABOUT_TABLES, 256 + R.STORED_SLOTS, 2 * R.SLOTS):
                cut = sized(table, slots)
                yield pack_step(cut)
                for room in (0, 1, *sizes.ABOUT, 2 * R.MOST_ROOTS) if slots in R.LIMITS else (0, R.MOST_ROOTS - 1, R.MOST_ROOTS):
                    yield pack_finish(cut, self.noise(room))

    def house(self, count):
        """Cutoff 0, which stands for the house default: begin and the whole call, accepted and refused."""
        for f in [self.polynomial() for _ in range(count)] + list(self.bad_lists()) + [GOOD]:
            for degree in (self.m, 5):
                yield pack_begin(degree, f, 0, self.noise(R.SLOTS))
                yield pack_whole(degree, f, 0, self.noise(R.MOST_ROOTS), self.noise(R.MOST_ROOTS))


def make_cases(seed, count):
    rng = random.Random(seed)
    for m in field.DEGREES:
        yield from Maker(m, rng).cases(count)
    for m in field.DEGREES:
        yield from Maker(m, rng).house(count)


def tally(data):
    counts = {}
    for op, answer in Tape(data).answers():
        slots = len(answer[2]) if op == STEP and len(answer[2]) in R.LIMITS else 0
        key = (op, slots, str(answer[0]))
        counts[key] = counts.get(key, 0) + 1
    for op, slots, outcome in sorted(counts):
        print("%s%s, outcome %s: %d" % (OPS[op], " of %d slots" % slots if slots else "", outcome, counts[op, slots, outcome]))
    print("cases: %d" % sum(counts.values()))


def main():
    parser = argparse.ArgumentParser(
        description=__doc__, epilog="Exit status: 0 done; 2 unknown words.", formatter_class=argparse.RawDescriptionHelpFormatter
    )
    commands = parser.add_subparsers(dest="command", required=True)
    cases = commands.add_parser("cases")
    cases.add_argument("--seed", type=int, default=1)
    cases.add_argument("--count", type=int, default=200)
    commands.add_parser("lines")
    commands.add_parser("tally")
    options = parser.parse_args()
    if options.command == "cases":
        for case in make_cases(options.seed, options.count):
            sys.stdout.buffer.write(case)
        return
    data = sys.stdin.buffer.read()
    if options.command == "tally":
        tally(data)
        return
    for op, answer in Tape(data).answers():
        sys.stdout.write(line(op, answer) + "\n")


if __name__ == "__main__":
    main()
