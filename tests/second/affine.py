"""Cases and expected lines for affine polynomials (RULES 3.6).

    affine.py cases --seed S --count N > cases.bin   (N systems of each rank with roots, and N without)
    affine.py lines < cases.bin > lines
    affine.py tally < lines

A case is m, n, the constant and the list's number of slots, then n
coefficients and the list's old contents, all 16 bits, low byte first.
Coefficient i belongs to z^(2^i). A line is m, n and the number of slots, `|`,
the outcome (0, `none` or the number), where it is 0 the number of roots and
the dimension, `|`, and every slot of the list afterwards.
"""

import argparse
import itertools
import random
import struct
import sys

sys.dont_write_bytecode = True

import field
import reference as R

UNKNOWN = (0, 1, 5, 13, 255, 260, 65535)


def pack(m, coefficients, constant, lent):
    """The bytes of a case."""
    numbers = (m, len(coefficients), constant, len(lent), *coefficients, *lent)
    return struct.pack("<%dH" % len(numbers), *numbers)


def unpack(data):
    """(m, coefficients, constant, lent) for each case."""
    at = 0

    def numbers(count):
        nonlocal at
        if at + 2 * count > len(data):
            sys.exit("affine.py: the cases end early")
        at += 2 * count
        return struct.unpack("<%dH" % count, data[at - 2 * count : at])

    while at < len(data):
        m, n, constant, room = numbers(4)
        coefficients = numbers(n)
        yield m, coefficients, constant, numbers(room)


# Polynomials of a given rank. Coefficient lists stand for maps: z^(2^m) = z at every element, so that places go round.


def composed(m, outer, inner):
    """The coefficients of outer(inner(z)), both without constant."""
    times, power = field.logs(m).product, field.logs(m).power
    total = [0] * m
    for i, a in enumerate(outer):
        for j, b in enumerate(inner):
            total[(i + j) % m] ^= times(a, power(b, 2**i))
    return total


def vanishing(m, basis):
    """The polynomial that is zero at the sums of these elements and nowhere else: f(z)^2 + f(b) f(z) for each b."""
    f = [1] + [0] * (m - 1)
    for b in basis:
        f = composed(m, [R.affine_at(m, f, 0, b), 1] + [0] * (m - 2), f)
    return f


def kernel(m, f):
    """How many elements f, without constant, is zero at."""
    return sum(R.affine_at(m, f, 0, x) == 0 for x in range(field.size(m)))


class Maker:
    """Cases in one field."""

    def __init__(self, m, rng):
        self.m, self.rng, self.q = m, rng, field.size(m)

    def noise(self, n):
        return [self.rng.randrange(65536) for _ in range(n)]

    def elements(self, n):
        return [self.rng.randrange(self.q) for _ in range(n)]

    def one_to_one(self):
        """A dense polynomial that is zero at 0 alone."""
        while True:
            f = self.elements(self.m)
            if kernel(self.m, f) == 1:
                return f

    def independent(self, k):
        """k elements, none of them a sum of others."""
        basis, sums = [], {0}
        while len(basis) < k:
            b = self.rng.randrange(self.q)
            if b not in sums:
                basis.append(b)
                sums |= {x ^ b for x in sums}
        return basis

    def of_dimension(self, k):
        """A dense polynomial, without constant, that is zero at 2^k elements: of rank m - k."""
        return composed(self.m, self.one_to_one(), vanishing(self.m, self.independent(k)))

    def with_roots(self, f):
        """A constant that is a value of f."""
        return R.affine_at(self.m, f, 0, self.rng.randrange(self.q))

    def without_roots(self, f):
        """A constant that is no value of f, which has fewer than 2^m."""
        values = {R.affine_at(self.m, f, 0, x) for x in range(self.q)}
        return self.rng.choice([x for x in range(self.q) if x not in values])

    def case(self, f, constant, room=None):
        return self.m, f, constant, self.noise(self.q if room is None else room)


# What is tried.


def ranks(maker, count):
    """Every rank, with roots, with root 0, and without roots."""
    for k in range(maker.m + 1):
        for number in range(count):
            f = maker.of_dimension(k)
            yield maker.case(f, maker.with_roots(f))
            if number == 0:
                yield maker.case(f, 0)
            if k > 0:
                yield maker.case(f, maker.without_roots(f))


def plain(maker, count):
    """Zero systems, the trace, z^2 + z, coefficients that are all the last element; one term, two terms, any."""
    m, q = maker.m, maker.q
    zeros, ones = [0] * m, [1] * m
    for constant in (0, 1, 2, q - 1):
        for f in (zeros, ones, [1, 1] + zeros[2:], [q - 1] * m):
            yield maker.case(f, constant)
    for i in range(m):
        for c in (1, q - 1):
            yield maker.case([c if j == i else 0 for j in range(m)], maker.rng.randrange(q))
    for i, j in itertools.combinations(range(m), 2):
        yield maker.case([maker.rng.randrange(1, q) if k in (i, j) else 0 for k in range(m)], maker.rng.randrange(q))
    for _ in range(4 * count):
        yield maker.case(maker.elements(m), maker.rng.randrange(q))


def lists(maker):
    """Lists one short, exact and longer, with many roots, one, and none; lists as long as the roots and no longer."""
    m, q = maker.m, maker.q
    for k in (0, 1, m - 1, m):
        f = maker.of_dimension(k)
        constants = [maker.with_roots(f)] + ([maker.without_roots(f)] if k > 0 else [])
        for constant in constants:
            for room in (0, 1, 2**k, q // 2, q - 1, q, q + 1, q + 63):
                yield maker.case(f, constant, room)
    yield m, [0] * m, 0, [0] * (q + 5)
    yield m, [0] * m, 1, [65535] * (q + 5)


def counts(maker):
    """Numbers of coefficients other than m: one short, one too many, none, those of other fields, many."""
    m = maker.m
    for n in sorted({0, 1, m - 1, m + 1, m + 2, 2 * m, R.MOST_COEFFICIENTS, R.MOST_COEFFICIENTS + 1, 300, *field.DEGREES} - {m}):
        for f in (maker.elements(n), [0] * n, [65535] * n):
            yield maker.case(f, maker.rng.randrange(maker.q))
            yield maker.case(f, 0, 3)


def outside(maker):
    """One coefficient, or the constant, that is no element, at every place."""
    for bad in (maker.q, maker.q + 1, 65535):
        for i in range(maker.m):
            f = maker.elements(maker.m)
            f[i] = bad
            yield maker.case(f, maker.rng.randrange(maker.q))
        yield maker.case(maker.elements(maker.m), bad)
        yield maker.case([0] * maker.m, bad)


def together(maker):
    """Any of the four refusals and none, all at once, 4 by a coefficient and by the constant; beside them a good case."""
    m, q = maker.m, maker.q
    for unknown, other_count, large, short in itertools.product((False, True), repeat=4):
        for in_constant in (False, True) if large else (False,):
            n = maker.rng.choice((m - 1, m + 1)) if other_count else m
            f = maker.elements(n)
            constant = maker.rng.randrange(q)
            if large and in_constant:
                constant = q
            elif large:
                f[maker.rng.randrange(n)] = q
            lent = maker.noise(q - 1 if short else q)
            yield maker.rng.choice(UNKNOWN) if unknown else m, f, constant, lent


def make_cases(seed, count):
    """All cases of a seed."""
    rng = random.Random(seed)
    for m in field.DEGREES:
        maker = Maker(m, rng)
        for kind in (ranks(maker, count), plain(maker, count), lists(maker), counts(maker), outside(maker), together(maker)):
            yield from kind
    for m in UNKNOWN:
        for n in (0, 4, 8, 11, m % 256):
            yield m, [rng.randrange(65536) for _ in range(n)], rng.randrange(65536), [7] * rng.choice((0, 16, 2048))


# The lines.


def line(case, answer):
    """What must be printed of a case."""
    m, coefficients, _, lent = case
    outcome, values, memory = answer
    words = [m, len(coefficients), len(lent), "|", outcome, *values, "|", *memory]
    return " ".join(str(word) for word in words)


def tally(lines):
    """How many lines there are of each field, by dimension and by refusal."""
    found = {}
    for one in lines:
        head, told, _ = (one + " ").split("|")
        m = int(head.split()[0])
        outcome, *values = told.split()
        what = "dimension %2s" % values[1] if values else outcome if outcome == R.NONE else "outcome %s" % outcome
        who = (m, "field %d" % m) if m in field.DEGREES else (99, "unknown field")
        found.setdefault(who, {}).setdefault(what, 0)
        found[who][what] += 1
    for who in sorted(found):
        print("%s: %s" % (who[1], "; ".join("%s: %d" % (" ".join(what.split()), found[who][what]) for what in sorted(found[who]))))
    print("cases: %d" % len(lines))


def main():
    """One of the three commands."""
    parser = argparse.ArgumentParser(
        description=__doc__, epilog="Exit status: 0 done; 1 the cases end early; 2 unknown words.", formatter_class=argparse.RawDescriptionHelpFormatter
    )
    commands = parser.add_subparsers(dest="command", required=True)
    cases = commands.add_parser("cases")
    cases.add_argument("--seed", type=int, default=1)
    cases.add_argument("--count", type=int, default=4)
    commands.add_parser("lines")
    commands.add_parser("tally")
    options = parser.parse_args()
    if options.command == "cases":
        for case in make_cases(options.seed, options.count):
            sys.stdout.buffer.write(pack(*case))
    elif options.command == "tally":
        tally(sys.stdin.read().splitlines())
    else:
        for case in unpack(sys.stdin.buffer.read()):
            sys.stdout.write(line(case, R.affine(*case)) + "\n")


if __name__ == "__main__":
    main()
