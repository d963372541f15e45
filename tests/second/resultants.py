"""Roots by successive resultants: the cases and the expected lines.

    resultants.py cases --seed S --count N > cases.bin   (N polynomials of each kind in each field)
    resultants.py lines < cases.bin > lines
    resultants.py tally < cases.bin

A case is m, the number of coefficients and that of the slots of the lent list,
then the coefficients and what the list holds, all 16 bits, low byte first. A
line is m, the number of coefficients, `|`, the number of roots, `|`, and the
list afterwards. The routine refuses nothing, so that each case is one that the
search accepts. `tally` fails where a number of roots was never met.
"""

import argparse
import random
import struct
import sys

sys.dont_write_bytecode = True

import field
import reference as R

# The constant b of the first map z^2 + b z in each field: a polynomial in z^2 + b z has all its roots by pairs.
FIRST = {4: 1, 8: 136, 11: 1013}
DEGREE = R.MOST_ROOTS


def composed(m, g, b):
    """g(z^2 + b z)."""
    f = []
    for c in reversed(g):
        f = R.add(R.multiply(m, f, [0, b, 1]), [c])
    return f


class Maker:
    """Polynomials in one field."""

    def __init__(self, m, rng):
        self.m, self.rng, self.q = m, rng, field.size(m)

    def some(self, n):
        return [self.rng.randrange(self.q) for _ in range(n)]

    def unit(self):
        return self.rng.randrange(1, self.q)

    def split(self, n):
        """n distinct roots, and a leading coefficient."""
        return R.scale(self.m, R.from_roots(self.m, self.rng.sample(range(self.q), n)), self.unit())

    def repeated(self):
        """Roots several times."""
        few = self.some(self.rng.randrange(1, 7))
        return R.from_roots(self.m, [self.rng.choice(few) for _ in range(self.rng.randrange(2, DEGREE + 1))])

    def damaged(self):
        """Planted roots, and one coefficient other than it was."""
        f = list(self.split(self.rng.randrange(2, min(self.q, DEGREE) + 1)))
        f[self.rng.randrange(len(f) - 1)] ^= self.unit()
        return f

    def kinds(self):
        """One of each kind."""
        most = min(self.q, DEGREE)
        yield self.some(self.rng.randrange(DEGREE + 1)) + [self.unit()]
        yield self.some(DEGREE) + [self.unit()]
        yield self.split(self.rng.randrange(1, most + 1))
        yield self.split(most)
        yield self.split(self.rng.randrange(1, 9)) + [0] * self.rng.randrange(1, 9)
        yield self.repeated()
        yield self.damaged()
        for b in (FIRST[self.m], self.unit()):
            yield composed(self.m, R.from_roots(self.m, self.some(self.rng.randrange(1, DEGREE // 2 + 1))), b)
        yield [0] * self.rng.randrange(DEGREE) + [self.unit()]

    def case(self, f):
        """With a list of the fewest slots or more."""
        slots = R.MOST_ROOTS + self.rng.choice((0, 0, 1, 7))
        return self.m, list(f), [self.rng.randrange(65536) for _ in range(slots)]


def make_cases(seed, count):
    rng = random.Random(seed)
    for m in field.DEGREES:
        maker = Maker(m, rng)
        for n in range(1, min(field.size(m), DEGREE) + 1):
            yield maker.case(maker.split(n))
        for _ in range(count):
            for f in maker.kinds():
                yield maker.case(f)


# The bytes of a case.


def pack(m, f, lent):
    numbers = (m, len(f), len(lent), *f, *lent)
    return struct.pack("<%dH" % len(numbers), *numbers)


def unpack(data):
    words, at = struct.unpack("<%dH" % (len(data) // 2), data), 0
    while at < len(words):
        m, n, slots = words[at : at + 3]
        at += 3 + n + slots
        if at > len(words):
            sys.exit("resultants.py: the cases end early")
        yield m, list(words[at - n - slots : at - slots]), list(words[at - slots : at])


def line(m, f, lent):
    roots = R.zeros(m, f)
    return "%d %d | %d | %s" % (m, len(f), len(roots), " ".join(map(str, R.fill(roots, lent))))


def tally(cases):
    found = {}
    for m, f, lent in cases:
        key = m, len(R.zeros(m, f))
        found[key] = found.get(key, 0) + 1
    wanted = [(m, n) for m in field.DEGREES for n in range(min(field.size(m), DEGREE) + 1)]
    missing = ["%d roots in field %d" % (n, m) for m, n in wanted if (m, n) not in found]
    if missing:
        sys.exit("resultants.py: never met: %s" % "; ".join(missing))
    for m in field.DEGREES:
        print("field %d: %d polynomials, %d of them without a root" % (m, sum(found[k] for k in found if k[0] == m), found[m, 0]))


def main():
    parser = argparse.ArgumentParser(
        description=__doc__, epilog="Exit status: 0 done; 1 the cases end early, or a number of roots was never met; 2 unknown words.",
        formatter_class=argparse.RawDescriptionHelpFormatter
    )
    commands = parser.add_subparsers(dest="command", required=True)
    cases = commands.add_parser("cases")
    cases.add_argument("--seed", type=int, default=1)
    cases.add_argument("--count", type=int, default=20)
    commands.add_parser("lines")
    commands.add_parser("tally")
    opt = parser.parse_args()
    if opt.command == "cases":
        for case in make_cases(opt.seed, opt.count):
            sys.stdout.buffer.write(pack(*case))
    else:
        read = unpack(sys.stdin.buffer.read())
        if opt.command == "tally":
            tally(read)
        else:
            for case in read:
                print(line(*case))


main()
