"""Writing records (RULES 12.1 and 12.2): the call, its cases and the expected lines.

    writer.py cases --seed S --count N > cases.bin   (N lists of each number of roots in each field)
    writer.py lines < cases.bin > lines
    writer.py tally < cases.bin

A case is m, the cutoff, the number of roots and that of the room's bytes, then
the roots, all 16 bits, low byte first, and then the room's old bytes. A line is
the four numbers, `|`, the outcome, where it is 0 the length of the record, `|`,
and every byte of the room afterwards, in hex. `tally` fails where a number of
roots, a refusal, a pair of refusals or a kind of room was never met.
"""

import argparse
import itertools
import random
import struct
import sys

sys.dont_write_bytecode = True

import field
import reference as R

TESTS = (1, 3, 4, 25, 6, 7)  # in order
UNKNOWN = (0, 1, 3, 5, 7, 12, 255, 256, 260, 264, 267, 65535)
CUTOFFS = (0, 1, 2, 3, 4, 5, 255, 256, 257, 259, 32768, 65535)


# The rules.


def most_roots(m):
    """How many different roots a record can have in a field."""
    return min(R.MOST_ROOTS, field.size(m))


def length_of(count):
    """The bytes of the record of so many roots."""
    return 7 + 2 * count


MOST_BYTES = length_of(R.MOST_ROOTS)  # of a record that is written


def product_of(m, roots):
    """The product of (z + r), constant first, by plain products: z f + r f for each r."""
    f = [1]
    for r in roots:
        f = [above ^ field.product(m, r, c) for above, c in zip([0] + f, f + [0])]
    return f


def record_of(m, cutoff, coefficients):
    """The bytes of a record (RULES 5.1)."""
    n = len(coefficients)
    return R.MARK + bytes((m, cutoff, n)) + struct.pack("<%dH" % n, *coefficients)


def ascending(roots):
    """Is each root above the one before it?"""
    return all(a < b for a, b in zip(roots, roots[1:]))


def holding(m, cutoff, roots, room):
    """The numbers of all tests that hold, in order. Where there is no such field no root can be said to be outside it."""
    known = m in field.DEGREES
    holds = {
        1: not known,
        3: len(roots) > R.MOST_ROOTS,
        4: known and any(r >= field.size(m) for r in roots),
        25: not ascending(roots),
        6: cutoff > 3,
        7: room < length_of(len(roots)),
    }
    return [number for number in TESTS if holds[number]]


def write(m, cutoff, roots, lent):
    """The call. The value is the record's length, the memory the room."""
    lent = bytes(lent)
    refusals = holding(m, cutoff, roots, len(lent))
    if refusals:
        return refusals[0], (), lent
    data = record_of(m, cutoff, product_of(m, roots))
    return 0, (len(data),), data + lent[len(data):]


# The bytes of a case.


def pack(m, cutoff, roots, lent):
    """The bytes of a case."""
    numbers = (m, cutoff, len(roots), len(lent), *roots)
    return struct.pack("<%dH" % len(numbers), *numbers) + bytes(lent)


def unpack(data):
    """(m, cutoff, roots, lent) for each case."""
    at = 0

    def part(length):
        nonlocal at
        if at + length > len(data):
            sys.exit("writer.py: the cases end early")
        at += length
        return data[at - length : at]

    while at < len(data):
        m, cutoff, n, room = struct.unpack("<4H", part(8))
        roots = struct.unpack("<%dH" % n, part(2 * n))
        yield m, cutoff, roots, part(room)


class Maker:
    """Cases in one field."""

    def __init__(self, m, rng):
        self.m, self.rng, self.q, self.most = m, rng, field.size(m), most_roots(m)

    def roots(self, count):
        """Different elements, ascending."""
        return sorted(self.rng.sample(range(self.q), count))

    def cutoff(self):
        """One that is accepted."""
        return self.rng.randrange(4)

    def case(self, roots, cutoff=None, room=None, m=None):
        """The room is exact, and what it held any bytes, where nothing else is said."""
        lent = self.rng.randbytes(length_of(len(roots)) if room is None else room)
        return self.m if m is None else m, self.cutoff() if cutoff is None else cutoff, list(roots), lent


# What is tried.


def good(maker, count):
    """Every number of roots that the field has: any roots, the first and the last elements; the room exact and longer."""
    for n in range(maker.most + 1):
        for number in range(count):
            yield maker.case(maker.roots(n), room=length_of(n) + number % 2 * maker.rng.randrange(1, 100))
        yield maker.case(range(n))
        yield maker.case(range(maker.q - n, maker.q), room=MOST_BYTES)


def cutoffs(maker):
    """Every cutoff, those above 3 refused, beside few roots and many."""
    for cutoff in CUTOFFS:
        for n in (0, 1, 2, maker.most):
            yield maker.case(maker.roots(n), cutoff=cutoff)


def rooms(maker):
    """Rooms that are empty, short, exact and longer."""
    for n in (0, 1, 5, min(R.STORED_ROOTS, maker.q - 2), maker.most - 1, maker.most):
        length = length_of(n)
        for room in sorted({0, 1, 2, 4, 5, 6, 7, length - 2, length - 1, length, length + 1, length + 2, length + 63, MOST_BYTES, 300}):
            yield maker.case(maker.roots(n), room=room)


def unordered(maker):
    """Two neighbours equal, or changed for each other, at every place; all equal; descending; the last as the first."""
    for n in (2, 3, 9, maker.most):
        roots = maker.roots(n)
        for i in range(n - 1):
            yield maker.case(roots[: i + 1] + [roots[i]] + roots[i + 2 :])
            yield maker.case(roots[:i] + [roots[i + 1], roots[i]] + roots[i + 2 :])
        yield maker.case(roots[::-1])
        yield maker.case(roots[:-1] + roots[:1])
        yield maker.case([roots[0]] * n)
        yield maker.case([0] * n)


def outside(maker):
    """A root that is no element, at the end, where the list still ascends, and at every other place; all such."""
    for n in (1, 2, 9, maker.most):
        for bad in (maker.q, maker.q + 1, 65535):
            for i in range(n):
                roots = maker.roots(n)
                roots[i] = bad
                yield maker.case(roots)
        yield maker.case(range(maker.q, maker.q + n))
        yield maker.case([maker.q] * n)


def many(maker):
    """More roots than there may be, ascending as far as there are so many numbers, and counts whose low byte is small."""
    most = R.MOST_ROOTS
    for n in (most + 1, most + 2, most + 3, 2 * most, 2 * most + 1, 255, 256, 257, 259, 256 + most, 1000):
        for room in (None, MOST_BYTES, 0):
            yield maker.case(range(n), room=room)
        yield maker.case(sorted(maker.rng.randrange(maker.q) for _ in range(n)), room=300)
        yield maker.case([65535] * n, cutoff=9)


def together(maker):
    """Each refusal and none of it, all at once: so each alone, each pair, and good cases."""
    for unknown, long, large, mixed, high, short in itertools.product((False, True), repeat=6):
        roots = maker.roots(8)
        if long:
            many_roots = R.MOST_ROOTS + 1
            roots = list(range(many_roots)) if maker.q > many_roots else roots + [maker.q - 1] * (many_roots - len(roots))
        if large:
            roots[-1] = maker.rng.choice((maker.q, 65535))
        if mixed:
            roots[0], roots[1] = roots[1], roots[0]
        length = length_of(len(roots))
        m = maker.rng.choice(UNKNOWN) if unknown else maker.m
        yield maker.case(roots, maker.rng.choice((4, 5, 65535)) if high else maker.cutoff(), length - short * maker.rng.randrange(1, length + 1), m)


def unknown_fields(maker):
    """Field degrees that there are not, also such as have the low byte of one that there is."""
    for m in UNKNOWN:
        for roots in ([], [1, 2, 3], [3, 2, 1], [65535], [0] * (R.MOST_ROOTS + 8)):
            yield maker.case(roots, room=maker.rng.choice((0, 7, 13, 100)), m=m)


def make_cases(seed, count):
    """All cases of a seed."""
    rng = random.Random(seed)
    for m in field.DEGREES:
        maker = Maker(m, rng)
        yield from good(maker, count)
        for kind in (cutoffs, rooms, unordered, outside, many, together, unknown_fields):
            yield from kind(maker)


# The lines.


def line(case, answer):
    """What must be printed of a case."""
    m, cutoff, roots, lent = case
    outcome, values, memory = answer
    told = " ".join(str(word) for word in (outcome, *values))
    return ("%d %d %d %d | %s | %s" % (m, cutoff, len(roots), len(lent), told, memory.hex())).rstrip()


# What must be met.

PAIRS = [pair for pair in itertools.combinations(TESTS, 2) if pair != (1, 4)]


def room_of(count, room):
    """The kind of a room."""
    apart = room - length_of(count)
    return "empty" if room == 0 else "exact" if apart == 0 else "one short" if apart == -1 else "shorter" if apart < 0 else "longer"


def kinds_of(case):
    """What a case is, in words that are counted."""
    m, cutoff, roots, lent = case
    refusals = holding(m, cutoff, roots, len(lent))
    if not refusals:
        yield "field %d, roots %d" % (m, len(roots))
        yield "accepted, room %s" % room_of(len(roots), len(lent))
        yield "accepted, cutoff %d" % cutoff
    if len(refusals) == 1:
        yield "%d alone" % refusals[0]
    if refusals == [7]:
        yield "7, room %s" % room_of(len(roots), len(lent))
    for later in refusals[1:]:
        yield "%d before %d" % (refusals[0], later)


def wanted():
    """Every kind that must be met."""
    yield from ("field %d, roots %d" % (m, n) for m in field.DEGREES for n in range(most_roots(m) + 1))
    yield from ("accepted, room %s" % room for room in ("exact", "longer"))
    yield from ("accepted, cutoff %d" % cutoff for cutoff in range(4))
    yield from ("%d alone" % number for number in TESTS)
    yield from ("7, room %s" % room for room in ("empty", "one short", "shorter"))
    yield from ("%d before %d" % pair for pair in PAIRS)


def tally(cases):
    """How many cases there are of each kind. Fails where one that must be met is not."""
    found, outcomes, total = {}, {}, 0
    for case in cases:
        total += 1
        first = (holding(case[0], case[1], case[2], len(case[3])) or [0])[0]
        outcomes[first] = outcomes.get(first, 0) + 1
        for kind in kinds_of(case):
            found[kind] = found.get(kind, 0) + 1
    missing = [kind for kind in wanted() if kind not in found]
    if missing:
        sys.exit("writer.py: never met: %s" % "; ".join(missing))
    print("; ".join("outcome %d: %d" % (number, outcomes[number]) for number in (0, *TESTS)))
    print("; ".join("%s: %d" % (kind, found[kind]) for kind in wanted() if not kind.startswith("field")))
    print("each number of roots: %s" % ", ".join("field %d: 0 to %d" % (m, most_roots(m)) for m in field.DEGREES))
    print("cases: %d" % total)


def main():
    """One of the three commands."""
    parser = argparse.ArgumentParser(
        description=__doc__, epilog="Exit status: 0 done; 1 the cases end early, or a kind of case was never met; 2 unknown words.",
        formatter_class=argparse.RawDescriptionHelpFormatter
    )
    commands = parser.add_subparsers(dest="command", required=True)
    cases = commands.add_parser("cases")
    cases.add_argument("--seed", type=int, default=1)
    cases.add_argument("--count", type=int, default=4)
    commands.add_parser("lines")
    commands.add_parser("tally")
    options = parser.parse_args()
    if options.command == "cases":
        for case in make_cases(options.seed, options.count):
            sys.stdout.buffer.write(pack(*case))
    elif options.command == "tally":
        tally(unpack(sys.stdin.buffer.read()))
    else:
        for case in unpack(sys.stdin.buffer.read()):
            sys.stdout.write(line(case, write(*case)) + "\n")


if __name__ == "__main__":
    main()
