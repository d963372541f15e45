"""Checking a partner's list of roots, and making one: the rules, the cases and the expected lines.

    claims.py cases --seed S --count N > cases.bin   (N polynomials of each kind in each field)
    claims.py lines < cases.bin > lines
    claims.py tally < cases.bin

A case is a kind, m, six numbers, and lists, all 16 bits, low byte first. Kind 0
is a claim to check: the lengths of f, the roots, the multiplicities, h, u and v,
then these lists. Kind 1 is a claim to make: the length of f, the slots of the
five buffers, then f. A line is `check` or `make`, the seven numbers, `|`, the
outcome, and 1 where the claim is accepted, else 0; or the outcome, the number of
roots, and after a `|` each every slot of the buffers, 42405 where none was
written. The rules are tried by the sentence that states them; a claim that is
right is made by trial of every element, by division and by Euclid. `tally` fails where an answer, a slip or
a refusal was never met.
"""

import argparse
import random
import struct
import sys

sys.dont_write_bytecode = True

import field
import reference as R
import sizes

UNKNOWN = (0, 1, 3, 5, 12, 260, 65535)
UNWRITTEN = 0xA5A5
CHECK, MAKE = 0, 1


# Polynomials, constant first, without zeros at the top.


def trimmed(f):
    f = list(f)
    while f and f[-1] == 0:
        f.pop()
    return f


def plus(a, b):
    n = max(len(a), len(b))
    return trimmed(x ^ y for x, y in zip(list(a) + [0] * (n - len(a)), list(b) + [0] * (n - len(b))))


def times(m, a, b):
    product, total = field.logs(m).product, [0] * (len(a) + len(b))
    for i, x in enumerate(a):
        for j, y in enumerate(b):
            total[i + j] ^= product(x, y)
    return trimmed(total)


def divided(m, a, b):
    """Quotient and remainder."""
    logs, a, b = field.logs(m), trimmed(a), trimmed(b)
    lead, quotient = logs.inverse(b[-1]), [0] * len(a)
    while len(a) >= len(b):
        k = len(a) - len(b)
        quotient[k] = logs.product(a[-1], lead)
        a = plus(a, [0] * k + [logs.product(quotient[k], c) for c in b])
    return trimmed(quotient), a


def residue(m, h):
    """z^(2^m) + z by h, or 0 if h is constant."""
    if len(trimmed(h)) < 2:
        return []
    w = divided(m, [0, 1], h)[1]
    for _ in range(m):
        w = divided(m, times(m, w, w), h)[1]
    return divided(m, plus(w, [0, 1]), h)[1]


# The rules.


def refusals(m, f, roots, mults, h, u, v):
    """The numbers of all tests that hold, in order."""
    sent, known = (f, h, u, v), m in field.DEGREES
    holds = {
        1: not known,
        2: any(len(p) == 0 for p in sent),
        3: any(len(p) > R.MOST_COEFFICIENTS for p in sent),
        4: known and any(c >= field.size(m) for p in (*sent, roots) for c in p),
        5: not any(f),
    }
    return [number for number in holds if holds[number]]


def acceptable(m, f, roots, mults, h, u, v):
    """The sentence of the rules."""
    if len(roots) != len(mults) or any(a >= b for a, b in zip(roots, roots[1:])) or 0 in mults:
        return False
    if sum(mults) > R.MOST_ROOTS:  # more than any f has
        return False
    whole = trimmed(h)
    for r, e in zip(roots, mults):
        for _ in range(e):
            whole = times(m, whole, [r, 1])
    return whole == trimmed(f) and plus(times(m, u, h), times(m, v, residue(m, h))) == [1]


def check(case):
    """The outcome, and 1 or 0."""
    number = (refusals(*case) or [0])[0]
    return number, 0 if number else int(acceptable(*case))


def make(m, f, *slots):
    """The outcome, the number of roots, and the five buffers."""
    known = m in field.DEGREES
    holds = {
        1: not known,
        2: len(f) == 0,
        3: len(f) > R.MOST_COEFFICIENTS,
        4: known and any(c >= field.size(m) for c in f),
        5: not any(f),
        7: min(slots[:2]) < R.MOST_ROOTS or min(slots[2:]) < R.MOST_COEFFICIENTS,
    }
    number = next((k for k in holds if holds[k]), 0)
    buffers = [[UNWRITTEN] * n for n in slots]
    if number:
        return number, 0, buffers
    _, _, roots, mults, *polynomials = Maker(m, None).claim(f)
    padded = [p + [0] * (R.MOST_COEFFICIENTS - len(p)) for p in polynomials]
    for buffer, front in zip(buffers, [roots, mults] + padded):
        buffer[: len(front)] = front
    return 0, len(roots), buffers


# The bytes of a case.


def pack(kind, m, *parts):
    if kind == CHECK:
        numbers = (kind, m, *map(len, parts), *(x for part in parts for x in part))
    else:
        numbers = (kind, m, len(parts[0]), *parts[1:], *parts[0])
    return struct.pack("<%dH" % len(numbers), *numbers)


def unpack(data):
    words, at = struct.unpack("<%dH" % (len(data) // 2), data), 0
    while at < len(words):
        kind, m, lengths, at = words[at], words[at + 1], words[at + 2 : at + 8], at + 8
        lists = []
        for n in lengths if kind == CHECK else lengths[:1]:
            lists.append(list(words[at : at + n]))
            at += n
        if len(lengths) < 6 or at > len(words):
            sys.exit("claims.py: the cases end early")
        yield (kind, m, *lists) if kind == CHECK else (kind, m, *lists, *lengths[1:])


# Claims that are right, and slips.


class Maker:
    """Claims in one field."""

    def __init__(self, m, rng):
        self.m, self.rng, self.q = m, rng, field.size(m)

    def element(self):
        return self.rng.randrange(1, self.q)

    def claim(self, f):
        """The claim that is right of a polynomial that is not 0."""
        m, roots, mults, h = self.m, [], [], trimmed(f)
        for r in R.zeros(m, f):
            e = 0
            while divided(m, h, [r, 1])[1] == [] and len(h) > 1:
                h, e = divided(m, h, [r, 1])[0], e + 1
            roots.append(r)
            mults.append(e)
        return [m, list(f), roots, mults, h, *self.combined(h)]

    def combined(self, h):
        """u and v with u h + v w = 1 where there are such, by Euclid; each with at least one coefficient."""
        m, a, b = self.m, h, residue(self.m, h)
        u, v, s, t = [1], [], [], [1]
        while b:
            quotient, rest = divided(m, a, b)
            u, v, s, t = s, t, plus(u, times(m, quotient, s)), plus(v, times(m, quotient, t))
            a, b = b, rest
        scale = [field.logs(m).inverse(a[-1])]
        return [times(m, u, scale) or [0], times(m, v, scale) or [0]]

    def polynomials(self, count):
        """Any; with planted roots, some of them several times; without any; constants; the highest degree; sizes about the limits."""
        for number in range(count):
            degree = self.rng.randrange(R.MOST_COEFFICIENTS)
            yield [self.rng.randrange(self.q) for _ in range(degree)] + [self.element()]
            f = [self.element()]
            while len(f) < self.rng.randrange(2, R.MOST_COEFFICIENTS + 1):
                r = self.rng.randrange(self.q)
                for _ in range(min(self.rng.choice((1, 1, 2, 5)), R.MOST_COEFFICIENTS - len(f))):
                    f = times(self.m, f, [r, 1])
            yield f
            yield f + [0] * self.rng.randrange(R.MOST_COEFFICIENTS + 1 - len(f))
            yield [self.element()]
            yield [self.rng.randrange(self.q) for _ in range(R.MOST_COEFFICIENTS - 1)] + [self.element()]
        for n in sizes.COEFFICIENTS:
            yield [self.element() for _ in range(n)]

    def slips(self, right):
        """The claim with one slip each."""
        m, f, roots, mults, h, u, v = right
        any_of = self.rng.randrange
        yield [m, f, roots, mults, h, u + [0] * any_of(3), v + [0] * any_of(3)] if max(len(u), len(v)) + 3 < R.MOST_COEFFICIENTS else right
        yield [m, f, roots, mults, h, [u[0] ^ self.element()] + u[1:], v]
        yield [m, f, roots, mults, h, u, [v[0] ^ self.element()] + v[1:]]
        yield [m, f, roots, mults, [h[0] ^ self.element()] + h[1:], u, v]
        yield [m, f, roots, mults, [0], u, v]
        yield [m, f, roots, mults + [1], h, u, v]
        yield [m, f, roots + [self.q - 1], mults, h, u, v]
        yield [m, f, list(range(self.q)) * 3, [1] * (3 * self.q), h, u, v]
        yield [m, f, roots, [65535] * len(roots), h, u, v]
        yield [m, f, roots, mults, h, times(m, u, [2]) or [0], v]
        if roots:
            i = any_of(len(roots))
            less = [m, f, roots[:i] + roots[i + 1 :], mults[:i] + mults[i + 1 :]]
            left = h
            for _ in range(mults[i]):
                left = times(m, left, [roots[i], 1])
            yield [*less, left, *self.combined(left)]
            yield [*less, h, u, v]
            yield [m, f, roots, [e + (k == i) for k, e in enumerate(mults)], h, u, v]
            yield [m, f, roots, [e * (k != i) for k, e in enumerate(mults)], h, u, v]
            yield [m, f, roots[: i + 1] + roots[i:], mults[:i] + [1, max(mults[i] - 1, 0)] + mults[i + 1 :], h, u, v]
            yield [m, f, roots[::-1], mults[::-1], h, u, v]
            yield [m, f, roots + [self.q], mults + [1], h, u, v]

    def refused(self, right):
        """Each refusal, and each beside every other that can be."""
        m, f, roots, mults, h, u, v = right
        long, large = [1] * (R.MOST_COEFFICIENTS + 1), [self.q]
        for part in range(4):
            for bad in ([], long, large, [65535], long + large):
                lists = [f, h, u, v]
                lists[part] = bad
                for other in range(4):
                    for worse in (None, [], long, large):
                        both = list(lists)
                        if worse is not None:
                            both[other] = worse
                        yield [m, both[0], roots, mults, *both[1:]]
        yield [m, f, roots + large, mults + [1], h, u, v]
        yield [m, [0], roots, mults, h, u, v]
        yield [m, [0] * R.MOST_COEFFICIENTS, large, mults, h, u, v]
        for unknown in UNKNOWN:
            yield [unknown, f, roots, mults, h, u, v]
            yield [unknown, [], roots, mults, h, u, v]


    def makings(self, f):
        """Buffers as short as they may be, and longer."""
        fewest = [R.MOST_ROOTS] * 2 + [R.MOST_COEFFICIENTS] * 3
        yield [self.m, f, *fewest]
        yield [self.m, f, *(n + self.rng.randrange(5) for n in fewest)]

    def turned_away(self, f):
        """Each refusal of the making, and each beside every other that can be."""
        roots, most = R.MOST_ROOTS, R.MOST_COEFFICIENTS
        fewest = [roots] * 2 + [most] * 3
        rooms = [fewest] + [fewest[:i] + [n] + fewest[i + 1 :] for i in range(5) for n in (0, fewest[i] - 1)]
        rooms += [[0] * 5, [roots - 1, roots, most, most, most - 1], [R.STORED_ROOTS] * 2 + [R.STORED_ROOTS + 1] * 3]
        for m in (self.m, *UNKNOWN):
            for bad in (f, [], [1] * (most + 1), [0] * (most + 1), [self.q], [1] * (most - 1) + [65535], [0], [0] * most):
                for room in rooms if m == self.m else rooms[::2]:
                    yield [m, bad, *room]


def make_cases(seed, count):
    rng = random.Random(seed)
    for m in field.DEGREES:
        maker = Maker(m, rng)
        for number, f in enumerate(maker.polynomials(count)):
            right = maker.claim(f)
            yield CHECK, *right
            for case in maker.slips(right):
                yield CHECK, *case
            for case in maker.makings(f):
                yield MAKE, *case
            if number < 2:
                for case in maker.refused(right):
                    yield CHECK, *case
            if number == 0:
                for case in maker.turned_away(f):
                    yield MAKE, *case


def line(kind, *case):
    if kind == CHECK:
        return "check %d %s | %d %d" % (case[0], " ".join(str(len(part)) for part in case[1:]), *check(case))
    outcome, count, buffers = make(*case)
    slots = "".join(" |" + "".join(" %d" % x for x in buffer) for buffer in buffers)
    return "make %d %d %s | %d %d%s" % (case[0], len(case[1]), " ".join(map(str, case[2:])), outcome, count, slots)


def tally(cases):
    found = {}

    def met(key):
        found[key] = found.get(key, 0) + 1

    for kind, *case in cases:
        if kind == MAKE:
            outcome, count, _ = make(*case)
            met("not made under %d" % outcome if outcome else "made, field %d, %s" % (case[0], "roots" if count else "no root"))
            continue
        outcome, accepted = check(case)
        met("refused under %d" % outcome if outcome else "accepted" if accepted else "no")
        if accepted:
            met("accepted, field %d, %s" % (case[0], "roots" if case[2] else "no root"))
    wanted = ["accepted", "no"] + ["refused under %d" % k for k in range(1, 6)] + ["not made under %d" % k for k in (1, 2, 3, 4, 5, 7)]
    wanted += ["%s, field %d, %s" % (how, m, what) for how in ("accepted", "made") for m in field.DEGREES for what in ("roots", "no root")]
    missing = [key for key in wanted if key not in found]
    if missing:
        sys.exit("claims.py: never met: %s" % "; ".join(missing))
    print("; ".join("%s: %d" % (key, found[key]) for key in wanted))


def main():
    parser = argparse.ArgumentParser(
        description=__doc__, epilog="Exit status: 0 done; 1 the cases end early, or a kind of case was never met; 2 unknown words.",
        formatter_class=argparse.RawDescriptionHelpFormatter
    )
    commands = parser.add_subparsers(dest="command", required=True)
    cases = commands.add_parser("cases")
    cases.add_argument("--seed", type=int, default=1)
    cases.add_argument("--count", type=int, default=2)
    commands.add_parser("lines")
    commands.add_parser("tally")
    opt = parser.parse_args()
    if opt.command == "cases":
        for case in make_cases(opt.seed, opt.count):
            sys.stdout.buffer.write(pack(*case))
    else:
        read = unpack(sys.stdin.buffer.read())
        if opt.command == "tally":
            tally(read)
        else:
            for case in read:
                print(line(*case))


if __name__ == "__main__":
    main()
