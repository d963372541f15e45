"""Cases and expected lines for the polynomial layer.

    polynomials.py cases --seed S --count N > cases.bin   (N in each field)
    polynomials.py lines < cases.bin
    polynomials.py tally < cases.bin

A case is five bytes, kind, m, k, n1, n2, then n1 and n2 numbers of 16 bits,
low byte first. p is monic of degree n1, given below its leading 1; f is n2
coefficients, constant first. A line is the kind, then the result.

    1  remainder of f by p                       n1 numbers
    2  square of f modulo p                      n1 numbers
    3  z^(2^k) modulo p                          n1 numbers
    4  Tr(a^k z) modulo p                        n1 numbers
    5  monic gcd of p and f                      below its leading 1
    6  exact quotient p / g, g monic of degree
       n2 given below its leading 1              below its leading 1
    7  f at x, x being the first list (n1 = 1)   one number
    8  degree of the list f (n1 = 0)             one number, or `none`
    9  f made monic (n1 = 0)                     below its leading 1
"""

import argparse
import random
import sys

sys.dont_write_bytecode = True

import field
import reference as R
import sizes

REMAINDER, SQUARE, Z_POWER, TRACE, GCD, QUOTIENT, VALUE, DEGREE, MONIC = range(1, 10)
KINDS = {
    REMAINDER: "remainder",
    SQUARE: "square",
    Z_POWER: "z^(2^k)",
    TRACE: "trace sum",
    GCD: "gcd",
    QUOTIENT: "quotient",
    VALUE: "value",
    DEGREE: "degree",
    MONIC: "monic",
}
MOST = R.MOST_ROOTS


def pack(kind, m, k, first, second):
    data = bytes((kind, m, k, len(first), len(second)))
    for x in list(first) + list(second):
        data += bytes((x & 255, x >> 8))
    return data


def unpack(data):
    at = 0
    while at < len(data):
        if at + 5 > len(data):
            sys.exit("polynomials.py: the cases end early")
        kind, m, k, n1, n2 = data[at:at + 5]
        at += 5
        if at + 2 * (n1 + n2) > len(data):
            sys.exit("polynomials.py: the cases end early")
        numbers = R.coefficients_of(data[at:at + 2 * (n1 + n2)])
        at += 2 * (n1 + n2)
        yield kind, m, k, numbers[:n1], numbers[n1:]


def pad(f, n):
    return list(f) + [0] * (n - len(f))


def result(kind, m, k, first, second):
    """The numbers of the line, or None for `none`."""
    p = first + [1]
    n1 = len(first)
    if kind == REMAINDER:
        return pad(R.remainder(m, second, p), n1)
    if kind == SQUARE:
        return pad(R.remainder(m, R.multiply(m, second, second), p), n1)
    if kind == Z_POWER:
        return pad(R.remainder(m, [0] * 2**k + [1], p), n1)
    if kind == TRACE:
        return pad(R.remainder(m, R.trace_polynomial(m, k), p), n1)
    if kind == GCD:
        return R.gcd(m, p, second)[:-1]
    if kind == QUOTIENT:
        quotient, rest = R.divide(m, p, second + [1])
        if rest:
            sys.exit("polynomials.py: the quotient is not exact")
        return quotient[:-1]
    if kind == VALUE:
        return [R.value_at(m, second, first[0])]
    if kind == DEGREE:
        d = R.degree(second)
        return None if d is None else [d]
    if kind == MONIC:
        if R.degree(second) is None:
            return None
        return R.monic(m, second)[:-1]
    sys.exit("polynomials.py: unknown kind %d" % kind)


def line(case):
    numbers = result(*case)
    if numbers is None:
        return "%d none" % case[0]
    return " ".join(str(x) for x in [case[0]] + numbers)


# Random polynomials with a known make-up.


class Maker:
    def __init__(self, m, rng):
        self.m = m
        self.rng = rng
        self.q = field.size(m)

    def element(self):
        rng = self.rng
        if rng.randrange(8) == 0:
            return rng.choice((0, 0, 1, self.q - 1))
        return rng.randrange(self.q)

    def nonzero(self):
        return self.rng.randrange(1, self.q)

    def any_list(self, n):
        sparse = self.rng.randrange(4) == 0
        return [0 if sparse and self.rng.randrange(3) else self.element() for _ in range(n)]

    def monic_of(self, d):
        """A monic polynomial of degree d, of some shape."""
        rng = self.rng
        shape = rng.randrange(6)
        if shape == 0:  # distinct roots, as many as there are elements
            roots = rng.sample(range(self.q), min(d, self.q))
            f = R.from_roots(self.m, roots)
            return self.lengthen(f, d)
        if shape == 1:  # roots drawn with repetition
            few = [rng.randrange(self.q) for _ in range(max(1, d // 2))]
            return R.from_roots(self.m, [rng.choice(few) for _ in range(d)])
        if shape == 2:  # a square, times z + r if d is odd
            half = self.any_list(d // 2) + [1]
            return self.lengthen(R.multiply(self.m, half, half), d)
        if shape == 3:  # quadratics without roots
            f = [1]
            while len(f) + 1 <= d:
                f = R.multiply(self.m, f, self.rootless())
            return self.lengthen(f, d)
        if shape == 4:  # few terms
            f = [0] * d + [1]
            for _ in range(2):
                if d:
                    f[rng.randrange(d)] = self.element()
            return f
        return self.any_list(d) + [1]

    def lengthen(self, f, d):
        while len(f) - 1 < d:
            f = R.multiply(self.m, f, [self.element(), 1])
        return f

    def rootless(self):
        """z^2 + a z + b with Tr(b / a^2) = 1."""
        tables = field.logs(self.m)
        while True:
            a, b = self.nonzero(), self.nonzero()
            if field.trace_of(self.m, tables.product(b, tables.inverse(tables.product(a, a)))):
                return [b, a, 1]

    def size_of(self):
        rng = self.rng
        return rng.choice((0, 1, 2, 3, R.STORED_ROOTS, MOST - 1, MOST, *(rng.randrange(most + 1) for most in R.LIMITS.values())))

    def with_zeros_on_top(self, f, most):
        return f + [0] * self.rng.randrange(most - len(f) + 1) if len(f) < most else f

    def case(self, kind):
        rng, m = self.rng, self.m
        n1 = self.size_of()
        p = self.monic_of(n1)
        shape = rng.randrange(8)
        if kind == REMAINDER:
            if shape == 0:  # nothing remains
                e = rng.randrange(MOST + 1 - n1) + 1
                f = R.multiply(m, p, self.any_list(e))
            elif shape == 1:
                f = list(p)
            elif shape == 2:
                f = [0] * rng.randrange(MOST + 2)
            elif shape == 3:  # shorter than p
                f = self.any_list(rng.randrange(n1 + 1))
            else:
                f = self.any_list(rng.randrange(MOST + 2))
            return kind, m, 0, p[:-1], self.with_zeros_on_top(f, MOST + 1)
        if kind == SQUARE:  # f is already a remainder: n1 numbers
            if shape == 0:
                f = [0] * n1
            elif shape == 1 and n1:
                f = pad(self.any_list(rng.randrange(n1)), n1)
            elif shape == 2 and n1 >= 2:  # a square that p divides
                half = self.monic_of(n1 // 2)
                p = R.multiply(m, half, half)
                n1 = len(p) - 1
                f = pad(half, n1)
            else:
                f = self.any_list(n1)
            return kind, m, 0, p[:-1], f
        if kind == Z_POWER:
            return kind, m, rng.randrange(m + 1), p[:-1], []
        if kind == TRACE:
            k = rng.randrange(m)
            if shape < 3 and n1:  # some or all roots of Tr(a^k z)
                inside = [x for x in range(self.q) if field.trace_bits(m, x)[k] == 0]
                n1 = min(n1, len(inside))
                p = R.from_roots(m, rng.sample(inside, n1))
                if shape == 2 and n1 > 1:
                    p = R.multiply(m, R.divide(m, p, R.from_roots(m, R.zeros(m, p)[:1]))[0], [self.element(), 1])
            return kind, m, k, p[:-1], []
        if kind == GCD:
            if shape == 0:
                f = [0] * rng.choice((0, n1, rng.randrange(MOST + 2)))
            elif shape == 1:
                f = R.scale(m, p, self.nonzero())
            elif shape in (2, 3):  # a shared part
                d = rng.randrange(n1 + 1)
                shared = self.monic_of(d)
                p = R.multiply(m, shared, self.monic_of(n1 - d))
                f = R.multiply(m, shared, self.any_list(rng.randrange(n1 - d + 1)))
                f = pad(f, n1)
            elif shape == 4:  # coprime: p f' + 1
                f = R.add(R.multiply(m, p, self.any_list(rng.randrange(MOST + 2 - n1))), [self.nonzero()])
            elif shape == 5:  # a divisor of p
                d = rng.randrange(n1 + 1)
                f = self.monic_of(d)
                p = R.multiply(m, f, self.monic_of(n1 - d))
                f = R.scale(m, f, self.nonzero())
            elif shape == 6:
                f = self.any_list(n1)
            else:
                f = self.any_list(rng.randrange(MOST + 2))
            if rng.randrange(2):
                f = self.with_zeros_on_top(f, MOST + 1)
            return kind, m, 0, p[:-1], f
        if kind == QUOTIENT:
            if shape == 0:
                g = list(p)
            elif shape == 1:
                g = [1]
            else:
                d = rng.randrange(n1 + 1)
                g = self.monic_of(d)
                p = R.multiply(m, g, self.monic_of(n1 - d))
            return kind, m, 0, p[:-1], g[:-1]
        if kind == VALUE:
            x = self.element()
            f = self.any_list(rng.randrange(MOST + 2))
            if shape < 3:  # mostly at a root
                f = R.scale(m, p, self.nonzero())
                found = R.zeros(m, f)
                x = rng.choice(found) if found else x
            elif shape == 3:
                f = [0] * rng.randrange(MOST + 2)
            return kind, m, 0, [x], self.with_zeros_on_top(f, MOST + 1)
        f = self.any_list(rng.randrange(MOST + 2))
        if shape == 0:
            f = [self.nonzero()]
        elif shape == 1:
            f = list(p)
        elif shape == 2 and kind == DEGREE:
            f = [0] * rng.randrange(MOST + 2)
        if kind == MONIC and R.degree(f) is None:
            f = [self.nonzero()]
        return kind, m, 0, [], self.with_zeros_on_top(f, MOST + 1)


def fixed_cases(m):
    """p = 1 and p of degree 1 for every kind, and p about each limit; every k."""
    top = field.size(m) - 1
    for p in ([], [0], [1], [top], [1, 1], [0] * MOST, [top] * MOST, [1] + [0] * (MOST - 1), [top] * R.STORED_ROOTS, [1] * (R.STORED_ROOTS + 1)):
        n = len(p)
        for f in ([], [0], [1], [0, 1], [0] * (MOST + 1), [0] * MOST + [1], [top] * (MOST + 1), [0] * n, p + [1]):
            yield REMAINDER, m, 0, p, f
            yield GCD, m, 0, p, f
        for f in ([0] * n, [1] * n, [top] * n, list(range(1, n + 1)) if n < top else [2] * n):
            yield SQUARE, m, 0, p, f
        for k in range(m + 1):
            yield Z_POWER, m, k, p, []
        for k in range(m):
            yield TRACE, m, k, p, []
        yield QUOTIENT, m, 0, p, p
        yield QUOTIENT, m, 0, p, []
    for n in range(MOST + 2):
        yield DEGREE, m, 0, [], [0] * n
        for place in range(n) if n < 12 or n in sizes.ABOUT else (0, n - 1):
            yield DEGREE, m, 0, [], [0] * place + [top] + [0] * (n - place - 1)
    for x in (0, 1, 2, top):
        for f in ([], [0], [7], [0, 1], [1, 1], [0] * MOST + [1], *([top] * n for n in sizes.COEFFICIENTS)):
            yield VALUE, m, 0, [x], f
    for f in ([1], [top], [0, top], [1, 0, 0], [3, top, 0], [0] * MOST + [2], *([top] * n for n in sizes.COEFFICIENTS)):
        yield MONIC, m, 0, [], f


def make_cases(seed, count):
    rng = random.Random(seed)
    for m in field.DEGREES:
        yield from fixed_cases(m)
        maker = Maker(m, rng)
        for number in range(count):
            yield maker.case(1 + number % 9)


def check(case):
    """A case keeps the format's promises."""
    kind, m, k, first, second = case
    top = field.size(m)
    if len(first) > MOST or len(second) > MOST + 1:
        raise ValueError("too long: %r" % (case,))
    if any(not 0 <= x < top for x in first + second):
        raise ValueError("not an element: %r" % (case,))


def tally(data):
    counts = {}
    for case in unpack(data):
        kind, m, _, first, second = case
        numbers = result(*case)
        if kind in (REMAINDER, SQUARE, Z_POWER, TRACE):
            word = "zero" if not any(numbers) else "not zero"
            if not first:
                word = "modulo 1"
        elif kind == GCD:
            word = "constant" if not numbers else "the whole of p" if len(numbers) == len(first) else "between"
            if not first:
                word = "of 1"
            if not any(second):
                word = "with f = 0"
        elif kind == QUOTIENT:
            word = "g = 1" if not second else "g = p" if len(second) == len(first) else "between"
        elif kind == VALUE:
            word = "zero" if numbers == [0] else "not zero"
        elif kind == DEGREE:
            word = "none" if numbers is None else "some"
        else:
            word = "constant" if not numbers else "above"
        key = (kind, m, word)
        counts[key] = counts.get(key, 0) + 1
    for key in sorted(counts):
        print("%s, field %d, %s: %d" % (KINDS[key[0]], key[1], key[2], counts[key]))
    print("cases: %d" % sum(counts.values()))


def main():
    parser = argparse.ArgumentParser(
        description=__doc__, epilog="Exit status: 0 done; 2 unknown words.", formatter_class=argparse.RawDescriptionHelpFormatter
    )
    commands = parser.add_subparsers(dest="command", required=True)
    cases = commands.add_parser("cases")
    cases.add_argument("--seed", type=int, default=1)
    cases.add_argument("--count", type=int, default=3000)
    commands.add_parser("lines")
    commands.add_parser("tally")
    options = parser.parse_args()
    if options.command == "cases":
        for case in make_cases(options.seed, options.count):
            check(case)
            sys.stdout.buffer.write(pack(*case))
        return
    data = sys.stdin.buffer.read()
    if options.command == "tally":
        tally(data)
        return
    for case in unpack(data):
        sys.stdout.write(line(case) + "\n")


if __name__ == "__main__":
    main()
