"""The three fields (docs/RULES.md section 1), by plain methods.

A product is a carry-free product and then a long division. Inverse, position
and quadratic are found by trial. Nothing here refuses: see reference.py.
"""

from array import array

POLYNOMIALS = {4: 0b10011, 8: 0b100011101, 11: 0b100000000101}
DEGREES = tuple(POLYNOMIALS)
A = 2  # the element called a (RULES 1.2)
NO_HALF = 65535  # the quadratic table's mark for "Tr(i) = 1"


def size(m):
    return 1 << m


def carry_free(a, b):
    """Product of two bit polynomials, no reduction."""
    total = 0
    shift = 0
    while b >> shift:
        if (b >> shift) & 1:
            total ^= a << shift
        shift += 1
    return total


def long_division(dividend, divisor):
    """Remainder of two bit polynomials."""
    width = divisor.bit_length()
    while dividend.bit_length() >= width:
        dividend ^= divisor << (dividend.bit_length() - width)
    return dividend


def product(m, a, b):
    return long_division(carry_free(a, b), POLYNOMIALS[m])


def power(m, x, exponent):
    """x times itself, `exponent` factors; x^0 is 1."""
    total = 1
    for _ in range(exponent):
        total = product(m, total, x)
    return total


# Lists made once by the plain product, only to save repeating it.

_rows = {}
_powers = {}
_squares = {}
_traces = {}
_trace_bits = {}


def row(m, a):
    """The products of a with every element, in ascending order."""
    key = (m, a)
    if key not in _rows:
        _rows[key] = array("H", (product(m, a, z) for z in range(size(m))))
    return _rows[key]


def powers(m):
    """a^0, a^1, ..., a^(2^m - 2)."""
    if m not in _powers:
        found = [1]
        while len(found) < size(m) - 1:
            found.append(product(m, found[-1], A))
        _powers[m] = found
    return _powers[m]


def squares(m):
    if m not in _squares:
        _squares[m] = [product(m, z, z) for z in range(size(m))]
    return _squares[m]


def inverse(m, a):
    """The b with a b = 1, by trial; None if there is none."""
    for b, value in enumerate(row(m, a)):
        if value == 1:
            return b
    return None


def position(m, r, convention):
    """The j from 0 to 2^m - 2 of the place X = a^j that the root r stands for,
    by trial; None if there is none. Under convention 0 the locator has the
    factor z + X, and r = X. Under 1 it has 1 + X z, and X r = 1."""
    for j, place in enumerate(powers(m)):
        if (place == r) if convention == 0 else (row(m, r)[place] == 1):
            return j
    return None


def trace(m, x):
    """x + x^2 + x^4 + ... + x^(2^(m-1))."""
    total = 0
    term = x
    for _ in range(m):
        total ^= term
        term = product(m, term, term)
    return total


def trace_of(m, x):
    """The same, from a list made once."""
    if m not in _traces:
        _traces[m] = [trace(m, z) for z in range(size(m))]
    return _traces[m][x]


def trace_bits(m, x):
    """Tr(x), Tr(a x), ..., Tr(a^(m-1) x)."""
    key = (m, x)
    if key not in _trace_bits:
        bits = []
        value = x
        for _ in range(m):
            bits.append(trace_of(m, value))
            value = product(m, A, value)
        _trace_bits[key] = tuple(bits)
    return _trace_bits[key]


def quadratic(m, a, b):
    """Every z with z^2 + a z + b = 0, ascending, by trial of every element."""
    multiples = row(m, a)
    square = squares(m)
    return [z for z in range(size(m)) if square[z] ^ multiples[z] ^ b == 0]


def half_table(m):
    """For each i the even j with j^2 + j = i, or 65535 where there is none."""
    square = squares(m)
    table = []
    for i in range(size(m)):
        halves = [j for j in range(0, size(m), 2) if square[j] ^ j == i]
        table.append(halves[0] if halves else NO_HALF)
    return table


class Logs:
    """Logarithms for speed, made from the plain powers; selftest.py compares
    every product with the plain one."""

    def __init__(self, m):
        self.m = m
        self.order = size(m) - 1
        self.exp = powers(m) * 2
        self.log = [None] * size(m)
        for j, value in enumerate(powers(m)):
            self.log[value] = j

    def product(self, a, b):
        if a == 0 or b == 0:
            return 0
        return self.exp[self.log[a] + self.log[b]]

    def inverse(self, a):
        return self.exp[(self.order - self.log[a]) % self.order]

    def power(self, a, exponent):
        if exponent == 0:
            return 1
        if a == 0:
            return 0
        return self.exp[self.log[a] * exponent % self.order]


_logs = {}


def logs(m):
    if m not in _logs:
        _logs[m] = Logs(m)
    return _logs[m]
