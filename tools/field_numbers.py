"""The numbers that a field's tables hold, from its degree and polynomial: what tools/tables.py prints."""


def double(m, poly, x):
    """Twice an element."""
    x <<= 1
    return x ^ poly if x >> m else x


def times(m, poly, a, b):
    """The product of two elements."""
    r = 0
    while a:
        r ^= b if a & 1 else 0
        a, b = a >> 1, double(m, poly, b)
    return r


def powers(m, poly, n):
    """The powers a^0 to a^(n-1), where a is 2."""
    out = [1]
    while len(out) < n:
        out.append(double(m, poly, out[-1]))
    return out


def logs(m, poly):
    """The log of each element, twice its position; that of 0 is odd (crates/field/specs/Tables.antt)."""
    out = [1] + [0] * ((1 << m) - 1)
    for j, x in enumerate(powers(m, poly, (1 << m) - 1)):
        out[x] = 2 * j
    return out


def halves(m, poly):
    """At i the even j with j^2 + j = i, or 65535 where there is none."""
    out = [65535] * (1 << m)
    for j in range(0, 1 << m, 2):
        out[times(m, poly, j, j) ^ j] = j
    return out
