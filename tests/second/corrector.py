"""The block corrector (docs/RULES.md section 7), by plain methods.

A word is 256 bytes, bit j in byte j div 8 at weight 2^(j mod 8). Its value at
a^i is the sum of a^(i j) over its bits. The places to flip come from Peterson's
linear systems: for each number v of errors from 0 to t, the v unknown
coefficients of the locator polynomial, the product of (1 + X z), solve v
equations in the values at a^1 to a^(2v). Its zeros are found by trial of every
place. The system of the true number of errors has one solution, so that a
codeword within t bits is always met; what is met is flipped in a copy and
tested by the definition.

`by_trial` decides the same for t up to 3 by trial of places alone.
"""

import sys

sys.dont_write_bytecode = True

import field

M = 11
BITS = 2047
BYTES = 256
STRONGEST = 8
WRONG_WORD, WRONG_STRENGTH, FAR = 22, 23, 24


# Words.


def places_of(word):
    """The places of the bits that are set, ascending."""
    return [8 * k + i for k, byte in enumerate(word) for i in range(8) if byte >> i & 1]


def flipped(word, places):
    """The word with the bits at these places flipped."""
    changed = bytearray(word)
    for j in places:
        changed[j // 8] ^= 1 << j % 8
    return bytes(changed)


def values(word, t):
    """The word's values at a^1 to a^(2t), as a list from place 1; place 0 is not used."""
    powers = field.powers(M)
    places = places_of(word)
    found = [None]
    for i in range(1, 2 * t + 1):
        total = 0
        for j in places:
            total ^= powers[i * j % BITS]
        found.append(total)
    return found


def is_codeword(word, t):
    """Zero at a^1 to a^(2t)."""
    return not any(values(word, t)[1:])


# Making codewords, for the cases.


def generator(t):
    """The bit polynomial of least degree that is zero at a^1 to a^(2t), as a number."""
    powers = field.powers(M)
    whole, seen = 1, set()
    for i in range(1, 2 * t + 1):
        if i in seen:
            continue
        factor, e = [1], i
        while e not in seen:
            seen.add(e)
            factor = [field.product(M, powers[e], c) ^ d for c, d in zip(factor + [0], [0] + factor)]
            e = 2 * e % BITS
        whole = field.carry_free(whole, sum(c << k for k, c in enumerate(factor)))
    return whole


def codeword(t, data):
    """The codeword whose bits behind the check bits are the bits of the number `data`."""
    g = generator_of(t)
    number = data << (g.bit_length() - 1)
    return (number ^ field.long_division(number, g)).to_bytes(BYTES, "little")


_generators = {}


def generator_of(t):
    """The same generator, made once."""
    if t not in _generators:
        _generators[t] = generator(t)
    return _generators[t]


def data_bits(t):
    """How many bits of a codeword are free."""
    return BITS - (generator_of(t).bit_length() - 1)


# Peterson's systems.


def solve(rows):
    """The solution of v equations in v unknowns over the field, each row its coefficients and then what they give;
    None where there is not exactly one."""
    logs = field.logs(M)
    rows = [list(row) for row in rows]
    size = len(rows)
    for column in range(size):
        pivot = next((k for k in range(column, size) if rows[k][column]), None)
        if pivot is None:
            return None
        rows[column], rows[pivot] = rows[pivot], rows[column]
        scale = logs.inverse(rows[column][column])
        rows[column] = [logs.product(scale, c) for c in rows[column]]
        for k in range(size):
            by = rows[k][column]
            if k != column and by:
                rows[k] = [c ^ logs.product(by, d) for c, d in zip(rows[k], rows[column])]
    return [row[size] for row in rows]


def locator(value, v):
    """The locator polynomial of v errors, 1 first, or None. Row i says that value[i+v] is the sum of value[i+v-k]
    times coefficient k, k from 1 to v."""
    rows = [[value[i + v - k] for k in range(1, v + 1)] + [value[i + v]] for i in range(1, v + 1)]
    found = solve(rows)
    return None if found is None else [1] + found


def zero_places(polynomial):
    """Every place j with the polynomial zero at the inverse of a^j, by trial."""
    logs = field.logs(M)
    terms = [(k, logs.log[c]) for k, c in enumerate(polynomial) if c]
    found = []
    for j in range(BITS):
        total = 0
        for k, e in terms:
            total ^= logs.exp[(e - j * k) % BITS]
        if total == 0:
            found.append(j)
    return found


def candidates(word, t):
    """Every set of at most t places, met by a system, whose flipping makes a codeword."""
    value = values(word, t)
    if not any(value[1:]):
        yield []
    for v in range(1, t + 1):
        polynomial = locator(value, v)
        if polynomial is None:
            continue
        places = zero_places(polynomial)
        if len(places) == v and is_codeword(flipped(word, places), t):
            yield places


# The call.


def refusal(strength, word):
    """22, 23 or 0."""
    if len(word) != BYTES or word[-1] >> 7:
        return WRONG_WORD
    if not 1 <= strength <= STRONGEST:
        return WRONG_STRENGTH
    return 0


def correct(strength, word):
    """The outcome, the number of flips, and the word afterwards."""
    word = bytes(word)
    number = refusal(strength, word)
    if number:
        return number, 0, word
    for places in candidates(word, strength):
        return 0, len(places), flipped(word, places)
    return FAR, 0, word


def encode(strength, word):
    """The outcome, the number of check bits, and the word afterwards: the bits behind the check bits stay."""
    word = bytes(word)
    number = refusal(strength, word)
    if number:
        return number, 0, word
    checks = BITS - data_bits(strength)
    return 0, checks, codeword(strength, int.from_bytes(word, "little") >> checks)


# By trial of places alone, for t up to 3.


def sets_by_trial(word, t):
    """Every set of at most t places, t up to 3, whose flipping makes a codeword. All but the last place are tried; the
    last is the one that makes the value at a zero."""
    powers = field.powers(M)
    position = {x: j for j, x in enumerate(powers)}
    value = values(word, t)
    if not any(value[1:]):
        yield []
    firsts = [()]
    if t > 1:
        firsts += [(i,) for i in range(BITS)]
    if t > 2:
        firsts += [(i, j) for i in range(BITS) for j in range(i + 1, BITS)]
    for first in firsts:
        rest = value[1]
        for j in first:
            rest ^= powers[j]
        last = position.get(rest)
        if last is None or (first and last <= first[-1]):
            continue
        places = list(first) + [last]
        total = 0
        for j in places:
            total ^= powers[3 * j % BITS]
        if (t == 1 or total == value[3]) and is_codeword(flipped(word, places), t):
            yield places


def by_trial(strength, word):
    """The same as `correct`, strength up to 3."""
    word = bytes(word)
    number = refusal(strength, word)
    if number:
        return number, 0, word
    met = list(sets_by_trial(word, strength))
    if len(met) > 1:
        raise AssertionError("two codewords within %d bits" % strength)
    if not met:
        return FAR, 0, word
    return 0, len(met[0]), flipped(word, met[0])
