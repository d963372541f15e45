#!/usr/bin/env python3
"""poly_values_tables.py: prints crates/poly_values/src/tables.rt, the constant tables of the transform for field 11. The prover tests every entry."""
import sys

sys.dont_write_bytecode = True
from repository import command

command(__doc__, "0 printed").parse_args()
M, POLY = 11, 2053
STEPS = [1024, 512, 256, 128, 64]  # the highest first
SIZE = 1 << len(STEPS)  # the coefficients of a block
BLOCKS = 2
LANES = 64


def mul(a, b):
    r = 0
    while a:
        if a & 1:
            r ^= b
        b <<= 1
        if b >> M:
            b ^= POLY
        a >>= 1
    return r


def inv(a):
    r = 1
    for _ in range((1 << M) - 2):
        r = mul(r, a)
    return r


def vanishing(steps, z):
    if not steps:
        return z
    y = vanishing(steps[1:], z)
    return mul(y, y ^ vanishing(steps[1:], steps[0]))


def planes(elements):
    return [sum((e >> q & 1) << l for l, e in enumerate(elements)) for q in range(M)]


UNITS = [vanishing(STEPS[i + 1 :], s) for i, s in enumerate(STEPS)]
BACKS = [inv(u) for u in UNITS]


def tree(i, c):
    if i == len(STEPS):
        return []
    return [mul(BACKS[i], vanishing(STEPS[i + 1 :], c))] + tree(i + 1, c) + tree(i + 1, c ^ STEPS[i])


def raised(i, a):
    if i == len(STEPS):
        return [0], a[0]
    half = len(a) // 2
    low, carry = raised(i + 1, a[:half])
    high, more = raised(i + 1, a[half:])
    high[0] ^= mul(carry ^ more, UNITS[i])
    return low + high, mul(more, BACKS[i])


def next_column(column):
    """z times a column, behind whose blocks nothing stands; what falls out of the last block stands there then."""
    blocks, carry = [], 0
    for at in range(0, BLOCKS * SIZE, SIZE):
        block, fallen = raised(0, column[at : at + SIZE])
        block[0] ^= carry
        blocks, carry = blocks + block, fallen
    return blocks + [carry]


def show(name, comment, values):
    rows = "".join(f"    {v},\n" for v in values)
    return f"// {comment}\npub const {name}: [u64; {len(values)}] = [\n{rows}];\n"


def vectors(rows):
    return [word for row in rows for word in planes(row[:LANES])]


trees = [tree(0, c) for c in range(LANES)]
tops = [vanishing(STEPS, c) for c in range(LANES)]
columns = [[1] + [0] * (BLOCKS * SIZE)]
for _ in range(BLOCKS * SIZE):
    columns.append(next_column(columns[-1]))
print("// The tables of the transform in field 11 (tools/poly_values_tables.py makes them).\n")
print(show("MULTIPLIERS", "The multipliers of the butterflies: one for the whole row, then those of its lower half, then those of its upper\n// half.", vectors(zip(*trees))))
print(show("TOP", "The vanishing map of the steps, in each lane.", vectors([tops])))
print(show("SQUARES", "Its square, in each lane.", vectors([[mul(y, y) for y in tops]])))
print(show("COLUMNS", "The powers of z in the basis from z^0 on, one vector for each power, lane i for the coefficient i.", vectors(columns[: SIZE + 1])))
print(show("UPPER_COLUMNS", "The powers of z behind them.", vectors(columns[SIZE + 1 :])), end="")
