#!/usr/bin/env python3
"""tables.py: prints the constant tables of a field, as crates/field_tables/src/halves.rt, logtables.rt and antilogs.rt hold
them.

A new field costs a row in crates/field, these tables, and a few lines that name each (constants.rt); the prover tests every entry."""
import sys

sys.dont_write_bytecode = True
from field_numbers import halves, logs, powers
from repository import command

args = command(__doc__, "0 printed")
args.add_argument("degree", type=int, metavar="DEGREE", help="m, as 11")
args.add_argument("polynomial", type=int, metavar="POLYNOMIAL", help="the field polynomial as a number, as 2053")
opt = args.parse_args()
m, poly = opt.degree, opt.polynomial
if poly >> m != 1:
    args.error(f"{poly} is no polynomial of degree {m}")
size = 1 << m
order = size - 1

half = halves(m, poly)
power = powers(m, poly, order)
log = logs(m, poly)
# zeros stand between the powers, never in a run
antilog = [x for y in power + power for x in (y, 0)]

tables = (
    ("HALF", half, f"SIZE{m}"),
    ("LOG", log, f"SIZE{m}"),
    ("ANTILOG", antilog, f"4 * (SIZE{m} - 1)"),
)
for name, entries, length in tables:
    print(f"pub const {name}{m}: [u16; {length}] = [")
    for x in entries:
        print(f"    {x},")
    print("];\n")
