"""Cases and expected lines for product, inverse, position and quadratic.

    elements.py cases --seed S --pairs N > cases.bin
    elements.py lines < cases.bin
    elements.py tally < cases.bin

A case is m, a, b and the position's convention, each 16 bits, low byte first.
"""

import argparse
import random
import struct
import sys

sys.dont_write_bytecode = True

import field
import reference

CASE = struct.Struct("<HHHH")
UNKNOWN = (0, 1, 5, 13, 255, 260, 65535)
CONVENTIONS = (0, 1, 2, 3, 256, 65535)  # only 0 and 1 are conventions
CALLS = ("product", "inverse", "position", "quadratic")


def pairs_inside(rng, m, count):
    """Pairs of elements of a field, with edges, zeros and equal ones among them."""
    top = field.size(m) - 1
    edges = (0, 1, 2, top - 1, top)
    fixed = [(a, b) for a in edges for b in edges]
    for number in range(count):
        a = rng.randrange(top + 1)
        b = rng.randrange(top + 1)
        if number < len(fixed):
            a, b = fixed[number]
        elif number % 16 == 0:
            a = 0
        elif number % 16 == 1:
            b = 0
        elif number % 16 == 2:
            b = a
        elif number % 16 == 3:
            a = rng.choice(edges)
        elif number % 16 == 4:
            b = rng.choice(edges)
        elif number % 16 == 5:
            # a double choice of z makes sure of two roots or one
            z, y = a, b
            a, b = z ^ y, field.product(m, z, y)
        yield a, b


def pairs_outside(rng, m):
    """Pairs of which one at least is no element."""
    q = field.size(m)
    outside = (q, q + 1, 65535)
    inside = (0, 1, q - 1, rng.randrange(q))
    for bad in outside:
        for good in inside:
            yield bad, good
            yield good, bad
        for other in outside:
            yield bad, other
    for _ in range(16):
        yield rng.randrange(q, 65536), rng.randrange(q)
        yield rng.randrange(q), rng.randrange(q, 65536)


def few_cases(rng):
    """m, a, b of the cases that are tried under every convention: all of field 4, and those that are refused."""
    for a in range(16):
        for b in range(16):
            yield 4, a, b
    for m in field.DEGREES:
        for a, b in pairs_outside(rng, m):
            yield m, a, b
    for m in UNKNOWN:
        for a in (0, 1, 15, 16, 2047, 65535):
            for b in (0, 1, 15, 16, 2047, 65535):
                yield m, a, b


def make_cases(seed, pairs):
    rng = random.Random(seed)
    for m, a, b in few_cases(rng):
        for convention in CONVENTIONS:
            yield m, a, b, convention
    for m in (8, 11):
        for a, b in pairs_inside(rng, m, pairs):
            convention = rng.choice(CONVENTIONS) if rng.randrange(4) == 0 else rng.randrange(2)
            yield m, a, b, convention
    for _ in range(64):
        m = rng.choice((4, 8, 11, rng.randrange(65536)))
        yield m, rng.randrange(65536), rng.randrange(65536), rng.randrange(65536)


def read_cases(data):
    if len(data) % CASE.size:
        sys.exit("elements.py: the cases end early")
    return CASE.iter_unpack(data)


def answers(m, a, b, convention):
    return (
        reference.product(m, a, b),
        reference.inverse(m, a),
        reference.position(m, a, convention),
        reference.quadratic(m, a, b),
    )


def numbers(call, answer):
    outcome, values, _ = answer
    if call != "quadratic":
        return (outcome,) + values
    if outcome == reference.NONE:
        return 0, 0
    if outcome == 0:
        doubled = ("double",) if [e for _, e in values] == [2] else ()
        return (0, len(values)) + tuple(r for r, _ in values) + doubled
    return (outcome,)


def line(*case):
    parts = [" ".join(str(x) for x in case)]
    for call, answer in zip(CALLS, answers(*case)):
        parts.append(" ".join(str(x) for x in numbers(call, answer)))
    return " | ".join(parts)


def tally(data):
    counts = {}
    for m, a, b, convention in read_cases(data):
        for call, answer in zip(CALLS, answers(m, a, b, convention)):
            outcome, values, _ = answer
            word = "outcome %s" % outcome
            if call == "position" and outcome == 0:
                word = "outcome 0, convention %d" % convention
            if call == "quadratic" and outcome in (0, reference.NONE):
                word = "outcome 0, roots %d" % len(values)
            place = "field %d" % m if m in field.DEGREES else "unknown field"
            key = (CALLS.index(call), place, word)
            counts[key] = counts.get(key, 0) + 1
    for key in sorted(counts):
        print("%s, %s, %s: %d" % (CALLS[key[0]], key[1], key[2], counts[key]))
    print("cases: %d" % (len(data) // CASE.size))


def main():
    parser = argparse.ArgumentParser(
        description=__doc__, epilog="Exit status: 0 done; 2 unknown words.", formatter_class=argparse.RawDescriptionHelpFormatter
    )
    commands = parser.add_subparsers(dest="command", required=True)
    cases = commands.add_parser("cases")
    cases.add_argument("--seed", type=int, default=1)
    cases.add_argument("--pairs", type=int, default=1000)
    commands.add_parser("lines")
    commands.add_parser("tally")
    options = parser.parse_args()
    if options.command == "cases":
        for case in make_cases(options.seed, options.pairs):
            sys.stdout.buffer.write(CASE.pack(*case))
        return
    data = sys.stdin.buffer.read()
    if options.command == "tally":
        tally(data)
        return
    for case in read_cases(data):
        sys.stdout.write(line(*case) + "\n")


if __name__ == "__main__":
    main()
