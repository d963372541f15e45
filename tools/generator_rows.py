#!/usr/bin/env python3
"""generator_rows.py: writes the constants of the block corrector and encoder from the field polynomial alone.

  crates/corrector_generator/specs/Polynomials.antt   the generators of strengths 1 to 8, as numbers
  crates/corrector_generator/src/rows5.rt, rows8.rt   the remainders by those of strengths 5 and 8
  crates/corrector_remainder/src/raised.rt            the generators, moved up to the highest digit of a register
  crates/corrector_syndromes/src/powers.rt            the powers of a, a^3, .., a^15
The generator of strength t is the product of the minimal polynomials of a, a^3, .., a^(2t-1) in field 11, where a is 2;
its degree d is 11 t. The table of digits k to k + w - 1 has the remainder of c x^(d + k) at place c."""
import collections
import sys

sys.dont_write_bytecode = True
from repository import CRATES, command

FIELD = 0b100000000101  # x^11 + x^2 + 1
PARTS = [(0, 7), (7, 7), (14, 6), (20, 6), (26, 6)]

# The rows of a generator: its strength, and the type of its remainders.
Rows = collections.namedtuple("Rows", "strength type")
ROWS = [Rows(5, "u64"), Rows(8, "u128")]
STRONGEST = 8
CRATE = "corrector_generator"
SCRIPT = "Written by tools/generator_rows.py."


def times(a, b):
    """The product of two elements of field 11."""
    r = 0
    while b:
        if b & 1:
            r ^= a
        a = (a << 1) ^ (FIELD if a >> 10 else 0)
        b >>= 1
    return r


def power(x, e):
    """The power x^e in field 11."""
    r = 1
    for _ in range(e):
        r = times(r, x)
    return r


def minimal(x):
    """The minimal polynomial of x over two values, as a number: the product of z + y over the squares y of x."""
    poly, y = [1], x
    while True:
        shifted, scaled = [0] + poly, [times(c, y) for c in poly] + [0]
        poly = [a ^ b for a, b in zip(shifted, scaled)]
        y = times(y, y)
        if y == x:
            return sum(c << i for i, c in enumerate(poly))


def carry_free(a, b):
    """The carry-free product of two numbers."""
    return sum_xor(a << i for i in range(b.bit_length()) if b >> i & 1)


def sum_xor(numbers):
    """The exclusive or of numbers."""
    r = 0
    for n in numbers:
        r ^= n
    return r


def generator(strength):
    """The generator of a strength, as a number."""
    g = 1
    for k in range(strength):
        g = carry_free(g, minimal(power(2, 2 * k + 1)))
    return g


def remainder(n, g):
    """The remainder of n by g."""
    while n.bit_length() >= g.bit_length():
        n ^= g << (n.bit_length() - g.bit_length())
    return n


def polynomials():
    """The specs of the generators as numbers."""
    yield f"-- The generators of strengths 1 to {STRONGEST}, as numbers. {SCRIPT} What they must be is a law,\n"
    yield "-- proofs/Zeros: that of strength t has degree 11 t, and is zero at a, a^3, .., a^(2t-1).\n"
    yield "--   polynomials   from strength 1 on\n-- Assumes nothing.\n"
    yield "use Rattle.std.specs.Prelude.{List, [], ◌∷◌, ℕ}\n\n"
    yield "-- from strength 1 on\nabbrev pub polynomials : List ℕ\n" + listing("polynomials", map(generator, range(1, STRONGEST + 1)), 105)


def listing(name, numbers, width=90):
    """A list of numbers as a definition, its lines no longer than width."""
    lines = [f"{name} ="]
    for word in " ∷ ".join([*map(str, numbers), "[]"]).split(" ∷ "):
        mark = "" if lines[-1] == f"{name} =" else " ∷"
        if len(lines[-1]) + len(mark) + len(word) + 1 > width:
            lines.append("   ")
        lines[-1] += f"{mark} {word}"
    return "\n".join(lines) + "\n"


def places(k, w):
    """The digits k to k + w - 1 of t, as a place in a table."""
    return "t as usize" + (f" / {1 << k}" if k else "") + f" % {1 << w}"


def table(k, w, rows):
    """The table of digits k to k + w - 1."""
    degree, g = 11 * rows.strength, generator(rows.strength)
    yield f"\n// The remainder of c x^{degree + k}, for digits {k} to {k + w - 1}.\n"
    yield f"static ROW{k}: [{rows.type}; {1 << w}] = [\n" + filled(remainder(c << (degree + k), g) for c in range(1 << w)) + "];\n"


def tables(rows):
    """The file of the tables, and of the function that reads them."""
    s = rows.strength
    yield f"// Remainders by the generator of strength {s}, in tables that are read in place. {SCRIPT}\n"
    yield "ghost use Rattle.std.specs.Prelude.{◌≡◌};\n"
    yield f"ghost use Rattle.{CRATE}.specs.Generators.{{generator_at, back_from_top}};\n"
    yield f"\n// The remainder of t x^{11 * s}: what comes back where t leaves a register of {11 * s} digits at the top.\n"
    yield f"pub fn back(t: u32) -> {rows.type}\n    ensures {{ result ≡ back_from_top (generator_at {s}) t }}\n{{\n    "
    yield "\n        ^ ".join(f"ROW{k}[{places(k, w)}]" for k, w in PARTS) + "\n}\n"
    for k, w in PARTS:
        yield from table(k, w, rows)


def raised(t, rows):
    """The generator of strength t, moved up so that its highest digit is the highest of the register; at the register's own strength its half."""
    return (generator(t) << (11 * (rows.strength - t))) // 2


def generators():
    """The file of the generators, moved up."""
    yield f"// The generators from strength 1 on, moved up to the highest digit of a register. At the register's own strength, where\n"
    yield f"// no digit is cut, the half. {SCRIPT}\n"
    for rows in ROWS:
        s = rows.strength
        yield f"\n// The highest digit is digit {11 * s - 1}.\npub static RAISED{s}: [{rows.type}; {s}] = [\n"
        yield filled(raised(t, rows) for t in range(1, s + 1)) + "];\n"


def powers():
    """The file of the powers: x^j at a, a^3, .., a^15."""
    yield f"// The constant table of the syndromes. {SCRIPT}\nuse crate::{{DIGITS, ODD}};\n\n"
    yield f"// x^j at a, a^3, .., a^15, for j below {11 * STRONGEST}.\npub static ODD_POWERS: [[u16; ODD]; DIGITS] = [\n"
    for j in range(11 * STRONGEST):
        yield f"    [{', '.join(str(power(power(2, 2 * k + 1), j)) for k in range(STRONGEST))}],\n"
    yield "];\n"


def filled(numbers, width=99, short=10):
    """The rows of an array, as rt fmt lays them out: where a number is not short each has a line."""
    words = [f"{n}," for n in numbers]
    if any(len(word) > short + 1 for word in words):
        return "".join(f"    {word}\n" for word in words)
    lines = [""]
    for word in words:
        if len(lines[-1]) + 1 + len(word) > width:
            lines.append("")
        lines[-1] += f" {word}" if lines[-1] else f"    {word}"
    return "\n".join(lines) + "\n"


def main():
    """Writes the files, or with --check compares them."""
    args = command(__doc__, "0 written, or with --check none differs; 1 one differs")
    args.add_argument("--check", action="store_true", help="write nothing, and say which files differ")
    opt = args.parse_args()
    own = CRATES / CRATE
    files = {
        CRATES / "corrector_syndromes/src/powers.rt": powers(),
        CRATES / "corrector_remainder/src/raised.rt": generators(),
        own / "specs/Polynomials.antt": polynomials(),
    }
    files.update({own / f"src/rows{rows.strength}.rt": tables(rows) for rows in ROWS})
    files = {path: "".join(text) for path, text in files.items()}
    bad = [path for path, text in files.items() if not path.exists() or path.read_text() != text]
    if opt.check:
        for path in bad:
            print(f"{path.relative_to(CRATES)} differs")
        sys.exit(1 if bad else 0)
    for path, text in files.items():
        path.parent.mkdir(parents=True, exist_ok=True)
        path.write_text(text)


main()
