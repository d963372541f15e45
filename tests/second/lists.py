"""The program `jobs` (RULES 12.3): lists, the records that it must write and what it must say.

    lists.py cases --seed S --count N FOLDER   (N random lists besides the fixed ones)
    lists.py answers FOLDER
    lists.py records FILE                      (one list: its records on standard output, what `jobs` says on standard error)

The folder is made if it is missing. `cases` puts all lists into files.bin and
the name of each into kinds.txt; `answers` the records of each into records.bin,
what `jobs` says on standard error into said.bin, and into back.bin what `roots`
prints of the records, of the lists whose name begins with `round`: of each line
its roots again. Each part stands behind its length in four bytes, low byte
first. `answers` prints how many lists of each kind and lines of each fate there
are, and fails where a fate was never met.
"""

import argparse
import functools
import os
import random
import re
import sys

sys.dont_write_bytecode = True

import field
import reference as R
import records
import writer
from sizes import ABOUT

LIMIT = R.MOST_BYTES
BLANKS = b" \t\r"
ALLOWED = frozenset(b"0123456789" + BLANKS)
NONE_ABOVE = 65535  # a larger number counts as this
MOST_NUMBERS = 2 + R.MOST_ROOTS + 1  # m, the cutoff, and a root too many
EXAMPLE = b"4 1 1 2 3\n5 1\n4 0 1 6 7\n"

RECORD = "record"
PASSED = "passed over"
A_BYTE = "not decimal: a byte"
ONE_NUMBER = "not decimal: one number"
REFUSED = "refused under %d"
CUT_OFF = "cut off"
FATES = [RECORD, PASSED, A_BYTE, ONE_NUMBER, CUT_OFF] + [REFUSED % number for number in (1, 3, 4, 25, 6)]


# The rules.


def number_of(digits):
    """A decimal number, one above 65535 as 65535."""
    digits = digits.lstrip(b"0")
    return NONE_ABOVE if len(digits) > 5 else min(int(digits or b"0"), NONE_ABOVE)


@functools.lru_cache(maxsize=1000)
def asked(line):
    """What becomes of a line: its fate, and the record's (m, cutoff, roots, bytes) where it has one."""
    if not ALLOWED.issuperset(line):
        return A_BYTE, None
    numbers = [number_of(digits) for digits in re.findall(rb"[0-9]+", line)][:MOST_NUMBERS]
    if not numbers:
        return PASSED, None
    if len(numbers) == 1:
        return ONE_NUMBER, None
    m, cutoff, *roots = numbers
    outcome, _, memory = writer.write(m, cutoff, roots, bytes(writer.length_of(len(roots))))
    return (REFUSED % outcome, None) if outcome else (RECORD, (m, cutoff, roots, memory))


def said_of(number, fate):
    """The line of standard error for a line of the list; None where there is none."""
    if fate == CUT_OFF:
        return "jobs: line %d is cut off at byte 65,536: no record of it was written; the rest was not read" % number
    if fate in (A_BYTE, ONE_NUMBER):
        return "jobs: line %d: not decimal numbers: m, a cutoff and roots" % number
    return None if fate in (RECORD, PASSED) else "jobs: line %d: %s" % (number, fate)


def walk(data):
    """(fate, record) of each line of the first 65,536 bytes: a line that goes on behind them, or whose line feed stands behind them, is cut off."""
    *lines, last = data[:LIMIT].split(b"\n")
    walked = [asked(line) for line in lines]
    return walked + [(CUT_OFF, None) if last and len(data) > LIMIT else asked(last)]


def told_of(data, walked):
    """The bytes of standard output and the lines of standard error."""
    written = b"".join(record[3] for _, record in walked if record)
    said = [line for line in (said_of(number, fate) for number, (fate, _) in enumerate(walked, 1)) if line]
    cut = any(fate == CUT_OFF for fate, _ in walked)
    return written, said + ["jobs: input behind 65,536 bytes is ignored"] * (len(data) > LIMIT and not cut)


def jobs(data):
    """What the program does with a list."""
    return told_of(data, walk(data))


def back(walked):
    """What `roots` prints of the records: the roots of each line again. Nothing is searched for."""
    lines = []
    for m, cutoff, roots, _ in (record for _, record in walked if record):
        steps = R.count_steps(m, roots, R.in_force(cutoff))
        lines.append(" ".join(str(x) for x in (len(lines) + 1, 0, len(roots), steps, *roots)))
    return lines


# What is tried.


def text(*numbers):
    """A line of numbers with one space between."""
    return b" ".join(b"%d" % number for number in numbers) + b"\n"


class Maker:
    """Lists drawn at random."""

    def __init__(self, rng):
        self.rng = rng
        self.makers = {m: writer.Maker(m, rng) for m in field.DEGREES}

    def good(self, m=None, count=None):
        """A line with so many roots."""
        maker = self.makers[self.rng.choice(field.DEGREES) if m is None else m]
        roots = maker.roots(self.rng.randrange(maker.most + 1) if count is None else count)
        return text(maker.m, maker.cutoff(), *roots)

    def refused(self):
        """A line that the call refuses, for one reason or several."""
        rng = self.rng
        m = rng.choice(field.DEGREES)
        maker = self.makers[m]
        cutoff, roots = maker.cutoff(), maker.roots(rng.randrange(1, maker.most + 1))
        for _ in range(rng.choice((1, 1, 2, 3))):
            shape = rng.randrange(5)
            if shape == 0:
                m = rng.choice(writer.UNKNOWN + (65536 + m, 70000))
            elif shape == 1:
                roots = roots + list(range(roots[-1] + 1, roots[-1] + R.MOST_ROOTS + 1))
            elif shape == 2:
                roots[-1] = rng.choice((maker.q, 65535, 65536, 65536 + roots[-1]))
            elif shape == 3:
                roots.insert(rng.randrange(len(roots)), rng.choice(roots))
            else:
                cutoff = rng.choice((4, 5, 255, 256, 65535, 65536, 65537))
        return text(m, cutoff, *roots)

    def spaced(self, line):
        """The same numbers with other blanks between, before and behind, and zeros before some."""
        rng = self.rng
        blank = lambda least: bytes(rng.choice(BLANKS) for _ in range(least + rng.randrange(3)))
        return blank(0) + blank(1).join(b"0" * (rng.randrange(4) // 2) + word for word in line.split()) + blank(0) + b"\n"

    def damaged(self, data):
        """A few bytes changed, taken out or put in."""
        rng = self.rng
        data = bytearray(data)
        for _ in range(1 + rng.randrange(3)):
            place = rng.randrange(len(data))
            shape = rng.randrange(4)
            if shape == 0:
                data[place] = rng.randrange(256)
            elif shape == 1:
                data[place] = rng.choice(b"0123456789 \t\r\n")
            elif shape == 2 and len(data) > 1:
                del data[place]
            else:
                data.insert(place, rng.choice(b"0 \n-+.x\x00\x80"))
        return bytes(data)

    def any_line(self):
        """A line of any kind."""
        shape = self.rng.randrange(8)
        if shape < 3:
            return self.good()
        if shape < 5:
            return self.refused()
        if shape == 5:
            return self.spaced(self.good())
        return self.damaged(self.good()) if shape == 6 else bytes(self.rng.choice(BLANKS) for _ in range(self.rng.randrange(4))) + b"\n"

    def exactly(self, length):
        """Good lines of few roots that fill so many bytes, long ones with blanks at their end; no line feed at the end of the last."""
        data = b""
        while length - len(data) > 1200:
            data += self.good(count=self.rng.randrange(9))[:-1].ljust(self.rng.randrange(1000), bytes((self.rng.choice(BLANKS),))) + b"\n"
        return data + b"4 2 3 5 7".ljust(length - len(data))


def rounds(maker, count):
    """Every number of roots in each field, `count` times: what `jobs <list | roots` prints must be the roots."""
    for m in field.DEGREES:
        for number in range(count):
            yield "round-%d-%d" % (m, number), b"".join(maker.good(m, n) for n in range(writer.most_roots(m) + 1))
        yield "round-%d-first" % m, b"".join(text(m, n % 4, *range(n)) for n in range(writer.most_roots(m) + 1))
    yield "round-mixed", b"".join(maker.any_line() for _ in range(60))


def shapes():
    """Line ends and blanks: none, many, other ones, no last line feed; lines without numbers."""
    yield "empty", b""
    yield "example", EXAMPLE
    yield "example-no-last-feed", EXAMPLE[:-1]
    yield "example-crlf", EXAMPLE.replace(b"\n", b"\r\n")
    yield "example-tabs", EXAMPLE.replace(b" ", b"\t")
    yield "example-returns", EXAMPLE.replace(b" ", b"\r")
    yield "example-blanks", EXAMPLE.replace(b" ", b" \t\r  ").replace(b"\n", b" \t\r\n\t\r ")
    yield "example-apart", EXAMPLE.replace(b"\n", b"\n\n \n\t\n\r\n")
    yield "example-cr-alone", EXAMPLE.replace(b"\n", b"\r")
    for end in range(len(EXAMPLE)):
        yield "example-cut-%02d" % end, EXAMPLE[:end]
    for data in (b"\n", b"\n\n\n", b" ", b" \n", b"\r\n\r\n", b"\t\t\t", b"\n\n\n4 1 1\n\n\n5 1"):
        yield "blank-" + data.hex(), data


def bytes_tried():
    """Every byte inside a line, before it, behind it, between two digits and alone."""
    for name, form in (("inside", b"4 1 1 %s 3\n"), ("front", b"%s4 1 1 3\n"), ("behind", b"4 1 1 3%s\n"), ("digits", b"8 1 1%s3\n"), ("alone", b"%s\n")):
        yield "byte-" + name, b"".join(form % bytes((byte,)) for byte in range(256))
    for word in (b"-4 1 1", b"+4 1 1", b"4 -1 1", b"4 +1 1", b"4 1 -1", b"4 1 +1", b"4 1 -0", b"0x4 1 1", b"4.0 1 1", b"4,1,1", b"4 1 1e1", b"4 1 1_0", b"4;1;1",
                 b"four one", b"# 4 1 1", b"4 1 1 # one", b"4 1 1 -", b"- 4 1 1", b"4 1 1\x00", b"\x00", b"4 1 \xc2\xa01", b"4 1 \xd9\xa1", b"\xef\xbb\xbf4 1 1", b"4 1 1\x1a", b"4 1\x0b1", b"4 1\x0c1", b"a"):
        yield "word-" + word.hex(), EXAMPLE + word + b"\n" + EXAMPLE


def sizes():
    """Numbers of every size at every place, also such as are small in 8, 16, 32 or 64 bits, and with zeros before them."""
    large = [255, 256, 257, 259, 260, 264, 267, 2047, 2048, 9999, 10000, 32768, 65534, 65535, 65536, 65537, 65540, 65547, 99999, 100000, 131076]
    large += [2**bits + more for bits in (31, 32, 63, 64, 128) for more in (-1, 0, 1, 4, 8, 11)] + [10**50, int("9" * 400)]
    yield "size-m", b"".join(text(x, 1, 2) for x in large)
    yield "size-cutoff", b"".join(text(11, x, 2) for x in large)
    yield "size-root", b"".join(text(11, 1, 2, x) + text(11, 2, x) for x in large)
    yield "size-alone", b"".join(text(x) for x in large)
    yield "size-two", b"".join(text(x, x) for x in large)
    for zeros in (1, 2, 5, 19, 20, 21, 1000, 60000):
        yield "size-zeros-%d" % zeros, b"%s %s %s\n" % tuple(b"0" * min(zeros, 20000) + digit for digit in (b"4", b"1", b"3"))
    yield "size-longest", b"4 1 " + b"9" * (LIMIT - 4)
    yield "size-longest-zeros", b"4 1 " + b"0" * (LIMIT - 5) + b"7"


def counts():
    """Every number of numbers, good and bad ones behind those that count, a letter behind them all."""
    for m, step in ((11, 3), (8, 2), (4, 1), (5, 1)):
        yield "count-%d" % m, b"".join(text(*(m, 1, *range(0, step * n, step))[:n]) for n in range(1, MOST_NUMBERS + 20))
    for n in (30, *ABOUT, MOST_NUMBERS, MOST_NUMBERS + 5, 300):
        roots = range(5, 5 + n)
        for more in ((), (1,), (5000,), (70000,), (0, 0, 0)):
            yield "count-behind-%d" % n, text(11, 3, *roots, *more) + text(11, 4, *roots, *more) + text(3, 4, *roots, *more)
        yield "count-letter-%d" % n, text(11, 3, *roots)[:-1] + b" x\n" + EXAMPLE
    yield "count-few", b"4\n4 1\n8 0\n11 3\n4 4\n5 0\n0 0\n0\n65536\n65536 0\n"


def refusals():
    """Each refusal alone and two together, in each field; cutoffs 0 to 5 and above."""
    for m in field.DEGREES:
        q = field.size(m)
        many = R.MOST_ROOTS + 1
        long = list(range(min(q, many))) + [q - 1] * (many - min(q, many))
        lists = ([], [1, 2], [2, 1], [1, 1], [1, q], [q, 1], [q, q], [0], [q - 1], [q - 2, q - 1], long, long[::-1], long[:-1] + [q])
        yield "refused-%d" % m, b"".join(text(degree, cutoff, *roots) for degree in (m, m + 1, 256 + m) for cutoff in (0, 3, 4, 65535) for roots in lists)
        yield "refused-cutoffs-%d" % m, b"".join(text(m, cutoff, 1, 2) for cutoff in writer.CUTOFFS)


def at_the_limit(maker):
    """About 65,536 bytes: a list that ends there, a line that is cut there, inside a number too, lines of that length, and the most lines."""
    full = maker.exactly(LIMIT)
    yield "limit-exact", full
    yield "limit-one-less", full[:-1]
    yield "limit-feed-behind", full + b"\n"
    yield "limit-list-behind", full + b"\n" + EXAMPLE
    yield "limit-letter-behind", full + b"x"
    yield "limit-feed-last", maker.exactly(LIMIT - 1) + b"\n" + EXAMPLE
    for line in (b"11 2 3 700 1999\n", b"8 3 12 34 56 7x\n", b" \t 4 1\r\n"):
        for kept in range(len(line) + 1):  # every place of a line
            yield "limit-cut-%d" % kept, maker.exactly(LIMIT - kept - 1) + b"\n" + line + EXAMPLE
    yield "limit-spaces", b" " * (LIMIT + 5)
    yield "limit-spaces-between", b"4 1" + b" " * (LIMIT - 4) + b"3"
    yield "limit-feeds", b"\n" * (LIMIT - 8) + b"4 1 1 2\n9 9"
    yield "limit-letters", b"x\n" * (LIMIT // 2)
    yield "limit-short-records", b"4 1\n" * (LIMIT // 4)
    yield "limit-refused", b"5 1\n" * (LIMIT // 4 + 3)
    yield "limit-one-line", text(11, 1, *range(2000)) * 8


def random_lists(maker, count):
    """Lists of lines of any kind, good ones alone, damaged ones, and any bytes."""
    rng = maker.rng
    for number in range(count):
        shape = number % 4
        if shape == 0:
            yield "good", b"".join(rng.choice((maker.good(), maker.spaced(maker.good()))) for _ in range(rng.randrange(1, 12)))
        elif shape == 1:
            yield "mixed", b"".join(maker.any_line() for _ in range(rng.randrange(1, 20)))
        elif shape == 2:
            yield "damaged", maker.damaged(b"".join(maker.any_line() for _ in range(rng.randrange(1, 12))))
        else:
            yield "noise", bytes(rng.choice(b"0123456789     \n\n\t\r4811x\x00\xff") for _ in range(rng.randrange(80)))


def make_lists(seed, count):
    """(kind, list) of a seed."""
    maker = Maker(random.Random(seed))
    yield from rounds(maker, 1 + count // 100)
    for kind in (shapes(), bytes_tried(), sizes(), counts(), refusals(), at_the_limit(maker), random_lists(maker, count)):
        yield from kind


# The commands.


def write_cases(seed, count, folder):
    """All lists in one, and their names."""
    os.makedirs(folder, exist_ok=True)
    with open(os.path.join(folder, "files.bin"), "wb") as files, open(os.path.join(folder, "kinds.txt"), "w") as kinds:
        for kind, data in make_lists(seed, count):
            files.write(records.framed(data))
            kinds.write(kind + "\n")


def tally(names, fates, behind):
    """How many lists and lines of each kind there are. Fails where a fate was never met."""
    missing = [fate for fate in FATES if fate not in fates] + ["input behind 65,536 bytes"] * (behind == 0)
    if missing:
        sys.exit("lists.py: never met: %s" % "; ".join(missing))
    print("lists: " + ", ".join("%s %d" % (kind, names.count(kind)) for kind in sorted(set(names))))
    print("lines: " + "; ".join("%s: %d" % (fate, fates[fate]) for fate in FATES) + "; lists with input behind 65,536 bytes: %d" % behind)


def answers(folder):
    """What `jobs` writes and says of each list, and what `roots` prints of the records of those that are made for it."""
    read = lambda name: open(os.path.join(folder, name), "rb").read()
    kinds = read("kinds.txt").decode().split("\n")[:-1]
    parts = {name: open(os.path.join(folder, name), "wb") for name in ("records.bin", "said.bin", "back.bin")}
    fates, behind = {}, 0
    for kind, data in zip(kinds, records.unframed(read("files.bin")), strict=True):
        walked = walk(data)
        written, said = told_of(data, walked)
        parts["records.bin"].write(records.framed(written))
        parts["said.bin"].write(records.framed("".join(line + "\n" for line in said).encode()))
        if kind.startswith("round"):
            parts["back.bin"].write(records.framed("".join(line + "\n" for line in back(walked)).encode()))
        behind += len(data) > LIMIT
        for fate, _ in walked:
            fates[fate] = fates.get(fate, 0) + 1
    for part in parts.values():
        part.close()
    tally([kind.split("-")[0] for kind in kinds], fates, behind)


def main():
    """One of the three commands."""
    parser = argparse.ArgumentParser(
        description=__doc__, epilog="Exit status: 0 done; 1 a fate of a line was never met; 2 unknown words.", formatter_class=argparse.RawDescriptionHelpFormatter
    )
    commands = parser.add_subparsers(dest="command", required=True)
    cases = commands.add_parser("cases")
    cases.add_argument("--seed", type=int, default=1)
    cases.add_argument("--count", type=int, default=200)
    cases.add_argument("folder")
    commands.add_parser("answers").add_argument("folder")
    commands.add_parser("records").add_argument("file")
    options = parser.parse_args()
    if options.command == "cases":
        write_cases(options.seed, options.count, options.folder)
    elif options.command == "answers":
        answers(options.folder)
    else:
        with open(options.file, "rb") as file:
            written, said = jobs(file.read())
        sys.stdout.buffer.write(written)
        sys.stderr.write("".join(line + "\n" for line in said))


if __name__ == "__main__":
    main()
