"""The sheet (RULES 13): the figures of a job file, the program `sheet`, its job files and the lines it must print.

    sheet.py cases --seed S --count N FOLDER   (N random files of each kind besides the fixed ones)
    sheet.py answers FOLDER
    sheet.py lines FILE

The folder is made if it is missing. `cases` puts all files into files.bin and
the name of each into kinds.txt; `answers` the lines of each into lines.bin and
what `sheet` says on standard error into said.bin, each part behind its length in four bytes, low byte first. Files named join-first,
join-second and join-both stand one behind the other: the sheet of the last must
be the sums that the rule makes of the first two, or `answers` fails. It prints
what was counted, and fails where a column was 0 in every file, or a kind of
highest record was never met.
"""

import argparse
import os
import random
import sys
from fractions import Fraction

sys.dont_write_bytecode = True

import field
import reference as R
import records
import writer

LIMIT = R.MOST_BYTES
REFUSED = (2, 3, 4, 5, 6)  # of a known field
APART = (1, 11, 12)
HEAD = "field accepted 2 3 4 5 6 roots steps record its-steps its-limit"


# The rules. A row of a field is a dict of its figures; its highest record is (number, steps, limit) or None.


def empty():
    """The figures of no outcome."""
    return {m: {"accepted": 0, **dict.fromkeys(REFUSED, 0), "roots": 0, "steps": 0, "highest": None} for m in field.DEGREES}, dict.fromkeys(APART, 0)


def outcomes(data):
    """(outcome, place of the record, values) of each outcome that reading gives."""
    at = 0
    while True:
        outcome, values, _ = R.read_record(data, at)
        if outcome == R.END:
            return
        yield outcome, at, values
        if outcome in (11, 12):
            return
        at = values[-1]


def solved(data, values):
    """The number of roots of an accepted record, its steps and their limit."""
    m, stated, start, length, _ = values
    cutoff = 0 if stated == R.HOUSE else stated
    _, (s, steps), _ = R.whole(m, R.coefficients_of(data[start:start + length]), cutoff, *[[0] * R.MOST_ROOTS] * 2)
    return s, steps, m * (s // (R.in_force(cutoff) + 1))


def share(highest):
    """Steps over their limit, as a fraction."""
    _, steps, limit = highest
    return Fraction(steps, limit)


def better(earlier, later):
    """The higher of two records, or of none and one; the earlier on a tie."""
    if earlier is None or later is None:
        return earlier or later
    return later if share(later) > share(earlier) else earlier


def sheet(data):
    """The figures of a file of any length: a row for each field, and those that stand apart."""
    rows, apart = empty()
    for number, (outcome, at, values) in enumerate(outcomes(data), 1):
        if outcome in APART:
            apart[outcome] += 1
            continue
        row = rows[data[at + 2]]
        if outcome != 0:
            row[outcome] += 1
            continue
        s, steps, limit = solved(data, values)
        row["accepted"] += 1
        row["roots"] += s
        row["steps"] += steps
        row["highest"] = better(row["highest"], (number, steps, limit) if limit else None)
    return rows, apart


def given(figures):
    """How many outcomes the figures add up to."""
    rows, apart = figures
    return sum(apart.values()) + sum(row[column] for row in rows.values() for column in ("accepted", *REFUSED))


def joined(first, second):
    """The figures of two files one behind the other, the first of which ends cleanly (RULES 13.3)."""
    before = given(first)
    rows = {}
    for m, row in first[0].items():
        other = second[0][m]
        later = other["highest"] and (other["highest"][0] + before, *other["highest"][1:])
        rows[m] = {column: row[column] + other[column] for column in row if column != "highest"}
        rows[m]["highest"] = better(row["highest"], later)
    return rows, {number: first[1][number] + second[1][number] for number in APART}


def lines_of(figures):
    """The five lines."""
    rows, apart = figures
    lines = [HEAD]
    for m in sorted(rows):
        row = rows[m]
        numbers = [m, row["accepted"], *(row[number] for number in REFUSED), row["roots"], row["steps"], *(row["highest"] or "---")]
        lines.append(" ".join(str(x) for x in numbers))
    return lines + ["unknown %d mark %d short %d" % tuple(apart[number] for number in APART)]


def sheet_lines(data):
    """The lines of the program `sheet` on this standard input."""
    return lines_of(sheet(data[:LIMIT]))


# What is tried.


class Maker:
    """Records of given roots, and files of them."""

    def __init__(self, rng):
        self.rng = rng
        self.writers = {m: writer.Maker(m, rng) for m in field.DEGREES}
        self.others = records.Maker(rng)

    def record(self, m, cutoff, roots):
        """The record of these roots."""
        return records.record(m, cutoff, R.from_roots(m, roots))

    def of(self, m=None, cutoff=None, count=None):
        """A record with so many roots of a field at a cutoff, any where nothing is said."""
        maker = self.writers[self.rng.choice(field.DEGREES) if m is None else m]
        count = self.rng.randrange(maker.most + 1) if count is None else count
        return self.record(maker.m, maker.cutoff() if cutoff is None else cutoff, maker.roots(count))

    def none_competing(self, m):
        """A record with no more roots than its cutoff: its limit is 0."""
        cutoff = self.rng.randrange(4)
        return self.of(m, cutoff, self.rng.randrange(R.in_force(cutoff) + 1))

    def shares(self, m, count):
        """Records by their fraction: {fraction: {(steps, limit): record}}."""
        found = {}
        for _ in range(count):
            maker = self.writers[m]
            cutoff, roots = 1 + self.rng.randrange(3), maker.roots(self.rng.randrange(2, min(maker.most, 13) + 1))
            limit = m * (len(roots) // (cutoff + 1))
            steps = R.count_steps(m, roots, cutoff)
            if limit:
                found.setdefault(Fraction(steps, limit), {}).setdefault((steps, limit), self.record(m, cutoff, roots))
        return found

    def clean(self, least=0, most=10):
        """Complete records of any kind: a file that ends without 11 or 12."""
        return b"".join(self.others.some(least, most))


def ties(maker):
    """Equal fractions of other numbers, as 2/4 and 4/8, in both orders, with a lower one and none before, between and behind; the same record twice."""
    for m in field.DEGREES:
        found = maker.shares(m, 400)
        alike = [sorted(group.items()) for _, group in sorted(found.items()) if len(group) > 1]
        for group in alike[:6] + alike[-6:]:
            pair = [one for _, one in maker.rng.sample(group, 2)]
            low = next(iter(found[min(found)].values()))
            none = maker.none_competing(m)
            yield "tie-%d" % m, pair[0] + pair[1]
            yield "tie-%d" % m, pair[1] + pair[0]
            yield "tie-%d" % m, none + low + pair[0] + none + pair[1] + low + pair[0]
            yield "tie-%d" % m, low + pair[1] + pair[1] + records.record(m, 9, [1]) + pair[0]
            yield "tie-others-%d" % m, b"".join(maker.of() for _ in range(3)) + pair[0] + pair[1]
        ladder = [next(iter(found[fraction].values())) for fraction in sorted(found)]
        yield "ladder-up-%d" % m, b"".join(ladder)
        yield "ladder-down-%d" % m, b"".join(ladder[::-1])


def near(maker):
    """Fractions that lie close to each other, so that a rounded quotient, or only one of the two numbers, would tell another order."""
    for m in field.DEGREES:
        found = maker.shares(m, 300)
        order = sorted(found)
        for low, high in sorted(zip(order, order[1:]), key=lambda pair: pair[1] - pair[0])[:8]:
            first, second = (maker.rng.choice(list(found[fraction].values())) for fraction in (low, high))
            yield "near-%d" % m, first + second
            yield "near-%d" % m, second + first


def one_field(maker):
    """Files of one field alone: accepted, refused under each number, none that competes, one that does behind many."""
    for m in field.DEGREES:
        q = field.size(m)
        bad = [records.record(m, 1, []), records.record(m, 1, [1] * (R.MOST_COEFFICIENTS + 1)), records.record(m, 1, [q]), records.record(m, 1, [0, 0]), records.record(m, 4, [1])]
        for k, one in enumerate(bad, 2):
            yield "one-field-refused", one
            yield "one-field-refused", one * k + maker.of(m) + b"".join(bad[:k - 2])
        yield "one-field-all", b"".join(bad) + maker.of(m, 1, 5) + b"".join(bad)
        yield "one-field-none", b"".join(maker.none_competing(m) for _ in range(5))
        yield "one-field-late", b"".join(maker.none_competing(m) for _ in range(20)) + maker.of(m, 1, 2) + maker.none_competing(m)
        for cutoff in range(4):
            for count in range(min(maker.writers[m].most, 9) + 1):
                yield "one-field-limits", maker.of(m, cutoff, count)
        yield "one-field-most", b"".join(maker.of(m, 1, maker.writers[m].most) for _ in range(9))


def fields_mixed(maker):
    """All fields, in turn and in blocks, so that each one's highest record stands among those of others; unknown fields between."""
    for _ in range(6):
        some = [maker.of(m) for m in field.DEGREES * 4]
        unknown = [records.record(m, 1, [1]) for m in (0, 5, 9, 255)]
        yield "mixed-in-turn", b"".join(some)
        yield "mixed-blocks", b"".join(some[k::3][i] for k in range(3) for i in range(4))
        yield "mixed-unknown", b"".join(one + maker.rng.choice(unknown) for one in some)
    yield "mixed-unknown-alone", b"".join(records.record(m, 1, [1]) for m in range(256) if m not in field.DEGREES)
    for number in (300, 700):
        yield "mixed-many", b"".join(maker.others.quick() for _ in range(number))


def ends(maker):
    """Files that end under 11 and 12, with good records before, and behind the 11."""
    for before in (b"", records.EXAMPLE, maker.clean(1, 4)):
        for end in (b"\x00", b"\x4c", b"\x00\x00", b"\x4c\x53", b"\x4c\x52", b"\x4c\x52\x04\x01", records.record(4, 1, [], n=1), records.record(5, 1, [1])[:-1]):
            yield "end", before + end
        yield "end-behind", before + b"\x00\x00" + records.EXAMPLE
        yield "end-twice", before + b"\x52\x4c" + b"\x4c"


def joins(maker, count):
    """Two files and both joined, the first of which ends cleanly."""
    example, tied = records.EXAMPLE, maker.of(11, 1, 6)
    pairs = [(b"", b""), (example, b""), (b"", example), (example, example), (example, b"\x00\x00"), (example * 3, b"\x4c"), (tied, tied), (tied * 2, example + tied)]
    pairs += [(maker.clean(), any_end(maker)) for _ in range(count)]
    for first, second in pairs:
        yield "join-first", first
        yield "join-second", second
        yield "join-both", first + second


def any_end(maker):
    """A file that ends in any way."""
    return maker.clean() + maker.rng.choice((b"", b"", b"\x00", b"\x00\x01", R.MARK, records.record(8, 1, [1, 1])[:-1]))


def of_roots(seed, count):
    """The job files of `roots`, thinned: every 40th where one byte of the example takes every value, every 6th of the other long series."""
    series = {"listing": 40, "cut": 6, "nested": 8, "limit": 3, "example": 4}
    seen = {}
    for kind, data in records.make_files(seed, count):
        name = kind.split("-")[0]
        seen[name] = seen.get(name, 0) + 1
        if seen[name] % series.get(name, 1) == 0 or kind in ("example", "empty", "limit-exact"):
            yield kind, data


def make_files(seed, count):
    """(kind, file) of a seed."""
    maker = Maker(random.Random(seed))
    yield from of_roots(seed, 6 * count)
    for kind in (ties(maker), near(maker), one_field(maker), fields_mixed(maker), ends(maker), joins(maker, count)):
        yield from kind


# The commands.


def write_cases(seed, count, folder):
    """All files in one, and their names."""
    os.makedirs(folder, exist_ok=True)
    with open(os.path.join(folder, "files.bin"), "wb") as files, open(os.path.join(folder, "kinds.txt"), "w") as kinds:
        for kind, data in make_files(seed, count):
            files.write(records.framed(data))
            kinds.write(kind + "\n")


def check_joins(kinds, every):
    """The sheet of two joined files is what the rule makes of their own. How many were looked at."""
    looked = 0
    for k, kind in enumerate(kinds):
        if kind == "join-both":
            looked += 1
            if joined(every[k - 2], every[k - 1]) != every[k]:
                sys.exit("sheet.py: file %d: not the sums of the two before it" % k)
    return looked


def tally(kinds, files, every):
    """What was counted in all files. Fails where a column was always 0, or no field had a highest record, or each had, or no tie was met."""
    totals = {column: sum(rows[m][column] for rows, _ in every for m in rows) for column in ("accepted", *REFUSED, "roots", "steps")}
    totals.update({number: sum(apart[number] for _, apart in every) for number in APART})
    highest = {m: sum(rows[m]["highest"] is not None for rows, _ in every) for m in field.DEGREES}
    none = {m: sum(rows[m]["highest"] is None and rows[m]["accepted"] > 0 for rows, _ in every) for m in field.DEGREES}
    tied = {m: kinds.count("tie-%d" % m) for m in field.DEGREES}
    behind = sum(len(data) > LIMIT for data in files)
    met = [*totals.items(), *(("%s of field %d" % (what, m), counts[m]) for what, counts in (("highest", highest), ("none competing", none), ("tie", tied)) for m in counts)]
    missing = [str(what) for what, count in met + [("input behind 65,536 bytes", behind)] if count == 0]
    if missing:
        sys.exit("sheet.py: never met: %s" % "; ".join(missing))
    names = [kind.split("-")[0] for kind in kinds]
    print("files: " + ", ".join("%s %d" % (name, names.count(name)) for name in sorted(set(names))) + "; with input behind 65,536 bytes: %d" % behind)
    print("columns: " + ", ".join("%s: %d" % pair for pair in totals.items()))
    print("a highest record: %s; none competing: %s" % tuple(", ".join("field %d: %d" % pair for pair in counts.items()) for counts in (highest, none)))


def answers(folder):
    """The lines of each file in one."""
    read = lambda name: open(os.path.join(folder, name), "rb").read()
    kinds = read("kinds.txt").decode().split("\n")[:-1]
    files = list(records.unframed(read("files.bin")))
    every = [sheet(data[:LIMIT]) for data in files]
    with open(os.path.join(folder, "lines.bin"), "wb") as part, open(os.path.join(folder, "said.bin"), "wb") as said:
        for data, figures in zip(files, every):
            part.write(records.framed("".join(line + "\n" for line in lines_of(figures)).encode()))
            said.write(records.framed(records.said_of("sheet", data)))
    looked = check_joins(kinds, every)
    tally(kinds, files, every)
    print("joined files: %d sheets are the sums of the two before them" % looked)


def main():
    """One of the three commands."""
    parser = argparse.ArgumentParser(
        description=__doc__, epilog="Exit status: 0 done; 1 a sum is another, or something was never met; 2 unknown words.", formatter_class=argparse.RawDescriptionHelpFormatter
    )
    commands = parser.add_subparsers(dest="command", required=True)
    cases = commands.add_parser("cases")
    cases.add_argument("--seed", type=int, default=1)
    cases.add_argument("--count", type=int, default=20)
    cases.add_argument("folder")
    commands.add_parser("answers").add_argument("folder")
    commands.add_parser("lines").add_argument("file")
    options = parser.parse_args()
    if options.command == "cases":
        write_cases(options.seed, options.count, options.folder)
    elif options.command == "answers":
        answers(options.folder)
    else:
        with open(options.file, "rb") as file:
            sys.stdout.write("".join(line + "\n" for line in sheet_lines(file.read())))


if __name__ == "__main__":
    main()
