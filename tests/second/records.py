"""Job files for the program `roots` and the lines it must print.

    records.py files --seed S --count N FOLDER   (N random files besides the fixed ones)
    records.py lines FILE
    records.py tally FOLDER
    records.py cases --seed S --count N FOLDER
    records.py answers FOLDER
    records.py salvaged FOLDER

The folder is made if it is missing; the files are named NNNN-kind.bin. `cases` puts all files into files.bin and the name of each into kinds.txt, and
`answers` the lines of each into lines.bin and what `roots` says on standard error into said.bin, each behind its length in four bytes, low byte first; it
prints how many files of each kind and lines of each outcome there are. `salvaged` puts what the program `salvage` keeps of each file into kept.bin and its lines into report.bin in the same form.
"""

import argparse
import os
import random
import sys

sys.dont_write_bytecode = True

import field
import reference as R
import sizes
import tables
import writer

LIMIT = R.MOST_BYTES
EXAMPLE = bytes.fromhex(
    "4C520401040600070000000100" "4C520501010100" "4C520400040100000000000100"
)


def record(m, cutoff, coefficients, n=None, mark=R.MARK):
    """n is the count byte, where it is to differ from the truth."""
    count = len(coefficients) if n is None else n
    data = mark + bytes((m, cutoff, count))
    for c in coefficients:
        data += bytes((c & 255, c >> 8))
    return data


class Maker:
    def __init__(self, rng):
        self.rng = rng
        self.makers = {m: tables.Maker(m, rng) for m in field.DEGREES}

    def good(self):
        m = self.rng.choice(field.DEGREES)
        return record(m, tables.drawn_cutoff(self.rng), self.makers[m].polynomial())

    def quick(self):
        """An accepted record of field 4 or a constant, cheap to search."""
        rng = self.rng
        if rng.randrange(2):
            return record(rng.choice(field.DEGREES), tables.drawn_cutoff(rng), [1 + rng.randrange(15)])
        return record(4, tables.drawn_cutoff(rng), self.makers[4].polynomial())

    def too_many(self):
        """A number of coefficients that the count byte can say and that is refused."""
        first = R.MOST_COEFFICIENTS + 1
        return self.rng.choice((first, first + 1, 255, self.rng.randrange(first, 256)))

    def refused(self):
        """A complete record with a refusal, or with several."""
        rng = self.rng
        m = rng.choice(field.DEGREES)
        q = field.size(m)
        f = self.makers[m].polynomial()
        cutoff = tables.drawn_cutoff(rng)
        for _ in range(rng.choice((1, 1, 2, 3))):
            shape = rng.randrange(7)
            if shape == 0:
                m = rng.choice((0, 1, 3, 5, 7, 9, 10, 12, 13, 16, 255, rng.randrange(256)))
            elif shape == 1:
                f = []
            elif shape == 2:
                f = [rng.randrange(q) for _ in range(self.too_many())]
            elif shape == 3 and f:
                f[rng.randrange(len(f))] = rng.choice((q, q + 1, 65535, q + rng.randrange(q)))
            elif shape == 4:
                f = [0] * rng.choice((1, 2, R.MOST_COEFFICIENTS, R.MOST_COEFFICIENTS + 1, 1 + rng.randrange(R.MOST_COEFFICIENTS)))
            elif shape == 5:
                cutoff = rng.choice((4, 5, 255, 4 + rng.randrange(252)))
            elif shape == 6:
                f = [q] * len(f)
        return record(m, cutoff, f)

    def any_record(self):
        return self.refused() if self.rng.randrange(3) == 0 else self.good()

    def some(self, least=0, most=12):
        return [self.any_record() for _ in range(self.rng.randrange(least, most + 1))]

    def exactly(self, length, few=False):
        """Complete records that fill `length` bytes, mostly cheap ones, or few of them."""
        data = b""
        while few and length - len(data) > 2000:
            data += record(4, 1, [self.rng.randrange(16) for _ in range(255)])
        while length - len(data) > 300:
            data += self.quick()
        nine = record(8, 1, [1, 2])
        while length - len(data) > writer.MOST_BYTES:
            data += nine + nine
        if (length - len(data)) % 2 == 0:  # each record is odd in length
            data += nine
        n = (length - len(data) - 5) // 2
        return data + record(4, 2, [self.rng.randrange(16) for _ in range(n)])

    def damaged(self, data):
        """A few bytes changed, taken out or put in."""
        rng = self.rng
        data = bytearray(data)
        for _ in range(1 + rng.randrange(3)):
            if not data:
                break
            place = rng.randrange(len(data))
            shape = rng.randrange(4)
            if shape == 0:
                data[place] = rng.randrange(256)
            elif shape == 1:
                data[place] ^= 1 << rng.randrange(8)
            elif shape == 2:
                del data[place]
            else:
                data.insert(place, rng.choice((0, 0x4C, 0x52, rng.randrange(256))))
        return bytes(data)

    def fixed(self):
        rng = self.rng
        yield "empty", b""
        yield "example", EXAMPLE
        for length in range(1, len(EXAMPLE)):
            yield "example-cut-%02d" % length, EXAMPLE[:length]
        for byte in (0x00, 0x4C, 0x52, 0xFF):
            yield "one-byte-%02x" % byte, bytes((byte,))
            yield "one-byte-behind-%02x" % byte, EXAMPLE + bytes((byte,))
        for mark in (b"\x00\x00", b"\x4c\x53", b"\x4d\x52", b"\x52\x4c", b"\x4c\x4c", b"\x52\x52", b"\xff\xff"):
            yield "mark-" + mark.hex(), mark
            yield "mark-behind-" + mark.hex(), EXAMPLE + mark + EXAMPLE
            yield "mark-record-" + mark.hex(), record(4, 1, [6, 7, 0, 1], mark=mark) + EXAMPLE
        # every value of one header byte, all else as in the example
        yield "every-m", b"".join(record(m, 1, [6, 7, 0, 1]) for m in range(256))
        yield "every-m-empty", b"".join(record(m, 0, []) for m in range(256))
        yield "every-m-long", b"".join(record(m, 9, [65535] * (R.MOST_COEFFICIENTS + 1)) for m in range(256))
        yield "every-m-constant-0", b"".join(record(m, 0, [0]) for m in range(256))
        yield "every-m-constant-300", b"".join(record(m, 0, [300]) for m in range(256))
        yield "every-cutoff", b"".join(record(4, c, [6, 7, 0, 1]) for c in range(256))
        for m in (8, 11, 5):
            f = R.from_roots(8, range(3, 20)) if m == 8 else R.from_roots(11, range(100, 100 + R.MOST_ROOTS)) if m == 11 else [1]
            yield "every-cutoff-field-%d" % m, b"".join(record(m, c, f) for c in range(256))
        yield "every-cutoff-empty", b"".join(record(4, c, []) for c in range(256))
        yield "every-cutoff-zero", b"".join(record(4, c, [0, 0]) for c in range(256))
        yield "every-cutoff-large", b"".join(record(4, c, [16]) for c in range(256))
        for m in (4, 8, 11, 7):
            yield "every-n-low-%d" % m, b"".join(record(m, 2, [1] * n) for n in range(128))
            yield "every-n-high-%d" % m, b"".join(record(m, 2, [1] * n) for n in range(128, 256))
            yield "every-n-over-%d" % m, b"".join(record(m, 2, [1] * n) for n in range(256))
        # each n with a body that ends one byte early, or misses
        for n in (0, 1, 2, *sizes.ABOUT, 127, 128, 254, 255):
            for m in (4, 5):
                body = [1] * n
                yield "n-%d-short-%d" % (n, m), EXAMPLE + record(m, 9, body)[:-1]
                yield "n-%d-no-body-%d" % (n, m), EXAMPLE + record(m, 9, [], n=n)
                yield "n-%d-more-%d" % (n, m), record(m, 1, body) + b"\x00" + EXAMPLE
        for length in range(2, 5):
            yield "header-cut-%d" % length, record(255, 255, [1])[:length]
        # roots 0, all 16, double roots, none, zeros on top
        yield "figures", b"".join(
            record(m, c, f)
            for m, f in (
                (4, [6, 7, 0, 1]),
                (4, [1, 0, 0, 1]),
                (4, [2, 0, 1]),
                (4, [8, 1, 1]),
                (4, [6, 1, 1]),
                (4, [3, 2]),
                (4, [7]),
                (4, [0, 1] + [0] * 14 + [1]),
                *((4, [0, 1] + [0] * (n - 2) + [1]) for n in R.LIMITS.values()),
                (11, [0, 1, 1, 0]),
                (4, [0, 0]),
                (4, [16, 1]),
                (8, [0] * R.MOST_ROOTS + [1]),
                (8, [255]),
                *((11, [2047] * n) for n in sizes.ABOUT),
                (11, [0] * R.MOST_COEFFICIENTS),
                (11, [1] * (R.MOST_COEFFICIENTS + 1)),
            )
            for c in range(5)
        )
        # every value of every byte of the listing
        for place in range(len(EXAMPLE)):
            for byte in range(256):
                yield "listing", EXAMPLE[:place] + bytes((byte,)) + EXAMPLE[place + 1:]
        # bodies that hold records: who skips a head alone reads them
        inner = record(4, 1, [6, 7, 0, 1])
        fit = 2 * R.MOST_COEFFICIENTS // len(inner)
        for m in (4, 8, 11, 5):
            for cutoff in (2, 3, 4):
                for repeats in (1, 2, 3, fit, fit + 1, 30):
                    body = (inner * repeats)[:510]
                    words = [body[i] | body[i + 1] << 8 for i in range(0, len(body) - 1, 2)]
                    yield "nested", record(m, cutoff, words) + EXAMPLE
                    yield "nested", EXAMPLE + record(m, cutoff, words)[:-1]
        # a mixed file cut at every byte
        mixed = b"".join((self.good(), self.refused(), self.quick(), self.refused(), EXAMPLE))
        for length in range(len(mixed)):
            yield "cut", mixed[:length]
        # the limit of 65,536 bytes
        full = self.exactly(LIMIT)
        yield "limit-exact", full
        yield "limit-one-more-record", full + EXAMPLE
        yield "limit-noise-behind", full + bytes(rng.randrange(256) for _ in range(1000))
        yield "limit-mark-half-behind", full + b"\x4c"
        yield "limit-twice", full + full
        for short in (1, 2, 3, 4, 5, 6, 7, 12, 13):
            front = self.exactly(LIMIT - short, few=True)
            yield "limit-less-%d" % short, front
            yield "limit-cut-%d" % short, front + record(4, 1, [6, 7, 0, 1]) + EXAMPLE
            yield "limit-cut-wrong-mark-%d" % short, front + b"\x4c\x4d" + EXAMPLE * 3
            yield "limit-cut-refused-%d" % short, front + record(5, 9, [1] * 255)
        yield "limit-zeros", bytes(LIMIT + 10)
        yield "limit-refused", record(4, 0, []) * 13200
        yield "limit-constants", record(11, 0, [1]) * 9400
        yield "limit-marks", R.MARK * 33000

    def random_files(self, count):
        rng = self.rng
        for number in range(count):
            shape = number % 6
            if shape == 0:
                yield "good", b"".join(self.good() for _ in range(1 + rng.randrange(10)))
            elif shape == 1:
                yield "mixed", b"".join(self.some(1))
            elif shape == 2:
                yield "damaged", self.damaged(b"".join(self.some(1)))
            elif shape == 3:
                data = b"".join(self.some(1))
                yield "truncated", data[:rng.randrange(len(data) + 1)]
            elif shape == 4:
                noise = bytes(rng.randrange(256) for _ in range(rng.randrange(60)))
                yield "noise", b"".join(self.some(0, 3)) + rng.choice((b"", R.MARK)) + noise
            else:
                # headers drawn at random, bodies of the stated length
                data = b""
                for _ in range(rng.randrange(1, 20)):
                    n = rng.choice((0, 1, 2, rng.choice(sizes.ABOUT), R.MOST_COEFFICIENTS, rng.randrange(256)))
                    m = rng.choice((4, 8, 11, rng.randrange(256)))
                    top = rng.choice((1, 16, 256, 2048, 65536))
                    body = [rng.randrange(top) for _ in range(n)]
                    data += record(m, rng.choice((0, 1, 2, 3, 4, rng.randrange(256))), body)
                yield "headers", data


def make_files(seed, count):
    rng = random.Random(seed)
    maker = Maker(rng)
    yield from maker.fixed()
    yield from maker.random_files(count)


def framed(data):
    return len(data).to_bytes(4, "little") + data


def cases(seed, count, folder):
    """All files in one, and their names."""
    with open(os.path.join(folder, "files.bin"), "wb") as files, open(os.path.join(folder, "kinds.txt"), "w") as kinds:
        for kind, data in make_files(seed, count):
            files.write(framed(data))
            kinds.write(kind + "\n")


def unframed(data):
    at = 0
    while at < len(data):
        end = at + 4 + int.from_bytes(data[at:at + 4], "little")
        yield data[at + 4:end]
        at = end


def stop_of(data):
    """(number of the record, place, outcome) where reading stops at 11 or 12; None where it does not."""
    number, at = 1, 0
    while True:
        outcome, values, _ = R.read_record(data, at)
        if outcome == R.END:
            return None
        if outcome in (11, 12):
            return number, at, outcome
        number, at = number + 1, values[-1]


def said_of(program, data):
    """What `roots` or `sheet` says on standard error of a file that it reads and prints."""
    lines = []
    stop = stop_of(data[:LIMIT])
    if stop:
        why = "its mark is missing" if stop[2] == 11 else "it ends early"
        lines.append("%s: reading stopped at record %d (byte %d): %s; the rest was not read; `salvage` keeps what can be kept" % (program, *stop[:2], why))
    if len(data) > LIMIT:
        lines.append("%s: input behind 65,536 bytes is ignored" % program)
    return "".join(line + "\n" for line in lines).encode()


def answers(folder):
    """The lines of each file in one, and what `roots` says of each."""
    with open(os.path.join(folder, "files.bin"), "rb") as file:
        data = file.read()
    with open(os.path.join(folder, "kinds.txt")) as file:
        names = [name.split("-")[0] for name in file.read().split("\n")[:-1]]
    outcomes = {}
    with open(os.path.join(folder, "lines.bin"), "wb") as file, open(os.path.join(folder, "said.bin"), "wb") as said:
        for one in unframed(data):
            texts = R.roots_lines(one)
            file.write(framed("".join(text + "\n" for text in texts).encode()))
            said.write(framed(said_of("roots", one)))
            for text in texts:
                outcome = int(text.split()[1])
                outcomes[outcome] = outcomes.get(outcome, 0) + 1
    print("files: " + ", ".join("%s %d" % (kind, names.count(kind)) for kind in sorted(set(names))))
    print("lines by outcome: " + ", ".join("%d: %d" % (outcome, outcomes[outcome]) for outcome in sorted(outcomes)))


def salvaged(folder):
    """What is kept of each file, and the lines of the program `salvage`."""
    with open(os.path.join(folder, "files.bin"), "rb") as file:
        data = file.read()
    files = records = stretches = 0
    with open(os.path.join(folder, "kept.bin"), "wb") as keeps, open(os.path.join(folder, "report.bin"), "wb") as reports:
        for one in unframed(data):
            texts, kept = R.salvage_lines(one)
            keeps.write(framed(kept))
            reports.write(framed("".join(text + "\n" for text in texts).encode()))
            files, records, stretches = files + 1, records + int(texts[-1]), stretches + len(texts) - 1
    print("files: %d, records kept: %d, stretches dropped: %d" % (files, records, stretches))


def tally(folder):
    counts = {}
    files = sorted(os.listdir(folder))
    for name in files:
        with open(os.path.join(folder, name), "rb") as file:
            for text in R.roots_lines(file.read(LIMIT + 1)):
                outcome = int(text.split()[1])
                counts[outcome] = counts.get(outcome, 0) + 1
    for outcome in sorted(counts):
        print("outcome %d: %d" % (outcome, counts[outcome]))
    print("files: %d, lines: %d" % (len(files), sum(counts.values())))


def main():
    parser = argparse.ArgumentParser(
        description=__doc__, epilog="Exit status: 0 done; 2 unknown words.", formatter_class=argparse.RawDescriptionHelpFormatter
    )
    commands = parser.add_subparsers(dest="command", required=True)
    files = commands.add_parser("files")
    files.add_argument("--seed", type=int, default=1)
    files.add_argument("--count", type=int, default=120)
    files.add_argument("folder")
    all_cases = commands.add_parser("cases")
    all_cases.add_argument("--seed", type=int, default=1)
    all_cases.add_argument("--count", type=int, default=120)
    all_cases.add_argument("folder")
    answered = commands.add_parser("answers")
    answered.add_argument("folder")
    kept = commands.add_parser("salvaged")
    kept.add_argument("folder")
    lines = commands.add_parser("lines")
    lines.add_argument("file")
    tallied = commands.add_parser("tally")
    tallied.add_argument("folder")
    options = parser.parse_args()
    if options.command == "files":
        os.makedirs(options.folder, exist_ok=True)
        for number, (kind, data) in enumerate(make_files(options.seed, options.count)):
            with open(os.path.join(options.folder, "%04d-%s.bin" % (number, kind)), "wb") as file:
                file.write(data)
        return
    if options.command == "cases":
        os.makedirs(options.folder, exist_ok=True)
        cases(options.seed, options.count, options.folder)
        return
    if options.command == "answers":
        answers(options.folder)
        return
    if options.command == "salvaged":
        salvaged(options.folder)
        return
    if options.command == "tally":
        tally(options.folder)
        return
    with open(options.file, "rb") as file:
        data = file.read()
    for text in R.roots_lines(data):
        sys.stdout.write(text + "\n")


if __name__ == "__main__":
    main()
