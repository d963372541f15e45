"""What the reports of bench/ share: the files of a run, tables in Markdown, and the sections of docs/BENCHMARK.md."""
import argparse
import os

# Sections of the page that have runs of their own; they stand behind the rest of the page, in this order.
DEGREES = "## The cost by degree beside lib/bch.c"
AFFINE = "## Affine polynomials beside every element tried"
CORRECTOR = "## The block corrector beside lib/bch.c"
NATIVE = {part: f"## {what} on another machine" for part, what in (("peers", "Times of the finders"), ("affine", "Times of affine polynomials"), ("corrector", "Times of the block corrector"))}
SECTIONS = (DEGREES, AFFINE, CORRECTOR, *NATIVE.values())

NO_REP = '''"No rep": from 2 KB on glibc's memset is one instruction, rep stos, which both counters take as one for each byte; for this column glibc was told to
store by vectors instead. The emulator does rep stos byte by byte, and its times hold that.'''


def words(text, *before):
    """The words of a report: those of `before`, DIR, where the files of the run stand, and DOCS, the folder of the page, or nothing."""
    args = argparse.ArgumentParser(description=text, epilog="Exit status: 0 written; 1 an answer of our own is wrong; 2 unknown words.",
                                   formatter_class=argparse.RawDescriptionHelpFormatter)
    for word in before:
        args.add_argument(word, metavar=word.upper())
    args.add_argument("dir", metavar="DIR")
    args.add_argument("docs", metavar="DOCS", nargs="?")
    opt = args.parse_args()
    return *(getattr(opt, word) for word in before), opt.dir, opt.docs


def rows(directory, name):
    with open(f"{directory}/{name}.tsv") as file:
        return [line.rstrip("\n").split("\t") for line in file]


def read(directory):
    """A run of bench/peers or bench/affine: about, checks, and for each measure a map from (set, finder) to its figure, in thousand instructions or microseconds."""
    return {
        "about": dict(rows(directory, "about")),
        "checks": [(s, f, int(right), int(all)) for s, f, right, all in rows(directory, "checks")],
        "time": {(s, f): float(ns) / 1000 for s, f, ns in rows(directory, "times")},
        "count": {(s, f): int(n) / 1000 for s, f, n in rows(directory, "counts")},
        "vector": {(s, f): int(n) / 1000 for s, f, n in rows(directory, "counts-vector")},
    }


def parts(path):
    """The page's text before the sections that have runs of their own, under "", and each such section under its head."""
    text = open(path).read() if os.path.exists(path) else ""
    starts = sorted((text.index(f"\n{head}\n") + 1, head) for head in SECTIONS if f"\n{head}\n" in text)
    ends = [start for start, _ in starts] + [len(text)]
    return {"": text[: ends[0]]} | {head: text[start:end] for (start, head), end in zip(starts, ends[1:])}


def put(path, head, text):
    """Writes a part of the page in place of that which the page has; the other parts stay."""
    found = parts(path) | {head: text}
    with open(path, "w") as file:
        file.write("\n".join(found[key].rstrip("\n") + "\n" for key in ("", *SECTIONS) if key in found))


def figure(x):
    return "-" if x is None else f"{x:.2f}" if x < 0.1 else f"{x:,.1f}" if x < 1000 else f"{x:,.0f}"


def ratio(figures, s, one, other):
    return figures[s, one] / figures[s, other] if (s, one) in figures and (s, other) in figures else None


def short(x):
    return "-" if x is None else f"{x:.2f}"


def table(head, lines):
    """Markdown with columns of one width, so that it reads in a terminal too."""
    wide = [max(len(line[i]) for line in [head] + lines) for i in range(len(head))]
    put_line = lambda line: "| " + " | ".join(c.ljust(w) if i == 0 else c.rjust(w) for i, (c, w) in enumerate(zip(line, wide))) + " |"
    rule = "|" + "|".join("-" * (w + 2) if i == 0 else "-" * (w + 1) + ":" for i, w in enumerate(wide)) + "|"
    return "\n".join([put_line(head), rule] + [put_line(line) for line in lines])
