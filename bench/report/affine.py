#!/usr/bin/env python3
"""affine.py DIR [DOCS]: prints the table of the run of bench/affine whose files stand in DIR, as a section in Markdown, and
with DOCS puts it in place of that section of DOCS/BENCHMARK.md. Fails where a list of ours is wrong."""
import sys

sys.dont_write_bytecode = True
from page import AFFINE, NO_REP, figure, put, ratio, read, short, table, words

WAYS = {"ours": "locator_affine", "every": "every element", "eliminated": "elimination in C"}
PEERS = list(WAYS)[1:]


def in_order(run):
    return list(dict.fromkeys(s for s, _ in run["time"]))


def numbers(s):
    """Field, dimension and number of roots."""
    m, k = s.split(".")
    return [m, "none", "0"] if k == "none" else [m, k, f"{2 ** int(k):,}"]


def measured(figures, s):
    """Each way, and ours over each of the others."""
    return [figure(figures.get((s, way))) for way in WAYS] + [short(ratio(figures, s, "ours", way)) for way in PEERS]


def speed_table(run):
    over = ["ours / every", "ours / elimination"]
    columns = [*list(WAYS.values())[1:], *over]
    head = ["field", "dimension", "roots", "instructions: ours", "no rep", *columns, "time: ours", *columns]
    lines = []
    for s in in_order(run):
        ours, *others = measured(run["count"], s)
        lines.append([*numbers(s), ours, figure(run["vector"].get((s, "ours"))), *others, *measured(run["time"], s)])
    return table(head, lines)


def checks(run):
    wrong = [f"- {WAYS[way]}, field {numbers(s)[0]}, dimension {numbers(s)[1]}: {right} of {all} lists right" for s, way, right, all in run["checks"] if right != all]
    lists = sum(all for _, _, _, all in run["checks"])
    said = f"{lists:,} lists were compared with the values at every element by shift-and-add products; {'all are right but these:' if wrong else 'all are right.'}"
    return "\n".join([said, *wrong])


def section(run):
    about = run["about"]
    counted = f"Instructions are counted by {about['counter']}" if run["count"] else "Instructions were not counted"
    return f"""{AFFINE}

    bench/affine --docs

made this section on {about['date']}.

- Where: {about['where']}.
- C: {about['compiler']}.
- 64 polynomials of each kind with dense coefficients, drawn from a fixed seed (where every element is a root, all zeros). The dimension is that of the
  roots; "none" has no root, and a rank of half the field's degree, rounded up.
- Every element: the images of the basis by logs held in memory, the value of x + 2^j as that of x plus the image of 2^j, eight values at a time, and the
  zeros among them. Elimination in C: the same images, elimination on them and on the elements beside them, and the list by doubling. Each call of ours
  builds its own tables.
- {counted}. Times are the least of at least 15 rounds for each 8 polynomials, by turns.

Thousand instructions and microseconds a polynomial:

{speed_table(run)}

{NO_REP}

{checks(run)}
"""


def main():
    """Prints the section, and writes it where a page is named."""
    directory, docs = words(__doc__)
    run = read(directory)
    print(section(run), end="")
    if docs:
        put(f"{docs}/BENCHMARK.md", AFFINE, section(run))
    if any(right != all for _, _, right, all in run["checks"]):
        sys.exit("affine: a list of our own is wrong")


if __name__ == "__main__":
    main()
