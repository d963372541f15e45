#!/usr/bin/env python3
"""peers.py DIR [DOCS]: prints the tables of the run of bench/peers whose files stand in DIR, and with DOCS writes them as DOCS/BENCHMARK.md, where sections
that have runs of their own stay, and draws DOCS/benchmark.svg. Fails where a list of ours is wrong; a peer's wrong lists are only named."""
import sys

sys.dont_write_bytecode = True
import page
from page import NO_REP, figure, put, ratio, read, short, table
from peers_plot import draw

FINDERS = [("solve", "whole call"), ("stepped", "in steps"), ("search", "plain search"), ("resultants", "resultants"), ("bch", "lib/bch.c"), ("flint", "FLINT"),
           ("chien", "Chien in C")]
MEASURES = ("count", "vector", "time")
RATIOS = [("solve", "bch", "whole / bch"), ("solve", "flint", "whole / FLINT"), ("search", "chien", "search / Chien")]
TARGETS = [
    ("whole call / lib/bch.c, field 11, split, degree 32", "solve", "bch", ["11.split.32"], 1.0),
    ("the same, lib/bch.c compiled for m = 11, t = 64 only", "solve", "bchfixed", ["11.split.32"], 1.0),
    ("whole call / FLINT, field 11, dense, degree 32", "solve", "flint", ["11.dense.32"], 0.2),
    ("plain search / Chien in C, field 11, the largest", "search", "chien", None, 1.5),
    ("whole call at cutoff 3 / at 2, field 11, split, degrees 8 to 64", "solve3", "solve", [f"11.split.{d}" for d in (8, 16, 32, 64)], 1.0),
]
GROWTH = [
    ("whole call, field 11, split, degree 64 / degree 32", "solve", "11.split.64", "11.split.32", 4.0),
    ("plain search, the same", "search", "11.split.64", "11.split.32", 1.6),
]


def words(name):
    m, kind, degree = name.split(".")
    kind = {"zero": "split with root 0", "double": "12 of 20 roots twice"}.get(kind, kind)
    return f"field {m}, {kind}, degree {degree}"


def in_order(figures):
    return list(dict.fromkeys(s for s, _ in figures))


def main_table(figures):
    head = ["input"] + [title for _, title in FINDERS] + [title for _, _, title in RATIOS]
    return table(head, [[words(s)] + [figure(figures.get((s, f))) for f, _ in FINDERS] + [short(ratio(figures, s, a, b)) for a, b, _ in RATIOS]
                        for s in in_order(figures)])


def cutoff_table(run, s):
    lines = []
    for name, finder in (("whole call, cutoff 1", "solve1"), ("whole call, cutoff 2", "solve"), ("whole call, cutoff 3", "solve3"),
                         ("lib/bch.c", "bch"), ("lib/bch.c compiled for m = 11, t = 64 only", "bchfixed")):
        line = [name]
        for measure in MEASURES:
            line += [figure(run[measure].get((s, finder))), short(ratio(run[measure], s, finder, "bch"))]
        lines.append(line)
    return table([words(s), "thousand instructions", "/ bch", "the same, no rep", "/ bch", "microseconds", "/ bch"], lines)


def cutoff_tables(run):
    return "\n\n".join(cutoff_table(run, s) for s in ("11.split.32", "11.split.64"))


def judged(found, most):
    found = [x for x in found if x is not None]
    return "not measured" if not found else f"{max(found):.2f} {'met' if max(found) <= most else 'NOT met'}"


def verdict(figures, one, other, sets, most):
    return judged([ratio(figures, s, one, other) for s in sets or [s for s in in_order(figures) if s.startswith("11.")]], most)


def growth(figures, finder, more, less, most):
    """A finder on one set over itself on another."""
    return judged([figures[more, finder] / figures[less, finder]] if (more, finder) in figures and (less, finder) in figures else [], most)


def target_table(run):
    lines = [[name, f"{most}"] + [verdict(run[measure], a, b, sets, most) for measure in MEASURES] for name, a, b, sets, most in TARGETS]
    lines += [[name, f"{most}"] + [growth(run[measure], f, more, less, most) for measure in MEASURES] for name, f, more, less, most in GROWTH]
    return table(["target", "at most", "instructions", "the same, no rep", "time"], lines)


def checks(run):
    title = dict(FINDERS, bchfixed="lib/bch.c for m = 11 only", solve1="whole call at cutoff 1", solve3="whole call at cutoff 3")
    wrong = [f"{title[f]} on {words(s)}: {right} of {all} lists right" for s, f, right, all in run["checks"] if right != all]
    pairs = {(s, f) for s, f, _, _ in run["checks"]}
    there = [(f, name) for f, name in FINDERS if any(f == other for _, other in pairs)]
    absent = [f"{name} does not serve {words(s)}" for f, name in there for s in in_order({(s, f): 0 for s, f, _, _ in run["checks"]}) if (s, f) not in pairs]
    lists = sum(all for _, f, _, all in run["checks"])
    said = f"{lists} lists were compared with a plain search by shift-and-add products; all are right but these:" if wrong else f"All {lists} lists are those of a plain search."
    return "\n".join([said] + [f"- {line}" for line in wrong + absent])


def sentences(run):
    """What the figures say, in instructions where they were counted."""
    figures, unit = (run["count"], "instructions") if run["count"] else (run["time"], "time")
    split, dense, small, most = "11.split.32", "11.dense.32", "4.split.8", "11.split.64"
    say = lambda s, one, other: short(ratio(figures, s, one, other))
    said = [f"- On 32 distinct roots in field 11 the whole call takes {say(split, 'solve', 'bch')} times the {unit} of lib/bch.c, which takes split polynomials",
            "  with distinct nonzero roots only; the whole call takes any polynomial, and finds first which part of it splits.",
            f"- On dense polynomials of degree 32 in field 11, where the lists of lib/bch.c are wrong, it takes {say(dense, 'solve', 'flint')} times FLINT's {unit};",
            f"  on 32 distinct roots {say(split, 'solve', 'flint')} times.",
            f"- On 64 distinct roots in field 11 it takes {say(most, 'solve', 'bch')} times lib/bch.c, and {say(most, 'solve', 'flint')} times FLINT.",
            f"- At degree 4 in field 11 it takes {say('11.split.4', 'solve', 'bch')} times lib/bch.c, which solves degrees up to 4 in closed form and copies no table.",
            f"- The plain search takes {say(split, 'search', 'chien')} times the Chien search at degree 32 in field 11, and {say(small, 'search', 'chien')} times at degree 8 in field 4."]
    if run["vector"]:
        spared = {f: run["count"][split, f] - run["vector"][split, f] for f in ("solve", "search", "bch", "flint", "chien") if (split, f) in run["vector"]}
        said.append("- Without rep the count at degree 32, split, falls by (thousands): " + ", ".join(f"{dict(FINDERS)[f]} {x:.1f}" for f, x in spared.items()) + ".")
    return "\n".join(said)


def whole_page(run):
    about = run["about"]
    counted = "Instructions were not counted in this run.\n"
    if run["count"]:
        counted = f"Thousand instructions a polynomial, counted by {about['counter']}:\n\n{main_table(run['count'])}\n"
    return f"""# Our calls beside lib/bch.c, FLINT and a Chien search

    bench/peers --docs

made this page and benchmark.svg on {about['date']}.

- Where: {about['where']}.
- C: {about['compiler']}. lib/bch.c: {about['bch']}. FLINT (fq_zech_poly_roots): {about['flint'] or 'not to be had'}.
- Everything is compiled for x86-64 and runs in one process, on the same 64 polynomials of each kind, drawn from a fixed seed. Split ones have as many
  distinct nonzero roots as their degree; dense ones have random coefficients.
- The whole call is at cutoff 2 where no other is named; the house default is 3. Peers hold their tables in memory; each of our calls copies its own.
- In steps: begin, step until done and finish, each a call, at cutoff 2; roots alone, without multiplicities.
- Resultants are the third way to the roots, which the block corrector takes (crate find_resultants): roots alone, where the two calls tell multiplicities too.

![instructions a polynomial, by field and degree](benchmark.svg)

{counted}
Microseconds a polynomial (finders by turns; for each 8 polynomials the least of at least 15 rounds):

{main_table(run['time'])}

{cutoff_tables(run)}

{target_table(run)}

{NO_REP}

## What it says

{sentences(run)}

## Right and wrong lists

{checks(run)}
"""


def main():
    directory, docs = page.words(__doc__)
    run = read(directory)
    if docs:
        put(f"{docs}/BENCHMARK.md", "", whole_page(run))
        draw(run, f"{docs}/benchmark.svg")
    about = run["about"]
    print(f"{about['where']}\n{about['date']}, commit {about['commit']}, C: {about['compiler']}, FLINT: {about['flint'] or 'not to be had'}, lib/bch.c: {about['bch']}\n")
    print(checks(run) + "\n")
    if run["count"]:
        print(f"thousand instructions a polynomial ({about['counter']})\n{main_table(run['count'])}\n")
    print(f"microseconds a polynomial\n{main_table(run['time'])}\n\n{cutoff_tables(run)}\n\n{target_table(run)}")
    if any(right != all for _, f, right, all in run["checks"] if f.startswith("solve") or f in ("stepped", "search", "resultants", "chien")):
        sys.exit("peers: a list of our own is wrong")


if __name__ == "__main__":
    main()
