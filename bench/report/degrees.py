#!/usr/bin/env python3
"""degrees.py DIR [DOCS]: prints the tables of the run of bench/peers --degrees whose files stand in DIR, and with DOCS writes them as a section of
DOCS/BENCHMARK.md and draws DOCS/degrees.svg. Fails where a list of ours is wrong."""
import sys

sys.dont_write_bytecode = True
from drawing import LOOKS, foot, legend, line, mark, power, save, scale, text
from page import DEGREES, NO_REP, figure, put, ratio, read, short, table, words

FINDERS = ("solve", "search", "bch", "bchfixed")
OURS, PEERS = FINDERS[:2], FINDERS[2:]
TOP, HEIGHT, LEFT, STEP, BETWEEN = 110, 330, 100, 8, 110
MOST = 64


def name(degree):
    return f"11.distinct.{degree}"


def degrees(run):
    return [d for d in range(1, MOST + 1) if any((name(d), f) in run["time"] for f in FINDERS)]


def over(figures, d):
    """Each of our calls over each build of lib/bch.c."""
    return [short(ratio(figures, name(d), ours, peer)) for ours in OURS for peer in PEERS]


def ratio_heads():
    return [f"{ours} / {peer}" for ours in ("whole", "search") for peer in ("bch", "constant")]


def count_table(run):
    head = ["degree", "whole call", "no rep", "plain search", "no rep", "lib/bch.c", "constant", *ratio_heads()]
    lines = []
    for d in degrees(run):
        own = [figure(run[measure].get((name(d), f))) for f in OURS for measure in ("count", "vector")]
        lines.append([str(d), *own, *(figure(run["count"].get((name(d), f))) for f in PEERS), *over(run["count"], d)])
    return table(head, lines)


def time_table(run):
    head = ["degree", "whole call", "plain search", "lib/bch.c", "constant", *ratio_heads()]
    return table(head, [[str(d), *(figure(run["time"].get((name(d), f))) for f in FINDERS), *over(run["time"], d)] for d in degrees(run)])


def from_degree(figures, run, ours, peer):
    """From which degree on our call takes no more than the peer, in words."""
    least = None
    for d in reversed(degrees(run)):
        found = ratio(figures, name(d), ours, peer)
        if found is None or found > 1:
            break
        least = d
    return "at no degree" if least is None else "at every degree" if least == 1 else f"from degree {least} on"


def sentences(run):
    """Where our calls take no more than lib/bch.c."""
    for measure, unit in (("count", "instructions"), ("time", "time")):
        if run[measure] and any(f in PEERS for _, f in run[measure]):
            said = lambda peer: ", ".join(f"the {LOOKS[ours][0]} {from_degree(run[measure], run, ours, peer)}" for ours in OURS)
            yield f"- No more {unit} than lib/bch.c: {said('bch')}; than lib/bch.c with constant parameters: {said('bchfixed')}."


def checks(run):
    wrong = [f"- {LOOKS[f][0]} at degree {s.split('.')[2]}: {right} of {all} lists right" for s, f, right, all in run["checks"] if right != all]
    lists = sum(all for _, _, _, all in run["checks"])
    return "\n".join([f"{lists:,} lists were compared with a plain search by shift-and-add products; {'all are right but these:' if wrong else 'all are right.'}", *wrong])


def section(run):
    about = run["about"]
    counted = f"Thousand instructions a polynomial, counted by {about['counter']}:\n\n{count_table(run)}\n\n{NO_REP}" if run["count"] else "Instructions were not counted."
    return f"""{DEGREES}

    bench/peers --degrees --docs

made this section and degrees.svg on {about['date']}, at commit {about['commit']}.

![instructions and time a polynomial, by degree](degrees.svg)

- Where: {about['where']}.
- C: {about['compiler']}. lib/bch.c: {about['bch']}, in its usual build, and compiled for m = 11, t = 64 alone (constant).
- Field 11; 64 polynomials of each degree, with as many distinct nonzero roots. The whole call is at cutoff 2; the house default is 3.
{chr(10).join(sentences(run))}

{counted}

Microseconds a polynomial (finders by turns; for each 8 polynomials the least of at least 15 rounds):

{time_table(run)}

{checks(run)}
"""


def panel(run, measure, left):
    """The curves of one measure; a log scale with the degree along it."""
    counted = measure == "count"
    figures = {key: x * (1000 if counted else 1) for key, x in run[measure].items() if key[1] in FINDERS and x > 0}
    low, high, at = scale(figures.values(), TOP, HEIGHT)
    wide, place = STEP * (MOST + 1), lambda d: left + STEP * d
    yield f'<rect x="{left}" y="{TOP}" width="{wide}" height="{HEIGHT}" fill="#fafafa" stroke="#bbb"/>'
    yield from (f'<path d="M{left} {at(10 ** k):.1f}h{wide}" stroke="#ddd"/>' for k in range(low + 1, high))
    yield from (text(left - 8, at(10 ** k) + 4, power(k, counted), "end", 12) for k in range(low, high + 1))
    yield from (text(place(d), TOP + HEIGHT + 20, str(d), size=12) for d in (1, *range(8, MOST + 1, 8)))
    yield text(left + wide / 2, TOP - 12, "x86-64 instructions" if counted else "microseconds")
    yield text(left + wide / 2, TOP + HEIGHT + 42, "degree of the polynomial")
    for finder in FINDERS:
        _, colour, shape, dash = LOOKS[finder]
        points = [(place(d), at(figures[name(d), finder])) for d in range(1, MOST + 1) if (name(d), finder) in figures]
        if points:
            yield line(points, colour, dash)
        yield from (mark(shape, x, y, colour, 3) for x, y in points)


def draw(run, path):
    measures = [measure for measure in ("count", "time") if run[measure]]
    out, left = [], LEFT
    for measure in measures:
        out += panel(run, measure, left)
        left += STEP * (MOST + 1) + BETWEEN
    wide = max(left - BETWEEN + 24, 760)
    head = text(LEFT, 24, "Finding the roots of one polynomial with distinct roots in field 11, by degree, log scale", "start", 16)
    save(path, wide, TOP + HEIGHT + 80, [head, *legend(FINDERS, LEFT, 54), *out, foot(run["about"], LEFT, TOP + HEIGHT + 66)])


def main():
    directory, docs = words(__doc__)
    run = read(directory)
    print(section(run), end="")
    if docs:
        put(f"{docs}/BENCHMARK.md", DEGREES, section(run))
        draw(run, f"{docs}/degrees.svg")
    if any(right != all for _, f, right, all in run["checks"] if f in OURS):
        sys.exit("degrees: a list of our own is wrong")


if __name__ == "__main__":
    main()
