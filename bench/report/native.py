#!/usr/bin/env python3
"""native.py PART DIR [DOCS]: prints the times of the run of bench/PART --native (peers, affine or corrector) whose files stand in DIR, and with DOCS writes them as a
section of DOCS/BENCHMARK.md. Fails where an answer of ours is wrong."""
import sys

sys.dont_write_bytecode = True
import affine
import corrector
import peers
from page import NATIVE, figure, put, ratio, read, short, table, words

FINDERS = {"solve": "whole call", "stepped": "in steps", "search": "plain search", "resultants": "resultants", "bch": "lib/bch.c", "bchfixed": "constant", "flint": "FLINT", "chien": "Chien in C"}
OURS = ("solve", "stepped", "search", "resultants", "ours")


def peers_table(run):
    """Every set by every finder; lib/bch.c gives wrong lists where not all roots are distinct and nonzero."""
    there = [f for f in FINDERS if any(f == g for _, g in run["time"])]
    wrong = {(s, f) for s, f, right, all in run["checks"] if right != all}
    lines = []
    for s in dict.fromkeys(s for s, _ in run["time"]):
        cells = ["wrong lists" if (s, f) in wrong else figure(run["time"].get((s, f))) for f in there]
        lines.append([peers.words(s), *cells, short(ratio(run["time"], s, "solve", "bch"))])
    return table(["input", *(FINDERS[f] for f in there), "whole / bch"], lines)


def affine_table(run):
    head = ["field", "dimension", "roots", *affine.WAYS.values(), "ours / every", "ours / elimination"]
    return table(head, [[*affine.numbers(s), *affine.measured(run["time"], s)] for s in affine.in_order(run)])


def corrector_table(run):
    head = ["strength", "errors", "ours", "constant", "usual", "ours / constant", "ours / usual"]
    return table(head, [[str(t), corrector.in_words(t, e), *corrector.measured(run["time"], t, e)] for t, e in dict.fromkeys((t, e) for t, e, _ in run["time"])])


def judged(run):
    """How many answers were judged, and whether one of ours is wrong: checks are by set and finder, or by strength, errors and build."""
    checks = [(key[-1], *told) for key, told in run["checks"].items()] if isinstance(run["checks"], dict) else [(f, right, all) for _, f, right, all in run["checks"]]
    return sum(all for _, _, all in checks), any(right != all for who, right, all in checks if who in OURS)


PARTS = {"peers": (read, peers_table, "a polynomial"), "affine": (read, affine_table, "a polynomial"), "corrector": (corrector.read, corrector_table, "a word")}


def section(part, run):
    about, (_, times, each) = run["about"], PARTS[part]
    beside = "" if part == "affine" else f"\n- lib/bch.c: {about['bch']}, in its usual build, and compiled for one set of parameters alone (constant)."
    beside += f"\n- FLINT: {about['flint'] or 'left out'}." if part == "peers" else ""
    return f"""{NATIVE[part]}

    bench/{part} --native --docs

made this section on {about['date']}. Microseconds {each}, the mean of 64; everything is compiled for this machine and runs on it, our library from the module
that the toolchain makes of the proved code (tools/library). {judged(run)[0]:,} answers were judged, as in the section on x86-64.

- Where: {about['where']}.
- C: {about['compiler']}.{beside}

{times(run)}
"""


def main():
    part, directory, docs = words(__doc__, "part")
    run = PARTS[part][0](directory)
    print(section(part, run))
    if judged(run)[1]:
        sys.exit(f"native: an answer of our own in bench/{part} is wrong")
    if docs:
        put(f"{docs}/BENCHMARK.md", NATIVE[part], section(part, run))


main()
