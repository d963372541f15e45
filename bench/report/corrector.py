#!/usr/bin/env python3
"""corrector.py DIR [DOCS]: prints the tables of the run of bench/corrector whose files stand in DIR, as a section in
Markdown, and with DOCS puts it in place of that section of DOCS/BENCHMARK.md. Fails where an answer of ours is wrong."""
import sys

sys.dont_write_bytecode = True
from page import CORRECTOR, NO_REP, figure, put, rows, short, table, words

NAMES = {"ours": "ours", "const": "lib/bch.c, constant", "usual": "lib/bch.c, usual"}


def build(who):
    """ours, const or usual."""
    return who.split("_")[1] if "_" in who else who


def read(directory):
    """The run: about, and by (strength, errors, build) right answers, claims, and for each measure thousands."""
    keyed = lambda name: {(int(t), int(e), build(who)): [int(n) for n in told]
                          for t, e, who, *told in rows(directory, name)}
    thousands = lambda name: {key: told[0] / 1000 for key, told in keyed(name).items()}
    return {
        "about": dict(rows(directory, "about")),
        "checks": keyed("checks"),
        "beyond": keyed("beyond"),
        "time": thousands("times"),
        "count": thousands("counts"),
        "vector": thousands("counts-vector"),
    }


def in_words(t, errors):
    """The number of errors, and what becomes of the word where they are too many."""
    if errors <= t:
        return str(errors)
    return f"{errors}, another codeword" if t == 1 else f"{errors}, turned away"


def measured(figures, t, errors):
    """Ours, constant, usual, and ours over each of these."""
    ours, const, usual = (figures.get((t, errors, who)) for who in NAMES)
    over = lambda other: ours / other if ours is not None and other else None
    return [figure(ours), figure(const), figure(usual), short(over(const)), short(over(usual))]


def speed_table(run):
    """Instructions and times of each set."""
    columns = ["constant", "usual", "ours / constant", "ours / usual"]
    head = ["strength", "errors", "instructions: ours", "no rep", *columns, "time: ours", *columns]
    lines = []
    for t, errors in dict.fromkeys((t, e) for t, e, _ in run["time"]):
        ours, *others = measured(run["count"], t, errors)
        counts = [ours, figure(run["vector"].get((t, errors, "ours"))), *others]
        lines.append([str(t), in_words(t, errors), *counts, *measured(run["time"], t, errors)])
    return table(head, lines)


def claims(run, t, who):
    """How many words beyond strength t there were, were called corrected, and are no codeword for all that."""
    told = [numbers for (strength, _, one), numbers in run["beyond"].items() if (strength, one) == (t, who)]
    return [sum(column) for column in zip(*told)]


def claims_table(run):
    """The claims of each strength."""
    said = ["called corrected", "no codeword"]
    head = ["strength", "errors", "words", f"lib/bch.c: {said[0]}", said[1], f"ours: {said[0]}", said[1]]
    lines = []
    for t in dict.fromkeys(t for t, _, _ in run["beyond"]):
        errors = [e for strength, e, _ in run["beyond"] if strength == t]
        numbers = claims(run, t, "usual") + claims(run, t, "ours")[1:]
        lines.append([str(t), f"{min(errors)} to {max(errors)}", *(f"{n:,}" for n in numbers)])
    return table(head, lines)


def builds_agree(run):
    """Whether the two builds of lib/bch.c claim the same."""
    usual = {(t, e): told for (t, e, who), told in run["beyond"].items() if who == "usual"}
    differ = sum(run["beyond"][t, e, "const"] != told for (t, e), told in usual.items())
    return "claim the same" if differ == 0 else f"differ in {differ} rows, and this is the usual one"


def wrong_answers(run):
    """The sets on which some answers are wrong."""
    answers = sum(all for _, all in run["checks"].values())
    wrong = [f"- {NAMES[who]}, strength {t}, errors {in_words(t, e)}: {right} of {all} right"
             for (t, e, who), (right, all) in run["checks"].items() if right != all]
    if not wrong:
        return f"All {answers:,} answers are right by the definition."
    return "\n".join([f"{answers:,} answers were judged by the definition; all are right but these:", *wrong])


def conditions(run):
    """Where and how it was measured."""
    about = run["about"]
    counted = f"Instructions are counted by {about['counter']}" if run["count"] else "Instructions were not counted"
    return f"""    bench/corrector --docs

made this section on {about['date']}.

- Where: {about['where']}.
- C: {about['compiler']}.
- lib/bch.c: {about['bch']}, in its usual build, and in one for m = 11 and one strength alone (constant).
- n = 2047. All correctors get the same 64 words of each kind, drawn from a fixed seed. lib/bch.c takes whole bytes of
  data, so that 2043, 2046, 2044 and 2040 bits are in use at strengths 1, 2, 4 and 8. It names the places and its user
  flips the bits, which is counted. It holds its tables in memory; each call of ours builds its own.
- {counted}. Times are the least of at least 15 rounds, by turns.
- Where a word has one error more than the strength, it is one that no codeword is near enough to; at strength 1 every
  word is within a bit of a codeword."""


def section(run):
    """The section, in Markdown."""
    return f"""{CORRECTOR}

{conditions(run)}

Thousand instructions and microseconds a word:

{speed_table(run)}

{NO_REP}

{wrong_answers(run)}

Words with more errors than the strength: how many each calls corrected, and how many of these are no codeword, or not
at the distance told. Where another codeword is within the strength, to call the word corrected is right. lib/bch.c
turns away, as it should, what would need a bit that is not in use. Its two builds {builds_agree(run)}.

{claims_table(run)}
"""


def main():
    """Prints the section, and writes it where a page is named."""
    directory, docs = words(__doc__)
    run = read(directory)
    print(section(run), end="")
    if docs:
        put(f"{docs}/BENCHMARK.md", CORRECTOR, section(run))
    if any(right != all for (_, _, who), (right, all) in run["checks"].items() if who == "ours"):
        sys.exit("corrector: an answer of our own is wrong")
    if any(untrue for (_, _, who), (_, _, untrue) in run["beyond"].items() if who == "ours"):
        sys.exit("corrector: a correction of our own is no codeword")


if __name__ == "__main__":
    main()
