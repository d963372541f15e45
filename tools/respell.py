#!/usr/bin/env python3
"""Brings the repository's own definitions and lemmas to today's spelling: words in snake case.

usage: tools/respell.py [--list]     at the top of the repository, once, after the kit's port/port.py

port.py respells the words of the library and some of the repository's own. This script does the rest: each word of specs/, proofs/ and
of the contracts in src/ that has a capital behind a small letter (`rootsOf-exactly`) is written in snake case (`roots_of-exactly`), in
the crates, in the edits (must-fail/ and tests/edits), in docs/ and README.md, and in the scripts of tools/ and tests/ that write or cite
such words. A hyphen still stands between what a law is about and what it says of it, as in the library. Functions of src/, exported C
names, strings, inputs and outputs keep their names. It stops where two words would fall together. With --list it prints the words, old and new, and changes nothing.
"""
import glob
import os
import re
import sys

WORD = re.compile(r"[A-Za-z_][\w'₀-₉]*(?:-[\w'₀-₉?]+)*\??")
HUMP = re.compile(r"(?:^|[-_])[a-z]+[0-9]*[A-Z]")
# words of the tools around the crates that look alike
KEPT = {"x4C"}
# words of the library that stand inside names of laws
LIBRARY = {"getD": "get_or"}
# a word whose snake case is a word of the library
OTHER = {"splitAt": "split_entries"}
# laws that would fall together with a definition of the same words: the files where the law stands or is cited, its name, the new one
LAWS = [
    ("crates/algebra/proofs/*.antt", "quotient_by", "quotient_by-divides"),
    ("crates/algebra/proofs/*.antt", "plus_times", "plus-times"),
    ("crates/claim_rules/proofs/*.antt", "plus_times", "plus-times"),
    ("crates/corrector_code/proofs/*.antt", "plus_times", "plus-times"),
    ("crates/job_writer/proofs/Reading.antt", "read_back", "read_back-is"),
    ("crates/demands/proofs/Writer.antt", "read_back", "read_back-is"),
    ("crates/table_rules/proofs/*.antt", "first_above", "first_above-is"),
    ("crates/job_sheet/proofs/AddUp.antt", "in_field", "in_field-known"),
]


def snake(word):
    for old, new in OTHER.items():
        word = re.sub(r"(?<![A-Za-z])%s(?![A-Za-z])" % old, new, word)
    for old, new in LIBRARY.items():
        word = re.sub(r"(?:(?<=^)|(?<=[-_]))%s(?![A-Za-z])" % old, new, word)
    parts = re.split(r"([-_])", word)
    return "".join(re.sub(r"(?<=[a-z0-9])([A-Z])", lambda m: "_" + m.group(1).lower(), p) if re.match(r"[a-z]", p) else p for p in parts)


def files(patterns):
    found = []
    for pattern in patterns:
        found += [p for p in glob.glob(pattern, recursive=True) if os.path.isfile(p) and "/out/" not in p]
    return sorted(set(found))


def text(path):
    with open(path, encoding="utf-8") as f:
        return f.read()


def words():
    """The words to respell, old to new, and those that would fall together with a word that stands."""
    seen = {}
    for path in files(["crates/*/specs/**/*.antt", "crates/*/proofs/**/*.antt", "crates/*/src/**/*.rt"]):
        for word in set(WORD.findall(text(path))):
            seen.setdefault(word, set()).add(path)
    turned = {w: snake(w) for w in seen if HUMP.search(w) and w not in KEPT}
    clashes = []
    for old, new in sorted(turned.items()):
        both = seen[old] & seen.get(new, set())
        if both:
            clashes.append((old, new, sorted(both)))
    return turned, clashes


def part_laws():
    """The laws of LAWS get their new names."""
    for pattern, old, new in LAWS:
        for path in files([pattern]):
            before = text(path)
            after = WORD.sub(lambda m: new if m.group(0) == old else m.group(0), before)
            if after != before:
                with open(path, "w", encoding="utf-8") as f:
                    f.write(after)


def main():
    if "--list" not in sys.argv[1:]:
        part_laws()
    turned, clashes = words()
    if "--list" in sys.argv[1:]:
        for old, new in sorted(turned.items()):
            print(old, new)
        for old, new, both in clashes:
            print("together:", old, new, *both)
        return
    paths = files(["crates/*/specs/**/*.antt", "crates/*/proofs/**/*.antt", "crates/*/src/**/*.rt", "crates/*/must-fail/*", "tests/edits/**/*.edit",
                   "docs/**/*.md", "README.md", "CONTRIBUTING.md"])
    changed = 0
    for path in paths:
        old = text(path)
        new = WORD.sub(lambda m: turned.get(m.group(0), m.group(0)), old)
        if new != old:
            with open(path, "w", encoding="utf-8") as f:
                f.write(new)
            changed += 1
    print("respell: %d words, %d files" % (len(turned), changed))


main()
