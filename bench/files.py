#!/usr/bin/env python3
"""files FOLDER: writes the full inputs of the programs, 65,536 bytes at most each, into a folder: the same bytes at every run. bench/jobs times the programs on them,
bench/programs counts their instructions."""
import functools
import pathlib
import random
import sys

sys.dont_write_bytecode = True
sys.path[:0] = [str(pathlib.Path(__file__).resolve().parent.parent / folder) for folder in ("tests/second", "tools")]
import records
import reference
import repository

ROOM = 65536


def drawn(degree):
    """So many roots in field 11 for each of as many records as fit, drawn at random."""
    rng = random.Random(1)
    return [sorted(rng.sample(range(2048), degree)) for _ in range(ROOM // (7 + 2 * degree))]


def of_degree(degree):
    """Records of a degree in field 11 with as many roots each, at cutoff 3, the house default."""
    return b"".join(records.record(11, 3, reference.from_roots(11, roots)) for roots in drawn(degree))


def shortest():
    """Records with no coefficient, refused under 2."""
    return records.record(4, 0, []) * (ROOM // 5)


def marks():
    """Two marks in every five bytes, and no record: behind each first one the most coefficients that are looked at."""
    return (2 * reference.MARK + bytes([reference.MOST_COEFFICIENTS])) * (ROOM // 5)


def list_of(degree):
    """Lines of so many roots in field 11, as many as fit."""
    text = b""
    for roots in drawn(degree):
        line = f"11 3 {' '.join(map(str, roots))}\n".encode()
        if len(text) + len(line) > ROOM:
            break
        text += line
    return text


FILES = {"empty": lambda: b"", "shortest": shortest, "marks": marks}
FILES |= {f"degree-{d}": functools.partial(of_degree, d) for d in (32, 64)} | {f"list-{d}": functools.partial(list_of, d) for d in (32, 64)}

if __name__ == "__main__":
    args = repository.command(__doc__, "0 written")
    args.add_argument("folder", type=pathlib.Path, metavar="FOLDER", help="where they are written; it is there")
    folder = args.parse_args().folder
    for name, made in FILES.items():
        (folder / name).write_bytes(made())
