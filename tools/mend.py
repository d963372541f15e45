#!/usr/bin/env python3
"""Mends Answers.antt by what the check says: a field that has another name now.

usage: tools/mend.py CRATE [TURNS]     at the top of the repository
"""
import collections
import re
import subprocess
import sys

NEAREST = re.compile(r"^\./(proofs/\S+\.antt):(\d+):(\d+): error: .*?has no field `([^`]+)` \(nearest: \.([^) ,]+)[^)]*\)")
ONLY = re.compile(r"^\./(proofs/\S+\.antt):(\d+):(\d+): error: .*?has no field `(\d+)` — the fields? that can be named here (?:are|is) (`.+`)$")


def check(crate):
    r = subprocess.run(["rt", "check"], cwd="crates/" + crate, capture_output=True, text=True)
    return r.stdout + r.stderr


def main():
    crate, turns = sys.argv[1], int(sys.argv[2]) if len(sys.argv) > 2 else 6
    for _ in range(turns):
        said = check(crate)
        todo = collections.defaultdict(list)
        for line in said.split("\n"):
            m = NEAREST.match(line) or ONLY.match(line)
            if m:
                new = m.group(5)
                if new.startswith("`"):
                    fields = re.findall(r"`([^`]+)`", new)
                    if int(m.group(4)) < len(fields):
                        new = fields[int(m.group(4))]
                    elif m.group(4) == "1" and len(fields) == 1:
                        new = fields[0]
                    else:
                        continue
                todo[m.group(1)].append((int(m.group(2)), int(m.group(3)), m.group(4), new))
        if not todo:
            break
        for path, places in todo.items():
            full = "crates/%s/%s" % (crate, path)
            with open(full, encoding="utf-8") as f:
                lines = f.read().split("\n")
            for row, col, old, new in places:
                line = lines[row - 1]
                if old == "1" and re.search(r"\.(auto|new)(\.1)+\.0", line[:col + 40]):
                    lines[row - 1] = re.sub(r"\.(auto|new)(\.1)+\.0", r".\1." + new, line)
                    continue
                pattern = r"\.%s(?![\w'₀-₉-])" % re.escape(old)
                lines[row - 1] = re.sub(pattern, "." + new, line)
            with open(full, "w", encoding="utf-8") as f:
                f.write("\n".join(lines))
    print(said)


main()
