#!/usr/bin/env python3
"""splitting.py: draws the runs of tools/c/splitting.c that stand on standard input, each as a tree. A row is a level and a box a group of
roots; under a box that a step splits stands the step's number, and on each edge the trace bit that the roots below it share. Roots come from
the linear factors of the last table (cutoff 1), and the tree from each table beside the next. The trace bits are computed here, as a check."""
import sys

sys.dont_write_bytecode = True
from repository import command

FIELDS = {4: 19, 8: 285, 11: 2053}
ROW, BOX, CHAR, GAP, LEFT = 96, 26, 7.7, 18, 112


class Group:
    def __init__(self, level, coefficients):
        self.level, self.coefficients, self.children, self.step, self.bit, self.x = level, coefficients, [], None, None, 0

    def roots(self):
        return sorted(r for child in self.children for r in child.roots()) if self.children else [self.coefficients[0]]

    def label(self):
        return " ".join(str(r) for r in self.roots())

    def width(self):
        own = len(self.label()) * CHAR + 16 + GAP
        return max(own, sum(child.width() for child in self.children))


def product(m, a, b):
    r = 0
    for i in range(m):
        r ^= (a << i) * (b >> i & 1)
    for i in range(2 * m, m - 1, -1):
        r ^= (FIELDS[m] << i - m) * (r >> i & 1)
    return r


def trace(m, x):
    t = 0
    for _ in range(m):
        t, x = t ^ x, product(m, x, x)
    return t


def factors(table):
    found, at = [], 4
    for _ in range(table[2]):
        level, degree = table[at], table[at + 1]
        found.append((level, table[at + 2:at + 2 + degree]))
        at += 2 + degree
    return found, at


def tree(m, cutoff, tables):
    """The whole group, with each step's groups below the one that it split."""
    groups = [Group(*f) for f in factors(tables[0])[0]]
    top = groups[0]
    for number, table in enumerate(tables[1:], 1):
        after = factors(table)[0]
        k = next(i for i, g in enumerate(groups) if len(g.coefficients) > cutoff)
        parts = [Group(*f) for f in after[k:k + 1 + len(after) - len(groups)]]
        groups[k].children, groups[k].step = parts, number
        groups[k:k + 1] = parts
        assert [(g.level, g.coefficients) for g in groups] == after and table[3] == number
    return top


def set_bits(m, group):
    for child in group.children:
        bits = {trace(m, product(m, 1 << group.level, r)) for r in child.roots()}
        assert len(bits) == 1
        child.bit = bits.pop()
        set_bits(m, child)
    assert [c.bit for c in group.children] in ([0, 1], [0], [1], [])


def place(group, left):
    wide = group.width()
    at = left + (wide - sum(c.width() for c in group.children)) / 2
    for child in group.children:
        place(child, at)
        at += child.width()
    group.x = sum(c.x for c in group.children) / len(group.children) if group.children else left + wide / 2


def text(x, y, words, size=13, anchor="middle", colour="#222", more=""):
    return f'<text x="{x:.1f}" y="{y:.1f}" font-size="{size}" text-anchor="{anchor}" fill="{colour}"{more}>{words}</text>'


def draw_group(group, top, out):
    y = top + group.level * ROW
    wide = len(group.label()) * CHAR + 16
    for child in group.children:
        below = top + child.level * ROW
        start = y + BOX + 20
        out.append(f'<path d="M{group.x:.1f} {start}L{child.x:.1f} {below}" stroke="#888" stroke-width="1.4"/>')
        mx, my = (group.x + child.x) / 2, (start + below) / 2
        out.append(f'<rect x="{mx - 7:.1f}" y="{my - 8:.1f}" width="14" height="16" fill="white"/>' + text(mx, my + 4.5, child.bit, 12, colour="#0b5fa5"))
        draw_group(child, top, out)
    fill = "#e8f1fa" if group.children else "#e6f4ea"
    out.append(f'<rect x="{group.x - wide / 2:.1f}" y="{y}" width="{wide:.1f}" height="{BOX}" rx="5" fill="{fill}" stroke="#555"/>')
    out.append(text(group.x, y + 18, group.label()))
    if group.step:
        out.append(f'<circle cx="{group.x:.1f}" cy="{y + BOX + 10}" r="10" fill="#fff3d6" stroke="#b8860b"/>' + text(group.x, y + BOX + 14.3, group.step, 11))


def polynomial(coefficients):
    terms = []
    for i in range(len(coefficients) - 1, -1, -1):
        c, power = coefficients[i], "" if i == 0 else "z" if i == 1 else f'z<tspan dy="-5" font-size="70%">{i}</tspan><tspan dy="5">&#8203;</tspan>'
        if c:
            terms.append((str(c) if c > 1 or i == 0 else "") + power)
    return " + ".join(terms)


def deepest(group):
    return max([group.level] + [deepest(c) for c in group.children])


def used(table):
    found, _ = factors(table)
    parts = [table[:4]] + [[level, len(low)] + low for level, low in found]
    return "&#160;&#160; ".join(",".join(str(x) for x in part) for part in parts)


def draw_run(m, cutoff, coefficients, tables, roots, top, out):
    """One tree under its title; gives back how far right and down it goes. The tables stand beside it where there are few."""
    whole = tree(m, cutoff, tables)
    assert whole.roots() == roots
    set_bits(m, whole)
    place(whole, LEFT)
    steps = len(tables) - 1
    out.append(text(24, top, f"{polynomial(coefficients)} in field {m}, cutoff {cutoff}: {len(roots)} roots, {steps} steps", 16, "start"))
    top += 26
    last = deepest(whole)
    for level in range(last + 1):
        out.append(text(24, top + level * ROW + 18, f"level {level}", 12, "start", "#666"))
        if level < last:
            factor = "" if level == 0 else str(1 << level)
            out.append(text(24, top + level * ROW + BOX + 10 + ROW / 2 - 13, f"Tr({factor}z) is", 12, "start", "#0b5fa5"))
    draw_group(whole, top, out)
    right, down = LEFT + whole.width(), top + last * ROW + BOX
    if steps <= 6:
        at = right + 60
        out.append(text(at, top + 18, "The work table: m, cutoff, factors, steps;", 12, "start", "#666"))
        out.append(text(at, top + 36, "each factor: level, degree, coefficients below the leading 1.", 12, "start", "#666"))
        for number, table in enumerate(tables):
            name = "begin" if number == 0 else f"step {number}"
            y = top + 68 + 26 * number
            out.append(text(at, y, name, 12, "start", "#666") + text(at + 56, y, used(table), 13, "start"))
        right = at + 400
    return right, down


def read(lines):
    runs = []
    for line in lines:
        name, *numbers = line.split()
        numbers = [int(x) for x in numbers]
        if name == "polynomial":
            runs.append([numbers[0], numbers[1], numbers[2:], [], None])
        elif name == "table":
            runs[-1][3].append(numbers)
        else:
            runs[-1][4] = numbers
    return runs


def main():
    args = command(__doc__, "0 drawn; 1 the tables are no splitting")
    args.add_argument("picture", metavar="PICTURE", help="the file to write; tools/picture writes docs/splitting.svg")
    opt = args.parse_args()
    out, top, wide = [], 34, 0
    for run in read(sys.stdin):
        right, down = draw_run(*run, top, out)
        wide, top = max(wide, right), down + 64
    legend = ["A blue box is a group that a step splits, the step's number below it; a green one has no more roots than the cutoff.",
              "The number on an edge is the trace bit that the roots below it share: 0 stands left of 1. Groups stand in the order of",
              "their trace bits, which is not that of their numbers; finish sorts. Drawn by tools/picture from the tables of begin and step."]
    out += [text(24, top - 20 + 18 * i, line, 12, "start", "#666") for i, line in enumerate(legend)]
    wide, high = round(wide + 24), top + 34
    with open(opt.picture, "w") as file:
        file.write(f'<svg xmlns="http://www.w3.org/2000/svg" width="{wide}" height="{high}" viewBox="0 0 {wide} {high}" font-family="DejaVu Sans, Helvetica, Arial, sans-serif">\n'
                   f'<rect width="{wide}" height="{high}" fill="white"/>\n' + "\n".join(out) + "\n</svg>\n")


main()
