"""What the drawings of bench/ share: the look of each finder, text and marks in SVG, and a log scale."""
import math

LOOKS = {
    "solve": ("whole call", "#0b5fa5", "circle", ""),
    "search": ("plain search", "#2a9d4e", "square", ""),
    "bch": ("lib/bch.c", "#c0392b", "triangle", "6 3"),
    "bchfixed": ("lib/bch.c, constant parameters", "#e08a7d", "triangle", "2 3"),
    "flint": ("FLINT", "#7d3c98", "diamond", "6 3"),
    "chien": ("Chien search in C", "#d07a00", "cross", "6 3"),
}


def mark(shape, x, y, colour, r=5):
    if shape == "circle":
        return f'<circle cx="{x:.1f}" cy="{y:.1f}" r="{r}" fill="{colour}"/>'
    if shape == "cross":
        return f'<path d="M{x - r:.1f} {y - r:.1f}l{2 * r} {2 * r}m{-2 * r} 0l{2 * r} {-2 * r}" stroke="{colour}" stroke-width="2.4"/>'
    path = {"square": f"M{x - r:.1f} {y - r:.1f}h{2 * r}v{2 * r}h{-2 * r}z", "triangle": f"M{x:.1f} {y - r - 1:.1f}l{r + 1} {2 * r}h{-2 * r - 2}z",
            "diamond": f"M{x:.1f} {y - r - 2:.1f}l{r + 1} {r + 2}l{-r - 1} {r + 2}l{-r - 1} {-r - 2}z"}[shape]
    return f'<path d="{path}" fill="{colour}"/>'


def text(x, y, words, anchor="middle", size=13, colour="#222"):
    return f'<text x="{x:.1f}" y="{y:.1f}" text-anchor="{anchor}" font-size="{size}" fill="{colour}">{words}</text>'


def line(points, colour, dash):
    path = "L".join(f"{x:.1f} {y:.1f}" for x, y in points)
    return f'<path d="M{path}" fill="none" stroke="{colour}" stroke-width="2" stroke-dasharray="{dash or "none"}"/>'


def power(k, counted):
    """A power of ten as the scale has it: instructions, or microseconds."""
    if not counted:
        return f"{10 ** k:g} us"
    return {1: "10", 2: "100", 3: "1 thousand", 4: "10 thousand", 5: "100 thousand", 6: "1 million", 7: "10 million"}.get(k, f"10^{k}")


def scale(values, top, height):
    """The powers of ten that hold the values, and the place of a value between them."""
    low, high = math.floor(math.log10(min(values))), math.ceil(math.log10(max(values)))
    return low, high, lambda v: top + height * (high - math.log10(v)) / (high - low)


def legend(finders, left, y):
    """The look and name of each finder, side by side."""
    for finder in finders:
        name, colour, shape, dash = LOOKS[finder]
        yield f'<path d="M{left} {y}h34" stroke="{colour}" stroke-width="2" stroke-dasharray="{dash or "none"}"/>' + mark(shape, left + 17, y, colour)
        yield text(left + 42, y + 4, name, "start")
        left += 74 + 7 * len(name)


def foot(about, left, y):
    return text(left, y, f"{about['date']}, {about['where'].split(': of')[0]}; made by bench/peers", "start", 11, "#666")


def save(path, wide, high, parts):
    with open(path, "w") as file:
        file.write(f'<svg xmlns="http://www.w3.org/2000/svg" width="{wide}" height="{high}" viewBox="0 0 {wide} {high}" font-family="DejaVu Sans, Helvetica, Arial, sans-serif">\n'
                   f'<rect width="{wide}" height="{high}" fill="white"/>\n' + "\n".join(parts) + "\n</svg>\n")
