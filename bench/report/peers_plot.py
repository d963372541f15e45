"""Draws a run of bench/peers: instructions (or microseconds, where none were counted) a polynomial on a log scale, a panel for each field and kind of input,
the degree along each panel, a colour and a mark for each finder."""
from drawing import LOOKS, foot, legend, line, mark, power, save, scale, text

FINDERS = ("solve", "search", "bch", "flint", "chien")
TOP, HEIGHT, LEFT, STEP, EDGE, BETWEEN = 96, 330, 108, 74, 30, 14


def panels(figures):
    """The degrees of each field and kind."""
    found = {}
    for s, _ in figures:
        m, kind, degree = s.split(".")
        place = found.setdefault((m, kind), [])
        if int(degree) not in place:
            place.append(int(degree))
    return {key: sorted(degrees) for key, degrees in found.items()}


def curves(m, kind, places, figures, at):
    """Each finder's marks in a panel, with a line through them."""
    for i, finder in enumerate(FINDERS):
        _, colour, shape, dash = LOOKS[finder]
        aside = 0 if len(places) > 1 else 9 * (i - 2)  # where no line tells them apart, marks stand side by side
        points = [(x + aside, at(figures[f"{m}.{kind}.{d}", finder])) for d, x in places.items() if (f"{m}.{kind}.{d}", finder) in figures]
        if len(points) > 1:
            yield line(points, colour, dash)
        yield from (mark(shape, x, y, colour) for x, y in points)


def panel(m, kind, degrees, figures, x, wide, lows, at):
    first = x + (wide - STEP * (len(degrees) - 1)) / 2
    places = {d: first + STEP * i for i, d in enumerate(degrees)}
    yield f'<rect x="{x}" y="{TOP}" width="{wide}" height="{HEIGHT}" fill="#fafafa" stroke="#bbb"/>'
    yield from (f'<path d="M{x} {at(10 ** k):.1f}h{wide}" stroke="#ddd"/>' for k in lows)
    yield text(x + wide / 2, TOP - 10, f"field {m}, {kind}", size=12)
    yield from (text(p, TOP + HEIGHT + 20, str(d)) for d, p in places.items())
    yield from curves(m, kind, places, figures, at)


def draw(run, path):
    counted = bool(run["count"])
    figures = {key: x * 1000 for key, x in run["count"].items()} if counted else run["time"]
    figures = {(s, f): x for (s, f), x in figures.items() if f in FINDERS and x > 0}
    low, high, at = scale(figures.values(), TOP, HEIGHT)
    out, x = [text(LEFT - 8, at(10 ** k) + 4, power(k, counted), "end", 12) for k in range(low, high + 1)], LEFT
    for (m, kind), degrees in panels(figures).items():
        wide = max(2 * EDGE + STEP * (len(degrees) - 1), 84)
        out += panel(m, kind, degrees, figures, x, wide, range(low + 1, high), at)
        x += wide + BETWEEN
    wide = x - BETWEEN + 24
    out.append(text((LEFT + wide - 24) / 2, TOP + HEIGHT + 42, "degree of the polynomial"))
    head = text(LEFT, 24, f"Finding the roots of one polynomial: {'x86-64 instructions' if counted else 'microseconds'}, log scale", "start", 16)
    met = [f for f in FINDERS if any(f == other for _, other in figures)]
    save(path, wide, TOP + HEIGHT + 80, [head, *legend(met, LEFT, 50), *out, foot(run["about"], LEFT, TOP + HEIGHT + 66)])
