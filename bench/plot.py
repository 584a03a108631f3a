"""Prints the plot of cost against size as SVG: plot.py COUNTS."""
import sys

from counts import cost, load

WIDE, HIGH, LEFT, TOP, GAP = 240, 220, 60, 50, 80
BOTTOM = TOP + HIGH
COLOURS = ["#1b6ca8", "#c8553d", "#6a994e"]
READERS = [("read", "chz_read"), ("unpack", "msgpack-c unpack"), ("check", "msgpuck mp_check")]
PANELS = [
    ("reading ulData", "bytes of user data", "ulData", READERS),
    ("reading ping with unknown pairs", "unknown pairs", "pairs", READERS),
    ("crediting, meter in the last row", "rows", "rows", [("uplink", "chz_uplink")]),
]


def points(counts, what, name):
    sizes = sorted(size for w, n, size, kind in counts if (w, n, kind) == (what, name, "full"))
    return [(size, cost(counts, what, name, size)) for size in sizes]


def step(most):
    """A round distance between marks: three to seven of them."""
    unit = 1
    while True:
        for factor in (1, 2, 5):
            if most / (unit * factor) <= 6:
                return unit * factor
        unit *= 10


def text(x, y, words, anchor="middle", extra=""):
    return f'<text x="{x:.1f}" y="{y:.1f}" text-anchor="{anchor}" {extra}>{words}</text>'


def axes(x0, title, unit, most_x, most_y):
    parts = [text(x0 + WIDE / 2, TOP - 22, title, extra='font-weight="bold"'), text(x0 + WIDE / 2, BOTTOM + 36, unit)]
    for mark in range(0, int(most_y) + 1, step(most_y)):
        y = BOTTOM - HIGH * mark / most_y
        parts.append(f'<line x1="{x0}" y1="{y:.1f}" x2="{x0 + WIDE}" y2="{y:.1f}" stroke="#ddd"/>')
        parts.append(text(x0 - 6, y + 4, f"{mark:,}", "end"))
    for mark in range(0, int(most_x) + 1, step(most_x)):
        x = x0 + WIDE * mark / most_x
        parts.append(f'<line x1="{x:.1f}" y1="{BOTTOM}" x2="{x:.1f}" y2="{BOTTOM + 5}" stroke="#333"/>')
        parts.append(text(x, BOTTOM + 18, f"{mark:,}"))
    parts.append(f'<path d="M{x0} {TOP}V{BOTTOM}H{x0 + WIDE}" fill="none" stroke="#333"/>')
    return parts


def line(x0, places, most_x, most_y, colour):
    spots = [(x0 + WIDE * x / most_x, BOTTOM - HIGH * y / most_y) for x, y in places]
    parts = ['<polyline fill="none" stroke-width="2" stroke="%s" points="%s"/>'
             % (colour, " ".join(f"{x:.1f},{y:.1f}" for x, y in spots))]
    return parts + [f'<circle cx="{x:.1f}" cy="{y:.1f}" r="3" fill="{colour}"/>' for x, y in spots]


def panel(counts, x0, title, unit, name, series):
    drawn = [(label, points(counts, what, name)) for what, label in series]
    every = [place for _, places in drawn for place in places]
    most_x, most_y = max(x for x, _ in every), max(y for _, y in every)
    parts = axes(x0, title, unit, most_x, most_y)
    for i, (label, places) in enumerate(drawn):
        if not places:
            continue
        parts += line(x0, places, most_x, most_y, COLOURS[i])
        parts.append(text(x0 + 10, TOP + 12 + 15 * i, label, "start", f'fill="{COLOURS[i]}"'))
    return parts


def main():
    counts = load(sys.argv[1])
    wide = LEFT + len(PANELS) * (WIDE + GAP)
    print(f'<svg xmlns="http://www.w3.org/2000/svg" width="{wide}" height="{BOTTOM + 50}" '
          'font-family="sans-serif" font-size="11">')
    print(f'<rect width="{wide}" height="{BOTTOM + 50}" fill="white"/>')
    print(text(8, 14, "instructions a call", "start"))
    for i, (title, unit, name, series) in enumerate(PANELS):
        print("\n".join(panel(counts, LEFT + i * (WIDE + GAP), title, unit, name, series)))
    print("</svg>")


main()
