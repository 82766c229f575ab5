#!/usr/bin/env python3
"""plots.py [--write | --check]: draws the table `growth` of docs/FIGURES.md as pictures in
docs/pictures: what a search, a check and a certificate cost, by the gates of the circuit.

Both axes are logarithmic. Each family of circuits has a colour and a mark; families that are made
by size have a line. A circuit whose search didn't end exact isn't drawn. `--check` ends with status
1 where a picture isn't the one that the table gives, `--write` writes them. Run it from any folder.
"""

import math
import os
import re
import sys
from xml.sax.saxutils import escape

TOP = os.path.dirname(os.path.dirname(os.path.abspath(__file__)))
PAGE = os.path.join(TOP, "docs", "FIGURES.md")
FOLDER = os.path.join(TOP, "docs", "pictures")
TABLE = re.compile(r"<!-- Written by checks/figures\.py growth.*?-->\n(.*?)<!-- The end", re.S)
# Each picture: its name, the column that it draws, and what it says.
PICTURES = {
    "auto": ("Seconds of `auto`", "Seconds of worst, strategy auto"),
    "check": ("Seconds of `check`", "Seconds of check"),
    "bytes": ("Certificate, bytes", "Bytes of the certificate"),
}
# Each family: its colour, its mark, and whether its circuits are joined by a line.
FAMILIES = {
    "adders": ("#1f77b4", "circle", True),
    "multipliers": ("#d62728", "square", True),
    "random gates": ("#2ca02c", "diamond", True),
    "a real library": ("#7f4fa0", "cross", False),
}
WIDTH, HEIGHT, LEFT, RIGHT, ABOVE, BELOW = 640, 400, 74, 150, 34, 46
# The least seconds that are drawn as they are: a clock of the system counts no finer.
FINEST = 0.001


def rows_of(page):
    """The rows of the table, each by its columns' heads."""
    found = TABLE.search(page)
    lines = [line for line in (found[1] if found else "").splitlines() if line.startswith("|")]
    cells = [[cell.strip() for cell in line.strip("|").split(" | ")] for line in lines]
    return [dict(zip(cells[0], row)) for row in cells[2:]]


def points_of(rows, column):
    """By family the points (gates, value), those of a search that ended exact."""
    points = {}
    for row in rows:
        if row[column] != "-" and "exact" in row["Answer"]:
            value = float(row[column].replace(",", ""))
            least = FINEST if column.startswith("Seconds") else 1
            point = float(row["Gates"].replace(",", "")), max(value, least)
            points.setdefault(row["Family"], []).append(point)
    return points


class Axis:
    """A logarithmic axis between whole powers of ten, from one place of the picture to another."""

    def __init__(self, values, begin, end):
        self.low = math.floor(math.log10(min(values)) + 1e-9)
        self.high = max(math.ceil(math.log10(max(values)) - 1e-9), self.low + 1)
        self.begin, self.end = begin, end

    def place(self, value):
        share = (math.log10(value) - self.low) / (self.high - self.low)
        return round(self.begin + share * (self.end - self.begin), 1)

    def powers(self):
        return [10.0**power for power in range(self.low, self.high + 1)]


def shown(value):
    """A power of ten as an axis has it."""
    return f"{value:,.0f}" if value >= 1 else f"{value:g}"


def mark(kind, x, y, colour):
    """The mark of a circuit."""
    if kind == "circle":
        return f'<circle cx="{x}" cy="{y}" r="4" fill="{colour}"/>'
    if kind == "square":
        return f'<rect x="{x - 4:.1f}" y="{y - 4:.1f}" width="8" height="8" fill="{colour}"/>'
    lines = {
        "diamond": f"M{x},{y - 5:.1f} L{x + 5:.1f},{y} L{x},{y + 5:.1f} L{x - 5:.1f},{y} Z",
        "cross": f"M{x - 4:.1f},{y - 4:.1f} L{x + 4:.1f},{y + 4:.1f} "
        f"M{x - 4:.1f},{y + 4:.1f} L{x + 4:.1f},{y - 4:.1f}",
    }[kind]
    fill = colour if kind == "diamond" else "none"
    return f'<path d="{lines}" fill="{fill}" stroke="{colour}" stroke-width="2"/>'


def axes(across, up):
    """The grid, and the numbers at it."""
    for value in across.powers():
        x = across.place(value)
        yield f'<line x1="{x}" y1="{up.end}" x2="{x}" y2="{up.begin}" stroke="#ddd"/>'
        yield f'<text x="{x}" y="{up.begin + 18}" text-anchor="middle">{shown(value)}</text>'
    for value in up.powers():
        y = up.place(value)
        yield f'<line x1="{across.begin}" y1="{y}" x2="{across.end}" y2="{y}" stroke="#ddd"/>'
        yield f'<text x="{across.begin - 8}" y="{y + 4}" text-anchor="end">{shown(value)}</text>'


def picture(points, title):
    """The picture of these points, as lines of SVG."""
    every = [point for family in points.values() for point in family]
    across = Axis([gates for gates, _ in every], LEFT, WIDTH - RIGHT)
    up = Axis([value for _, value in every], HEIGHT - BELOW, ABOVE)
    font = 'font-family="sans-serif" font-size="12"'
    yield f'<svg xmlns="http://www.w3.org/2000/svg" width="{WIDTH}" height="{HEIGHT}" {font}>'
    yield f"<title>{escape(title)}, by gates; both axes logarithmic</title>"
    yield f'<rect width="{WIDTH}" height="{HEIGHT}" fill="white"/>'
    yield f'<text x="{LEFT}" y="20" font-size="14">{escape(title)}</text>'
    yield from axes(across, up)
    middle = (across.begin + across.end) / 2
    yield f'<text x="{middle}" y="{HEIGHT - 8}" text-anchor="middle">gates</text>'
    for at, (family, (colour, kind, is_joined)) in enumerate(FAMILIES.items()):
        places = [(across.place(gates), up.place(it)) for gates, it in points.get(family, [])]
        if is_joined and places:
            line = " ".join(f"{x},{y}" for x, y in places)
            yield f'<polyline points="{line}" fill="none" stroke="{colour}"/>'
        yield from (mark(kind, x, y, colour) for x, y in places)
        y = ABOVE + 20 * at + 10
        yield mark(kind, WIDTH - RIGHT + 18, y, colour)
        yield f'<text x="{WIDTH - RIGHT + 30}" y="{y + 4}">{escape(family)}</text>'
    yield "</svg>"


def pictures():
    """Each picture's path and text, by the table of the page."""
    with open(PAGE, encoding="utf-8") as file:
        rows = rows_of(file.read())
    if not rows:
        sys.exit("plots.py: docs/FIGURES.md has no table growth")
    for name, (column, title) in PICTURES.items():
        text = "\n".join(picture(points_of(rows, column), title)) + "\n"
        yield os.path.join(FOLDER, f"{name}.svg"), text


def main(words):
    if words not in ([], ["--write"], ["--check"]):
        sys.exit(__doc__)
    differing = 0
    for path, text in pictures():
        if words == ["--write"]:
            os.makedirs(FOLDER, exist_ok=True)
            with open(path, "w", encoding="utf-8") as file:
                file.write(text)
            continue
        try:
            with open(path, encoding="utf-8") as file:
                same = file.read() == text
        except FileNotFoundError:
            same = False
        if not same:
            print(f"{os.path.relpath(path, TOP)} is another picture: run lint/plots.py --write")
            differing += 1
    return 1 if differing else 0


if __name__ == "__main__":
    sys.exit(main(sys.argv[1:]))
