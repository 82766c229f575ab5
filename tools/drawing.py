#!/usr/bin/env python3
"""drawing.py DUMP [--width PIXELS] [--nets NAME,..] [--path REPORT]: draws the waves of a value
change dump that `tdelay --vcd` wrote as an SVG picture, on standard output.

A line for each net, in the dump's order: high for 1, low for 0, half high for x. The moments below
are steps; left of moment 0 the circuit is settled under the first vector. A step is 40 pixels wide;
--width makes the whole picture so wide, for waves of many steps. --nets draws these nets alone, in
this order. --path draws those of the path that `tdelay path` or `worst --path` printed to a file,
without the nets inside a cell.
"""

import argparse
import re
import sys
from xml.sax.saxutils import escape

LEFT, STEP, ROW, HIGH = 60, 40, 34, 20
# Pixels of a character, and the least between two moments that are written.
CHARACTER, APART = 8, 60
HEIGHTS = {"1": 0, "0": HIGH, "x": HIGH // 2}


def waves_of(text):
    """The nets with their changes (moment, level), the settled level at moment -1, and the last
    moment that the text has.
    """
    names = dict(re.findall(r"\$var wire 1 (\S+) (.+?) \$end", text))
    waves = {name: [] for name in names.values()}
    moment = -1
    for line in text.split("$enddefinitions $end")[1].split("\n"):
        if line.startswith("#"):
            moment = int(line[1:]) - 1
        elif line[:1] in HEIGHTS and line[1:] in names:
            waves[names[line[1:]]].append((moment, line[0]))
    return waves, max(moment, 0)


class Scale:
    """Where a moment stands: how wide a step is, and what the names of nets take."""

    def __init__(self, names, last, width):
        self.last = last
        self.left = (
            LEFT if width is None else max([LEFT] + [CHARACTER * len(name) + 20 for name in names])
        )
        self.step = STEP if width is None else (width - self.left - 10) / (last + 3)
        self.width = self.abscissa(last + 2) + 10

    def abscissa(self, moment):
        return shown(self.left + self.step * (moment + 1))

    def moments(self):
        """The moments that are written: all of them, or those of a round distance that has room."""
        distance = 1
        while distance * self.step < APART and self.step < STEP:
            distance *= 2 if str(distance)[0] in "15" else 2.5
        return range(0, self.last + 2, int(distance))


def shown(number):
    """A number of pixels as it is written: to the tenth of one."""
    return round(number, 1) if number % 1 else int(number)


def line_of(changes, scale, top):
    """The points of a net's line, from one step before moment 0 to two after the last change."""
    height = HEIGHTS[changes[0][1]]
    points = [(scale.abscissa(-1), top + height)]
    for moment, level in changes[1:]:
        points.append((scale.abscissa(moment), top + height))
        height = HEIGHTS[level]
        points.append((scale.abscissa(moment), top + height))
    points.append((scale.abscissa(scale.last + 2), top + height))
    return " ".join(f"{x},{y}" for x, y in points)


def drawn(waves, last, width=None):
    scale, depth = Scale(waves, last, width), ROW * len(waves) + 30
    size = f'width="{scale.width}" height="{depth}"'
    font = 'font-family="monospace" font-size="13"'
    yield f'<svg xmlns="http://www.w3.org/2000/svg" {size} {font}>'
    yield f'<rect width="{scale.width}" height="{depth}" fill="white"/>'
    for moment in scale.moments():
        x = scale.abscissa(moment)
        yield f'<line x1="{x}" y1="4" x2="{x}" y2="{depth - 20}" stroke="#ddd"/>'
        yield f'<text x="{x}" y="{depth - 6}" text-anchor="middle">{moment}</text>'
    for row, (name, changes) in enumerate(waves.items()):
        top = ROW * row + 8
        place = f'x="{scale.left - 10}" y="{top + HIGH - 4}"'
        yield f'<text {place} text-anchor="end">{escape(name)}</text>'
        points = line_of(changes, scale, top)
        yield f'<polyline points="{points}" fill="none" stroke="black" stroke-width="2"/>'
    yield "</svg>"


def chosen(waves, names):
    """The waves of these nets, in their order."""
    for name in names:
        if name not in waves:
            sys.exit(f"drawing.py: the dump has no net {name}")
    return {name: waves[name] for name in dict.fromkeys(names)}


def path_of(report):
    """The nets of a report's path, without those that bridges/primitives.py made inside a cell."""
    nets = re.findall(r"^change \d+ (.+?) [01x] [01x] (?:input|\w+ \d+)$", report, re.M)
    return [net for net in nets if not re.fullmatch(r"t\d+_(?:_\d+)?", net)]


def main():
    words = argparse.ArgumentParser(
        description=__doc__, formatter_class=argparse.RawDescriptionHelpFormatter
    )
    words.add_argument("dump", metavar="DUMP")
    words.add_argument("--width", type=int, metavar="PIXELS", help="of the whole picture")
    words.add_argument("--nets", metavar="NAME,..", help="draw these alone, in this order")
    words.add_argument("--path", metavar="REPORT", help="draw the nets of this report's path alone")
    asked = words.parse_args()
    with open(asked.dump, encoding="ascii") as file:
        waves, last = waves_of(file.read())
    names = asked.nets.split(",") if asked.nets else []
    if asked.path:
        with open(asked.path, encoding="ascii") as file:
            names += path_of(file.read())
    if not waves or (asked.path and not names):
        sys.exit("drawing.py: there is nothing to draw")
    if asked.width is not None and asked.width < 200:
        sys.exit("drawing.py: a picture is at least 200 pixels wide")
    print("\n".join(drawn(chosen(waves, names) if names else waves, last, asked.width)))


if __name__ == "__main__":
    main()
