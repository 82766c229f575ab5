"""What the cells of bridges/tiny.lib do, and what an SDF file says of their delays, written apart
from bridges/.
"""

import itertools
import re
from decimal import ROUND_HALF_UP, Decimal

# The combinational cells: their inputs, and what their outputs compute.
CELLS = {
    "INV": ("A", {"Y": lambda a: not a}),
    "BUF": ("A", {"Y": lambda a: a}),
    "NAND2": ("AB", {"Y": lambda a, b: not (a and b)}),
    "NAND3": ("ABC", {"Y": lambda a, b, c: not (a and b and c)}),
    "NOR2": ("AB", {"Y": lambda a, b: not (a or b)}),
    "AOI21": ("ABC", {"Y": lambda a, b, c: not (a and b or c)}),
    "OAI22": ("ABCD", {"Y": lambda a, b, c, d: not ((a or b) and (c or d))}),
    "XOR2": ("AB", {"Y": lambda a, b: a != b}),
    "MUX2": ("ABS", {"Y": lambda a, b, s: b if s else a}),
    "HA": ("AB", {"S": lambda a, b: a != b, "C": lambda a, b: a and b}),
    "FA": (
        ("A", "B", "CI"),
        {"S": lambda a, b, c: (a + b + c) % 2, "CO": lambda a, b, c: a + b + c > 1},
    ),
}
# The storing cells: the outputs, of which QN is the inverse of Q, and the inputs besides CK or G.
REGISTERS = {
    "DFF": (("Q", "QN"), "CK", ("D",)),
    "DFFR": (("Q", "QN"), "CK", ("D", "RN")),
    "DLAT": (("Q",), "G", ("D",)),
}
STEPS = {"1ps": 1000, "100fs": 100, "10fs": 10, "1fs": 1}


def level(kind, pin, levels):
    """The level of a cell's output, where its inputs have these in their order."""
    return int(bool(CELLS[kind][1][pin](*levels)))


def depends(kind, pin, known):
    """The inputs on which an output depends, where some inputs are known."""
    names = tuple(CELLS[kind][0])
    free = [name for name in names if name not in known]
    found = []
    for name in free:
        for levels in itertools.product((0, 1), repeat=len(free)):
            given = {**known, **dict(zip(free, levels))}
            if level(kind, pin, [given[it] for it in names]) != level(
                kind, pin, [{**given, name: 1 - given[name]}[it] for it in names]
            ):
                found.append(name)
                break
    return found


class Sdf:
    """The delays of an SDF file of OpenSTA in steps: of arcs by instance, pins and the output's
    edge (1 where it rises), and of wires by their end.
    """

    def __init__(self, text, step):
        self.arcs, self.wires = {}, {}
        value = lambda found: Decimal(found.split(":")[-1]) * 1_000_000 / STEPS[step]
        for cell in text.split("(CELL\n")[1:]:
            instance = unescaped(re.search(r"\(INSTANCE ?([^\n]*)\)\n", cell)[1])
            for pin, output, rise, fall in re.findall(
                r"\(IOPATH (\S+) (\S+) \(([^)]*)\)(?: \(([^)]*)\))?\)", cell
            ):
                if rise:
                    self.arcs[instance, pin, output] = (value(fall or rise), value(rise))
            for end, rise, fall in re.findall(
                r"\(INTERCONNECT \S+ (\S+) \(([^)]*)\)(?: \(([^)]*)\))?\)", cell
            ):
                if value(rise) or value(fall or rise):
                    self.wires[unescaped(end)] = (value(fall or rise), value(rise))

    def delay(self, instance, pin, output, edges):
        """Of an arc with the wire before it, where the input has the one edge and the output the
        other, in whole steps.
        """
        before, after = edges
        wire = self.wires.get(f"{unescaped(instance)}/{pin}", (0, 0))
        return whole(self.arcs[unescaped(instance), pin, output][after] + wire[before])

    def greatest(self, instance, pins, output):
        """The rise and the fall delay of the slowest pin, in whole steps."""
        sides = (
            [self.delay(instance, pin, output, (edge, edge)) for pin in pins] for edge in (1, 0)
        )
        return tuple(map(max, sides))


def whole(steps):
    return int(steps.quantize(Decimal(1), ROUND_HALF_UP))


def unescaped(name):
    """A name without what escapes it in Verilog or in SDF."""
    return name.replace("\\", "").strip()
