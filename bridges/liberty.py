#!/usr/bin/env python3
"""liberty.py power|driver|states FILE..: what yosys' reader of Liberty doesn't keep of a library.

`power` prints steps of yosys that give the cells their power pins, `driver` the smallest buffer as
the driving cell of ABC's constraints, and `states` the cells with a table of states or an
integrated clock gate. Functions, registers and directions are left to yosys.
"""

import re
import sys
from dataclasses import dataclass
from typing import Iterator, List

from refusal import ending_by_name

CELL = re.compile(r'\bcell\s*\(\s*"?([^")\s]+)"?\s*\)')
COMMENT = re.compile(r"/\*.*?\*/", re.S)
PIN = re.compile(r'(?<!_)\b(pg_)?pin\s*\(\s*"?([^")\s]+)"?\s*\)')
FUNCTION = re.compile(r'(?<!_)\bfunction\s*:\s*"([^"]*)"')
CLOCK_GATE, STATE_TABLE = "clock gate", "statetable"


@dataclass(frozen=True)
class LibraryCell:
    """A cell as its text says: its pins, its power pins, its functions, its area, and its state
    where that is a table or a clock gate.
    """

    name: str
    pins: List[str]
    power: List[str]
    functions: List[str]
    area: float
    state: str

    @property
    def buffers(self) -> bool:
        """Whether its one output is its one input."""
        names = [name.strip(" ()") for name in self.functions]
        return len(names) == 1 and len(self.pins) == 2 and names[0] in self.pins


def cells_of(text: str) -> Iterator[LibraryCell]:
    """The cells of a library's text."""
    text = COMMENT.sub("", text)
    heads = list(CELL.finditer(text))
    ends = [head.start() for head in heads[1:]] + [len(text)]
    for head, end in zip(heads, ends):
        body = text[head.end() : end]
        pins = PIN.findall(body)
        area = re.search(r"\barea\s*:\s*\"?([0-9.]+)", body)
        gate = "clock_gating_integrated_cell" in body
        yield LibraryCell(
            head[1],
            [name for power, name in pins if not power],
            [name for power, name in pins if power],
            FUNCTION.findall(body),
            float(area[1]) if area else 0.0,
            CLOCK_GATE if gate else STATE_TABLE if re.search(r"\bstatetable\b", body) else "",
        )


def cells_of_files(paths: List[str]) -> List[LibraryCell]:
    """The cells of several libraries."""
    found = []
    for path in paths:
        with open(path, encoding="utf-8", errors="surrogateescape") as file:
            found += cells_of(file.read())
    return found


def main():
    what, paths = (sys.argv[1], sys.argv[2:]) if len(sys.argv) > 1 else ("", [])
    if what not in ("power", "driver", "states"):
        print(__doc__, file=sys.stderr)
        sys.exit(2)
    cells = cells_of_files(paths)
    if what == "power":
        for cell in cells:
            for pin in cell.power:
                print(f"add -inout {pin} 1 {cell.name}")
    elif what == "driver":
        buffers = sorted((cell for cell in cells if cell.buffers), key=lambda cell: cell.area)
        for cell in buffers[:1]:
            print(f"set_driving_cell {cell.name}\nset_load 0.05 [all_outputs]")
    else:
        for cell in cells:
            if cell.state:
                print(cell.name, cell.state)


if __name__ == "__main__":
    ending_by_name("liberty.py", main)
