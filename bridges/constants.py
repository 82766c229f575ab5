"""Nets that have one level whatever the inputs are.

A timing tool gives no delays to what makes them.
"""

from collections import defaultdict
from typing import Dict, Iterable

from cells import Function
from library import Library
from yosys_json import CONSTANTS, Bit, Cell


class Constants:
    """The constant nets of combinational cells, and the functions of cells at whose pins they
    stand.
    """

    def __init__(self, library: Library, cells: Iterable[Cell]):
        self.library = library
        self.levels: Dict[Bit, int] = dict(CONSTANTS)
        self.reduced: Dict[tuple, Function] = {}
        readers, left = defaultdict(list), []
        for cell in cells:
            left.append(cell)
            for bit in cell.inputs.values():
                readers[bit].append(cell)
        while left:
            cell = left.pop()
            for pin, bit in cell.outputs.items():
                if bit in self.levels:
                    continue
                function = self.function(cell, pin)
                if not function.pins:
                    self.levels[bit] = function.table[0]
                    left += readers[bit]

    def function(self, cell: Cell, output: str) -> Function:
        """The function of a cell's output, of the pins at which no constant stands."""
        whole = self.library.function(cell, output)
        known = tuple(
            (pin, self.levels[cell.inputs[pin]])
            for pin in whole.pins
            if cell.inputs.get(pin) in self.levels
        )
        if not known:
            return whole
        if (whole, known) not in self.reduced:
            self.reduced[whole, known] = whole.where(dict(known))
        return self.reduced[whole, known]
