"""What cells compute and which of them store: yosys' own gates, and cells of a Liberty library,
which are modules of these.
"""

import re
from functools import lru_cache
from typing import Dict, List, Set, Tuple

from cells import Function, Pin
from liberty import CLOCK_GATE
from refusal import Refusal
from yosys_json import CONSTANTS, Bit, Cell, Design, Module

# The gates of yosys: the names of their inputs, and what they compute.
GATES = {
    "$_BUF_": ("A", lambda a: a),
    "$_NOT_": ("A", lambda a: 1 - a),
    "$_AND_": ("AB", lambda a, b: a & b),
    "$_NAND_": ("AB", lambda a, b: 1 - (a & b)),
    "$_OR_": ("AB", lambda a, b: a | b),
    "$_NOR_": ("AB", lambda a, b: 1 - (a | b)),
    "$_XOR_": ("AB", lambda a, b: a ^ b),
    "$_XNOR_": ("AB", lambda a, b: 1 - (a ^ b)),
    "$_ANDNOT_": ("AB", lambda a, b: a & (1 - b)),
    "$_ORNOT_": ("AB", lambda a, b: a | (1 - b)),
    "$_MUX_": ("ABS", lambda a, b, s: b if s else a),
    "$_NMUX_": ("ABS", lambda a, b, s: 1 - (b if s else a)),
    "$_AOI3_": ("ABC", lambda a, b, c: 1 - (a & b | c)),
    "$_OAI3_": ("ABC", lambda a, b, c: 1 - ((a | b) & c)),
    "$_AOI4_": ("ABCD", lambda a, b, c, d: 1 - (a & b | c & d)),
    "$_OAI4_": ("ABCD", lambda a, b, c, d: 1 - ((a | b) & (c | d))),
}
STORES = re.compile(
    r"\$_(DFF|DFFE|SDFF|SDFFE|SDFFCE|ALDFF|ALDFFE|DFFSR|DFFSRE|DLATCH|DLATCHSR|SR|FF)_(?:[NP01]+_)?"
)
# A latch of yosys: the level of its enable, and of its reset with what that makes of it, or those
# of its set and its reset.
LATCH = re.compile(r"\$_DLATCH(?:_([NP])|_([NP])([NP])([01])|SR_([NP])([NP])([NP]))_")
MOST_PINS = 12
STATE = Function(("q",), (0, 1))
ONE_STATE = "take a flip-flop or a latch with one state, and an output that is this state"


class Library:
    """The kinds of cells that a design has. With `open_latches` a latch isn't a store: its output
    is what it takes.
    """

    def __init__(self, design: Design, open_latches: bool = False, states: Dict[str, str] = {}):
        self.design, self.open_latches, self.states = design, open_latches, states
        self.drivers = lru_cache(maxsize=None)(self.drivers)
        self.stores = lru_cache(maxsize=None)(self.stores)
        self.library_function = lru_cache(maxsize=None)(self.library_function)

    def module(self, kind: str) -> Module:
        if kind not in self.design:
            raise Refusal(
                "UnknownCell",
                f"no function is known of {kind}",
                "read the Liberty file that has it, by read_liberty -setattr keep_hierarchy",
            )
        return self.design[kind]

    def stores(self, kind: str) -> bool:
        """Whether a kind of cell is a flip-flop or a latch."""
        if self.open_latches and LATCH.fullmatch(kind):
            return False
        if kind.startswith("$"):
            return bool(STORES.fullmatch(kind))
        return any(self.stores(cell.kind) for cell in self.module(kind).cells)

    def latches(self, kind: str) -> bool:
        """Whether a kind of cell is a latch."""
        if kind.startswith("$"):
            return bool(LATCH.fullmatch(kind))
        return any(self.latches(cell.kind) for cell in self.module(kind).cells)

    def refuse_state(self, cell: Cell):
        """Refuses a cell whose state can't be cut or left open: a C-element, a clock gate, a table
        of states.
        """
        kind, remedy = cell.kind, f"--cut {cell.name} makes ports of its pins"
        if kind.startswith("$"):
            return
        module = self.module(kind)
        if module.black_box:
            state = self.states.get(kind)
            if state == CLOCK_GATE:
                raise Refusal("ClockGate", f"{cell.name}, a {kind}, is a clock gate", remedy)
            if state:
                wrong = f"the state of {cell.name}, a {kind}, is a table of the library"
                raise Refusal("StateTable", wrong, remedy)
            raise Refusal("BlackBox", f"{cell.name} is a {kind}, a black box", remedy)
        if self.reads_itself(kind):
            wrong = f"{cell.name} is a {kind}, whose function reads its own output"
            raise Refusal("CElement", wrong, remedy)
        for latch in (it for it in module.cells if LATCH.fullmatch(it.kind)):
            both = self.pins_before(kind, [latch.inputs["E"]]) & self.pins_before(
                kind, [latch.inputs["D"]]
            )
            if both:
                pins = ", ".join(sorted(map(str, both)))
                wrong = f"{cell.name} is a {kind}, a latch that {pins} enables and sets"
                raise Refusal("CElement", wrong, remedy)
            gated = {
                self.input_bit(kind, pin) for pin in self.pins_before(kind, [latch.inputs["E"]])
            }
            if any(
                gated & set(it.inputs.values()) and self.reads_state(kind, it)
                for it in module.cells
            ):
                raise Refusal("ClockGate", f"{cell.name}, a {kind}, is a clock gate", remedy)

    def input_bit(self, kind: str, pin: str) -> Bit:
        return next(port.bits[0] for port in self.module(kind).inputs if port.name == pin)

    def reads_state(self, kind: str, gate: Cell) -> bool:
        """Whether an inner gate that drives an output reads a latch."""
        drivers = self.drivers(kind)
        inner = [drivers[bit][0].kind for bit in gate.inputs.values() if bit in drivers]
        return gate.kind in GATES and any(LATCH.fullmatch(it) for it in inner)

    def reads_itself(self, kind: str) -> bool:
        """Whether inner gates form a loop."""
        drivers, done = self.drivers(kind), set()
        for bit in drivers:
            left, path = [(bit, False)], set()
            while left:
                net, leaves = left.pop()
                if leaves:
                    path.discard(net)
                    done.add(net)
                elif net in path:
                    return True
                elif net in drivers and net not in done:
                    path.add(net)
                    left.append((net, True))
                    if drivers[net][0].kind in GATES:
                        left += [(it, False) for it in drivers[net][0].inputs.values()]
        return False

    def open_level(self, cell: Cell) -> Dict[str, int]:
        """The level of the enable of a latch at which it is open, by its pin."""
        inner = next(it for it in self.inner(cell) if LATCH.fullmatch(it.kind))
        wanted = int("N" not in enable_of(inner.kind))
        if cell.kind.startswith("$"):
            return {"E": wanted}
        (pin,) = self.pins_before(cell.kind, [inner.inputs["E"]])
        drivers, bit = self.drivers(cell.kind), inner.inputs["E"]
        while bit in drivers:
            wanted ^= drivers[bit][0].kind == "$_NOT_"
            bit = next(iter(drivers[bit][0].inputs.values()))
        return {pin: wanted}

    def inner(self, cell: Cell) -> List[Cell]:
        """The cells in a library cell, or yosys' own gate itself."""
        return [cell] if cell.kind.startswith("$") else self.module(cell.kind).cells

    def edge(self, cell: Cell) -> str:
        """When a storing cell takes its level, in words."""
        inner = next(it for it in self.inner(cell) if STORES.fullmatch(it.kind))
        signs = re.search(r"_([NP])", inner.kind)
        falls = bool(signs and signs[1] == "N")
        if not cell.kind.startswith("$"):
            bit, drivers = inner.inputs.get(when_pin(inner)), self.drivers(cell.kind)
            while bit in drivers:
                falls ^= drivers[bit][0].kind == "$_NOT_"
                bit = next(iter(drivers[bit][0].inputs.values()))
        if LATCH.fullmatch(inner.kind):
            return "open at 0" if falls else "open at 1"
        return "falling edge" if falls else "rising edge"

    def function(self, cell: Cell, output: str) -> Function:
        """The function of a cell's output.

        Of a storing cell it is one of its state, a pin that is called q.
        """
        kind = cell.kind
        if kind in GATES:
            return gate_function(kind)
        if self.open_latches and LATCH.fullmatch(kind):
            pins, compute = open_latch(kind)
            return Function.of(pins, compute)
        if kind == "$lut":
            if len(cell.inputs) > MOST_PINS:
                raise Refusal(
                    "WideCell",
                    f"{cell.name} has {len(cell.inputs)} pins",
                    f"map it to gates of at most {MOST_PINS} pins",
                )
            return lut_function(len(cell.inputs), cell.parameters["LUT"])
        if kind.startswith("$"):
            if self.stores(kind):
                return STATE
            raise Refusal(
                "NoGate",
                f"{cell.name} is a {kind}, which is no gate",
                "map the design first, as by `synth` or `simplemap; abc`",
            )
        return self.library_function(kind, output)

    def state_output(self, kind: str) -> str:
        """The output of a storing cell that has its state."""
        if kind.startswith("$"):
            return "Q"
        for port in self.module(kind).outputs:
            if self.library_function(kind, port.name) == STATE:
                return port.name
        raise Refusal("NoState", f"no output of {kind} is its state", ONE_STATE)

    def drivers(self, kind: str) -> Dict[Bit, Tuple[Cell, str]]:
        """The inner gate that drives each net of a library cell."""
        return {
            bit: (cell, pin)
            for cell in self.module(kind).cells
            for pin, bit in cell.outputs.items()
        }

    def library_function(self, kind: str, output: str) -> Function:
        """The function of a library cell's output, of its pins, or of its state."""
        module, drivers = self.module(kind), self.drivers(kind)
        if self.stores(kind):
            states = [bit for bit, (cell, _) in drivers.items() if self.stores(cell.kind)]
            if len(states) > 1:
                raise Refusal("NoState", f"{kind} has {len(states)} states", ONE_STATE)
            pins = {states[0]: STATE.pins[0]}
        else:
            pins = {port.bits[0]: port.name for port in module.inputs}
        order = tuple(dict.fromkeys(pins.values()))
        if len(order) > MOST_PINS:
            raise Refusal(
                "WideCell",
                f"{kind} has {len(order)} pins",
                f"take cells of at most {MOST_PINS} pins",
            )
        bit = next(port.bits[0] for port in module.outputs if port.name == output)

        def level(bit: Bit, levels: Dict[str, int]) -> int:
            if bit in CONSTANTS:
                return CONSTANTS[bit]
            if bit in pins:
                return levels[pins[bit]]
            inner = drivers.get(bit, (None,))[0]
            if inner is None and self.stores(kind):
                raise Refusal("NoState", f"{output} of {kind} isn't its state alone", ONE_STATE)
            if inner is not None and self.open_latches and LATCH.fullmatch(inner.kind):
                names, compute = open_latch(inner.kind)
            elif inner is None or inner.kind not in GATES:
                raise Refusal(
                    "UnknownCell",
                    f"{output} of {kind} has no function in the Liberty file",
                    "take another cell",
                )
            else:
                names, compute = GATES[inner.kind]
            return compute(*(level(inner.inputs[name], levels) for name in names))

        return Function.of(order, lambda *levels: level(bit, dict(zip(order, levels))))

    def when_pins(self, cell: Cell) -> Set[Pin]:
        """The inputs of a storing cell that say when it takes its level: clocks, and enables of
        latches.
        """
        if cell.kind.startswith("$"):
            return {when_pin(cell)} & set(cell.inputs)
        inner = [it for it in self.module(cell.kind).cells if STORES.fullmatch(it.kind)]
        return self.pins_before(
            cell.kind, [it.inputs[when_pin(it)] for it in inner if when_pin(it) in it.inputs]
        )

    def pins_before(self, kind: str, bits: List[Bit]) -> Set[Pin]:
        """The inputs of a library cell on which nets in it depend through gates."""
        drivers, found, left, seen = self.drivers(kind), set(), list(bits), set()
        inputs = {port.bits[0]: port.name for port in self.module(kind).inputs}
        while left:
            bit = left.pop()
            if bit in seen:
                continue
            seen.add(bit)
            if bit in inputs:
                found.add(inputs[bit])
            elif bit in drivers and not self.stores(drivers[bit][0].kind):
                left += drivers[bit][0].inputs.values()
        return found


def enable_of(kind: str) -> str:
    """The sign of a latch's enable."""
    return next(sign for sign in LATCH.fullmatch(kind).groups() if sign)


def open_latch(kind: str):
    """The pins of yosys' latch while it is open, and what it makes of them."""
    _, _, reset, value, _, sets, clears = LATCH.fullmatch(kind).groups()
    on = {"N": 0, "P": 1}
    if reset:
        return ("D", "R"), lambda d, r: int(value) if r == on[reset] else d
    if sets:
        return ("D", "S", "R"), lambda d, s, r: 0 if r == on[clears] else 1 if s == on[sets] else d
    return ("D",), lambda d: d


def when_pin(gate: Cell) -> str:
    """The input of a storing gate of yosys that says when it takes its level."""
    return "C" if "C" in gate.inputs else "E"


@lru_cache(maxsize=None)
def gate_function(kind: str) -> Function:
    pins, compute = GATES[kind]
    return Function.of(tuple(pins), compute)


@lru_cache(maxsize=None)
def lut_function(width: int, table: str) -> Function:
    """The function of a table of yosys, whose last digit is the level for all inputs 0, and whose
    input 0 is the lowest bit.
    """
    return Function.of(
        tuple(range(width)),
        lambda *levels: int(table[-1 - sum(level << place for place, level in enumerate(levels))]),
    )
