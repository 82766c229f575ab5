"""Where the delays of gates come from: an SDF file, a table of kinds of cells, or nowhere, which
means the default of `tdelay`.
"""

from dataclasses import dataclass
from decimal import ROUND_CEILING, ROUND_HALF_UP, Decimal
from functools import lru_cache
from typing import Callable, Dict, Iterable, List, NamedTuple, Optional, Tuple

from cells import Function, Pin, vectors
from condition import condition_of
from refusal import Refusal
from sdf import UNITS, ZERO, Annotation, Arc, Wire, place_of


class Delay(NamedTuple):
    """A rise and a fall delay in whole steps."""

    rise: int
    fall: int


NOTHING = Delay(0, 0)
ONE_STEP = Delay(1, 1)


ROUNDINGS = {"nearest": ROUND_HALF_UP, "up": ROUND_CEILING}
# Delays below this many steps may be too short for the gates of a cell, and are kept as they are.
SHORT = 4


class Pins(NamedTuple):
    """The delays from each pin to an output. Where arcs have conditions or edges, `in_product`
    gives those of a pin in a product, by the levels of its other pins there and by whether the
    output rises (1) or falls (-1) when the pin rises.
    """

    greatest: Dict[Pin, Delay]
    in_product: Optional[Callable[[Pin, Dict[Pin, int], int], Delay]] = None


class Output(NamedTuple):
    """An output of a cell, as it is asked about."""

    instance: str
    kind: str
    pin: str

    def __str__(self):
        return f"{self.pin} of {self.instance}, a {self.kind}"


@dataclass(frozen=True)
class Timing:
    """The delays of an output: of the gate that computes it, and what each pin takes beside that
    until the output rises or falls.
    """

    gate: Delay
    beside: Dict[Pin, Delay]

    @staticmethod
    def of(pins: Dict[Pin, Delay], each: bool) -> "Timing":
        """Each pin with its own delays, or all pins with the greatest."""
        rises, falls = zip(*pins.values())
        if not each:
            return Timing(Delay(max(rises), max(falls)), {})
        gate = Delay(min(rises), min(falls))
        beside = {
            pin: Delay(delay.rise - gate.rise, delay.fall - gate.fall)
            for pin, delay in pins.items()
        }
        return Timing(gate, {} if all(extra == NOTHING for extra in beside.values()) else beside)


class DefaultDelays:
    """No delays are known: a gate takes the default."""

    # Whether delays are found by the names of instances.
    by_instance = False

    def refuse_strangers(self, output: Output, pins: Iterable[Pin]):
        """Refuses an arc from a pin on which the cell's function doesn't depend, as that of a
        tristate cell from its enable.
        """

    def of(self, output: Output, function: Function) -> Optional[Pins]:
        """The delays from each pin of a function to the output."""

    def raised(self, output: Output, edge: str, pin: Pin, side: int, least: int) -> int:
        """The delay in place of one that is shorter than the gates of a cell take."""
        raise Refusal(
            "DelayTooShort",
            f"{output} has a {edge} delay of {side} steps, and needs {least}",
            f"give it {least} steps or more",
        )

    def notes(self, instances: Dict[str, str]) -> Iterable[str]:
        """What a reader has to know, of these instances with their kinds."""
        return ()

    def of_register(self, output: Output, clocks: Iterable[str]) -> Optional[Delay]:
        """The delays from a register's clock to the output."""

    def of_port(self, bit: str) -> Optional[Delay]:
        """The delays of the wire to a bit of an output port, where it has any."""


class TableDelays(DefaultDelays):
    """A rise and a fall delay for each kind of cell, from lines `KIND RISE FALL`, in steps.

    `#` begins a comment.
    """

    def __init__(self, text: str):
        self.table = {}
        for number, line in enumerate(text.splitlines(), 1):
            words = line.split("#")[0].split()
            if not words:
                continue
            if len(words) != 3 or not all(word.isdigit() and int(word) > 0 for word in words[1:]):
                raise Refusal(
                    "BadTable",
                    f"line {number} of the table of delays: {line.strip()}",
                    "write KIND RISE FALL, in steps of 1 or more",
                )
            self.table[words[0]] = Delay(int(words[1]), int(words[2]))

    def of(self, output, function):
        return Pins({pin: self.delay(output) for pin in function.pins})

    def of_register(self, output, clocks):
        return self.delay(output)

    def delay(self, output):
        if output.kind not in self.table:
            raise Refusal(
                "NoDelay",
                f"{output} isn't in the table of delays",
                f"add a line `{output.kind} RISE FALL`",
            )
        return self.table[output.kind]


class Reading(NamedTuple):
    """How delays become whole steps: of how many femtoseconds a step is, how they are rounded, and
    whether short ones are raised.
    """

    step: int
    rounding: str = "nearest"
    raises: bool = True

    def whole(self, steps: Decimal) -> int:
        return int(steps.quantize(Decimal(1), ROUNDINGS[self.rounding]))

    def shown(self, steps) -> str:
        """A number of steps in picoseconds."""
        number = Decimal(steps) * self.step / UNITS["ps"]
        return f"{number.normalize():f} ps"


class Raised(NamedTuple):
    """A delay that was raised: what it was, to what, and where."""

    was: Decimal
    to: int
    arc: str


class SdfDelays(DefaultDelays):
    """What an SDF file says of each instance."""

    by_instance = True

    def __init__(self, annotation: Annotation, reading: Reading):
        self.annotation, self.reading = annotation, reading
        self.short: Dict[tuple, Decimal] = {}
        self.raisings: Dict[tuple, Raised] = {}
        self.arcs = lru_cache(maxsize=64)(self.arcs)

    def refuse_strangers(self, output, pins):
        for arc in self.arcs(output):
            if arc.pin not in pins:
                raise Refusal(
                    "StrangeArc",
                    f"the SDF file has an arc from {arc.pin} to {output}, whose function doesn't "
                    f"depend on {arc.pin}",
                    "take another cell: tristate cells aren't gates, and yosys reads them as such",
                )

    def of(self, output, function):
        arcs = self.arcs(output)
        greatest = {
            pin: self.from_pin(output, pin, function.sense(pin), of_pin(arcs, pin))
            for pin in function.pins
        }
        if all(arc.plain for arc in arcs):
            return Pins(greatest)
        return Pins(greatest, lambda *where: self.in_product(output, function, *where))

    def of_register(self, output, clocks):
        arcs = [arc for arc in self.arcs(output) if arc.pin in clocks]
        return Delay(*(self.side(output, "its clock", edge, arcs) for edge in Delay._fields))

    def of_port(self, bit):
        wire = self.annotation.wire(place_of(bit))
        if wire == (ZERO, ZERO):
            return None
        output = Output(bit, "port", "the wire")
        sides = zip(Delay._fields, wire)
        return Delay(*(self.port_side(output, edge, side) for edge, side in sides))

    def port_side(self, output: Output, edge: str, side: Decimal) -> int:
        """A wire's delay to a port: one step at least."""
        found = self.reading.whole(side)
        if found < 1:
            self.short[output, "its driver", edge] = side
            return self.raised(output, edge, "its driver", found, 1)
        return found

    def arcs(self, output: Output) -> List[Arc]:
        """The arcs that lead to an output."""
        found = self.annotation.arcs(place_of(output.instance), output.kind)
        return [arc for arc in found if arc.place.output == output.pin]

    def from_pin(self, output: Output, pin: Pin, sense: int, arcs: List[Arc]) -> Delay:
        """The greatest delays of a pin's arcs, the wire to the pin included."""
        wire = self.annotation.wire(f"{place_of(output.instance)}.{pin}")
        before = {1: wire, -1: Wire(wire.fall, wire.rise), 0: Wire(max(wire), max(wire))}[sense]
        return Delay(
            *(self.side(output, pin, edge, arcs, more) for edge, more in zip(Delay._fields, before))
        )

    def in_product(
        self, output: Output, function: Function, pin: Pin, others: Dict[Pin, int], sense: int
    ) -> Delay:
        """The delays from a pin where others have these levels, of the arcs that may be meant."""
        arcs = of_pin(self.arcs(output), pin)
        cases = cases_of(function, pin, tuple(sorted(others.items())), sense)
        held = [arc for arc in arcs if any(holds(arc, arcs, case) for case in cases)] or arcs
        wire = self.annotation.wire(f"{place_of(output.instance)}.{pin}")
        before = wire if sense > 0 else Wire(wire.fall, wire.rise)
        edges = ("posedge", "negedge") if sense > 0 else ("negedge", "posedge")
        sides = []
        for edge, more, of_edge in zip(Delay._fields, before, edges):
            its = [arc for arc in held if arc.place.edge in ("", of_edge)] or held
            sides.append(self.side(output, pin, edge, its, more))
        return Delay(*sides)

    def side(self, output: Output, pin: Pin, edge: str, arcs: List[Arc], more=ZERO) -> int:
        """The greatest delay of arcs until the output has this edge."""
        known = [side for side in (getattr(arc, edge) for arc in arcs) if side is not None]
        if not known:
            raise Refusal(
                "NoDelay",
                f"the SDF file gives no {edge} delay from {pin} to {output}",
                "look whether the file is of this netlist, and whether the timing tool leaves the "
                "arc out (set_disable_timing, set_case_analysis)",
            )
        exact = max(known) + more
        if exact < SHORT:
            before = self.short.get((output, pin, edge), exact)
            self.short[output, pin, edge] = min(exact, before)
        return self.reading.whole(exact)

    def raised(self, output, edge, pin, side, least):
        was = self.short.get((output, pin, edge), Decimal(side))
        if not self.reading.raises:
            needs = self.reading.shown(least)
            name = "DisabledArc" if was <= 0 else "DelayTooShort"
            finer = "" if was <= 0 else "take a finer --step, as 100fs, or "
            raise Refusal(
                name,
                f"the {edge} delay from {pin} to {output} is {self.reading.shown(was)}, and the "
                f"gates need {needs}",
                f"{finer}leave out --short refuse: --short raise makes it {needs}",
            )
        arc = f"{pin} to {output.pin} of {output.instance}"
        self.raisings[output, pin, edge] = Raised(was, least, arc)
        return least

    def notes(self, instances):
        if self.raisings:
            to = [it.to for it in self.raisings.values()]
            low, high = self.reading.shown(min(to)), self.reading.shown(max(to))
            least = min(self.raisings.values())
            to = high if low == high else f"{low} to {high}"
            yield (
                f"{len(self.raisings)} arcs raised to {to}, the least was "
                f"{self.reading.shown(least.was)} ({least.arc})"
            )
        kinds = {place_of(name): kind for name, kind in instances.items()}
        entries = {name: entry[-1].kind for name, entry in self.annotation.entries.items() if name}
        strange = [name for name in entries if name not in kinds]
        others = [name for name, kind in entries.items() if kind and kinds.get(name, kind) != kind]
        if others:
            yield f"{len(others)} instances have another cell than the file (as {others[0]})"
        if strange:
            yield f"{len(strange)} entries of the SDF file match no instance (as {strange[0]})"


def of_pin(arcs: List[Arc], pin: Pin) -> List[Arc]:
    return [arc for arc in arcs if arc.pin == pin]


@lru_cache(maxsize=None)
def cases_of(
    function: Function, pin: Pin, others: Tuple[Tuple[Pin, int], ...], sense: int
) -> List[Dict[Pin, int]]:
    """The levels of the pins but one, of which some are known, under which the output has this
    sense in that one.
    """
    free = [it for it in function.pins if it != pin and it not in dict(others)]
    found = []
    for levels in vectors(len(free)):
        case = {**dict(others), **dict(zip(free, levels))}
        if function.level({**case, pin: 1}) - function.level({**case, pin: 0}) == sense:
            found.append(case)
    return found


condition_of = lru_cache(maxsize=None)(condition_of)


def holds(arc: Arc, arcs: List[Arc], case: Dict[Pin, int]) -> bool:
    """Whether an arc's condition may hold under these levels; an `else` where no other's does."""
    if arc.place.condition == "else":
        return not any(surely(other, case) for other in arcs if other is not arc)
    condition = condition_of(arc.place.condition) if arc.place.condition else None
    try:
        return condition is None or condition(case)
    except KeyError:
        return True


def surely(arc: Arc, case: Dict[Pin, int]) -> bool:
    """Whether an arc has a condition that holds under these levels."""
    condition = condition_of(arc.place.condition) if arc.place.condition else None
    try:
        return bool(condition and arc.place.condition != "else" and condition(case))
    except KeyError:
        return False
