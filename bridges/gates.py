"""Writes the output of a cell as gate primitives.

A cell whose function is that of a primitive becomes this primitive. Any other becomes up to two
levels of gates of one step, and a last gate that has the cell's delays less one step for each
level. A gate of one step only shifts by one step, and every way to the last gate is equally long,
so the output is exactly that of one gate with the cell's function and delays, with one difference:
a pulse may pass that is shorter than the delay by a step for each level.

Where pins of a cell have delays of their own, the last gate has the least of them, and a buf or not
after each pin takes the rest. An xor or a multiplexer whose pin is late by another time for an
output that rises than for one that falls becomes the sum of all its prime products, in which each
literal moves the output in one direction. Where arcs have conditions, a pin has delays of its own
in each product, of the arcs whose condition holds there.
"""

from typing import Dict, Iterator, List, NamedTuple, Optional, Tuple

from cells import Function, Levels, Literal, Pin, levels_of
from delays import NOTHING, ONE_STEP, DefaultDelays, Delay, Output, Pins, Timing
from names import Names
from netlist import Gate
from refusal import Refusal


class Build(NamedTuple):
    """How an output is built: its levels, the last gate's delays, and what each literal takes
    beside these, by the term that it stands in (None where there are no terms).
    """

    levels: Levels
    gate: Delay
    beside: Dict[Tuple[Optional[int], Literal], Delay]


class GateWriter:
    """Collects the gates of a netlist, and of each net the cell's output or pin that it is."""

    def __init__(self, names: Names, delays: DefaultDelays, each_pin: bool):
        self.names, self.delays, self.each_pin = names, delays, each_pin
        self.gates: List[Gate] = []
        self.places: Dict[str, dict] = {}
        self.deepest = 0

    def write(
        self,
        output: Output,
        function: Function,
        pins: Optional[Pins],
        reads: Dict[Pin, str],
        target: str,
    ):
        """The gates of one output, which is the net `target`, from the nets that its pins read.

        Without delays it has to be a primitive.
        """
        place = {"instance": output.instance, "cell": output.kind, "pin": str(output.pin)}
        self.places[target] = {
            **place,
            "reads": {net: str(pin) for pin, net in reversed(reads.items())},
        }
        before = len(self.gates)
        if pins is None:
            levels = levels_of(function.table, False, False)
            if levels.depth:
                raise Refusal(
                    "NoPrimitive",
                    f"{output} is no gate primitive, and no delays are known",
                    "give delays (--sdf or --delays), or map to and, nand, or, nor, xor, xnor "
                    "and not",
                )
            build, delay = Build(levels, NOTHING, {}), None
        else:
            build = self.build(output, function, pins)
            depth = build.levels.depth
            delay = Delay(build.gate.rise - depth, build.gate.fall - depth)
        self.deepest = max(self.deepest, build.levels.depth)
        inputs = self.before_last(function, build, reads)
        for gate in self.gates[before:]:
            self.places[gate.output] = {"inside": target}
        self.gates.append(Gate(build.levels.last, delay, target, tuple(inputs)))

    def build(self, output: Output, function: Function, pins: Pins) -> Build:
        """How an output with delays is built. Delays shorter than its gates are raised."""
        delays = dict(pins.greatest)
        by_term = pins.in_product is not None and self.each_pin
        while True:
            timing = Timing.of(delays, self.each_pin)
            one_direction = by_term or any(
                extra.rise != extra.fall and not function.sense(pin)
                for pin, extra in timing.beside.items()
            )
            levels = levels_of(function.table, by_term or bool(timing.beside), one_direction)
            found = self.at_least(output, delays, levels.depth + 1)
            if found == delays:
                break
            delays = found
        if by_term and levels.literals:
            return self.by_term(output, function, pins, levels)
        beside = {}
        for term, literal in uses(levels):
            extra = timing.beside.get(function.pins[literal.place], NOTHING)
            beside[term, literal] = extra
        return Build(levels, timing.gate, beside)

    def by_term(self, output: Output, function: Function, pins: Pins, levels: Levels) -> Build:
        """The delays of each literal by the product that it stands in."""
        delays = {}
        for term, literal in uses(levels):
            pin = function.pins[literal.place]
            product = levels.terms[term].literals if term is not None else ()
            others = {
                function.pins[it.place]: it.level for it in product if it.place != literal.place
            }
            sense = function.sense(pin)
            if not sense:
                sense = 1 if bool(literal.level) != levels.inverts else -1
            delays[term, literal] = pins.in_product(pin, others, sense)
        for (term, literal), delay in delays.items():
            pin = function.pins[literal.place]
            delays[term, literal] = self.at_least(output, {pin: delay}, levels.depth + 1)[pin]
        gate = Delay(*map(min, zip(*delays.values())))
        if set(delays.values()) == {gate}:
            return Build(levels_of(function.table, False, False), gate, {})
        beside = {
            use: Delay(delay.rise - gate.rise, delay.fall - gate.fall)
            for use, delay in delays.items()
        }
        return Build(levels, gate, beside)

    def at_least(self, output: Output, delays: Dict[Pin, Delay], least: int) -> Dict[Pin, Delay]:
        """Delays of this many steps or more."""
        if min(map(min, delays.values())) >= least:
            return delays
        return {
            pin: Delay(
                *(
                    side if side >= least else self.delays.raised(output, edge, pin, side, least)
                    for edge, side in zip(Delay._fields, delay)
                )
            )
            for pin, delay in delays.items()
        }

    def before_last(self, function: Function, build: Build, reads: Dict[Pin, str]) -> List[str]:
        """The gates of the levels before the last gate, and the nets that the last one reads."""
        levels, nets, made = build.levels, {}, {}
        for term, literal in uses(levels):
            pin = function.pins[literal.place]
            extra = build.beside.get((term, literal), NOTHING)
            if (literal, extra) not in made:
                delay = Delay(1 + extra.rise, 1 + extra.fall)
                if levels.inverts:
                    delay = Delay(1 + extra.fall, 1 + extra.rise)
                kind = "buf" if literal.level else "not"
                made[literal, extra] = self.add(kind, delay, [reads[pin]])
            nets[term, literal] = made[literal, extra]
        if levels.terms:
            return [
                self.add(
                    term.kind,
                    ONE_STEP,
                    [
                        nets.get((number, literal)) or reads[function.pins[literal.place]]
                        for literal in term.literals
                    ],
                )
                for number, term in enumerate(levels.terms)
            ]
        if levels.literals:
            return [nets[None, literal] for literal in levels.literals]
        return [reads[pin] for pin in function.pins]

    def add(self, kind: str, delay: Delay, inputs: List[str]) -> str:
        """A gate inside a cell. Answers its net."""
        net = self.names.new_net()
        self.gates.append(Gate(kind, delay, net, tuple(inputs)))
        return net

    def copy(self, target: str, source: str, delay: Optional[Delay] = ONE_STEP):
        """A net of another name."""
        self.places[target] = {"copy": source}
        self.gates.append(Gate("buf", delay, target, (source,)))


def uses(levels: Levels) -> Iterator[Tuple[Optional[int], Literal]]:
    """The literals that have a gate, with the number of each term in which they stand."""
    if levels.literals and not levels.terms:
        yield from ((None, literal) for literal in levels.literals)
    elif levels.literals:
        for literal in levels.literals:
            for number, term in enumerate(levels.terms):
                if literal in term.literals:
                    yield number, literal
