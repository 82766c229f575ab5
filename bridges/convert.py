"""From a flat module of cells to a netlist of gate primitives."""

import re
from collections import Counter, defaultdict
from typing import Dict, Iterator, List, NamedTuple, Optional, Set

from constants import Constants
from delays import DefaultDelays, Delay, Output, Pins
from gates import GateWriter
from library import STATE, Library
from names import Names
from netlist import MOST_GATES, MOST_INPUTS, Netlist, Port, spelled, terminals
from refusal import Refusal
from registers import Register, in_words, shell_lines
from sdf import place_of
from yosys_json import CONSTANTS, Bit, Cell, Design, Vector

CONNECT = "connect it; `setundef -zero` of yosys makes undriven nets 0"


class Asked(NamedTuple):
    """How cells are read: each pin with its own delays, latches (open, cut, or `auto`: open where
    their enable is an input), the kinds of cells whose state the library has in a table, and the
    nets that stay by their names.
    """

    each_pin: bool = True
    latch: str = "auto"
    states: Dict[str, str] = {}
    kept: List[str] = []


def loop_of(reads: Dict[Bit, Set[Bit]], looped: Set[Bit]) -> List[Bit]:
    """The nets of one loop, of nets that each lead from one."""
    net = min(looped, key=str)
    seen: Dict[Bit, int] = {}
    path: List[Bit] = []
    while net not in seen:
        seen[net] = len(path)
        path.append(net)
        net = min((it for it in reads[net] if it in looped), key=str)
    return path[seen[net] :]


class Conversion:
    """Writes one module.

    After `run`, `netlist` has its gates, `registers` what was cut out, and `notes` what a reader
    has to know.
    """

    def __init__(self, design: Design, top: str, delays: DefaultDelays, reading: Asked):
        if top not in design:
            raise Refusal(
                "NoModule",
                f"there is no module {top}",
                "name one of the design, as its source has it",
            )
        self.module, self.delays, self.latch = design[top], delays, reading.latch
        self.wanted = reading.kept
        self.library = Library(design, reading.latch != "cut", reading.states)
        cells = sorted(self.module.cells, key=lambda cell: cell.name)
        for cell in cells:
            self.library.refuse_state(cell)
        self.combinational = [cell for cell in cells if not self.library.stores(cell.kind)]
        self.storing = [cell for cell in cells if self.library.stores(cell.kind)]
        self.constants = Constants(self.library, self.combinational)
        ports = {port.name for port in self.module.inputs + self.module.outputs}
        kept = set(reading.kept) - ports
        self.kept = [net for net in self.module.nets if net.name in kept]
        apart = {terminal for terminal in self.port_bits() if self.wire_to(terminal)}
        self.names = Names(self.module, apart, kept)
        self.writer = GateWriter(self.names, delays, reading.each_pin)
        self.netlist = Netlist(top)
        self.port_names = {port.name for port in self.module.inputs + self.module.outputs}
        self.opened = [cell for cell in self.combinational if self.library.latches(cell.kind)]
        self.open_names = {cell.name for cell in self.opened}
        self.held: Dict[str, int] = {}
        self.input_bits = {bit for port in self.module.inputs for bit in port.bits}
        self.registers: List[Register] = []
        self.clocks: List[str] = []
        self.notes: List[str] = []

    def run(self):
        """Writes the gates, the registers' ports, and the outputs."""
        self.refuse_like_instances()
        self.refuse_undriven()
        self.open_latches()
        self.refuse_loops()
        for cell in self.combinational:
            self.combinational_cell(cell)
        cuts = [(cell, self.register_name(cell)) for cell in self.storing if cell.outputs]
        for cell, name in sorted(cuts, key=lambda cut: in_words(cut[1])):
            self.register(cell, name)
        self.ports()
        self.refuse_lost()
        self.netlist.gates = self.writer.gates
        self.notes += self.kinds_of_registers()
        self.notes += self.delays.notes({cell.name: cell.kind for cell in self.module.cells})

    # What is refused.

    def refuse_like_instances(self):
        """Two instances whose names an SDF file can't tell apart."""
        if not self.delays.by_instance:
            return
        for name, count in Counter(place_of(cell.name) for cell in self.module.cells).items():
            if count > 1:
                raise Refusal(
                    "LikeInstances",
                    f"two instances are called {name} but for . and /",
                    "rename one of them",
                )

    def refuse_undriven(self):
        """A net that nothing drives, or that two do."""
        drivers = Counter(bit for port in self.module.inputs for bit in port.bits)
        drivers.update(bit for cell in self.module.cells for bit in cell.outputs.values())
        reads = {
            bit: f"{pin} of {cell.name}, a {cell.kind}"
            for cell in self.module.cells
            for pin, bit in cell.inputs.items()
        }
        reads.update(
            (bit, f"the output {port.name}") for port in self.module.outputs for bit in port.bits
        )
        for bit, reader in reads.items():
            if bit not in drivers and bit not in CONSTANTS:
                raise Refusal("NoDriver", f"nothing drives {reader}", CONNECT)
        for bit, count in drivers.items():
            if count > 1:
                raise Refusal(
                    "TwoDrivers",
                    f"{count} cells drive {self.terminal(bit)}",
                    "gates drive a net each: leave tristate buses out",
                )

    def open_latches(self):
        """Finds what holds the latches open: an input that nothing else reads, where it isn't said
        that they are open.
        """
        closed = (cell for cell in self.module.cells if cell.name not in self.open_names)
        others = {bit for cell in closed for bit in cell.inputs.values()}
        others |= {bit for port in self.module.outputs for bit in port.bits}
        for cell in self.opened:
            when = self.library.when_pins(cell)
            others |= {bit for pin, bit in cell.inputs.items() if pin not in when}
        for cell in self.opened:
            for pin, level in self.library.open_level(cell).items():
                bit = cell.inputs.get(pin)
                alone = bit in self.input_bits and bit not in others
                if alone and self.held.setdefault(self.terminal(bit), level) == level:
                    continue
                if self.latch != "open":
                    raise Refusal(
                        "LatchEnable",
                        f"the enable of the latch {cell.name} isn't an input that only holds "
                        "latches open",
                        "--latch open times it as if it were open, --latch cut makes ports of it",
                    )
        if self.opened:
            held = ", ".join(f"{bare_terminal(net)}={level}" for net, level in self.held.items())
            self.notes.append(
                f"{len(self.opened)} latches are open, from D to Q ({held or 'as said'})"
            )

    def refuse_loops(self):
        """Nets that form a loop, by leaving out all that don't lead to one."""
        reads, readers = {}, defaultdict(set)
        for cell in self.combinational:
            for pin, bit in cell.outputs.items():
                function = self.constants.function(cell, pin)
                before = {cell.inputs[it] for it in function.pins if it in cell.inputs}
                reads[bit] = before
                for net in before:
                    readers[net].add(bit)
        count = {bit: sum(1 for net in before if net in reads) for bit, before in reads.items()}
        left = [bit for bit, number in count.items() if not number]
        while left:
            for reader in readers[left.pop()]:
                count[reader] -= 1
                if not count[reader]:
                    left.append(reader)
        looped = {bit for bit, number in count.items() if number}
        if looped:
            nets = loop_of(reads, looped)
            names = [bare_terminal(self.terminal(bit)) for bit in nets]
            given = next(
                (name for name in names if not re.fullmatch(r"_\w+_|t\d+_.*", name)), names[0]
            )
            raise Refusal(
                "Loop",
                f"the nets {', '.join(names[:8])} form a loop",
                f"--cut-net {given} makes an input {given}.q and an output {given}.d of it",
            )

    def refuse_lost(self):
        """Nets that should stay, and aren't there."""
        known = self.port_names | {net.name for net in self.kept}
        known |= {port.name for port in self.netlist.inputs + self.netlist.outputs}
        known |= {bare_terminal(gate.output) for gate in self.writer.gates}
        for name in self.wanted:
            if name not in known:
                raise Refusal(
                    "NoNet",
                    f"no net is called {name}",
                    "name one of the netlist, as its source has it",
                )

    def kinds_of_registers(self) -> Iterator[str]:
        """One note for each kind of register, with its edge and its clocks."""
        kinds = defaultdict(list)
        for register in self.registers:
            kinds[register.cell.kind].append(register)
        for kind, found in sorted(kinds.items()):
            clocks = sorted({bare_terminal(net) for it in found for net in it.clocks.values()})
            of = f" of {', '.join(clocks[:3])}" if clocks else " of a clock that logic makes"
            late = (
                "D to Q isn't timed" if self.library.latches(kind) else "states change at moment 0"
            )
            edge = self.library.edge(found[0].cell)
            yield f"{len(found)} {kind} are cut, {edge}{of}: {late}"

    def refuse_too_large(self):
        """More than tdelay reads."""
        if len(self.netlist.gates) > MOST_GATES:
            remedy = "take --pins worst, fewer --outputs, or a part of the design"
            raise Refusal(
                "TooManyGates",
                f"{len(self.netlist.gates):,} gates, and the limit is {MOST_GATES:,}",
                remedy,
            )
        inputs = sum(len(terminals(port)) for port in self.netlist.inputs)
        if inputs > MOST_INPUTS:
            raise Refusal(
                "TooManyInputs",
                f"{inputs:,} inputs and registers, and the limit is {MOST_INPUTS:,}",
                "take a part of the design",
            )

    # Cells.

    def terminal(self, bit: Bit) -> str:
        """A net as a gate reads it."""
        if bit in self.constants.levels:
            return f"1'b{self.constants.levels[bit]}"
        if bit not in self.names.terminals:
            self.names.terminals[bit] = self.names.new_net()
        return self.names.terminals[bit]

    def combinational_cell(self, cell: Cell):
        for pin, bit in cell.outputs.items():
            output = Output(cell.name, cell.kind, pin)
            pins = self.library.function(cell, pin).pins
            if cell.name in self.open_names:
                pins += tuple(self.library.when_pins(cell))
            self.delays.refuse_strangers(output, pins)
            if bit in self.constants.levels:
                continue
            function = self.constants.function(cell, pin)
            for read in function.pins:
                if read not in cell.inputs:
                    raise Refusal(
                        "NoDriver",
                        f"{read} of {cell.name}, a {cell.kind}, is connected to nothing",
                        CONNECT,
                    )
            reads = {read: self.terminal(cell.inputs[read]) for read in function.pins}
            self.writer.write(
                output, function, self.delays.of(output, function), reads, self.terminal(bit)
            )

    # Registers.

    def register_name(self, cell: Cell) -> str:
        """That of the net which has its state, else of the instance."""
        state = self.library.state_output(cell.kind)
        if state not in cell.outputs:
            return cell.name
        return bare_terminal(self.terminal(cell.outputs[state]))

    def register(self, cell: Cell, name: str):
        """Cuts out a flip-flop or a latch: an input, its outputs' gates, and outputs."""
        port = self.names.new(f"{name}.q")
        self.netlist.inputs.append(Port(port))
        state_pin = self.library.state_output(cell.kind)
        is_port = re.sub(r"\[\d+\]$", "", name) in self.port_names
        in_shell = port if is_port or state_pin not in cell.outputs else name
        register = Register(cell, name, port, state_pin, in_shell)
        when, (state,) = self.library.when_pins(cell), STATE.pins
        for pin, bit in cell.outputs.items():
            output, function = Output(cell.name, cell.kind, pin), self.library.function(cell, pin)
            delay = self.delays.of_register(output, when)
            delays = Pins({state: delay}) if delay else None
            target = self.terminal(bit)
            self.writer.write(output, function, delays, {state: spelled(port)}, target)
        for pin, bit in cell.inputs.items():
            if pin in when and bit in self.input_bits:
                register.clocks[pin] = self.terminal(bit)
                continue
            taken = self.names.new(f"{name}.{pin.lower()}")
            register.takes[pin] = taken
            self.netlist.outputs.append(Port(taken))
            self.writer.copy(spelled(taken), self.terminal(bit))
        self.registers.append(register)

    # Ports.

    def port_bits(self) -> Iterator[str]:
        """All bits of the outputs, as terminals."""
        for port in self.module.outputs:
            yield from terminals(Port(port.name, port.bounds))

    def wire_to(self, terminal: str) -> Optional[Delay]:
        """The delays of the wire to a bit of an output, where it has any."""
        return self.delays.of_port(bare_terminal(terminal))

    def ports(self):
        """The module's own ports: before those of registers, without clocks that no gate reads."""
        clocks = {
            bit
            for register in self.registers
            for pin, bit in register.cell.inputs.items()
            if pin in register.clocks
        }
        read = {
            bit
            for cell in self.combinational
            for pin, bit in cell.inputs.items()
            if cell.name not in self.open_names or pin not in self.library.when_pins(cell)
        }
        read |= {
            bit
            for register in self.registers
            for pin, bit in register.cell.inputs.items()
            if pin in register.takes
        }
        read |= {bit for net in self.module.outputs + self.kept for bit in net.bits}
        inputs = []
        for port in self.module.inputs:
            terminals_of = {self.terminal(bit) for bit in port.bits if bit in self.input_bits}
            if terminals_of and terminals_of <= set(self.held):
                continue
            if set(port.bits) <= clocks - read:
                self.clocks.append(port.name)
                self.notes.append(f"the input {port.name} is left out: a clock that no gate reads")
            else:
                inputs.append(Port(port.name, port.bounds))
        outputs = [Port(port.name, port.bounds) for port in self.module.outputs]
        for port in self.module.outputs:
            self.output_bits(port)
        for net in self.kept:
            self.output_bits(net, "net")
        self.netlist.inputs = inputs + self.netlist.inputs
        self.netlist.outputs = outputs + self.netlist.outputs
        known = {port.name for port in self.netlist.inputs + self.netlist.outputs}
        self.netlist.wires = [
            Port(name, bounds) for name, bounds in self.names.vectors.items() if name not in known
        ]

    def output_bits(self, vector: Vector, what: str = "output"):
        """A gate for each bit of an output, or of a net that stays, that is an input, a constant,
        the net of another one, or the end of a wire with a delay.
        """
        port = Port(vector.name, vector.bounds)
        for place, bit in enumerate(vector.bits):
            target, source = port.terminal(vector.number(place)), self.terminal(bit)
            wire = self.wire_to(target)
            if wire:
                self.writer.copy(target, source, wire)
            elif source != target:
                names = f"the {what} {bare_terminal(target)} is {bare_terminal(source)}"
                self.notes.append(f"{names}: it comes by a buf, one step later")
                self.writer.copy(target, source)

    def shell(self) -> Iterator[str]:
        """The module as it was, with its registers around the gates."""
        inputs = [Port(port.name, port.bounds) for port in self.module.inputs]
        outputs = [Port(port.name, port.bounds) for port in self.module.outputs]
        return shell_lines(self.netlist, self.registers, inputs, outputs)


def bare_terminal(terminal: str) -> str:
    """A terminal without what escapes its name."""
    return terminal.replace("\\", "").replace(" ", "") if terminal.startswith("\\") else terminal
