"""A netlist of gate primitives, and how it is written in Verilog."""

import re
from dataclasses import dataclass, field
from typing import Iterator, List, NamedTuple, Optional, Set, Tuple

from delays import Delay

RESERVED = set(
    """always and assign automatic begin buf bufif0 bufif1 case casex casez cell cmos config
    deassign default defparam design disable edge else end endcase endconfig endfunction endgenerate
    endmodule endprimitive endspecify endtable endtask event for force forever fork function
    generate genvar highz0 highz1 if ifnone incdir include initial inout input instance integer join
    large liblist library localparam macromodule medium module nand negedge nmos nor noshowcancelled
    not notif0 notif1 or output parameter pmos posedge primitive pull0 pull1 pulldown pullup
    pulsestyle_ondetect pulsestyle_onevent rcmos real realtime reg release repeat rnmos rpmos rtran
    rtranif0 rtranif1 scalared showcancelled signed small specify specparam strong0 strong1 supply0
    supply1 table task time tran tranif0 tranif1 tri tri0 tri1 triand trior trireg unsigned use
    uwire vectored wait wand weak0 weak1 while wire wor xnor xor""".split()
)

# The limits of tdelay.
MOST_GATES = 200_000
MOST_INPUTS = 4_096

Bounds = Optional[Tuple[int, int]]


def spelled(name: str) -> str:
    """A name as Verilog writes it: escaped, with a space after it, where it has to be (IEEE
    1364-2005, clause 3.7).
    """
    plain = re.fullmatch(r"[A-Za-z_][A-Za-z0-9_$]*", name, re.ASCII) and name not in RESERVED
    return name if plain else f"\\{name} "


class Port(NamedTuple):
    """A port, or a net that is declared, with its range where it is a vector."""

    name: str
    bounds: Bounds = None

    def declared(self, way: str) -> str:
        span = f"[{self.bounds[0]}:{self.bounds[1]}] " if self.bounds else ""
        return f"{way} {span}{spelled(self.name)};"

    def terminal(self, number: int) -> str:
        """A bit of it as a terminal of a gate."""
        return spelled(self.name) + (f"[{number}]" if self.bounds else "")


class Gate(NamedTuple):
    """A gate primitive; without a delay it takes the default."""

    kind: str
    delay: Optional[Delay]
    output: str
    inputs: Tuple[str, ...]

    def __str__(self):
        delay = f"#({self.delay.rise},{self.delay.fall}) " if self.delay else ""
        return f"{self.kind} {delay}({', '.join((self.output, *self.inputs))});"


@dataclass
class Netlist:
    """A module of gate primitives."""

    name: str
    inputs: List[Port] = field(default_factory=list)
    outputs: List[Port] = field(default_factory=list)
    wires: List[Port] = field(default_factory=list)
    gates: List[Gate] = field(default_factory=list)

    def lines(self, comments: List[str], step: Optional[str] = None) -> Iterator[str]:
        """Its text. A step of time, where there is one, is the unit too."""
        yield from (f"// {comment}" for comment in comments)
        if step:
            yield f"`timescale {step}/{step}"
        ports = ", ".join(spelled(port.name) for port in self.inputs + self.outputs)
        yield f"module {spelled(self.name)} ({ports});"
        for way, ports in (("input", self.inputs), ("output", self.outputs), ("wire", self.wires)):
            yield from (port.declared(way) for port in ports)
        yield from map(str, self.gates)
        yield "endmodule"

    def keep_outputs(self, names: Set[str], nets: List[Port]):
        """Leaves out all other outputs, and the gates on which none of these and of the nets
        depends.
        """
        dropped = [port for port in self.outputs if port.name not in names]
        self.outputs = [port for port in self.outputs if port.name in names]
        self.wires += [port for port in dropped if port.bounds]
        drivers = {gate.output: gate for gate in self.gates}
        left = [terminal for port in self.outputs + nets for terminal in terminals(port)]
        needed = set()
        while left:
            terminal = left.pop()
            if terminal in drivers and terminal not in needed:
                needed.add(terminal)
                left += drivers[terminal].inputs
        self.gates = [gate for gate in self.gates if gate.output in needed]


def terminals(port: Port) -> List[str]:
    """All bits of a port."""
    if not port.bounds:
        return [port.terminal(0)]
    low, high = sorted(port.bounds)
    return [port.terminal(number) for number in range(low, high + 1)]
