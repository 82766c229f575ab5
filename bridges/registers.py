"""Cuts flip-flops and latches out of a netlist, and writes the shell that has them around the
gates.

The state of a register is an input NAME.q, where NAME is the net at its output: moment 0 is the
clock's edge, and the delay from the clock to the output is a gate after it. What the register takes
is an output NAME.PIN for each pin, as NAME.d. A clock that is an input isn't part of the gates.
"""

import re
from dataclasses import dataclass, field
from typing import Dict, Iterator, List

from netlist import Netlist, Port, spelled
from yosys_json import Cell


@dataclass
class Register:
    """A storing cell that was cut out."""

    cell: Cell
    # The register's name, the input that has its state, the pin of the cell that has it, and the
    # net that it is in the shell.
    name: str
    port: str
    state_pin: str
    state_net: str
    # The outputs of the gates that its pins take, and the module's inputs at its clock pins.
    takes: Dict[str, str] = field(default_factory=dict)
    clocks: Dict[str, str] = field(default_factory=dict)

    def instance(self) -> str:
        """The cell as it stands in the shell."""
        pins = {
            self.state_pin: spelled(self.state_net),
            **self.clocks,
            **{pin: spelled(port) for pin, port in self.takes.items()},
        }
        connections = ", ".join(f".{spelled(pin)}({net})" for pin, net in pins.items())
        return f"{spelled(self.cell.kind)} {spelled(self.cell.name)} ({connections});"


def in_words(name: str) -> list:
    """A name as its order needs it: numbers in it by their size."""
    return [
        (1, int(part), "") if part.isdigit() else (0, 0, part) for part in re.split(r"(\d+)", name)
    ]


def shell_lines(
    netlist: Netlist, registers: List[Register], inputs: List[Port], outputs: List[Port]
) -> Iterator[str]:
    """The module as it was, with its registers, and with the gates as an instance."""
    ports = inputs + outputs
    names = ", ".join(spelled(port.name) for port in ports)
    yield f"module {spelled(netlist.name + '_shell')} ({names});"
    yield from (port.declared("input") for port in inputs)
    yield from (port.declared("output") for port in outputs)
    own = {port.name for port in ports}
    nets = {port.name: port.name for port in netlist.inputs + netlist.outputs}
    nets.update((register.port, register.state_net) for register in registers)
    yield from (f"wire {spelled(net)};" for name, net in nets.items() if name not in own)
    yield from (register.instance() for register in registers)
    connections = ", ".join(f".{spelled(name)}({spelled(net)})" for name, net in nets.items())
    yield f"{spelled(netlist.name)} gates ({connections});"
    yield "endmodule"
