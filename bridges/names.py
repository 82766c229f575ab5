"""Names for the nets of a netlist."""

from typing import Dict, Set, Tuple

from netlist import Port
from yosys_json import Bit, Module, Vector


class Names:
    """A name for each net of a module: that of a port before others, then one of those that stay
    (`kept`), then the shortest that a person gave.

    `apart` has the bits of output ports, as terminals, that no net may be called by, since a gate
    stands before them.
    """

    def __init__(self, module: Module, apart: Set[str], kept: Set[str]):
        self.apart, self.kept = apart, kept
        self.inputs = {port.name for port in module.inputs}
        self.outputs = {port.name for port in module.outputs}
        self.ports = self.inputs | self.outputs
        self.given = {net.name for net in module.nets}
        self.taken = set(self.given)
        self.terminals: Dict[Bit, str] = {}
        self.vectors: Dict[str, Tuple[int, int]] = {}
        self.fresh = 0
        for net in sorted(module.nets, key=self.rank):
            self.name(net)

    def rank(self, net: Vector) -> tuple:
        """Names of low rank are preferred."""
        kind = 0 if net.name in self.inputs else 1 if net.name in self.outputs else 2
        kind += net.name not in self.inputs | self.outputs | self.kept
        return kind, net.hidden, len(net.name), net.name

    def name(self, net: Vector):
        """Names those bits of a net by it that have no name yet."""
        port = Port(self.shown(net), net.bounds)
        named = 0
        for place, bit in enumerate(net.bits):
            terminal = port.terminal(net.number(place))
            if isinstance(bit, int) and bit not in self.terminals and terminal not in self.apart:
                self.terminals[bit] = terminal
                named += 1
        if named:
            self.taken.add(port.name)
        if port.bounds and (named or net.name in self.ports | self.kept):
            self.vectors[port.name] = port.bounds

    def shown(self, net: Vector) -> str:
        """The net's name, or its number where yosys made the name up."""
        if not net.hidden or net.bounds is not None:
            return net.name
        numbered = (f"_{net.bits[0]}_", f"_net{net.bits[0]}_")
        return next((name for name in numbered if name not in self.given), net.name)

    def new_net(self) -> str:
        """The name of a net that no one has named."""
        self.fresh += 1
        return self.new(f"t{self.fresh}_")

    def new(self, wanted: str) -> str:
        """A name that isn't taken yet, as near to the wanted one as can be."""
        name, number = wanted, 1
        while name in self.taken:
            number += 1
            name = f"{wanted}_{number}"
        self.taken.add(name)
        return name
