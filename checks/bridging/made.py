"""Netlists of library cells that are made up: random ones, and trees, in which each net is read
once.
"""

from dataclasses import dataclass, field
from typing import Dict, List

from .cells import CELLS, REGISTERS, level, unescaped

NET_NAMES = ["w{}", "\\u1/w{} ", "\\u[{}].n ", "\\{}w ", "\\$w{} ", "\\w{}.q "]
INSTANCE_NAMES = ["g{}", "\\top.g{} ", "\\g[{}] ", "\\x/g{} "]


@dataclass
class Instance:
    """A cell: the nets or constants at its inputs, and the nets at its outputs."""

    kind: str
    name: str
    inputs: Dict[str, str]
    outputs: Dict[str, str]

    def text(self):
        pins = ", ".join(f".{pin}({net})" for pin, net in {**self.inputs, **self.outputs}.items())
        return f"{self.kind} {self.name} ({pins});"


@dataclass
class Made:
    """A netlist `t` with inputs `a`, `\\in.x`, `and_` and `\\buf`, `clk` where there are registers,
    and outputs `y` and `z`.
    """

    rng: object
    span: str = ""
    inputs: List[str] = field(default_factory=list)
    cells: List[Instance] = field(default_factory=list)
    registers: List[Instance] = field(default_factory=list)
    outputs: List[str] = field(default_factory=list)
    wires: List[str] = field(default_factory=list)

    def __post_init__(self):
        width = self.rng.randint(2, 4)
        left, right = self.rng.choice(
            [(width - 1, 0), (0, width - 1), (width + 2, 3), (3, width + 2)]
        )
        self.span = f"[{left}:{right}]"
        self.inputs = [
            f"a[{number}]" for number in range(min(left, right), max(left, right) + 1)
        ] + ["\\in.x ", "and_", "\\buf "]

    def net(self, name=None):
        """A new net."""
        name = name or self.rng.choice(NET_NAMES).format(len(self.wires))
        self.wires.append(name)
        return name

    def add(self, kind, inputs):
        """A cell that reads these nets. Answers the nets at its outputs."""
        name = self.rng.choice(INSTANCE_NAMES).format(len(self.cells))
        nets = {pin: self.net() for pin in CELLS[kind][1]}
        self.cells.append(Instance(kind, name, dict(zip(CELLS[kind][0], inputs)), nets))
        return list(nets.values())

    def add_register(self, data):
        """A flip-flop or a latch whose inputs but the clock are chosen from these nets.

        Answers the nets at its outputs.
        """
        kind = self.rng.choice(sorted(REGISTERS))
        outputs, clock, takes = REGISTERS[kind]
        number = len(self.registers)
        nets = {pin: self.net(f"r{number}" if pin == "Q" else f"rn{number}") for pin in outputs}
        inputs = {clock: "clk", **{pin: self.rng.choice(data) for pin in takes}}
        self.registers.append(Instance(kind, f"f{number}", inputs, nets))
        return list(nets.values())

    def text(self):
        """The netlist in Verilog. The last output is `z`."""
        bits, last = self.outputs[:-1], self.outputs[-1]
        clock = ["clk"] if self.registers else []
        lines = [
            f"module t ({', '.join(clock + ['a', *self.inputs[-3:], 'y', 'z'])});",
            *(f"input {net};" for net in clock + self.inputs[-3:]),
        ]
        lines += [f"input {self.span} a;", f"output [{len(bits) + 1}:2] y;", "output z;"]
        lines += [f"wire {net};" for net in self.wires]
        lines += [instance.text() for instance in self.cells + self.registers]
        lines += [f"assign y[{number}] = {net};" for number, net in enumerate(bits, 2)] + [
            f"assign z = {last};",
            "endmodule",
            "",
        ]
        return "\n".join(lines)

    def ends(self):
        """The net of each output bit, by its name."""
        return {f"y[{number}]": net for number, net in enumerate(self.outputs[:-1], 2)} | {
            "z": self.outputs[-1]
        }

    def levels(self, given):
        """The level of each net, where the inputs and the states (`NET.q`) have these."""
        known = {"1'b0": 0, "1'b1": 1, **{net: given[unescaped(net)] for net in self.inputs}}
        for register in self.registers:
            state = given[f"{register.outputs['Q']}.q"]
            known.update(
                (net, state if pin == "Q" else 1 - state) for pin, net in register.outputs.items()
            )
        for cell in self.cells:
            read = [known[net] for net in cell.inputs.values()]
            known.update((net, level(cell.kind, pin, read)) for pin, net in cell.outputs.items())
        return known


def web(rng, with_registers):
    """A random netlist: nets that are read often, constants at pins, an output that is an input."""
    made = Made(rng)
    nets = list(made.inputs)
    for _ in range(rng.randint(1, 3) if with_registers else 0):
        nets += made.add_register(nets)
    new = []
    for _ in range(rng.randint(4, 30)):
        kind = rng.choice(sorted(CELLS))
        reads = [
            rng.choice(["1'b0", "1'b1"]) if rng.random() < 0.04 else rng.choice(nets[-14:])
            for _ in CELLS[kind][0]
        ]
        found = made.add(kind, reads)
        nets += found
        new += found
    made.outputs = rng.sample(new, min(4, len(new))) + [rng.choice(new + nets[:3] + nets[:3])]
    return made


def tree(rng):
    """A netlist in which each net is read once, so that a change of one input reaches each cell by
    one pin alone.
    """
    made = Made(rng)
    pool = list(made.inputs)
    for _ in range(rng.choice([0, 0, 1])):
        pool.append(rng.choice(made.add_register(made.inputs)))
    done = []
    while len(pool) > 1:
        kind = rng.choice([kind for kind in sorted(CELLS) if len(CELLS[kind][0]) <= len(pool)])
        reads = [pool.pop(rng.randrange(len(pool))) for _ in CELLS[kind][0]]
        found = made.add(kind, reads)
        rng.shuffle(found)
        pool.append(found.pop())
        done += found
    made.outputs = done + pool if done else pool + [pool[0]]
    return made


def paths(made, sdf, slowest):
    """A function that answers when an output changes after one input has, from the levels before
    and after, by adding up arcs.

    With `slowest` a cell takes its slowest pin's delays, whichever pin changes.
    """
    drivers = {
        net: (cell, pin)
        for cell in made.cells + made.registers
        for pin, net in cell.outputs.items()
    }

    def moment(net, before, after):
        """When a net changes that does."""
        if net not in drivers:
            return 0
        cell, output = drivers[net]
        if cell.kind in REGISTERS:
            clock = REGISTERS[cell.kind][1]
            return sdf.delay(cell.name, clock, output, (after[net], after[net]))
        (pin,) = [pin for pin, it in cell.inputs.items() if before[it] != after[it]]
        earlier = moment(cell.inputs[pin], before, after)
        if slowest:
            return earlier + sdf.greatest(cell.name, cell.inputs, output)[1 - after[net]]
        return earlier + sdf.delay(cell.name, pin, output, (after[cell.inputs[pin]], after[net]))

    return (
        lambda net, before, after: moment(net, before, after) if before[net] != after[net] else -1
    )
