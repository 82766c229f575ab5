"""Circuits that are measured: those of examples/, some that are made here, and those of a folder.

Made are `adder_N` and `mult_N`, built as examples/adder_8.v and mult_8.v are, and `random_N` of N
gates with 100 inputs. Texts that are long to read are `chain_N` of N buffers front to back,
`back_N` of as many back to front, `noted_N` as `chain_N` with a comment of 250 bytes after each
gate, `and8_N` and `and1024_N` of N `and` gates of 8 and of 1,024 terminals, all on the same inputs,
`comment_N` of one buffer and one comment, N bytes in all, and `inverters_N` of N inputs with an
inverter each. Slow to search are `doubling_N`, N levels whose changes double, and `xor1000_N` of N
`xor` gates of 1,000 terminals.
"""

import os
import random
import re

from . import places
from .netlists import chain, module

SEED = 7
BILLION = 1_000_000_000


class Gates:
    """Gates of a netlist as text, with a new net for the output of each."""

    def __init__(self):
        self.lines = []

    def gate(self, kind, *inputs):
        delays = {
            "xor": "4,4",
            "and": "3,2",
            "or": "2,3",
            "buf": "1,1",
            "nand": "2,1",
            "nor": "1,2",
            "not": "1,1",
        }[kind]
        net = f"w{len(self.lines) + 1}"
        self.lines.append(f"{kind} #({delays}) ({net}, {', '.join(inputs)});")
        return net

    def half(self, one, other):
        return self.gate("xor", one, other), self.gate("and", one, other)

    def full(self, one, other, carry):
        half = self.gate("xor", one, other)
        total = self.gate("xor", half, carry)
        both = self.gate("and", one, other)
        return total, self.gate("or", both, self.gate("and", half, carry))

    def module(self, name, inputs, outputs):
        """The text, where each output is driven by a buffer."""
        ports = ", ".join([*inputs, *outputs])
        buffers = [f"buf #(1,1) ({output}, {net});" for output, net in outputs.items()]
        head = (
            f"module {name} ({ports});\ninput {', '.join(inputs)};\noutput {', '.join(outputs)};\n"
        )
        return head + "\n".join([*self.lines, *buffers]) + "\nendmodule\n"


def adder(bits):
    """A ripple adder, built as examples/adder_8.v is."""
    gates, carry, sums = Gates(), "cin", {}
    for place in range(bits):
        sums[f"s{place}"], carry = gates.full(f"a{place}", f"b{place}", carry)
    inputs = [f"{letter}{place}" for letter in "ab" for place in range(bits)]
    return gates.module(f"adder{bits}", [*inputs, "cin"], {**sums, "cout": carry})


def multiplier(bits):
    """An array multiplier, built as examples/mult_8.v is."""
    gates = Gates()
    rows = [
        [gates.gate("and", f"a{place}", f"b{row}") for place in range(bits)] for row in range(bits)
    ]
    products, left = {"p0": rows[0][0]}, rows[0][1:]
    for number, row in enumerate(rows[1:], 1):
        sums, carry = [], None
        for place, net in enumerate(row):
            terms = [net, *left[place : place + 1], *([carry] if carry else [])]
            total, carry = gates.full(*terms) if len(terms) == 3 else gates.half(*terms)
            sums.append(total)
        products[f"p{number}"], left = sums[0], [*sums[1:], carry]
    products.update({f"p{bits + place}": net for place, net in enumerate(left)})
    return gates.module(
        f"mult{bits}", [f"{letter}{place}" for letter in "ab" for place in range(bits)], products
    )


def random_netlist(count, inputs, seed):
    """Gates of two or three inputs, each among the 200 nets before it; the last 50 nets are
    outputs.
    """
    draw, gates = random.Random(seed), Gates()
    nets = [f"i{place}" for place in range(inputs)]
    for _ in range(count):
        kind = draw.choice(("and", "or", "nand", "nor", "xor"))
        nets.append(gates.gate(kind, *draw.sample(nets[-200:], draw.choice((2, 2, 3)))))
    return gates.module(
        "t", nets[:inputs], {f"o{place}": net for place, net in enumerate(nets[-50:])}
    )


def back(count):
    """A chain of buffers, the last one first."""
    numbers = reversed(range(count))
    gates = (f"buf #1 (w{number + 1},w{number})" for number in numbers)
    return module("w0", f"w{count}", *gates)


def noted(count):
    """A chain of buffers with a comment of 250 bytes after each."""
    comment = "// " + "note " * 49 + ".\n"
    head, *gates = chain(count).split("buf ")
    return head + "".join(f"buf {gate}{comment}" for gate in gates[:-1]) + f"buf {gates[-1]}"


def ands(count, terminals):
    """Gates of this many terminals, all on the same inputs."""
    inputs = ",".join(f"a{number}" for number in range(terminals - 1))
    nets = ["y", *(f"w{number}" for number in range(count - 1))]
    return module(inputs, "y", *(f"and #1 ({net},{inputs})" for net in nets))


def commented(size):
    """One buffer and one comment, of this many bytes."""
    head, tail = "/*", "*/\n" + module("a", "y", "buf #1 (y,a)")
    return head + "x" * (size - len(head) - len(tail)) + tail


def inverters(count):
    """Inverters side by side, each with an input of its own."""
    inputs, outputs = (",".join(f"{it}{place}" for place in range(count)) for it in "ay")
    return module(inputs, outputs, *(f"not #1 g{it}(y{it},a{it})" for it in range(count)))


def doubling(levels):
    """Levels whose changes double, and the moment of the output's last change: each is an xor of
    the level before and a delayed copy of it. The delays halve from level to level, so that no two
    changes meet and no pulse is lost.
    """
    lines, level, last, count = [], "a", 0, 0
    for place in range(levels):
        copy, delay = level, 2 ** (levels - place)
        last += delay + 1
        while delay:
            step = min(delay, BILLION)
            lines.append(f"buf #{step} (c{count},{copy});")
            copy, delay, count = f"c{count}", delay - step, count + 1
        after = f"x{place}" if place + 1 < levels else "y"
        lines.append(f"xor #1 ({after},{level},{copy});")
        level = after
    return "module t(a,y);\ninput a;\noutput y;\n" + "\n".join(lines) + "\nendmodule\n", last


def xors(count, terminals):
    """Gates that read the outputs of those before them, by many terminals, and inputs."""
    inputs = [f"a{number}" for number in range(terminals - 1)]
    nets, gates = list(inputs), []
    for number in range(count):
        net = "y" if number + 1 == count else f"w{number}"
        gates.append(f"xor #({1 + number % 3},2) ({net},{','.join(nets[1 - terminals :])})")
        nets.append(net)
    return module(",".join(inputs), "y", *gates)


MADE = {
    "adder": adder,
    "mult": multiplier,
    "random": lambda count: random_netlist(count, 100, SEED),
    "chain": chain,
    "back": back,
    "noted": noted,
    "and8": lambda count: ands(count, 8),
    "and1024": lambda count: ands(count, 1024),
    "comment": commented,
    "inverters": inverters,
    "doubling": lambda levels: doubling(levels)[0],
    "xor1000": lambda count: xors(count, 1000),
}


def path_of(name, folder, netlists):
    """The path of a netlist by its name: of the folder of netlists, where one is given, of
    examples/ or examples/real/, or written into `folder`. None where there is none.
    """
    for place in (netlists, places.EXAMPLES, places.example("real")):
        path = os.path.join(place or folder, f"{name}.v")
        if os.path.exists(path):
            return path
    found = re.fullmatch(r"([a-z]+\d*)_(\d+)", name)
    if not found or found[1] not in MADE:
        return None
    with open(path := os.path.join(folder, f"{name}.v"), "w", encoding="ascii") as file:
        file.write(MADE[found[1]](int(found[2])))
    return path
