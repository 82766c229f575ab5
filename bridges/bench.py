#!/usr/bin/env python3
"""bench.py FILE.bench > OUT.v: writes a netlist of ISCAS .bench form (as of the sets of 1985 and
1989) as Verilog gate primitives for tdelay.

Such a file has no delays, so each gate takes tdelay's default. Flip-flops are cut out: the output Q
of `Q = DFF(D)` becomes an input Q, and what it takes an output Q.d.
"""

import os
import re
import sys
from collections import Counter
from typing import List

from netlist import Gate, Netlist, Port, spelled
from refusal import Refusal, ending_by_name

KINDS = {
    "INV": "not",
    "BUFF": "buf",
    **{kind.upper(): kind for kind in ("and", "nand", "or", "nor", "xor", "xnor", "not", "buf")},
}
PORT = re.compile(r"(INPUT|OUTPUT)\s*\(\s*([^\s(),=]+)\s*\)", re.I)
GATE = re.compile(r"([^\s(),=]+)\s*=\s*(\w+)\s*\(\s*([^\s(),=]+(?:\s*,\s*[^\s(),=]+)*)\s*\)")


class Reader:
    """Reads the lines of a file into a netlist."""

    def __init__(self, name: str):
        self.netlist = Netlist(name)
        self.inputs: List[str] = []
        self.outputs: List[str] = []

    def line(self, number: int, text: str):
        """One line, without its comment."""
        port, gate = PORT.fullmatch(text), GATE.fullmatch(text)
        if port:
            (self.inputs if port[1].upper() == "INPUT" else self.outputs).append(port[2])
        elif gate:
            self.gate(number, gate[1], gate[2].upper(), re.split(r"\s*,\s*", gate[3]))
        elif text:
            raise Refusal(
                "BenchSyntax",
                f"line {number}: {text}",
                "write INPUT(N), OUTPUT(N) or N = KIND(N, ..)",
            )

    def gate(self, number: int, output: str, kind: str, nets: List[str]):
        if kind == "DFF" and len(nets) == 1:
            self.inputs.append(output)
            self.outputs.append(f"{output}.d")
            self.add("buf", f"{output}.d", nets)
        elif kind in KINDS and (len(nets) == 1 or KINDS[kind] not in ("buf", "not")):
            self.add(KINDS[kind], output, nets)
        else:
            remedy = f"take one of {', '.join(KINDS)} or DFF, and one net for NOT, BUF and DFF"
            raise Refusal(
                "BenchKind", f"line {number}: {kind} of {len(nets)} nets isn't known", remedy
            )

    def add(self, kind: str, output: str, nets: List[str]):
        self.netlist.gates.append(Gate(kind, None, spelled(output), tuple(map(spelled, nets))))

    def ended(self) -> Netlist:
        """The netlist.

        An output that is an input or a state gets a gate of its own, and the name N.o.
        """
        ports = []
        for output in dict.fromkeys(self.outputs):
            ports.append(f"{output}.o" if output in self.inputs else output)
            if ports[-1] != output:
                self.add("buf", ports[-1], [output])
        driven = Counter(
            [gate.output for gate in self.netlist.gates] + [spelled(name) for name in self.inputs]
        )
        for net in [net for gate in self.netlist.gates for net in gate.inputs] + [
            spelled(name) for name in ports
        ]:
            if driven[net] != 1:
                raise Refusal(
                    "BenchNet", f"{net.strip()} has {driven[net]} drivers", "give each net one"
                )
        self.netlist.inputs = [Port(name) for name in self.inputs]
        self.netlist.outputs = [Port(name) for name in ports]
        return self.netlist


def main():
    if len(sys.argv) != 2:
        sys.exit(__doc__)
    name = re.sub(r"\W", "_", os.path.splitext(os.path.basename(sys.argv[1]))[0])
    reader = Reader(name if name[:1].isalpha() else f"c{name}")
    with open(sys.argv[1]) as file:
        for number, line in enumerate(file, 1):
            reader.line(number, line.split("#")[0].strip())
    file_name = os.path.basename(sys.argv[1])
    comment = f"{file_name}, written by bench.py: no delays, so each gate takes the default."
    print("\n".join(reader.ended().lines([comment])))


if __name__ == "__main__":
    ending_by_name("bench.py", main)
