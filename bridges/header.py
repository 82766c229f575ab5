"""What a netlist of gates that the bridges wrote says at its head: its ports, and what was left
out.
"""

import re
from dataclasses import dataclass, field
from typing import Dict, List, Tuple

from netlist import Port, spelled
from refusal import Refusal

PORT = re.compile(r"^(input|output) (?:\[(\d+):(\d+)\] )?(\\\S+ |\w[\w$]*);$", re.M)


@dataclass
class Header:
    """A module's name, its step, its ports in their order, the clocks that no gate reads, the
    levels that hold latches open, the cuts, as words of the command line, and the nets that stay.
    """

    name: str
    step: str
    inputs: List[Port] = field(default_factory=list)
    outputs: List[Port] = field(default_factory=list)
    clocks: List[str] = field(default_factory=list)
    held: Dict[str, int] = field(default_factory=dict)
    open_inside: bool = False
    cuts: List[str] = field(default_factory=list)
    kept: List[str] = field(default_factory=list)

    @staticmethod
    def of(text: str) -> "Header":
        """That of a netlist's text."""
        head = re.search(r"^module (\\\S+|\S+) +\(", text, re.M)
        if not head:
            raise Refusal("NoGates", "this is no netlist of gates", "write it by from_liberty.sh")
        step = re.search(r"^`timescale (\S+?)/", text, re.M)
        found = Header(bare(head[1]), step[1] if step else "1ns")
        for way, left, right, name in PORT.findall(text):
            bounds = (int(left), int(right)) if left else None
            (found.inputs if way == "input" else found.outputs).append(Port(bare(name), bounds))
        for key, said in re.findall(r"^// (Clock|Open|Cut|Kept): (.*)$", text, re.M):
            if key == "Clock":
                found.clocks.append(said)
            elif key == "Cut":
                found.cuts = said.split()
            elif key == "Kept":
                found.kept = said.split()
            elif "=" in said:
                net, _, level = said.rpartition("=")
                found.held[bare(net)] = int(level)
            else:
                found.open_inside = True
        found.open_inside = found.open_inside and not found.held
        return found

    @property
    def states(self) -> List[Port]:
        """The inputs that are states of registers."""
        return [port for port in self.inputs if port.name.endswith(".q")]


def bare(name: str) -> str:
    return name.strip().lstrip("\\")


def width(port: Port) -> int:
    return abs(port.bounds[0] - port.bounds[1]) + 1 if port.bounds else 1


def slices(ports: List[Port]) -> Dict[str, Tuple[int, int]]:
    """The place of each port in a vector that has their characters in order: first and last."""
    found, first = {}, 0
    for port in ports:
        found[port.name] = (first, first + width(port))
        first += width(port)
    return found


def path_of(name: str, top: str) -> str:
    """A net below an instance, as a hierarchical name of Verilog."""
    parts = [part if re.fullmatch(r"[A-Za-z_][\w$]*(\[\d+\])*", part) else spelled(part)
             for part in name.split(".")]  # fmt: skip
    return ".".join([top, *parts])
