"""Reads a design from the JSON that `write_json` of yosys writes."""

import json
from dataclasses import dataclass
from typing import Dict, List, Optional, Tuple, Union

from cells import Pin
from refusal import Refusal

# A net by its number, or "0", "1", "x" or "z".
Bit = Union[int, str]
CONSTANTS = {"0": 0, "1": 1}


@dataclass(frozen=True)
class Vector:
    """The bits of a port or of a named net, lowest first, and how they are numbered."""

    name: str
    bits: Tuple[Bit, ...]
    first: int
    upwards: bool
    hidden: bool

    @staticmethod
    def of(name: str, item: dict) -> "Vector":
        return Vector(
            name,
            tuple(item["bits"]),
            item.get("offset", 0),
            bool(item.get("upto", 0)),
            bool(item.get("hide_name", 0)),
        )

    def number(self, place: int) -> int:
        return self.first + (len(self.bits) - 1 - place if self.upwards else place)

    @property
    def bounds(self) -> Optional[Tuple[int, int]]:
        """The range of the declaration, or None of a scalar."""
        if len(self.bits) == 1 and not self.first:
            return None
        return self.number(len(self.bits) - 1), self.number(0)


@dataclass(frozen=True)
class Cell:
    """An instance. The pins of a `$lut` are the places of its vector."""

    name: str
    kind: str
    parameters: Dict[str, str]
    inputs: Dict[Pin, Bit]
    outputs: Dict[str, Bit]


@dataclass(frozen=True)
class Module:
    """A module: ports are `input` or `output`."""

    name: str
    inputs: List[Vector]
    outputs: List[Vector]
    nets: List[Vector]
    cells: List[Cell]
    black_box: bool = False


def bare(name: str) -> str:
    """A name as it was given: yosys leaves a backslash before one that begins with a digit, `$` or
    a backslash.
    """
    return name[1:] if name.startswith("\\") else name


def cell_of(name: str, item: dict) -> Cell:
    ways, kind = item.get("port_directions"), bare(item["type"])
    if ways is None:
        raise Refusal(
            "UnknownCell",
            f"{name} is a {kind}, which yosys doesn't know",
            "read the Liberty file that has it",
        )
    inputs, outputs = {}, {}
    for pin, bits in item["connections"].items():
        if kind == "$lut" and pin == "A":
            inputs.update(enumerate(bits))
            continue
        if len(bits) > 1 and not kind.startswith("$"):
            remedy = f"--cut {bare(name)} makes ports of its pins"
            raise Refusal("BlackBox", f"{bare(name)} is a {kind}, a black box", remedy)
        if len(bits) > 1:
            raise Refusal(
                "WidePin",
                f"{pin} of {name}, a {kind}, has {len(bits)} bits",
                "map to gates or to library cells, and flatten",
            )
        if ways[pin] == "inout":
            raise Refusal(
                "Inout",
                f"{pin} of {name}, a {kind}, is an inout",
                "there are no gates of this kind: leave the cell out",
            )
        if bits:
            (inputs if ways[pin] == "input" else outputs)[bare(pin)] = bits[0]
    return Cell(name, kind, item["parameters"], inputs, outputs)


def module_of(name: str, item: dict) -> Module:
    directions = {"input": [], "output": []}
    for port, given in item["ports"].items():
        if given["direction"] not in directions and "blackbox" in item.get("attributes", {}):
            continue
        if given["direction"] not in directions:
            raise Refusal(
                "Inout", f"{bare(port)} of {name} is an inout", "make an input or an output of it"
            )
        directions[given["direction"]].append(Vector.of(bare(port), given))
    nets = [Vector.of(bare(net), given) for net, given in item["netnames"].items()]
    cells = [
        cell_of(bare(cell), given)
        for cell, given in item["cells"].items()
        if given["type"] != "$scopeinfo"
    ]
    black_box = not cells and "blackbox" in item.get("attributes", {})
    return Module(name, directions["input"], directions["output"], nets, cells, black_box)


class Design:
    """The modules of a file, each read when it is asked for."""

    def __init__(self, text: str):
        try:
            self.given = {bare(name): item for name, item in json.loads(text)["modules"].items()}
        except (ValueError, KeyError, AttributeError, TypeError):
            raise Refusal(
                "BadJson",
                "this is no netlist of yosys",
                "write it by `yosys -p '..; write_json FILE'`",
            ) from None
        self.read: Dict[str, Module] = {}

    def __contains__(self, name: str) -> bool:
        return name in self.given

    def __getitem__(self, name: str) -> Module:
        if name not in self.read:
            try:
                self.read[name] = module_of(name, self.given[name])
            except (KeyError, AttributeError, TypeError) as fault:
                raise Refusal(
                    "BadJson",
                    f"the module {name} lacks {fault}",
                    "write it by `yosys -p '..; write_json FILE'`",
                ) from None
        return self.read[name]
