#!/usr/bin/env python3
"""cuts.py DESIGN.json TOP [--cut INSTANCE].. [--cut-net NET].. > OUT.json: makes ports of what
can't be gates, in a flat design of yosys.

The pins of an instance that is cut, a black box or a cell with state, become ports INSTANCE.PIN. A
net that is cut, of a loop, becomes an input NET.q, which the gates read, and an output NET.d, which
they drive. Power pins, and ports of the module that lead to nothing but power pins, are left out.
"""

import argparse
import json
import sys
from typing import Dict, List

from liberty import cells_of_files
from refusal import Refusal, ending_by_name
from yosys_json import bare


class Cutter:
    """Cuts one module of a design."""

    def __init__(self, design: dict, top: str):
        if top not in design["modules"]:
            raise Refusal("NoModule", f"there is no module {top}", "name one as its source has it")
        self.modules, self.module = design["modules"], design["modules"][top]
        self.ports, self.cells = self.module["ports"], self.module["cells"]
        self.nets = self.module["netnames"]
        self.fresh = 1 + max(
            (bit for net in self.nets.values() for bit in net["bits"] if isinstance(bit, int)),
            default=1,
        )

    def port(self, name: str, way: str, bits: list):
        """A new port."""
        if name in self.ports or name in self.nets and self.nets[name]["bits"] != bits:
            raise Refusal("CutName", f"a port or a net is called {name}", "rename it")
        self.ports[name] = {"direction": way, "bits": bits}
        self.nets[name] = {"hide_name": 0, "bits": bits, "attributes": {}}

    def instance(self, wanted: str):
        """Makes ports of an instance's pins."""
        name = same_name(wanted, self.cells)
        if name is None:
            some = ", ".join(sorted(bare(it) for it in self.cells if "$" not in it)[:5])
            raise Refusal("NoInstance", f"no instance is called {wanted}", f"name one, as {some}")
        cell = self.cells.pop(name)
        if "port_directions" not in cell:
            raise Refusal(
                "UnknownCell",
                f"{wanted} is a {bare(cell['type'])}, whose pins have no directions",
                "add a module with its ports alone, (* blackbox *), to the netlist",
            )
        for pin, bits in cell["connections"].items():
            way = {"output": "input", "input": "output"}.get(cell["port_directions"][pin])
            if way and bits:
                self.port(f"{bare(name)}.{bare(pin)}", way, bits)

    def net(self, wanted: str):
        """Parts the readers of a net from its driver."""
        bits = self.bits_of(wanted)
        new = {bit: self.fresh + place for place, bit in enumerate(bits)}
        self.fresh += len(bits)
        for cell in self.cells.values():
            for pin, read in cell["connections"].items():
                if cell["port_directions"][pin] != "output":
                    cell["connections"][pin] = [new.get(bit, bit) for bit in read]
        self.port(f"{wanted}.q", "input", [new[bit] for bit in bits])
        self.port(f"{wanted}.d", "output", bits)

    def bits_of(self, wanted: str) -> List[int]:
        """The bits of a net, or the one of NET[N]."""
        name = same_name(wanted, self.nets)
        if name is not None:
            return self.nets[name]["bits"]
        vector, bracket, number = wanted.rpartition("[")
        name = same_name(vector, self.nets)
        if name is not None and bracket and number[:-1].isdigit():
            place = int(number[:-1]) - self.nets[name].get("offset", 0)
            if 0 <= place < len(self.nets[name]["bits"]):
                return [self.nets[name]["bits"][place]]
        raise Refusal(
            "NoNet", f"no net is called {wanted}", "name one of the netlist, as its source has it"
        )

    def power(self, pins: Dict[str, List[str]]):
        """Leaves out the power pins of cells, and the ports both ways that lead to nothing else."""
        dropped = {
            bit
            for cell in self.cells.values()
            for pin in pins.get(bare(cell["type"]), [])
            for bit in cell["connections"].pop(pin, [])
        }
        for kind, names in pins.items():
            for name in names:
                self.modules.get(kind, {"ports": {}})["ports"].pop(name, None)
        read = {
            bit
            for cell in self.cells.values()
            for bits in cell["connections"].values()
            for bit in bits
        }
        for name in [name for name, port in self.ports.items() if port["direction"] == "inout"]:
            bits = set(self.ports[name]["bits"])
            if bits <= dropped and not bits & read:
                del self.ports[name]


def same_name(wanted: str, names):
    """The name that is the wanted one, where `/` may stand for the `.` of a hierarchy."""
    plain = wanted.replace("/", ".")
    return next((it for it in (wanted, plain, f"\\{wanted}") if it in names), None)


def main():
    words = argparse.ArgumentParser(
        description=__doc__, formatter_class=argparse.RawDescriptionHelpFormatter
    )
    words.add_argument("design")
    words.add_argument("top")
    words.add_argument("--cut", action="append", default=[], metavar="INSTANCE")
    words.add_argument("--cut-net", action="append", default=[], metavar="NET")
    words.add_argument("--power", default="", metavar="FILES", help="of these Liberty files' cells")
    asked = words.parse_args()
    with open(asked.design, encoding="utf-8", errors="surrogateescape") as file:
        design = json.load(file)
    cutter = Cutter(design, asked.top)
    for name in asked.cut:
        cutter.instance(name)
    for name in asked.cut_net:
        cutter.net(name)
    cells = cells_of_files(asked.power.split())
    cutter.power({cell.name: cell.power for cell in cells if cell.power})
    json.dump(design, sys.stdout)


if __name__ == "__main__":
    ending_by_name("cuts.py", main)
