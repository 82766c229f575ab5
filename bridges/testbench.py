#!/usr/bin/env python3
"""testbench.py GATES.v REPORT.json.. [--at NAME=T].. [--sdf FILE] [--vcd FILE] > TB.v: the pairs of
reports of `tdelay .. --json` as a Verilog test bench with the ports and buses of the design.

The module `testbench` runs on the RTL, on the gates of GATES.v, or on the cells with the models of
their library and an SDF file (--sdf; `iverilog -gspecify -Tmax`): each has the same ports. It
prints for each pair when each output changes last, in steps of GATES.v, and -1 where it never does.
The dump of --vcd has the buses. States of registers are ports of the gates alone.
"""

import argparse
import json
import sys
from typing import Dict, Iterator, List, NamedTuple

from header import Header, slices, width
from netlist import Port, spelled
from refusal import Refusal, ending_by_name

# Longer than a circuit takes to settle, in its steps.
SETTLED = 1_000_000_000


class Pair(NamedTuple):
    """Two vectors, a character for each input."""

    first: str
    second: str


def pairs_of(report) -> Iterator[Pair]:
    """All pairs of a report, in its order."""
    if isinstance(report, dict) and "from" in report and "to" in report:
        yield Pair(report["from"], report["to"])
    inner = (
        report.values() if isinstance(report, dict) else report if isinstance(report, list) else ()
    )
    for part in inner:
        yield from pairs_of(part)


class Bench:
    """The test bench of a design."""

    def __init__(self, head: Header, moments: Dict[str, int], sdf: str = "", dump: str = ""):
        self.head, self.moments, self.sdf, self.dump = head, moments, sdf, dump
        self.places = slices(head.inputs)

    def lines(self, pairs: List[Pair]) -> Iterator[str]:
        """Its text."""
        head = self.head
        yield f"`timescale {head.step}/{head.step}"
        yield "module testbench;"
        for port in head.inputs:
            yield f"reg {declared(port)};"
        for port in head.outputs:
            yield f"wire {declared(port)};"
        yield "integer at; time start; reg on;"
        yield from (f"integer last{number};" for number in range(len(head.outputs)))
        ports = [f".{spelled(it.name)}({spelled(it.name)})" for it in head.inputs + head.outputs]
        ports += [f".{spelled(net)}(1'b{level})" for net, level in head.held.items()]
        yield f"{spelled(head.name)} dut ({', '.join(ports)});"
        for number, port in enumerate(head.outputs):
            yield f"always @({spelled(port.name)}) if (on) last{number} = $time - start;"
        yield "initial begin on = 0;"
        if self.sdf:
            yield f'$sdf_annotate("{self.sdf}", dut);'
        if self.dump:
            yield f'$dumpfile("{self.dump}"); $dumpvars(1, testbench);'
        for number, pair in enumerate(pairs):
            yield from self.run(number, pair)
        yield "$finish; end endmodule"

    def run(self, number: int, pair: Pair) -> Iterator[str]:
        """One pair."""
        count = sum(map(width, self.head.inputs))
        if len(pair.first) != count or len(pair.second) != count:
            wrong = f"a pair of {len(pair.first)} inputs, and the gates have {count}"
            raise Refusal("OtherNetlist", wrong, "give the report of this netlist")
        yield f"// pair {number}"
        yield from self.assigned(self.head.inputs, pair.first)
        names = range(len(self.head.outputs))
        yield f"#{SETTLED}; on = 1; start = $time; " + " ".join(f"last{it} = -1;" for it in names)
        now = 0
        for moment in sorted({self.moment(port) for port in self.head.inputs}):
            yield f"#{moment - now};" if moment > now else ""
            ports = [port for port in self.head.inputs if self.moment(port) == moment]
            yield from self.assigned(ports, pair.second)
            now = moment
        yield f"#{SETTLED}; on = 0;"
        for place, port in zip(names, self.head.outputs):
            yield f'$display("pair {number} {port.name} %0d", last{place});'

    def moment(self, port: Port) -> int:
        return self.moments.get(port.name, 0)

    def assigned(self, ports: List[Port], vector: str) -> Iterator[str]:
        """The levels of some inputs in a vector."""
        for port in ports:
            first, last = self.places[port.name]
            yield f"{spelled(port.name)} = {width(port)}'b{vector[first:last]};"


def declared(port: Port) -> str:
    span = f"[{port.bounds[0]}:{port.bounds[1]}] " if port.bounds else ""
    return span + spelled(port.name)


def moments_of(words: List[str]) -> Dict[str, int]:
    """The moments of inputs, from words NAME=T."""
    found = {}
    for word in words:
        name, _, moment = word.rpartition("=")
        if not name or not moment.isdigit():
            raise Refusal("BadMoment", f"--at {word}", "write NAME=T, with a whole vector's name")
        found[name] = int(moment)
    return found


def main():
    words = argparse.ArgumentParser(
        description=__doc__, formatter_class=argparse.RawDescriptionHelpFormatter
    )
    words.add_argument("gates")
    words.add_argument("reports", nargs="+")
    words.add_argument("--at", action="append", default=[], metavar="NAME=T")
    words.add_argument("--sdf", default="")
    words.add_argument("--vcd", default="")
    asked = words.parse_args()
    with open(asked.gates, encoding="utf-8", errors="surrogateescape") as file:
        head = Header.of(file.read())
    pairs = []
    for path in asked.reports:
        with open(path, encoding="utf-8") as file:
            try:
                pairs += pairs_of(json.load(file))
            except ValueError:
                raise Refusal(
                    "BadJson", f"{path} is no report", "write it by `tdelay worst .. --json`"
                ) from None
    if not pairs:
        raise Refusal("NoPair", "the reports have no pair", "take those of `worst` with --json")
    bench = Bench(head, moments_of(asked.at), asked.sdf, asked.vcd)
    sys.stdout.writelines(f"{line}\n" for line in bench.lines(pairs) if line)


if __name__ == "__main__":
    ending_by_name("testbench.py", main)
