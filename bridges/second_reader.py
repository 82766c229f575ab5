#!/usr/bin/env python3
"""second_reader.py TOP OUT CELLS.v DESIGN.v.. [--vectors N] [--seed S] [--allow UnknownLevel]:
simulates a design as it stands, by Icarus Verilog, beside the gates of OUT.v.

All vectors are tried of up to 12 inputs, else N random ones. With registers, which OUT.shell.v has
around the gates, these are cycles of the clocks, from states that are the same in both. An x, a z
or a difference is refused. CELLS.v has the cells of the library as yosys reads them.
"""

import argparse
import os
import random
import re
import subprocess
import sys
import tempfile
from typing import Dict, Iterator, List, NamedTuple, Optional

from header import Header, path_of, width
from netlist import Port, spelled
from refusal import Refusal, ending_by_name

# How many inputs are tried with all their vectors.
ALL = 12
# Longer than a circuit takes to settle, in its steps.
SETTLED = 1_000_000_000
SHOWN = 3


class Sides(NamedTuple):
    """The ports of both sides: those of the design, the gates' own ones at what was cut out of it,
    and the registers of the gates with the instances that hold them.
    """

    head: Header
    inputs: List[Port]
    outputs: List[Port]
    registers: Dict[str, str]
    # Whether a register takes its data when an input or a gate changes, and not at a clock alone.
    raced: bool = False

    @property
    def cut_instances(self) -> List[str]:
        words = self.head.cuts
        return [name.replace("/", ".") for how, name in zip(words, words[1:]) if how == "--cut"]

    @property
    def cut_nets(self) -> List[str]:
        words = self.head.cuts
        return [name for how, name in zip(words, words[1:]) if how == "--cut-net"]

    def cut(self, port: Port) -> Optional[str]:
        """The net of the design that a port of a cut is, or None of a port of its own."""
        name = port.name
        if any(name.startswith(f"{it}.") for it in self.cut_instances):
            return path_of(name, "own")
        if name[:-2] in self.cut_nets:
            return path_of(name[:-2], "own") if name.endswith(".q") else ""
        return None


def sides_of(head: Header, shell: str) -> Sides:
    """What both sides have, by the shell around the gates, or by the gates alone."""
    if not shell:
        return Sides(head, head.inputs, head.outputs, {})
    ports = Header.of(shell)
    registers = {}
    for kind, name, pins in re.findall(r"^(\S+) +(\\?\S+) +\((.*)\);$", shell, re.M):
        if (kind, name) == (spelled(head.name).strip(), "gates"):
            continue
        for pin, net in re.findall(r"\.\\?(\S+?) ?\(([^()]*)\)", pins):
            registers.setdefault(name.lstrip("\\"), (kind.lstrip("\\"), {}))[1][pin] = net
    states, raced = {}, False
    wanted = {port.name for port in head.states}
    for name, (kind, pins) in registers.items():
        raced = raced or not {net.strip().lstrip("\\") for net in pins.values()} & {*head.clocks}
        for net in pins.values():
            net = net.strip().lstrip("\\").replace(" ", "")
            if f"{net}.q" in wanted or net in wanted:
                states[net[:-2] if net in wanted else net] = f"{kind} {name}"
    return Sides(head, ports.inputs, ports.outputs, states, raced)


class Bench:
    """The test bench that drives both sides with the same vectors."""

    def __init__(self, sides: Sides, reader: "Reader", vectors: List[str], unnamed=frozenset()):
        self.sides, self.vectors, self.unnamed = sides, vectors, unnamed
        head, self.folder, self.inner = sides.head, reader.folder, reader.inner
        self.clocks = [port for port in sides.inputs if port.name in head.clocks]
        self.held = [port for port in sides.inputs if port.name in head.held]
        fixed = self.clocks + self.held
        self.driven = [port for port in sides.inputs if port not in fixed]
        self.known = registers_in(reader.cells)

    @property
    def bits(self) -> int:
        return max(1, sum(map(width, self.driven)))

    def lines(self) -> Iterator[str]:
        """Its text."""
        step = self.sides.head.step
        yield f"`timescale {step}/{step}"
        yield "module bench;"
        span = f"[{self.bits - 1}:0]"
        yield f"reg {span} v, next; reg clock; reg {span} all [0:{len(self.vectors) - 1}];"
        yield "integer k, b, seen, faults, unknown;"
        for number, port in enumerate(self.sides.outputs):
            yield f"wire [{width(port) - 1}:0] d{number}, g{number};"
        yield f"{spelled(self.sides.head.name)} own ({self.connections('d')});"
        gates = self.sides.head.name + "_gates"
        yield f"{spelled(gates)} gates ({self.connections('g')});"
        yield from self.checks()
        yield from self.forces()
        yield "initial begin faults = 0; unknown = 0; seen = 0; clock = 0;"
        yield f'$readmemb("{self.folder}/vectors.txt", all); v = all[0];'
        yield f"cut; #{SETTLED};"
        yield from self.deposits()
        yield f"for (k = 0; k < {len(self.vectors)}; k = k + 1) begin"
        yield from self.inputs_change()
        yield f"cut; #{SETTLED}; look;"
        if self.clocks:
            yield f"clock = 1; cut; #{SETTLED}; look; clock = 0; cut; #{SETTLED}; look;"
        yield 'end $display("done %0d %0d %0d", seen, unknown, faults); $finish; end endmodule'

    def inputs_change(self) -> Iterator[str]:
        """The next vector: bit by bit where registers are clocked by gates, since a clock and what
        is taken at it don't change at once.
        """
        if not self.sides.raced:
            yield "v = all[k];"
            return
        yield f"next = all[k]; for (b = 0; b < {self.bits}; b = b + 1) if (v[b] !== next[b]) begin"
        yield f"v[b] = next[b]; cut; #{SETTLED}; end"

    def bit_range(self, port: Port) -> str:
        """The part of the vector that an input takes."""
        first = sum(width(it) for it in self.driven[: self.driven.index(port)])
        return f"v[{self.bits - 1 - first}:{self.bits - first - width(port)}]"

    def connections(self, side: str) -> str:
        """The connections of one side's instance."""
        found = []
        for port in self.sides.inputs:
            if side == "d" and self.sides.cut(port) is not None:
                continue
            level = self.sides.head.held.get(port.name)
            net = "clock" if port in self.clocks else f"1'b{level}" if port in self.held else ""
            found.append(f".{spelled(port.name)}({net or self.bit_range(port)})")
        for number, port in enumerate(self.sides.outputs):
            if side == "g" or self.sides.cut(port) is None:
                found.append(f".{spelled(port.name)}({side}{number})")
        return ", ".join(found)

    def forces(self) -> Iterator[str]:
        """Nets of the design that take what the inputs of cuts take: once, so for each vector."""
        yield "task cut; begin"
        for port in self.driven + self.clocks:
            net = self.sides.cut(port)
            if net:
                yield f"force {net} = {self.bit_range(port) if port in self.driven else 'clock'};"
        yield "end endtask"

    def checks(self) -> Iterator[str]:
        """The comparison of all outputs."""
        yield "task look; begin"
        for number, port in enumerate(self.sides.outputs):
            net = self.sides.cut(port)
            # An output that is a net that is cut has the forced level in the design.
            if net == "" or port.name in {it.partition("[")[0] for it in self.sides.cut_nets}:
                continue
            mine = net or f"d{number}"
            yield f"seen = seen + 1; if ((^{mine}) === 1'bx) unknown = unknown + 1;"
            yield f"if ({mine} !== g{number}) begin faults = faults + 1;"
            what = f'"differs %b {port.name.replace("%", "%%")} %b %b", v, {mine}, g{number}'
            yield f"if (faults <= {SHOWN}) $display({what}); end"
        yield from self.nets()
        yield "end endtask"

    def nets(self) -> Iterator[str]:
        """The comparison of nets that stay, though they are no outputs."""
        for name in self.sides.head.kept:
            mine, other = path_of(name, "own"), path_of(name, self.inner)
            yield f"seen = seen + 1; if ((^{mine}) === 1'bx) unknown = unknown + 1;"
            yield f"if ({mine} !== {other}) begin faults = faults + 1;"
            what = f'"differs %b {name.replace("%", "%%")} %b %b", v, {mine}, {other}'
            yield f"if (faults <= {SHOWN}) $display({what}); end"

    def deposits(self) -> Iterator[str]:
        """The same state in both: what the design begins with, else 0."""
        for name, where in self.sides.registers.items():
            kind, instance = where.split(" ", 1)
            inner = self.known.get(kind) or self.known.get(f"\\{kind}")
            if name in self.unnamed or inner is None:
                continue
            mine, other = path_of(name, "own"), f"gates.{spelled(instance)}.{inner}"
            yield f"if ({mine} === 1'bx) {mine} = 0; {other} = {mine}; // register {name}"


def registers_in(cells: str) -> Dict[str, str]:
    """The register in each cell that has one."""
    found = {}
    for body in re.split(r"^module ", cells, flags=re.M)[1:]:
        name, register = re.match(r"\\?[^\s(]+", body)[0], re.search(r"\breg (\w+);", body)
        if register:
            found[name] = register[1]
    return found


def run(words: List[str]) -> subprocess.CompletedProcess:
    return subprocess.run(words, capture_output=True, text=True, errors="replace")


def vectors_of(bits: int, states: bool, asked) -> List[str]:
    """All vectors, or random ones."""
    if bits <= ALL and not states:
        return [format(number, f"0{bits}b") for number in range(2**bits)]
    rng = random.Random(asked.seed)
    return [format(rng.getrandbits(bits), f"0{bits}b") for _ in range(asked.vectors)]


class Reader:
    """One comparison, in a folder of its own."""

    def __init__(self, asked, folder: str):
        self.asked, self.folder = asked, folder
        gates, shell = text_of(f"{asked.out}.v"), ""
        if os.path.exists(f"{asked.out}.shell.v"):
            shell = text_of(f"{asked.out}.shell.v")
        self.sides = sides_of(Header.of(gates), shell)
        self.cells = text_of(asked.cells) + text_of(asked.simcells)
        name = re.escape(spelled(asked.top).strip())
        inner = spelled(f"{asked.top}_inner")
        # Where the gates are, from the bench.
        self.inner = "gates.gates" if shell else "gates"
        if shell:
            gates = re.sub(rf"^module {name}(?= )", lambda _: f"module {inner}", gates, 1, re.M)
            shell = re.sub(rf"^{name} +gates ", lambda _: f"{inner} gates ", shell, 1, re.M)
            shell = re.sub(
                r"^module \S+", lambda _: f"module {spelled(asked.top + '_gates')}", shell, 1
            )
        else:
            new = spelled(f"{asked.top}_gates")
            gates = re.sub(rf"^module {name}(?= )", lambda _: f"module {new}", gates, 1, re.M)
        if not self.sides.registers:
            # Levels alone are compared: without delays a multiplier has few glitches.
            gates = re.sub(r"^(\w+) #\(\d+,\d+\) ", r"\1 ", gates, flags=re.M)
        step = self.sides.head.step
        # What the design says of its own steps and nets holds for its own files alone.
        self.write("ahead.v", f"`timescale {step}/{step}\n")
        head = f"`default_nettype wire\n`timescale {step}/{step}\n"
        self.write("gates.v", f"{head}{gates}{shell}")

    def path(self, name: str) -> str:
        return os.path.join(self.folder, name)

    def write(self, name: str, text: str):
        with open(self.path(name), "w", errors="surrogateescape") as file:
            file.write(text)

    def compiled(self, bench: Bench) -> subprocess.CompletedProcess:
        """The bench with both sides, as Icarus compiles it where the design's files are named."""
        self.write("bench.v", "\n".join(bench.lines()) + "\n")
        self.write("vectors.txt", "\n".join(bench.vectors) + "\n")
        options = [word for word in self.asked.design if word.startswith("-")]
        files = [word for word in self.asked.design if not word.startswith("-")]
        models = [it for it in (self.asked.cells, self.asked.simcells) if os.path.getsize(it)]
        words = ["iverilog", "-g2012", "-grelative-include", "-s", "bench"]
        words += ["-o", self.path("bench.vvp"), *options, self.path("ahead.v"), *files]
        return run([*words, self.path("gates.v"), *models, self.path("bench.v")])

    def read(self) -> str:
        """What was compared, or why it couldn't be."""
        if self.sides.head.open_inside:
            return "proved by one reader alone: what opens the latches is inside"
        sides = self.sides
        fixed = {*sides.head.clocks, *sides.head.held}
        bits = max(1, sum(width(port) for port in sides.inputs if port.name not in fixed))
        vectors = vectors_of(bits, bool(sides.registers), self.asked)
        bench = Bench(sides, self, vectors)
        done = self.compiled(bench)
        if done.returncode and sides.registers:
            bench = Bench(sides, self, vectors, self.unnamed(bench, done.stderr))
            done = self.compiled(bench)
            if done.returncode:
                bench = Bench(sides, self, vectors, frozenset(sides.registers))
                done = self.compiled(bench)
        if done.returncode:
            said = (done.stderr.strip().splitlines() or ["nothing"])[0]
            return f"proved by one reader alone: Icarus can't read it: {said}"
        return self.judged(bench, run(["vvp", "-n", self.path("bench.vvp")]).stdout)

    def unnamed(self, bench: Bench, said: str) -> frozenset:
        """The registers whose names Icarus doesn't know."""
        lines = list(bench.lines())
        numbers = {int(number) for number in re.findall(r"bench\.v:(\d+)", said)}
        found = (
            re.search(r"// register (.*)$", lines[it - 1]) for it in numbers if it <= len(lines)
        )
        return frozenset(match[1] for match in found if match)

    def judged(self, bench: Bench, said: str) -> str:
        """What the simulation says, in words."""
        ended = re.search(r"^done (\d+) (\d+) (\d+)$", said, re.M)
        if not ended:
            return "proved by one reader alone: the simulation of the design doesn't end"
        seen, unknown, faults = map(int, ended.groups())
        known = len(self.sides.registers) - len(bench.unnamed)
        what = f"{len(bench.vectors):,} vectors, " + (
            "all there are" if len(bench.vectors) == 2**bench.bits and not self.sides.registers
            else f"seed {self.asked.seed}"
        )  # fmt: skip
        lost = faults - self.passed_over(said, bench) if bench.unnamed or self.allowed else faults
        if unknown and not (bench.unnamed or self.allowed):
            raise Refusal(
                "UnknownLevel",
                f"outputs of the design are x or z in {unknown} of {seen} cases: {first_of(said)}",
                "mend the source; --allow UnknownLevel compares the others",
            )
        if lost > 0:
            raise Refusal(
                "NotEquivalent",
                f"Icarus: the gates do other than the design: {first_of(said)}",
                "complete the source's lists of events, as @*; else look at the mapped netlist, "
                "from which --netlist goes on",
            )
        more = f", {unknown} of {seen} outputs unknown" if unknown else ""
        if bench.unnamed:
            more += f", {known} of {len(self.sides.registers)} registers set by name"
        return f"equal by Icarus: {what}{more}"

    @property
    def allowed(self) -> bool:
        return "UnknownLevel" in self.asked.allow

    def passed_over(self, said: str, bench: Bench) -> int:
        """Differences in which one side is unknown alone."""
        lines = re.findall(r"^differs \S+ .*? ([01xz]+) ([01xz]+)$", said, re.M)
        real = [
            1
            for one, other in lines
            if any(a != b and {a, b} == {"0", "1"} for a, b in zip(one, other))
        ]
        faults = int(re.search(r"^done \d+ \d+ (\d+)$", said, re.M)[1])
        return faults if not real else 0


def first_of(said: str) -> str:
    """The first case that differs, in words."""
    found = re.search(r"^differs (\S+) (.*?) (\S+) (\S+)$", said, re.M)
    if not found:
        return "both sides alike"
    return f"for {found[1]} {found[2]} is {found[3]}, of the gates {found[4]}"


def text_of(path: str) -> str:
    with open(path, encoding="utf-8", errors="surrogateescape") as file:
        return file.read()


def main():
    words = argparse.ArgumentParser(
        description=__doc__, formatter_class=argparse.RawDescriptionHelpFormatter
    )
    words.add_argument("top")
    words.add_argument("out")
    words.add_argument("cells")
    words.add_argument("simcells", help="yosys' own gates, or an empty file")
    words.add_argument("design", nargs="+")
    words.add_argument("--vectors", type=int, default=1000)
    words.add_argument("--seed", type=int, default=1)
    words.add_argument("--allow", action="append", default=[])
    asked, rest = words.parse_known_args()
    asked.design += rest
    with tempfile.TemporaryDirectory() as folder:
        print(Reader(asked, folder).read())


if __name__ == "__main__":
    ending_by_name("second_reader.py", main)
