#!/usr/bin/env python3
"""drivers.py LOG DESIGN.json [--allow NAME]..: refuses RTL of which yosys drops something.

LOG is what yosys said of the sources and in `check`, and DESIGN.json the design after `proc`. A net
with two drivers, z, a net without a driver and one that is implicit are refused by name, with the
line of the source. `--allow NAME` passes over one kind of them.
"""

import argparse
import json
import re
import sys
from typing import Iterator, NamedTuple

from refusal import Refusal, ending_by_name

REMEDIES = {
    "ImplicitNet": "declare it; an interface can't be read here: make ports of its signals",
    "TwoDrivers": "give the net one driver, as a choice between the two",
    "HighZ": "write a multiplexer in place of z",
    "NoDriver": "drive it, or tie it to 0",
}
# The lines of sources that yosys writes into the names of what it makes.
LINE = re.compile(r"([^\s$(]+:\d+)")
IMPLICIT = re.compile(r"^(\S+:\d+): Warning: Identifier `(.*?)' is implicitly declared", re.M)
TRISTATE = re.compile(r"^Warning: Yosys has only limited support for tri-state.*\((\S+)\)$", re.M)
CONFLICT = re.compile(
    r"^Warning: multiple conflicting drivers for (\S+?)\.(\S.*?):\n((?: {4}.*\n)+)", re.M
)
UNDRIVEN = re.compile(r"^Warning: Wire (\S+?)\.(\S.*?) is used but has no driver", re.M)


class Finding(NamedTuple):
    """What is wrong with a net."""

    name: str
    wrong: str


def findings(log: str, modules: dict) -> Iterator[Finding]:
    """All that is refused, in the order of the list above."""
    for line, net in IMPLICIT.findall(log):
        yield Finding("ImplicitNet", f"{line}: {bare(net)} isn't declared")
    for module, net, drivers in CONFLICT.findall(log):
        lines = sorted(set(LINE.findall(drivers))) or [line_of(modules, module, net)]
        who = " and ".join(driver.strip() for driver in drivers.splitlines())
        yield Finding("TwoDrivers", f"{', '.join(lines)}: in {module} a net is driven by {who}")
    for line in TRISTATE.findall(log):
        yield Finding("HighZ", f"{line}: z, which no gate is")
    for module, net in UNDRIVEN.findall(log):
        where = line_of(modules, module, net)
        yield Finding(
            "NoDriver", f"{where}: {bare(net)} of {module} is read, and nothing drives it"
        )
    for module in modules:
        for name in modules[module]["cells"]:
            yield from of_cell(modules, module, name)


def of_cell(modules: dict, module: str, name: str) -> Iterator[Finding]:
    """What yosys doesn't warn of: z of a primitive, as bufif1, and inputs of an instance that
    nothing is connected to.
    """
    cell = modules[module]["cells"][name]
    pins = cell["connections"]
    if any("z" in bits for bits in pins.values()):
        nets = modules[module]["netnames"].items()
        driven = [net for net, it in nets if set(it["bits"]) & set(pins.get("Y", []))]
        where = line_of(modules, module, min(driven, key=len)) if driven else source_of(cell)
        yield Finding("HighZ", f"{where}: z, which no gate is")
    for pin, port in modules.get(cell["type"], {"ports": {}})["ports"].items():
        if port["direction"] == "input" and not pins.get(pin):
            what = f"{pin} of {name}, a {cell['type']}"
            yield Finding("NoDriver", f"{source_of(cell)}: nothing is connected to {what}")


def line_of(modules: dict, module: str, net: str) -> str:
    """The line of the source that declares a net."""
    name = re.sub(r" \[\d+(?::\d+)?\]$", "", bare(net))
    return source_of(modules.get(module, {}).get("netnames", {}).get(name, {}))


def source_of(given: dict) -> str:
    """The line of the source of a net or a cell."""
    src = given.get("attributes", {}).get("src", "")
    return re.sub(r"\.\d+-\d+\.\d+$", "", src) or "a line that yosys doesn't know"


def bare(name: str) -> str:
    return name[1:] if name.startswith("\\") else name


def main():
    words = argparse.ArgumentParser(
        description=__doc__, formatter_class=argparse.RawDescriptionHelpFormatter
    )
    words.add_argument("log")
    words.add_argument("design")
    words.add_argument("--allow", action="append", default=[], choices=sorted(REMEDIES))
    asked = words.parse_args()
    with open(asked.log, encoding="utf-8", errors="surrogateescape") as file:
        log = file.read()
    with open(asked.design, encoding="utf-8", errors="surrogateescape") as file:
        modules = json.load(file)["modules"]
    allowed = 0
    for found in findings(log, modules):
        if found.name not in asked.allow:
            remedy = f"{REMEDIES[found.name]}; --allow {found.name} goes on"
            raise Refusal(found.name, found.wrong, remedy)
        allowed += 1
    if allowed:
        print(f"note: {allowed} allowed: {', '.join(sorted(set(asked.allow)))}", file=sys.stderr)


if __name__ == "__main__":
    ending_by_name("drivers.py", main)
