"""Designs of each kind of RTL and netlist, by the one command on real libraries: each comes to an
accepted certificate, or is refused by name with a remedy that works when it is followed.

Run as `python3 checks/bridging/kinds.py PROGRAM` it tries all of them on each library, and the
first runs of all blocks of blocks.v, and prints what fails, and how many came through.
"""

import json
import os
import re
import sys
from typing import NamedTuple

if __name__ == "__main__":
    sys.path.insert(0, os.path.dirname(os.path.dirname(os.path.abspath(__file__))))

from bridging.blocks import BLOCKS, REAL, blocks_of, first_run
from bridging.tools import script, write

KINDS = blocks_of("kinds.v")
# Designs that come through: the files and the options of the command.
CLOCK = ("--clock", "clk")
RIGHT = {
    "gray_next": (), "arbiter": CLOCK, "adder_en": CLOCK, "begins": CLOCK, "enums": (),
    "packed_pair": (), "ranges": (), "tree_of_itself": (), "named_mode": (), "tasks": (),
    "parts": (), "with_delays": (), "timescales": (), "wired": (), "escaped": (),
    "gated_clock": CLOCK, "divided": CLOCK, "two_clocks": (), "latch_cells": (), "of_package": (),
    "defined": (), "included": (), "from_file": (), "several": (), "of_cells": ("--netlist",),
    "both_edges": ("--netlist", "--clock", "ck"),
}  # fmt: skip
DESIGNS = {
    "defined": "-DK=5 defined.v", "included": "-Iheaders included.v", "several": "several.v below.v"
}  # fmt: skip
TOPS = {"escaped": "top.of"}


class Refused(NamedTuple):
    """A refusal, and what follows its remedy: options that it names, or another text of the design,
    which is NAME_mended.
    """

    name: str
    options: tuple = ()


ALLOWED = Refused("UnknownLevel", ("--allow", "UnknownLevel"))
REFUSED = {
    "twice": Refused("TwoDrivers"),
    "bus": Refused("TwoDrivers"),
    "two_processes": Refused("TwoDrivers"),
    "floating": Refused("HighZ"),
    "tristate_gate": Refused("HighZ"),
    "undriven": Refused("NoDriver", ("--allow", "NoDriver")),
    "open_input": Refused("NoDriver"),
    "interfaces": Refused("ImplicitNet"),
    "looks_inside": Refused("ImplicitNet"),
    "latched": Refused("UnmappedCells"),
    "made_enable": Refused("LatchEnable", ("--latch", "open")),
    "boxed": Refused("BlackBox", ("--cut", "m")),
    "crossed": Refused("Loop", ("--cut-net", "q")),
    "both_ways": Refused("Inout"),
    "table_of_user": Refused("ToolFailed"),
    "missing": Refused("ToolFailed"),
    "half_listed": Refused("NotEquivalent"),
    "set_and_reset": Refused("NotEquivalent", ("--netlist",)),
    "by_zero": ALLOWED,
    "any_level": Refused("UnknownLevel"),
}


class Kinds:
    """Runs of the one command in a folder."""

    def __init__(self, folder):
        self.folder = folder
        os.makedirs(os.path.join(folder, "headers"), exist_ok=True)
        for name, text in KINDS.items():
            write(folder, f"{name}.v", text)
        write(folder, "headers/width.vh", "`define WIDTH 5\n")
        write(folder, "headers/more.vh", "localparam MORE = 7;\n")
        write(folder, "from_file.hex", "".join(f"{5 * it % 256:02x}\n" for it in range(7, 23)))

    def figure(self, name, library, design, *words):
        """A run of the command: how it ended."""
        top, out = TOPS.get(name, name), f"{name}.{library.name}"
        return script(self.folder, "figure.sh", design, top, library.liberty, out, "--json", *words)

    def right(self, name, library, design="", words=None):
        """What is wrong with a design that has to come through, or None."""
        words = RIGHT[name] if words is None else words
        ended = self.figure(name, library, design or DESIGNS.get(name, f"{name}.v"), *words)
        if ended.status:
            return f"{name} on {library.name}: {ended}"
        found = json.loads(ended.out)
        figures = 0 < found["exact"] == found["accepted"] <= found["bound"]
        readers = all(re.match("equal by|proved by one", it) for it in found["equal"])
        whole = figures and readers and found["path"] and found.get("opensta_ps", 0) > 0
        return None if whole else f"{name} on {library.name}: {found}"

    def refused(self, name, library):
        """What is wrong with a design that has to be refused, or with its remedy, or None."""
        refused = REFUSED[name]
        ended = self.figure(name, library, f"{name}.v")
        status = 6 if refused.name == "NotEquivalent" else 1
        said = re.search(rf": {refused.name}: .*?\n  what to do: (.*)", ended.err, re.S)
        if ended.status != status or not said:
            return f"{name} on {library.name}: {refused.name} in place of {ended}"
        return self.followed(name, library, said[1])

    def followed(self, name, library, remedy):
        """What is wrong with a remedy that is followed, or None."""
        words = REFUSED[name].options
        if not words:
            return self.right(name, library, f"{name}_mended.v", ())
        if words[0] not in remedy or not words[-1] in remedy:
            return f"{name}: {' '.join(words)} isn't in {remedy}"
        design = f"{name}.v"
        if words == ("--netlist",):
            design = f"{name}.mapped.v"
            os.rename(os.path.join(self.folder, f"{name}.{library.name}.mapped.v"),
                      os.path.join(self.folder, design))  # fmt: skip
        if words[-1] == "NoDriver":
            words += ALLOWED.options
        return self.right(name, library, design, words)

    def fault(self, name, library):
        """What is wrong with a design, or None."""
        return self.right(name, library) if name in RIGHT else self.refused(name, library)


def work(tested):
    """A case for each sort: some designs, each on a library."""
    if not REAL:
        print("skipped: designs of each kind, as no real library is installed")
        return
    kinds = Kinds(tested.folder)
    for some in (RIGHT, REFUSED):
        for name in tested.random.sample(sorted(some), 4):
            fault = kinds.fault(name, tested.random.choice(REAL))
            if fault:
                tested.fault(fault[:900])
        tested.case("kind")


def all_of_them(folder):
    """All designs and all first runs on each library. Answers how many there were, and the faults.
    """
    kinds, faults, runs = Kinds(folder), [], 0
    for library in REAL:
        for name in [*RIGHT, *REFUSED]:
            runs += 1
            faults += [kinds.fault(name, library)]
    for name, text in BLOCKS.items():
        write(folder, f"{name}.v", text)
    first = 0
    for library in REAL:
        for name in BLOCKS:
            first += 1
            said = first_run(lambda *words: script(folder, *words), name, library)
            whole = said is not None and "equal by yosys" in said and "equal by Icarus" in said
            faults += [None if whole else f"first run of {name} on {library.name}"]
    return runs, first, [fault for fault in faults if fault]


if __name__ == "__main__":
    from lib.running import folder as folder_of

    os.environ["TDELAY"] = os.path.abspath(sys.argv[1])
    with folder_of() as own:
        done, firsts, wrong = all_of_them(own)
    print("\n".join(wrong))
    print(f"{done} runs of designs of each kind, {firsts} first runs, {len(wrong)} wrong")
    sys.exit(1 if wrong else 0)
