#!/usr/bin/env python3
"""Runs the program on netlists whose changes double from level to level.

Each level is an xor of the level before and a delayed copy of it, whose delays halve from level to
level, so that no two changes meet and no pulse is lost: level k changes 2^k times once the input
does. For up to 12 levels that is counted by the simulation of second_opinion.py. Each case is a
command with 200 MB or 1 GB of address space. It must give the right figures; end with status 5 and
`tdelay: out of memory`; or, a search, answer `between` with figures that hold. A run that takes
longer than 120 s, which more than 22 levels may, is counted as such, and stopped. Where nothing is
said the levels are 12, 20 and 22: then each run ends. Of 100 cases 20 at least are right, and 5 out
of memory.
"""

import os
import re
import sys

from lib import check, circuits, running

import second_opinion

CASES = 30
# The levels, of which the first three are tried where nothing is said.
LEVELS = (12, 20, 22, 24, 28, 40)
# The limits of memory, in megabytes.
SIZES = (200, 1000)
# The longest that a run may take, in seconds: of few levels, of more.
SOON, LONGEST = 40, 120
COMMANDS = [
    ["sim", "t.v", "0", "1"],
    ["sim", "t.v", "0", "1", "--vcd", "out.vcd"],
    ["path", "t.v", "0", "1"],
    ["bound", "t.v", "--edges"],
]
COMMANDS += [["worst", "t.v", "--budget", "10"]]


def count_changes(tested, levels):
    """Looks that the changes double, by another simulation than the program's."""
    circuit = second_opinion.read_circuit(circuits.doubling(levels)[0].encode())
    waves = second_opinion.signals(second_opinion.RUN, circuit, [0, 1], [0])
    counts = [len(wave[1]) for wave, gate in zip(waves[3:], circuit.gates) if gate[0] == "xor"]
    if counts != [2 ** (place + 1) for place in range(levels)]:
        tested.fault(f"{levels} levels change {counts} times")


def is_right(words, out, last):
    """Whether the figures of an output are those of the netlist."""
    found = re.findall(r"(?m)^(?:last y|time|a|e|exact) (\d+)$", out)
    if words[0] == "path":
        found = re.findall(r"(?m)^change (\d+) ", out)[-1:]
    bounds = [int(number) for number in re.findall(r"(?m)^[tmn] (\d+)$", out)]
    return (
        bool(found)
        and all(int(number) == last for number in found)
        and all(last <= bound for bound in bounds)
    )


def how_it_ended(words, last, done, has_waves):
    """By what a run ended, None where it did anything wrong."""
    if done.status == 5 and done.err == "tdelay: out of memory\n" and not has_waves:
        return "out of memory"
    if done.status == 0 and done.err == "" and is_right(words, done.out, last):
        return "right"
    between = re.search(r"(?m)^between (\d+) (\d+)$", done.out)
    if (
        done.status == 3
        and done.err == ""
        and between
        and int(between[1]) <= last <= int(between[2])
    ):
        return "between, memory" if "cause memory" in done.out else "between, budget"
    return None


def one_run(tested, levels, words, megabytes, last):
    """A case: how a run ends."""
    tested.remove("out.vcd")
    seconds = SOON if levels <= 22 else LONGEST
    try:
        done = tested.run(*words, megabytes=megabytes, seconds=seconds)
        how = how_it_ended(
            words, last, done, os.path.exists(os.path.join(tested.folder, "out.vcd"))
        )
    except running.Hangs:
        if levels <= 22:
            raise
        done, how = None, "not within the time"
    if how is None:
        tested.fault(f"{levels} levels, {megabytes} MB: {' '.join(words)}: {str(done)[:400]}")
    print(f"{levels} levels, {megabytes} MB: {' '.join(words)}: {how}", flush=True)
    tested.case(how or "wrong")


def work(tested):
    for levels in range(1, 13):
        count_changes(tested, levels)
    for levels in LEVELS:
        text, last = circuits.doubling(levels)
        tested.write("t.v", text)
        for words in COMMANDS:
            for megabytes in SIZES:
                one_run(tested, levels, words, megabytes, last)


def shares(tested, cut):
    tested.require("right", 0.2)
    if not cut or tested.cases >= CASES:
        tested.require("out of memory", 0.05)


if __name__ == "__main__":
    sys.exit(check.main(work, __doc__, CASES, shares))
