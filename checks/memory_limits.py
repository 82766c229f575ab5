#!/usr/bin/env python3
"""Runs each command with many sizes of memory, from too little to enough.

The circuits are examples/mult_8.v and a netlist of 200,000 gates, made here. Each case is a run
with a limit on its address space (as `ulimit -v` sets it). It may answer what a run without a limit
answers; or end with status 5, `tdelay: out of memory` and a beginning of that output; or, a search,
answer `between` with `cause memory` and figures that the other answer's don't contradict. What is
written to a file is whole, or not there. The sizes of a command lie evenly between that with which
`--help` runs and one that suffices. Of 100 cases 15 at least are out of memory, and 20 the same.
"""

import sys

from lib import check, places, reports
from lib.netlists import layered

# Six sizes of each command.
CASES = 108
# The longest that a run may take, in seconds, and the sizes in megabytes that are tried.
LONGEST = 40
LEAST, STEP, MOST = 1, 0.25, 4096
INPUTS = 64
ZEROS, ONES, FREE = "0" * INPUTS, "1" * INPUTS, "." * INPUTS
GREAT = ["--first", ZEROS, "--second", ONES]
MULT = ["--first", "0" * 16, "--second", "1" * 12 + "...."]
WRITTEN = ("out.vcd", "out.cert")

COMMANDS = [
    ["sim", "mult_8.v", "0" * 16, "1" * 16],
    ["sim", "mult_8.v", "0" * 16, "1" * 16, "--vcd", "out.vcd"],
    ["path", "mult_8.v", "0" * 16, "1" * 16],
    ["bound", "mult_8.v", "--edges"],
    ["worst", "mult_8.v", "--budget", "3000", "--workers", "1"],
    ["worst", "mult_8.v", *MULT, "--workers", "1", "--cert", "out.cert"],
    ["check", "mult_8.v", "mult_8.cert"],
    ["parts", "mult_8.v", "--parts", "40"],
    ["join", "mult_8.v", "mult_8_0.cert", "mult_8_1.cert", *MULT, "--cert", "out.cert"],
    ["info", "mult_8.v"],
    ["sim", "great.v", ZEROS, ONES],
    ["path", "great.v", ZEROS, ONES],
    ["bound", "great.v", "--first", FREE, "--second", FREE],
    ["worst", "great.v", "--budget", "3", "--workers", "1"],
    ["check", "great.v", "great.cert"],
    ["parts", "great.v", "--parts", "2", *GREAT],
    ["join", "great.v", "great.cert", *GREAT, "--no-check", "--cert", "out.cert"],
    ["info", "great.v"],
]


def ended(tested, words, megabytes=None):
    """How a run ended with so much memory, and what it wrote."""
    tested.remove(*WRITTEN)
    done = tested.run(*words, megabytes=megabytes, seconds=LONGEST)
    return done, {name: tested.read(name) for name in WRITTEN}


def how_it_ended(ample, got):
    """By what a run ended, None where it did anything wrong."""
    if got == ample:
        return "the same"
    (done, written), (ample_done, ample_written) = got, ample
    if any(text not in (None, ample_written[name]) for name, text in written.items()):
        return None
    if (
        done.status == 5
        and done.err in ("tdelay: out of memory\n", "")
        and ample_done.out.startswith(done.out)
    ):
        return "out of memory"
    figures, wanted = reports.figures_of(done.out), reports.figures_of(ample_done.out)
    if (
        done.status == 3
        and done.err == ""
        and "\ncause memory\n" in done.out
        and figures
        and wanted
        and reports.agree(figures, wanted)
    ):
        return "between"
    return None


def search(tested, netlist, words, name):
    """Makes the certificate that a command reads."""
    done = tested.run("worst", netlist, *words, "--cert", name, seconds=LONGEST)
    if done.status != 0 or tested.read(name) is None:
        raise RuntimeError(f"worst {netlist}: {done}, no certificate")


def make_files(tested):
    """The netlists and certificates that the commands read."""
    with open(places.example("mult_8.v"), "rb") as file:
        tested.write("mult_8.v", file.read())
    search(tested, "mult_8.v", MULT, "mult_8.cert")
    for bit in "01":
        search(
            tested,
            "mult_8.v",
            ["--first", "0" * 16, "--second", "1" * 12 + f"{bit}..."],
            f"mult_8_{bit}.cert",
        )
    tested.write("great.v", layered(200_000, INPUTS, 2000))
    search(tested, "great.v", GREAT, "great.cert")


def least_memory(tested):
    """The memory with which `--help` runs."""
    size = LEAST
    while tested.run("--help", megabytes=size).status != 0:
        size += STEP
        if size > MOST:
            raise RuntimeError(f"--help doesn't run in {MOST} megabytes")
    return size


def enough(tested, words, ample, least):
    """Memory with which the run is as without a limit."""
    size = max(least, 100) if "great.v" in words else least
    while ended(tested, words, size) != ample:
        size *= 2
        if size > MOST:
            raise RuntimeError(f"{words[:3]} in {MOST} megabytes isn't as without a limit")
    return size


def fault_without_limit(done):
    """What is wrong with a run that has all memory, None where nothing is."""
    return (
        f"without a limit: {done}"
        if done.status not in (0, 3) or not done.out or done.err
        else None
    )


def runs(tested, words, least, sizes):
    """The cases of one command."""
    ample = ended(tested, words)
    fault = fault_without_limit(ample[0])
    if fault:
        return tested.fault(f"{' '.join(words)[:100]}: {fault[:500]}")
    most = enough(tested, words, ample, least)
    ends = {}
    for step in range(sizes):
        size = least + (most - least) * step / max(1, sizes - 1)
        got = ended(tested, words, size)
        how = how_it_ended(ample, got)
        if how is None:
            tested.fault(f"{' '.join(words)[:100]} in {size} megabytes: {str(got)[:500]}")
        ends[how] = ends.get(how, 0) + 1
        tested.case(how or "wrong")
    counts = ", ".join(f"{count} {how}" for how, count in sorted(ends.items(), key=str))
    print(
        f"{' '.join(words)[:60]}: status {ample[0].status}, "
        f"{least:.2f} to {most:.2f} megabytes: {counts}",
        flush=True,
    )
    return None


def work(tested):
    make_files(tested)
    least = least_memory(tested)
    sizes = max(2, tested.most // len(COMMANDS))
    for words in COMMANDS:
        runs(tested, words, least, sizes)


def shares(tested, _cut):
    tested.require("out of memory", 0.15)
    tested.require("the same", 0.2)


if __name__ == "__main__":
    sys.exit(check.main(work, __doc__, CASES, shares))
