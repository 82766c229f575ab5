#!/usr/bin/env python3
"""Looks that a search ends soon once it is told to, whatever it is doing.

Each of twelve searches is slow in one phase: reading, the first bounds, a climb, a simulation, a
tree, a solver, its certificate, tables (lib/stops.py). Each is told to end by a file, after some
work: from then on it may do as much as between two looks at the file, and write what it has. Work
is measured by the processor, not by a clock, in the work of a simulation of a million changes by
the same program: at most TWO_LOOKS of these for each thread. The reading of a text comes on top,
where the file is there before it is read. What the search answers has to lie within the
answer of one that isn't told to end, and its certificate is accepted.
"""

import os
import re
import subprocess
import sys
import time

from lib import check, circuits, reports, running, stops

# The most work after a stop, in simulations of a million changes.
TWO_LOOKS = 4
# How many seconds of the processor a search works before it is told to end, at most.
BEFORE = 1.5
# The longest that a run may take, in seconds.
LONGEST = 120
# The seconds of a search that says how far it is, and what it says after ten of them.
SAID_WITHIN = 12
SAID = r"(?m)^units \d+ question \d+ low \d+ high \d+ seconds \d+ rate \d+$"
# Ticks of the processor in a second.
TICKS = os.sysconf("SC_CLK_TCK")


def used(process):
    """How many seconds of the processor a process has used by now, None where it has ended."""
    try:
        with open(f"/proc/{process}/stat", encoding="ascii") as file:
            fields = file.read().rpartition(")")[2].split()
    except (FileNotFoundError, ProcessLookupError):
        return None
    return None if fields[0] == "Z" else (int(fields[11]) + int(fields[12])) / TICKS


def ended(tested, words, before):
    """Runs a search, and tells it to end once it has used so many seconds of the processor. Gives
    its report, how many it has used then, none where it had ended, and how many in all."""
    tested.remove("stop")
    out = os.path.join(tested.folder, "out")
    with open(out, "wb") as file:
        process = subprocess.Popen(  # pylint: disable=consider-using-with
            [tested.program, *words], cwd=tested.folder, stdin=subprocess.DEVNULL, stdout=file,
            stderr=subprocess.DEVNULL, start_new_session=True)  # fmt: skip
    told, began = None, time.monotonic()
    while time.monotonic() - began < LONGEST:
        now = used(process.pid)
        if now is None:
            break
        if told is None and now >= before:
            tested.write("stop", "")
            told = now
        time.sleep(0.005)
    else:
        running.end_all(process)
        raise running.Hangs(words, LONGEST)
    _, _, usage = os.wait4(process.pid, 0)
    process.returncode = 0
    return tested.read("out").decode(), told, usage.ru_utime + usage.ru_stime


def unit(tested):
    """The work of a simulation of a million changes, in seconds of the processor."""
    path = circuits.path_of("doubling_19", tested.folder, None)
    return min(ended(tested, ["sim", path, "0", "1"], BEFORE)[2] for _ in range(3))


def reading(tested, path):
    """The work of reading a netlist."""
    return ended(tested, ["info", path], LONGEST)[2]


def one(tested, name, options, most):
    """A case: a search that is told to end."""
    path = circuits.path_of(name, tested.folder, None)
    words = ["worst", path, *options.split(), "--budget", "10000000", "--stop", "stop"]
    is_table = "--each" in words
    if not is_table:
        words += ["--cert", "cert", "--cert-between"]
    before = tested.random.random() * BEFORE
    report, told, whole = ended(tested, words, before)
    after = 0 if told is None else whole - told
    threads = 2 if "--workers" in options else 1
    allowed = most * threads + (reading(tested, path) if told is not None else 0)
    what = f"{name} {options}, told after {before:.2f} s: {after:.2f} s of {allowed:.2f}"
    print(what, flush=True)
    if after > allowed:
        tested.fault(what)
    claim = reports.figures_of(report)
    if not stops.ranges_of(report):
        tested.fault(f"{what}: {report[:300]}")
    elif claim is not None:
        said = tested.run("check", path, "cert", seconds=LONGEST).out
        wanted = f"{claim.low}" if reports.is_exact(report) else f"between {claim.low} {claim.high}"
        if said.splitlines()[:1] != [f"accepted {wanted}"]:
            tested.fault(f"{what}: {wanted}, check says {said[:200]}")
    tested.case(*["told"] * (told is not None), *["a certificate"] * (not is_table))


def progress(tested):
    """A case: a solver that works for ten seconds."""
    path = circuits.path_of("mult_32", tested.folder, None)
    words = ["worst", path, "--strategy", "refute", "--budget", "10000000", "--progress"]
    done = tested.run(*words, "--seconds", str(SAID_WITHIN), seconds=LONGEST)
    if not re.search(SAID, done.err):
        tested.fault(f"no line says how far the solver is: {done.err[:300]}")
    tested.case("progress")


def work(tested):
    progress(tested)
    most = TWO_LOOKS * unit(tested)
    for name, options in stops.SLOW:
        one(tested, name, options, most)


def shares(tested, cut):
    tested.require("told", 0.5)
    tested.require("a certificate", 0.4)


if __name__ == "__main__":
    sys.exit(check.main(work, __doc__, shares=shares))
