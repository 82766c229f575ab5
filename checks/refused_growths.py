#!/usr/bin/env python3
"""Runs each command with a growth of memory refused, alone or with all that come after it, and
compares each run with one that has memory enough.

A run may answer the same; or end with status 5, `tdelay: out of memory` and nothing but a beginning
of its output; or, a search, answer `between` with `cause memory` (`cause budget`, too, where it
does with memory enough) and two figures around the right one, or
`exact` with the right time and a certificate that `check` accepts; one with conditions that found
no pair yet `between none` and the right time or a later one. A table of outputs has some such rows
then. Where the root of a search is measured and bounded, and its report isn't begun, a growth
refused alone may not end it as out of memory: it has to answer. That is so after as many growths as
the same search takes with a budget of 0, and until the last ones, which are the report's. Searches
are those of a lost pulse, of two ways that meet, and of a slow arm, by 1, 2 and 4 workers. `check`
gives its verdict, of a certificate with a leaf by spans too, or is out of memory, and never another
verdict.

Each case is a refused growth, or all from one on. A random choice is tried, half of it after roots,
the first ones after the root of a search with conditions among them, and as many of each command
else. Of 100 cases 5 at least are searches of which the root was known, and 25 out of memory. It
needs a C compiler, `cc`.
"""

import json
import os
import subprocess
import sys
from collections import Counter, namedtuple

from lib import check, netlists, places, reports, running

CASES = 8000
# The most growths that a report takes.
OF_REPORT = 16
# The growths after the root of a search with conditions that are tried: no pair is found yet.
EARLY = 64
# What is reported where no thread can be had for a timer.
NO_TIMER = ["tdelay: no timer\n"]
# After the last growth.
NEVER = 10**9
NETLISTS = {
    "inverter.v": netlists.INVERTER,
    "lost.v": netlists.LOST,
    "met.v": netlists.MET,
    "slow.v": netlists.SLOW,
}
CERTIFICATES = {
    "lost.cert": ["lost.v"],
    "met.cert": ["met.v"],
    "slow.cert": ["slow.v"],
    "few.cert": ["met.v", "--flips", "1", "--at", "0,2"],
    "zero.cert": ["met.v", "--first", "0."],
    "one.cert": ["met.v", "--first", "1."],
    "n22.cert": ["c17.v", "--output", "N22"],
    "refuted.cert": ["met.v", "--strategy", "refute"],
    "open.cert": ["met.v", "--budget", "2", "--cert-between"],
}
ROOTED = [
    ["worst", netlist, "--workers", workers, "--budget", "10000"]
    for netlist in ("lost.v", "met.v", "slow.v")
    for workers in ("1", "2", "4")
] + [
    ["worst", "met.v", "--strategy", "lead", "--budget", "10000"],
    ["worst", "lost.v", "--strategy", "refute", "--budget", "10000"],
    ["worst", "met.v", "--flips", "1", "--budget", "10000"],
]
OTHERS = [
    ["sim", "inverter.v", "0", "1"],
    ["sim", "c17.v", "01010", "01110", "--vcd", "out.vcd"],
    ["sim", "met.v", "01", "10", "--at", "0,2"],
    ["path", "c17.v", "01010", "01110"],
    ["bound", "c17.v", "--first", "0.0..", "--second", ".1...", "--edges"],
    ["bound", "met.v", "--first", "0.", "--at", "0,2"],
    ["worst", "c17.v"],
    ["worst", "met.v", "--cert", "out.cert"],
    ["worst", "met.v", "--budget", "2"],
    ["worst", "met.v", "--flips", "1", "--cert", "out.cert"],
    ["worst", "met.v", "--first", "0.", "--hold", ".=", "--at", "3,0", "--cert", "out.cert"],
    ["worst", "met.v", "--flips", "1", "--budget", "2"],
    ["worst", "met.v", "--pin", "a=0"],
    ["bound", "met.v", "--pin", "a=0", "--at", "b=3"],
    ["sim", "met.v", "01", "10", "--at", "a=1"],
    ["worst", "met.v", "--workers", "2", "--cert", "out.cert"],
    ["worst", "met.v", "--strategy", "refute", "--cert", "out.cert"],
    ["worst", "lost.v", "--strategy", "refute", "--cert", "out.cert"],
    ["worst", "lost.v", "--strategy", "refute", "--budget", "1"],
    ["worst", "c17.v", "--output", "N22", "--outputs", "--cert", "out.cert"],
    ["worst", "met.v", "--seconds", "600", "--cert", "out.cert"],
    ["worst", "c17.v", "--each"],
    ["worst", "lost.v", "--each", "--strategy", "least"],
    ["sim", "c17.v", "01010", "01110", "--outputs"],
    ["bound", "c17.v", "--output", "N23"],
    ["bound", "met.v", "--edges", "--outputs", "--earliest"],
    ["worst", "met.v", "--keep-file", "kept", "--keep", "a=1.", "--cert", "out.cert"],
    ["parts", "met.v", "--parts", "2", "--keep-file", "kept"],
    ["parts", "c17.v", "--parts", "3", "--output", "N22"],
    ["check", "c17.v", "n22.cert", "--output", "N22"],
    ["check", "lost.v", "lost.cert"],
    ["check", "met.v", "met.cert"],
    ["check", "slow.v", "slow.cert"],
    ["check", "met.v", "few.cert"],
    ["check", "met.v", "refuted.cert"],
    ["join", "met.v", "refuted.cert", "--no-check", "--cert", "out.cert"],
    ["parts", "met.v", "--parts", "5"],
    ["parts", "met.v", "--parts", "5", "--strategy", "lead"],
    ["join", "met.v", "zero.cert", "one.cert", "--no-check", "--cert", "out.cert"],
    ["join", "met.v", "zero.cert", "one.cert"],
    ["join", "met.v", "few.cert", "--flips", "1", "--at", "0,2"],
    ["info", "c17.v"],
    ["info", "c17.v", "--json"],
    ["sim", "c17.v", "01010", "01110", "--vcd", "out.vcd", "--net", "N16", "--json"],
    ["path", "c17.v", "01010", "01110", "--output", "N22", "--seconds", "600", "--json"],
    ["bound", "met.v", "--hold-input", "a", "--required", "3", "--json"],
    ["check", "met.v", "met.cert", "--seconds", "600", "--json"],
    ["check", "met.v", "open.cert"],
    ["join", "met.v", "zero.cert", "one.cert", "--required", "3", "--json"],
    ["parts", "met.v", "--parts", "3", "--hold", ".=", "--flips", "1", "--required", "3"],
    ["worst", "met.v", "--path", "--verbose", "--required", "3", "--memory", "600"],
    ["worst", "lost.v", "--strategy", "lead", "--stop", "never", "--progress"],
    ["worst", "slow.v", "--each", "--changes", "--figures", "--vectors"],
    ["worst", "c17.v", "--hazards"],
]

# How a run ended, and what it wrote. The growths are how many it asked for.
Outcome = namedtuple("Outcome", "status out err written")
# A command with how it ends where memory suffices, its worst delay, its growths, and after which of
# them and until which it has to answer.
Command = namedtuple("Command", "words ample worst growths rooted")


class Refuser:
    """Runs of the program with refused growths."""

    def __init__(self, tested):
        self.tested = tested
        source = os.path.join(places.CHECKS, "lib", "refusing.c")
        self.shim = os.path.join(tested.folder, "refusing.so")
        subprocess.run(["cc", "-shared", "-fPIC", "-O1", "-o", self.shim, source], check=True)

    def run(self, words, first=0, last=-1):
        """How a run ends whose growths `first` to `last` are refused, and how many it asked for."""
        self.tested.remove("out.cert", "out.vcd", "growths")
        refusing = {
            "REFUSE_FROM": str(first),
            "REFUSE_TO": str(last),
            "GROWTHS": os.path.join(self.tested.folder, "growths"),
        }
        done = self.tested.run(*words, env={"LD_PRELOAD": self.shim, **refusing})
        growths = self.tested.read("growths")
        written = tuple(self.tested.read(name) for name in ("out.cert", "out.vcd"))
        return Outcome(*done, written), int(growths) if growths else 0


def with_budget(words, budget):
    """The words of a search with another budget, none for None."""
    at = words.index("--budget") if "--budget" in words else len(words)
    return words[:at] + (["--budget", budget] if budget else []) + words[at + 2 :]


def make_files(tested):
    for name, text in NETLISTS.items():
        tested.write(name, text)
    with open(places.example("c17.v"), "rb") as file:
        tested.write("c17.v", file.read())
    tested.write("kept", "b 0. # conditions\n\nb ==\n")
    for name, words in CERTIFICATES.items():
        done = tested.run("worst", *words, "--cert", name)
        if done.status not in (0, 3) or tested.read(name) is None:
            raise RuntimeError(f"worst {words}: {done}, no certificate")


def rooted_of(refuser, words):
    """The growths that come after the root of a search is known, and before its report is begun.

    By several workers not all runs of a search take as many, so that of those that some runs have
    the first half is taken.
    """
    before = max(refuser.run(with_budget(words, "00000"))[1] for _ in range(5))
    until = min(refuser.run(words)[1] for _ in range(5)) - OF_REPORT
    if until <= before:
        raise RuntimeError(
            f"{' '.join(words)}: {until} growths, {before} of them with a budget of 0: "
            "none after the root"
        )
    several = "--workers" in words and words[words.index("--workers") + 1] != "1"
    return range(before + 1, (before + until) // 2 if several else until + 1)


def command_of(refuser, words, is_rooted):
    """A command with what is known of it where memory suffices."""
    ample, growths = refuser.run(words)
    if ample.status not in (0, 3) or not ample.out or growths == 0:
        raise RuntimeError(f"{' '.join(words)}: {ample}, {growths} growths")
    worst = None
    if words[0] == "worst" and not is_table(words):
        worst = reports.figures_of(refuser.run(with_budget(words, None))[0].out).low
    rooted = rooted_of(refuser, words) if is_rooted else range(0)
    if words[0] == "worst" and "--keep" in words:
        rooted = rooted_of(refuser, words)[:EARLY]
    return Command(words, ample, worst, growths, rooted)


def is_accepted(tested, command, got):
    """Whether `check` accepts the certificate of a run with the worst delay, where one was asked
    for.
    """
    if "--cert" not in command.words:
        return got.written[0] is None
    return (
        got.written[0] is not None
        and reports.accepted_time(
            tested.run("check", command.words[1], "out.cert", *output_of(command.words)).out
        )
        == command.worst
    )


def output_of(words):
    """The option of the output that a command asks about, if it asks about one."""
    at = words.index("--output") if "--output" in words else len(words)
    return words[at : at + 2]


def says_memory(words, out):
    """Whether a report as JSON says that memory ran out."""
    if "--json" not in words:
        return False
    said = json.loads(out)
    return said["error"]["kind"] == "memory" and said["status"] == 5


def is_table(words):
    """Whether a search reports a row for each output."""
    return "--each" in words or "--hazards" in words


def is_open(row, wanted):
    """Whether a row of hazards is open that has an answer with memory enough."""
    return row.startswith("hazard ") and row.split() == [*wanted.split()[:3], "open"]


def how_hazards_ended(ample, got):
    """As `how_table_ended`, of a table of hazards."""
    rows = got.out.splitlines(), ample.out.splitlines()
    if got.err or got.status != 3 or len(rows[0]) != len(rows[1]):
        return None
    fits = all(row == wanted or is_open(row, wanted) for row, wanted in zip(*rows))
    return "between" if fits else None


def how_table_ended(ample, got):
    """By what a table of outputs ended that isn't the same as with memory enough, None where it
    reported anything wrong: some of its searches were cut short.
    """
    if "\nhazard " in ample.out:
        return how_hazards_ended(ample, got)
    wanted, found = reports.rows_of(ample.out), reports.rows_of(got.out)
    if got.err or got.status != 3 or len(found) != len(wanted):
        return None
    fits = all(
        (name, edges) == (one, bound) and figures.low <= worst.low <= figures.high
        for (name, figures, edges), (one, worst, bound) in zip(found, wanted)
    )
    return "between" if fits else None


def how_it_ended(tested, command, got):
    """By what a run with refused growths ended, None where it reported anything wrong."""
    ample = command.ample
    if got == ample:
        return "the same"
    if (
        got.status == 5
        and got.err in ["tdelay: out of memory\n", ""] + NO_TIMER * ("--seconds" in command.words)
        and (ample.out.startswith(got.out) or says_memory(command.words, got.out))
    ):
        whole = all(text in (None, wanted) for text, wanted in zip(got.written, ample.written))
        return "out of memory" if whole else None
    if is_table(command.words):
        return how_table_ended(ample, got)
    figures, bound = reports.figures_of(got.out), reports.bound_without_pair(got.out)
    if bound is not None and "--keep" in command.words:
        figures = reports.Figures(0, bound)
    if got.err or figures is None or command.worst is None:
        return None
    # A later search of the same command may have gone on, and ended by its budget as it does where
    # memory suffices.
    causes = ["memory"] + ["budget"] * ("\ncause budget\n" in ample.out)
    is_cut = got.status == 3 and any(f"\ncause {it}\n" in got.out for it in causes)
    if is_cut and got.written == (None, None):
        if not figures.low <= command.worst <= figures.high:
            return None
        return "between" if bound is None else "between, no pair yet"
    if (
        got.status == 0
        and figures == (command.worst, command.worst)
        and is_accepted(tested, command, got)
    ):
        return "exact in another way"
    return None


def try_growth(tested, refuser, command, first, last):
    """A case: the growths from `first` to `last` are refused. Gives how it ended."""
    got, growths = refuser.run(command.words, first, last)
    how = how_it_ended(tested, command, got)
    has_to_answer = first == last and first in command.rooted
    if how is None or has_to_answer and how == "out of memory":
        tested.fault(
            f"{' '.join(command.words)}, growths {first} to {last} of {command.growths} refused: "
            f"{got}"
        )
    kinds = [how or "wrong"] + ["growth refused"] * (first <= growths)
    tested.case(
        *kinds,
        *["root known, answered"]
        * (has_to_answer and first <= growths and how not in (None, "out of memory")),
    )
    return how


def in_turn(cases):
    """The cases of each command in their order, a command's first before another's second."""
    counts, turns = Counter(), {}
    for it in cases:
        turns[it] = counts[it[0]] = counts[it[0]] + 1
    return sorted(cases, key=turns.get)


def chosen(tested, commands):
    """The growths that are tried, by commands: those after roots, to a half of all, and others, a
    random choice with as many of each command; all where as many are asked for. Those of searches
    with conditions come first, as they are few.
    """
    every = [
        (place, first, last)
        for place, command in enumerate(commands)
        for first in range(1, command.growths + 1)
        for last in (first, NEVER)
    ]
    tested.random.shuffle(every)
    rooted = in_turn([it for it in every if it[1] == it[2] and it[1] in commands[it[0]].rooted])
    rooted.sort(key=lambda it: "--keep" not in commands[it[0]].words)
    rooted = set(rooted[: tested.most // 2])
    others = in_turn([it for it in every if it not in rooted])
    return sorted([*rooted, *others[: tested.most - len(rooted)]])


def work(tested):
    make_files(tested)
    refuser = Refuser(tested)
    # Those with conditions come first, so that a program that lies of them is soon found out.
    every = sorted(ROOTED + OTHERS, key=lambda words: "--keep" not in words)
    commands = [command_of(refuser, words, words in ROOTED) for words in every]
    ends = Counter()
    try:
        for place, first, last in chosen(tested, commands):
            ends[place, try_growth(tested, refuser, commands[place], first, last)] += 1
    finally:
        for place, command in enumerate(commands):
            counts = ", ".join(
                f"{count} {how}"
                for (which, how), count in sorted(ends.items(), key=str)
                if which == place
            )
            after = f", {len(command.rooted)} of them after the root" if command.rooted else ""
            print(f"{' '.join(command.words)}: {command.growths} growths{after}: {counts}")


def shares(tested, _cut):
    tested.require("growth refused", 0.95)
    tested.require("out of memory", 0.25)
    tested.require("root known, answered", 0.05)
    tested.require("between", 0.01)
    tested.require("between, no pair yet", 0.002)


if __name__ == "__main__":
    sys.exit(check.main(work, __doc__, CASES, shares, needs=["cc"]))
