#!/usr/bin/env python3
"""Runs all checks of a built program, several side by side, and says which pass.

    all.py [--minutes N] [--only NAME ..] [--self-test] [--seed S] [--jobs N] [PROGRAM]

PROGRAM is that of `rt ci` where it is left out. Each check tries as many cases as its quick part
has, so that all of them take less than 10 minutes on four processors; with `--minutes N` it tries N
tenths of them. A check whose cases stand in a list tries them all. `--only` names the checks that
are run. What takes longer than it is worth each time is run where there are minutes for it, or
where it is named (LATER); `figures.py` and `hall.py` measure.

`--self-test` runs every check on programs that can't be right: `/bin/true`, `/bin/false` and one
that hangs. Each has to fail within three minutes, and to say why: a minute on a quiet machine.
Then, where PROGRAM is there, each check runs on programs that lie in one thing alone (lib/lies.py),
and has to fail these, too.

A line says of each check whether it passes, how long it took, and its own last line; of one that
fails what it printed stands before that. One that lacks a program beside `tdelay` is skipped, which
is said too. The last line is `N passed, N failed`. The exit status is 0 where some check passed and
none failed.
"""

import argparse
import glob
import os
import re
import subprocess
import sys
import threading
import time
from collections import Counter
from concurrent.futures import ThreadPoolExecutor

from lib import lies, places, running
from lib.check import SKIPPED

# The minutes of the quick part.
QUICK = 10
# Scripts of this folder that are no checks of a program.
NO_CHECKS = {"all", "figures", "hall"}
# Checks that are run where there are this many minutes.
LATER = {"first_command": 20}
# What takes longest begins first.
LONGEST_FIRST = ["first_command", "memory_limits", "bridges", "limits", "opinions", "slurm"]
LONGEST_FIRST += ["refused_growths", "parts", "mutations", "transcripts"]
# The seconds within which a program that can't be right has to fail a check.
SOON = 180
# The seconds that a check may take to find a lie.
LONG = 900
# The lines that are shown of a check that fails.
SHOWN = 60


class Ran:
    """A check that ended: its status, None where it was stopped; what it printed; its seconds."""

    def __init__(self, name, status, out, seconds):
        self.name, self.status, self.out, self.seconds = name, status, out, seconds

    def last_line(self):
        return (self.out.strip().splitlines() or ["nothing"])[-1]


def all_names():
    """The checks of this folder, those that take longest first."""
    paths = glob.glob(os.path.join(places.CHECKS, "*.py"))
    names = sorted({os.path.basename(path)[:-3] for path in paths} - NO_CHECKS)
    first = [name for name in LONGEST_FIRST if name in names]
    return first + [name for name in names if name not in first]


def cases_of(name, minutes):
    """The words that say how many cases a check tries in a number of minutes."""
    own = re.search(r"(?m)^CASES = (\d+)$", places.text_of("checks", f"{name}.py"))
    return ["--cases", str(max(1, int(own[1]) * minutes // QUICK))] if own else []


def run_check(name, words, seconds):
    """Runs a check, for a number of seconds at most."""
    command = [sys.executable, os.path.join(places.CHECKS, f"{name}.py"), *words]
    begin = time.monotonic()
    pipes = {"stdout": subprocess.PIPE, "stderr": subprocess.STDOUT, "stdin": subprocess.DEVNULL}
    with subprocess.Popen(command, text=True, errors="backslashreplace", **pipes) as process:
        try:
            out, _ = process.communicate(timeout=seconds)
        except subprocess.TimeoutExpired:
            # A check that gets this signal ends what it runs.
            process.terminate()
            try:
                out, _ = process.communicate(timeout=20)
            except subprocess.TimeoutExpired:
                process.kill()
                out, _ = process.communicate()
            return Ran(name, None, out, time.monotonic() - begin)
    return Ran(name, process.returncode, out, time.monotonic() - begin)


class Results:
    """How many checks passed, failed and were skipped. It prints each as it ends."""

    def __init__(self):
        self.counts, self.lock = Counter(), threading.Lock()

    def add(self, ran, verdict, what):
        with self.lock:
            self.counts[verdict] += 1
            if verdict == "failed":
                print("\n".join(f"  {line}" for line in ran.out.strip().splitlines()[-SHOWN:]))
            print(f"{verdict} {what}, {ran.seconds:.0f} s: {ran.last_line()[:300]}", flush=True)

    def end(self):
        """Prints the last line, and gives the exit status."""
        passed, failed = self.counts["passed"], self.counts["failed"]
        if self.counts["skipped"]:
            print(f"{self.counts['skipped']} skipped")
        print(f"{passed} passed, {failed} failed")
        return 1 if failed or not passed else 0


def verdict_of(ran):
    """Whether a check passes a program."""
    return {0: "passed", SKIPPED: "skipped"}.get(ran.status, "failed")


def verdict_of_failing(ran):
    """Whether a check fails a program that can't be right, as it has to, and says why. One that
    left a part out, which it says, may have left out just what would show it.
    """
    skips_some = any(line.startswith("skipped: ") for line in ran.out.splitlines())
    if ran.status == SKIPPED or (ran.status == 0 and skips_some):
        return "skipped"
    says_why = len(ran.out.strip().splitlines()) > 1
    return "passed" if ran.status not in (0, None) and says_why else "failed"


def test_program(asked, names, pool):
    """Runs the checks of the program."""
    results = Results()
    seconds = 120 * max(asked.minutes, QUICK)

    def test(name):
        words = [asked.program, "--seed", str(asked.seed), *cases_of(name, asked.minutes)]
        ran = run_check(name, words, seconds)
        results.add(ran, verdict_of(ran), name)

    list(pool.map(test, names))
    return results.end()


def test_checks(asked, names, pool):
    """Runs the checks of programs that can't be right, and of programs that lie."""
    results = Results()
    with running.folder() as folder:
        hanging = running.write(folder, "hangs", "#!/bin/sh\nexec sleep 1000\n")
        os.chmod(hanging, 0o755)
        cases = [
            (name, program, SOON, os.path.basename(program))
            for program in (hanging, "/bin/true", "/bin/false")
            for name in names
        ]
        right = os.path.abspath(asked.program)
        if os.access(right, os.X_OK):
            for number, (name, what, lie) in enumerate(lies.all_of(names)):
                cases.append((name, lies.make(folder, right, number, lie), LONG, what))
        else:
            print(f"{right} isn't there, so that no program can be made of it that lies")

        def test(case):
            name, program, seconds, what = case
            ran = run_check(name, [program, *cases_of(name, QUICK // 2)], seconds)
            results.add(ran, verdict_of_failing(ran), f"{name} has to fail: {what}")

        list(pool.map(test, cases))
    return results.end()


def call():
    """What is asked by the words of the command line."""
    parser = argparse.ArgumentParser(
        description=__doc__, formatter_class=argparse.RawDescriptionHelpFormatter
    )
    parser.add_argument("program", nargs="?", default=places.PROGRAM, metavar="PROGRAM")
    parser.add_argument("--minutes", type=int, default=QUICK, metavar="N")
    parser.add_argument("--only", nargs="+", metavar="NAME", choices=all_names())
    parser.add_argument("--self-test", action="store_true")
    parser.add_argument("--seed", type=int, default=1, metavar="S")
    parser.add_argument("--jobs", type=int, default=os.cpu_count() or 1, metavar="N")
    asked = parser.parse_args()
    if asked.minutes < 1 or asked.jobs < 1:
        parser.error("--minutes and --jobs: 1 at least")
    return asked


def main():
    asked = call()
    names = asked.only or all_names()
    # A check of a program that hangs waits most of its time.
    with ThreadPoolExecutor(asked.jobs * (2 if asked.self_test else 1)) as pool:
        if asked.self_test:
            return test_checks(asked, names, pool)
        if not asked.only:
            names = [name for name in names if asked.minutes >= LATER.get(name, 0)]
        return test_program(asked, names, pool)


if __name__ == "__main__":
    sys.exit(main())
