"""Runs that are measured: seconds, memory and instructions, and what a search answered."""

import os
import re
import resource
import shutil
import time
from collections import namedtuple

from . import reports, running

# GNU time counts the memory of the program alone; a child of this script would begin with its own.
TIME = "/usr/bin/time"
# How many times longer a run may take that valgrind counts.
COUNTED = 60

# What a run took: seconds by the clock and of the processor, and megabytes, None where not known.
Cost = namedtuple("Cost", "clock processor memory")


class Run:
    """A run of a search: its report, empty where it didn't end in time, and what it cost."""

    def __init__(self, status, report, said, cost):
        self.status, self.report, self.said, self.cost = status, report, said, cost

    @property
    def ended(self):
        return self.status is not None

    @property
    def answers(self):
        """Whether the report has an answer, with the status that belongs to it."""
        exact = reports.is_exact(self.report)
        return reports.figures_of(self.report) is not None and self.status == (0 if exact else 3)

    @property
    def figures(self):
        return reports.figures_of(self.report) if self.answers else None

    @property
    def exact(self):
        return self.figures.low if self.answers and reports.is_exact(self.report) else None

    def answer(self):
        """The answer as a table has it."""
        if not self.ended:
            return "did not end"
        if not self.answers:
            return f"failed: {self.said.strip()[:60] or f'status {self.status}'}"
        low, high = self.figures
        return f"`between {low} {high}`" if self.exact is None else f"`exact {low}`"

    def nodes(self):
        return int(reports.values_of(self.report)["nodes"]) if self.answers else None


def measured(words, seconds):
    """Runs these words for a number of seconds at most, by itself, and measures that."""
    with running.folder() as folder:
        memory = os.path.join(folder, "memory")
        timed = [TIME, "-f", "%M", "-o", memory] if os.access(TIME, os.X_OK) else []
        before, begin = resource.getrusage(resource.RUSAGE_CHILDREN), time.monotonic()
        try:
            done = running.run([*timed, *words], seconds=seconds)
        except running.Hangs:
            return Run(None, "", "", Cost(seconds, seconds, None))
        clock, after = time.monotonic() - begin, resource.getrusage(resource.RUSAGE_CHILDREN)
        used = after.ru_utime + after.ru_stime - before.ru_utime - before.ru_stime
        kilobytes = (running.read(folder, "memory") or b"").split()[-1:]
    megabytes = int(kilobytes[0]) / 1024 if kilobytes else None
    return Run(done.status, done.out, done.err, Cost(clock, used, megabytes))


def instructions(words, seconds):
    """How many instructions a run executes. None where valgrind isn't there, or takes too long."""
    if not shutil.which("valgrind"):
        return None
    counted = ["valgrind", "--tool=callgrind", "--callgrind-out-file=/dev/null", *words]
    try:
        done = running.run(counted, seconds=seconds * COUNTED)
    except running.Hangs:
        return None
    found = re.search(r"Collected : (\d+)", done.err)
    return int(found[1]) if found else None
