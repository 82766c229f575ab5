"""Which crates the toolchain's provers are at work on, and for how long."""

import os
import time

TICKS = os.sysconf("SC_CLK_TCK")
# What a prover's work is for: the crate's own proof, the same once more for its must-fail edits,
# such an edit, or its tests.
PROOF, AGAIN, EDIT, TESTS = "proof", "again", "edit", "tests"


def read_words(process):
    """The words of a process's command line, none where it ended."""
    try:
        with open(f"/proc/{process}/cmdline", "rb") as it:
            return it.read().decode(errors="replace").split("\0")[:-1]
    except OSError:
        return []


def read_fields(process):
    """What the system says of a process after its name, from its state on; none where it ended."""
    try:
        with open(f"/proc/{process}/stat") as it:
            return it.read().rpartition(")")[2].split()
    except OSError:
        return []


def read_seconds(process):
    """The processor seconds of a process so far, none where it ended."""
    fields = read_fields(process)
    return (int(fields[11]) + int(fields[12])) / TICKS if len(fields) > 12 else None


def is_started_here(process):
    """Whether this process started another one, or one that did."""
    while process not in ("0", str(os.getpid())):
        process = (read_fields(process)[1:2] or ["0"])[0]
    return process != "0"


def work_of(words):
    """The crate that a prover's command line is about, and what its work is for, or none."""
    if len(words) < 2 or os.path.basename(words[0]) != "rattle":
        return None
    after = {word: value for word, value in zip(words, [*words[1:], ""])}
    crate, kept = after.get("--crate-name"), after.get("--incremental", "")
    if not crate:
        return None
    if "rt-edits-" in kept:
        return crate, AGAIN if kept.endswith("/seed") else EDIT
    if words[1] == "check" and not kept and "-o" not in words:
        # (What a program's own check came to is written, for two compilers.)
        return crate, EDIT
    return crate, TESTS if "--test" in words else PROOF


class Watch:
    """The seconds that each crate's proofs, edits and tests took, by looks at /proc, of provers
    that this process started, at however many removes.
    """

    def __init__(self):
        self.clock = {}
        self.processes = {}
        self.last = time.monotonic()

    def look(self):
        now = time.monotonic()
        works = set()
        for process in filter(str.isdigit, os.listdir("/proc")):
            work = work_of(read_words(process))
            seconds = read_seconds(process) if work and is_started_here(process) else None
            if seconds is not None:
                works.add(work)
                self.processes[process, work] = seconds
        for work in works:
            self.clock[work] = self.clock.get(work, 0) + now - self.last
        self.last = now

    def seconds_by_clock(self, crate):
        """How long the crate's own proof was at work, by the clock."""
        return self.clock.get((crate, PROOF), 0)

    def processor_seconds(self):
        """The processor seconds by crate and by what the work was for."""
        total = {}
        for (_, work), seconds in self.processes.items():
            total[work] = total.get(work, 0) + seconds
        return total
