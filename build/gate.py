#!/usr/bin/env python3
"""gate.py [--anew] [--record] [--write]: runs `rt ci` in a clone of what is committed, and prints
what it cost.

It prints the kit, the processors, the time, the processor seconds of all that ran and the gate's
last line, and a table by crate: seconds by the clock of its proof, and processor seconds of its
proof, of the same once more for its must-fail edits (where a kit does that before them), of these,
and of its tests. `--write` puts both into docs/FIGURES.md, of the second one the dearest crates
and the sums, between the comments that name them, where the gate passed. `--record` writes the
seconds by the clock into times.json, for `./prove`. With `--log FILE` no gate runs: the figures are
those that an earlier run printed into FILE. Nothing else should be at work on the machine. The exit
status is that of `rt ci`.

`--anew` proves everything, whatever the kit has kept. Kits differ here: `rt ci` of one that keeps
proofs (13f) takes names of crates and `--anew`, and without it proves only what isn't kept; that of
one that keeps none (13b) takes no words and proves everything each time. `rt help` says which one
is there, and the word is handed on where the kit has it.
"""

import argparse
import os
import re
import resource
import subprocess
import sys
import tempfile
import threading
import time

import sources
import written
from kit import fail, find_kit, keeps_proofs
from times import read_times, write_times
from watch import AGAIN, EDIT, PROOF, TESTS, Watch

COLUMNS = (PROOF, AGAIN, EDIT, TESTS)
# How many crates a page lists.
LISTED = 4
HEAD = "| Kit | Processors | By the clock | Processor seconds | Last line |"
PASSED = re.compile(r"\d+ passed, 0 failed")


def look_until(ended, watch):
    while not ended.wait(0.5):
        watch.look()


def run_gate(words, folder):
    """Runs the gate. Answers its status, its last line, and what was seen of it."""
    watch, ended = Watch(), threading.Event()
    looker = threading.Thread(target=look_until, args=(ended, watch))
    looker.start()
    process = subprocess.Popen(
        ["rt", "ci", *words], cwd=folder, stdin=subprocess.DEVNULL, stdout=subprocess.PIPE,
        stderr=subprocess.STDOUT, text=True, errors="replace",
    )  # fmt: skip
    last = ""
    for line in process.stdout:
        print(line, end="", flush=True)
        last = line.strip() or last
    status = process.wait()
    ended.set()
    looker.join()
    return status, last, watch


def table(watch):
    """Rows of the table, the dearest crate first, and the sums."""
    seconds = watch.processor_seconds()
    rows = {}
    for crate in {work[0] for work in seconds}:
        rows[crate] = [seconds.get((crate, column), 0) for column in COLUMNS]
    for crate, row in sorted(rows.items(), key=lambda it: -sum(it[1])):
        cells = [round(watch.seconds_by_clock(crate)), *(round(it) or "" for it in row)]
        yield f"| `{crate}` | " + " | ".join(str(it) for it in cells) + " |"
    sums = [round(sum(row[at] for row in rows.values())) for at in range(len(COLUMNS))]
    yield "| all | | " + " | ".join(f"{it:,}" for it in sums) + " |"


def figures(minutes, used, last, rows):
    """What the gate cost, as the page has it: the whole, and by crate."""
    kit = subprocess.run(["rt", "version"], capture_output=True, text=True).stdout.strip()
    whole = f"`{kit}`", len(os.sched_getaffinity(0)), f"{minutes:.0f} minutes", f"{used:,.0f}"
    lines = [HEAD, "| --- | --- | --- | --- | --- |"]
    lines += ["| " + " | ".join(str(it) for it in (*whole, f"`{last}`")) + " |", ""]
    lines += ["| Crate | By the clock | Proof | Again | Edits | Tests |"]
    lines += ["| --- | --- | --- | --- | --- | --- |", *rows, ""]
    lines += [time.strftime("Measured on %d %B %Y.", time.gmtime()).replace(" 0", " ")]
    return "\n".join(lines) + "\n"


def figures_of(log):
    """The figures that a run of this script printed last into a log."""
    try:
        with open(log, encoding="utf-8", errors="replace") as file:
            _, head, rest = file.read().rpartition(HEAD)
    except OSError as why:
        sys.exit(f"{log} can't be read: {why.strerror}")
    found = re.match(r"\n(?:\|.*\n|\n)+Measured on .*\.\n", rest)
    if not head or not found:
        sys.exit(f"{log} has no figures of a gate that ended")
    return head + found[0]


def for_page(text):
    """The figures as a page has them, with the dearest crates alone."""
    lines, left = [], LISTED
    for line in text.splitlines(keepends=True):
        is_crate = re.match(r"\| `td\w*` \|", line)
        if not is_crate or left:
            lines.append(line)
            left -= bool(is_crate)
    return "".join(lines)


def record(watch):
    """Writes the seconds by the clock of the crates that were proved into times.json."""
    times = read_times()
    proved = {crate for crate, what in watch.clock if what == PROOF}
    times["crates"].update({it: round(watch.seconds_by_clock(it)) for it in proved})
    write_times(times)


def measured(asked):
    """Runs the gate, and prints what it cost. Answers its status and these figures."""
    find_kit()
    words = ["--anew"] if asked.anew and keeps_proofs() else []
    began, before = time.monotonic(), resource.getrusage(resource.RUSAGE_CHILDREN)
    with tempfile.TemporaryDirectory(prefix="tdelay-gate-") as room:
        subprocess.run(["git", "clone", "-q", sources.TOP, room], check=True)
        status, last, watch = run_gate(words, room)
    after = resource.getrusage(resource.RUSAGE_CHILDREN)
    used = after.ru_utime - before.ru_utime + after.ru_stime - before.ru_stime
    text = figures((time.monotonic() - began) / 60, used, last, table(watch))
    print(f"\n{text}\n{last}")
    if asked.record:
        record(watch)
    return status, text


def call():
    """What is asked by the words of the command line."""
    words = argparse.ArgumentParser(
        description=__doc__, formatter_class=argparse.RawDescriptionHelpFormatter
    )
    words.add_argument("--anew", action="store_true")
    words.add_argument("--record", action="store_true")
    words.add_argument("--write", action="store_true")
    words.add_argument("--log", metavar="FILE")
    words.add_argument("--page", default=written.FIGURES, metavar="FILE")
    asked = words.parse_args()
    if asked.log and (asked.anew or asked.record):
        words.error("--log: no gate runs, so there is nothing to prove anew or to record")
    return asked


def main():
    asked = call()
    status, text = (0, figures_of(asked.log)) if asked.log else measured(asked)
    if asked.log:
        print(text, end="")
    if asked.write:
        if status or not PASSED.search(text):
            fail(status or 1, "the gate didn't pass, so its figures aren't written")
        try:
            written.put(asked.page, "build/gate.py", "proofs", for_page(text))
        except written.NoPlace as why:
            fail(1, str(why))
    return status


if __name__ == "__main__":
    sys.exit(main())
