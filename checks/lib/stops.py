"""A table of searches that are ended early, by the clock and by a file, alone and beside busy
processes.
"""

import contextlib
import os
import random
import re
import subprocess
import threading

from . import measuring, reports, running
from .standings import claimed
from .table import number

# Netlists that are slow in one phase each, and how they are asked about: reading, the first bounds,
# a climb, a simulation, a tree, a solver, its certificate, tables.
SLOW = [
    ("chain_200000", ""),
    ("and1024_3000", ""),
    ("random_199900", ""),
    ("doubling_26", ""),
    ("xor1000_60", ""),
    ("mult_32", "--strategy least"),
    ("mult_32", "--strategy lead"),
    ("mult_32", "--strategy refute"),
    ("mult_16", "--strategy refute --workers 2"),
    ("inverters_4096", "--each"),
    ("mult_16", "--each"),
    ("booth8", "--each --changes --figures"),
]
# The seconds of a run; those of a longer one; how many runs are ended by a file, within how many
# seconds; beside how many busy processes.
SECONDS, LONGER, STOPPED, WITHIN = (1, 2, 5), 20, 2, 5
CROWDS = (0, 4)
# A row of a table, with its columns of changes.
ROW = r"(?m)^each (\S+) (exact \d+|between \d+ \d+)(.*)$"
BUDGET = ["--budget", "10000000"]


def ranges_of(report):
    """The figures of a report by what they are of: of the whole, or of each row and column."""
    found = {} if reports.figures_of(report) is None else {"": reports.figures_of(report)}
    for name, figures, rest in re.findall(ROW, report):
        low, *high = re.findall(r"\d+", figures)
        found[name] = reports.Figures(int(low), int(high[0] if high else low))
        for column, low, high in re.findall(r" (rise|fall|glitch) (\d+)(?:\.\.(\d+))?", rest):
            found[f"{name} {column}"] = reports.Figures(int(low), int(high or low))
    return found


def is_within(report, longer):
    """Whether the figures of a report and those of a longer run may all be right."""
    ours, theirs = ranges_of(report), ranges_of(longer)
    same = [it for it in ours if it in theirs]
    return bool(same) and all(reports.agree(ours[it], theirs[it]) for it in same)


@contextlib.contextmanager
def busy(count):
    """So many processes that do nothing but work, to be used by `with`."""
    crowd = [
        subprocess.Popen(["sh", "-c", "while :; do :; done"])  # pylint: disable=consider-using-with
        for _ in range(count)
    ]
    try:
        yield
    finally:
        for process in crowd:
            process.kill()
            process.wait()


def is_accepted(table, path, certificate, report):
    """Whether `check` accepts what the certificate of an answer claims."""
    checked = measuring.measured([table.asked.programs[0], "check", path, certificate], 600)
    said = (checked.report.splitlines() or [checked.said.strip()])[0]
    return said == f"accepted {claimed(report)}"


def ended(table, path, words, moment):
    """Runs a search that ends by the clock, or by a file after some seconds."""
    command = [table.asked.programs[0], "worst", path, *words]
    if isinstance(moment, int):
        return measuring.measured([*command, "--seconds", str(moment)], table.asked.seconds)
    running.remove(table.folder, "stop")
    stop = os.path.join(table.folder, "stop")
    timer = threading.Timer(moment, running.write, (table.folder, "stop", ""))
    timer.start()
    try:
        return measuring.measured([*command, "--stop", stop], table.asked.seconds)
    finally:
        timer.cancel()


def lateness(table, name, options, path, moment, longer):
    """How long after a moment a search ends, in seconds. What it answers has to lie within the
    answer of one that had more time, and its certificate is accepted."""
    words, certificate = [*options.split(), *BUDGET], table.certificate(path)
    is_table = "--each" in words
    running.remove(table.folder, os.path.basename(certificate))
    if not is_table:
        words += ["--cert", certificate, "--cert-between"]
    done = ended(table, path, words, moment)
    if not (done.ended and is_within(done.report, longer.report)):
        table.faults.append(f"{name} {options} {moment}: {done.report[:300]} {done.said}")
    elif not (is_table or is_accepted(table, path, certificate, done.report)):
        table.faults.append(f"{name} {options} {moment}: the certificate isn't accepted")
    return done.cost.clock - moment


def row(table, name, options, path, draw):
    """A row: how long after its moments a search ends at most, alone and beside busy processes."""
    read = measuring.measured([table.asked.programs[0], "info", path], table.asked.seconds)
    longer = ended(table, path, [*options.split(), *BUDGET], LONGER)
    latest = []
    for count in CROWDS:
        with busy(count):
            for moments in (SECONDS, [WITHIN * draw.random() for _ in range(STOPPED)]):
                late = (lateness(table, name, options, path, it, longer) for it in moments)
                latest.append(number(max(0, *late), 2))
    table.add(f"`{name}`", options, number(read.cost.clock, 2), *latest)


def stops(table):
    """Searches that are ended early: how long after."""
    table.head("Netlist", "Options", "Read, s", "`--seconds`", "`--stop`", "busy `--seconds`",
               "busy `--stop`")  # fmt: skip
    draw = random.Random(1)
    for name, options in SLOW:
        path = table.path(name)
        if path is not None:
            row(table, name, options, path, draw)
