"""Tables of what is no search alone: whole commands on long texts, and the first command."""

import os

from . import measuring, places, running
from .table import number, seconds_of, words_of


def sim(inputs):
    """The words of a run from all inputs at 0 to all at 1."""
    return ["sim", "0" * inputs, "1" * inputs]


# Netlist (lib/circuits.py), the command's words without the netlist, and lines of its report.
COMMANDS = [
    ("chain_200000", sim(1), ["time 200000"]),
    ("back_200000", sim(1), ["time 200000"]),
    ("noted_200000", sim(1), ["time 200000"]),
    ("chain_100000", sim(1), ["time 100000"]),
    ("and8_200000", sim(7), ["time 1"]),
    ("and1024_3000", sim(1023), ["time 1"]),
    ("and1024_3000", ["bound"], ["a 1", "t none", "m 1"]),
    ("and1024_3000", ["worst"], ["exact 1", "nodes 1"]),
    ("and1024_3000", ["check"], ["accepted 1"]),
    ("comment_67108861", sim(1), ["time 1"]),
    ("inverters_4096", sim(4096), ["time 1"]),
    ("chain_200000", ["bound"], ["a 200000", "t none", "m 200000"]),
    ("chain_200000", ["worst"], ["exact 200000", "nodes 1"]),
    ("chain_200000", ["check"], ["accepted 200000"]),
]
# The first command compiles, which takes longer than a search may.
COMPILING = 1_200


def commands(table):
    """Whole runs of commands on long texts."""
    count = ["Instructions, millions"] if table.asked.instructions else []
    table.head("Netlist", "MB", "Command", "Answer", "Seconds", *count, "Memory, MB")
    for name, words, wanted in COMMANDS:
        path = table.path(name)
        if path is None:
            continue
        certificate = os.path.join(table.folder, f"{name}.cert")
        more = {"worst": ["--cert", certificate], "check": [certificate]}.get(words[0], [])
        command = [table.asked.programs[0], words[0], path, *words[1:], *more]
        (run,) = table.least_of([command])
        answer = table.answer(f"{words[0]} of {name}", run, wanted)
        counted = [number(table.counted(command), 0, 1e-6)] if count else []
        table.add(
            f"`{name}`", number(os.path.getsize(path), 1, 1e-6), f"`{words[0]}`", answer,
            seconds_of(run), *counted, number(run.cost.memory),
        )  # fmt: skip


def first(table):
    """The first command of a fresh clone, a later one, and both programs' searches."""
    clone = os.path.join(table.folder, "clone")
    cloned = running.run(["git", "clone", "-q", table.asked.clone or places.TOP, clone])
    if cloned.status:
        table.faults.append(f"git clone: {cloned.err.strip()}")
        return
    launcher, program = os.path.join(clone, "tdelay"), table.asked.programs[0]
    small, search = (
        ["worst", os.path.join(clone, "examples", f"{name}.v"), *words]
        for name, words in (("c17", []), ("mult_8", words_of("least", 20_000)))
    )
    runs = [measuring.measured([launcher, *small], COMPILING)]
    runs += table.least_of([[launcher, *small], [program, *small]], "clock")
    table.agree("c17", runs)
    found = table.least_of([[launcher, *search], [program, *search]], "clock")
    table.agree("mult_8", found)
    table.head("Command", "Answer", "Seconds by the clock", "Processor seconds", "Memory, MB")
    by_program = "the same by the proved program"
    names = ["`./tdelay worst examples/c17.v`, the first", "the same, later", by_program]
    names += ["`./tdelay worst examples/mult_8.v --strategy least --budget 20000`", by_program]
    for name, run in zip(names, [*runs, *found]):
        places_after = 0 if run.cost.clock >= 10 else 3
        both = (seconds_of(run, by, places_after) for by in ("clock", "processor"))
        table.add(name, run.answer(), *both, number(run.cost.memory))
