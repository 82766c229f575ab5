#!/usr/bin/env python3
"""Measures one program, or two side by side, and prints a table of docs/FIGURES.md.

    figures.py TABLE [options] PROGRAM [OTHER]

The tables:

- `commands`: whole runs of `sim`, `bound`, `worst` and `check` on long texts.
- `speed`: searches, their seconds and memory; of two programs PROGRAM is the one before a change,
  and OTHER the one after it.
- `workers`: searches by 1, 2 and 4 workers, by the clock.
- `growth`: circuits by `auto`, in families, by their gates; lint/plots.py draws this table.
- `strategies`: each netlist by each strategy that the program has.
- `collection`: how many netlists of a folder are exact, by the strategy `auto` or `--strategies`.
- `promises`, `changes`, `hazards`: questions with conditions, the latest rise, fall and glitch of
  each output, and whether it can glitch.
- `required`: required times, at the worst delay, beside it, and where a figure stays open.
- `certificates`: the certificate of each netlist of a folder after five seconds, whatever is open.
- `stops`: searches that are slow in one phase each, ended by `--seconds` and by `--stop`: how long
  after, and whether the answer is within that of a longer run.
- `hostile`: certificates that are as long, wide or wrong as a text allows, and what `check` takes.
- `first`: the first command in a fresh clone of what is committed, which compiles, and later ones.

The netlists are those of examples/ and examples/real/, made by lib/circuits.py, or of the folder
`--netlists`; those that are in neither are left out, and the table says so. Each run ends after
`--seconds` at most, and the table says which was stopped; the first command has 20 minutes. Of
`--runs` runs the least seconds stand in the table, but one run alone in `strategies`, `collection`
and `hostile`. Seconds are user and system seconds where nothing else is said, and memory is the
greatest resident one of a process. Each certificate is checked by `check` of the same program. With
`--write` the table goes into the page, between the comments that name it. Lists of names have
commas.

Exit status 0 where all that ended agrees and each certificate is accepted, else 1: two exact
answers to one question are the same, and lie within the figures of the others, and the answers on
long texts are those that are known. Nothing else should be at work on the machine while seconds are
measured.
"""

import argparse
import os
import re
import sys
import time

from lib import costs, hostile, places, promised, running, searches, standings, stops
from lib.table import Table, folded

sys.path.append(os.path.join(places.TOP, "build"))
import written  # noqa: E402

TABLES = {
    "commands": costs.commands,
    "speed": searches.speed,
    "workers": searches.workers,
    "growth": searches.growth,
    "strategies": searches.strategies,
    "collection": searches.collection,
    "promises": promised.promises,
    "changes": promised.changes,
    "hazards": promised.hazards,
    "required": standings.required,
    "certificates": standings.certificates,
    "stops": stops.stops,
    "hostile": hostile.hostile,
    "first": costs.first,
}
# The page has no place for these: before and after a change, and of conditions.
UNPLACED = {"speed", "workers", "promises", "hazards"}
# Those of which each figure is of one run.
ONCE = {
    "strategies", "collection", "promises", "changes", "hazards", "required", "certificates",
    "stops", "hostile",
}  # fmt: skip
COUNTED = {"commands", "speed"}


def conditions(table):
    """What was measured, in sentences below the table."""
    asked = table.asked
    with open("/proc/cpuinfo", encoding="utf-8") as file:
        model = re.search(r"(?m)^model name\s*: (.*)$", file.read())
    date = time.strftime("%d %B %Y", time.gmtime()).lstrip("0")
    is_least = asked.table not in ONCE and asked.runs > 1
    least = f"the least of {asked.runs} runs" if is_least else "one run"
    text = f"Measured on {date}, {os.cpu_count()} processors ({model[1] if model else 'unknown'}): "
    text += f"{least}, each for {asked.seconds} seconds at most."
    if asked.unproved:
        text += " By the unproved program."
    if asked.table == "speed" and len(asked.programs) == 2:
        text += " Of two figures the first is that before the change."
    lacking = table.lacking + table.unseen
    if lacking:
        text += f" Left out, since their netlists weren't there: {', '.join(lacking)}."
    return folded(text)


def names(text):
    """The names of a list with commas."""
    return [it for it in text.split(",") if it]


def call():
    """What is asked by the words of the command line."""
    words = argparse.ArgumentParser(
        description=__doc__, formatter_class=argparse.RawDescriptionHelpFormatter
    )
    words.add_argument("table", choices=TABLES)
    words.add_argument("programs", nargs="+", metavar="PROGRAM")
    words.add_argument("--netlists", metavar="FOLDER", help="a folder of netlists, NAME.v")
    words.add_argument("--only", type=names, metavar="NAME,..", help="these netlists alone")
    words.add_argument("--strategies", type=names, metavar="NAME,..")
    words.add_argument("--budget", type=int, metavar="N", help="where a table has none of its own")
    words.add_argument("--runs", type=int, default=7, metavar="N")
    words.add_argument("--seconds", type=int, default=120, metavar="N")
    words.add_argument("--jobs", type=int, default=1, metavar="N", help="of `collection`")
    words.add_argument("--instructions", action="store_true",
                       help="of `speed` and `commands`, by valgrind")  # fmt: skip
    words.add_argument("--clone", metavar="FOLDER",
                       help="the repository of `first`, this one if left out")  # fmt: skip
    words.add_argument("--unproved", action="store_true",
                       help="say that PROGRAM was compiled without proofs")  # fmt: skip
    words.add_argument("--write", action="store_true")
    words.add_argument("--page", default=written.FIGURES, metavar="FILE")
    asked = words.parse_args()
    if min(asked.runs, asked.seconds, asked.jobs) < 1:
        words.error("--runs, --seconds and --jobs: 1 at least")
    if len(asked.programs) > (2 if asked.table == "speed" else 1):
        words.error("too many programs")
    if asked.table in ("collection", "certificates") and not asked.netlists:
        words.error(f"{asked.table}: --netlists FOLDER says which")
    if asked.instructions and asked.table not in COUNTED:
        words.error(f"--instructions: of {' and '.join(sorted(COUNTED))} alone")
    asked.programs = [os.path.abspath(it) for it in asked.programs]
    return asked


def main():
    asked = call()
    with running.folder() as folder:
        table = Table(asked, folder)
        TABLES[asked.table](table)
    text = "\n".join([*table.lines, "", conditions(table)]) + "\n"
    print(text, end="")
    for fault in table.faults:
        print(f"wrong: {fault}")
    if asked.write and not table.faults:
        try:
            written.put(asked.page, "checks/figures.py", asked.table, text)
        except written.NoPlace as why:
            sys.exit(str(why))
    return 1 if table.faults else 0


if __name__ == "__main__":
    sys.exit(main())
