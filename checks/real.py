#!/usr/bin/env python3
"""Searches the circuits of examples/real again, and has their certificates checked.

The table of examples/real/README.md says of each netlist how many inputs and gates it has, its
bounds by windows and by edges, and its worst delay. `info` and `bound` have to say the same.
`worst` has to answer exactly this delay by `refute`, and `check` to accept the certificate. Each
netlist is a case; all are tried.
"""

import os
import re
import sys

from lib import check, places, reports

FOLDER = places.example("real")
ROW = re.compile(r"^\| `(\w+)\.v` \|[^|]*\| (\d+) \| (\d+) \| (\d+) \| (\d+) \| (\d+) \|$", re.M)


def said_of(tested, name):
    """What the program says of a netlist: inputs, gates, both bounds, and the worst delay."""
    path = os.path.join(FOLDER, f"{name}.v")
    info = reports.values_of(tested.run("info", path).out)
    bound = reports.values_of(tested.run("bound", path, "--edges").out)
    found = tested.run("worst", path, "--strategy", "refute", "--cert", "c")
    exact = reports.values_of(found.out).get("exact")
    checked = tested.run("check", path, "c")
    accepted = reports.accepted_time(checked.out)
    figures = [info.get("inputs"), info.get("gates"), bound.get("a"), bound.get("e"), exact]
    return figures, None if accepted is None else str(accepted)


def work(tested):
    with open(os.path.join(FOLDER, "README.md"), encoding="utf-8") as page:
        rows = ROW.findall(page.read())
    netlists = {name for name in os.listdir(FOLDER) if re.fullmatch(r"\w+\.v", name)}
    if {f"{row[0]}.v" for row in rows} != netlists:
        tested.fault(f"the table has {sorted(row[0] for row in rows)}, the folder {netlists}")
    for name, *wanted in rows:
        tested.remove("c")
        figures, accepted = said_of(tested, name)
        if figures != wanted:
            tested.fault(f"{name}: {figures}, not {wanted}")
        elif accepted != wanted[-1]:
            tested.fault(f"{name}: the certificate: {accepted}")
        tested.case("exact")


if __name__ == "__main__":
    sys.exit(check.main(work, __doc__))
