#!/usr/bin/env python3
"""view.py DUMP.vcd REPORT.txt > VIEW.gtkw: a save file for GTKWave that shows why an output changes
as late as it does.

DUMP.vcd is what `tdelay .. --vcd` wrote, and REPORT.txt what `tdelay path` or `worst --path`
printed for the same pair. Shown are the inputs that change, the nets of the path in its order,
without those inside a cell, and the outputs that change, zoomed to the time in which they do. Open
it by `gtkwave -a VIEW.gtkw DUMP.vcd`.
"""

import math
import os
import re
import sys
from typing import Dict, List, NamedTuple

from refusal import Refusal, ending_by_name

# A net that primitives.py made inside a cell.
INNER = re.compile(r"t\d+_(?:_\d+)?")


class Dump(NamedTuple):
    """The nets of a dump that change, each with its moments, in the dump's order."""

    scope: str
    changes: Dict[str, List[int]]


def read_dump(text: str) -> Dump:
    scope = re.search(r"\$scope module (\S+) \$end", text)
    if not scope or "$enddefinitions $end" not in text:
        raise Refusal(
            "BadDump",
            "the first file is no value change dump",
            "write it by `tdelay sim`, `path` or `worst` with --vcd",
        )
    names = dict(re.findall(r"\$var wire 1 (\S+) (.+?) \$end", text))
    changes, moment = {name: [] for name in names.values()}, -1
    for line in text.split("$enddefinitions $end", 1)[1].splitlines():
        if line.startswith("#"):
            moment = int(line[1:]) - 1
        elif moment >= 0 and line[1:] in names:
            changes[names[line[1:]]].append(moment)
    return Dump(scope[1], {name: moments for name, moments in changes.items() if moments})


def path_of(report: str) -> List[str]:
    """The nets of a report's path."""
    nets = re.findall(r"^change \d+ (.+?) [01x] [01x] (?:input|\w+ \d+)$", report, re.M)
    if not nets and not re.search(r"^time 0$", report, re.M):
        raise Refusal(
            "NoPath",
            "the second file has no path",
            "print it by `tdelay path`, or by `worst --path`",
        )
    return [net for net in nets if not INNER.fullmatch(net.strip())]


def view(dump: Dump, path: List[str], file: str):
    """The lines of the save file."""
    shown = lambda name: f"{dump.scope}.{name.replace(' [', '[')}"
    inputs = [name for name, moments in dump.changes.items() if moments == [0]]
    last = max((moments[-1] for moments in dump.changes.values()), default=0)
    groups = [
        ("inputs that change", inputs),
        ("path of the last change", path[1:]),
        ("last changes", late(dump, last)),
    ]
    yield f'[dumpfile] "{os.path.abspath(file)}"'
    yield "[timestart] 0"
    yield "[size] 1200 700"
    yield "[pos] -1 -1"
    yield f"*{-zoom_for(last)}.0 {last + 1} -1 -1"
    yield "[signals_width] 220"
    yield "[sst_expanded] 0"
    for title, names in groups:
        yield f"@200\n-{title}\n@28"
        yield from (shown(name) for name in dict.fromkeys(names))


def zoom_for(last: int) -> int:
    """How far to zoom out so that all changes are in sight.

    At 0, 200 of the window's some 900 pixels are one step, at 1 they are two, at 2 four.
    """
    return math.ceil(math.log2((last + 2) / 4)) if last > 2 else 0


def late(dump: Dump, last: int) -> List[str]:
    """What changes at the last moment."""
    return [
        name
        for name, moments in dump.changes.items()
        if moments[-1] == last and not INNER.fullmatch(name.strip())
    ]


def main():
    if len(sys.argv) != 3:
        sys.exit(__doc__)
    with open(sys.argv[1]) as dump, open(sys.argv[2]) as report:
        lines = list(view(read_dump(dump.read()), path_of(report.read()), sys.argv[1]))
    print("\n".join(lines))


if __name__ == "__main__":
    ending_by_name("view.py", main)
