#!/usr/bin/env python3
"""audit.py --write | --check: the table of wrong bodies in docs/AUDIT.md, made from the edits.

An edit is a file that puts a wrong body in: those of crates/CRATE/must-fail are tried by `rt ci`,
those of lint/wrong_bodies/CRATE by `lint/wrong_bodies.py`. The table has the names of the first
and the numbers of the others. `--write` puts it and the counts into the page, `--check` ends with
status 1 where the page has others.
"""

import glob
import os
import re
import sys

TOP = os.path.dirname(os.path.dirname(os.path.abspath(__file__)))
PAGE = os.path.join(TOP, "docs", "AUDIT.md")
START = "<!-- Written by lint/audit.py edits, to the next comment. -->\n"
END = "<!-- The end of edits. -->\n"
# Patterns of edits, each with how far above an edit its crate stands.
KINDS = {"crates/*/must-fail/*.edit": 2, "lint/wrong_bodies/*/*.edit": 1}
COUNTS = [r"(`rt ci` tries )\d+( wrong bodies)", r"([Tt]he other )\d+( are tried)"]


def edits():
    """By crate the names of its edits, of those that `rt ci` tries and of the others."""
    found = {}
    for at, (pattern, part) in enumerate(KINDS.items()):
        for path in sorted(glob.glob(os.path.join(TOP, pattern))):
            crate, name = path.split(os.sep)[-1 - part], os.path.basename(path)
            found.setdefault(crate, ([], []))[at].append(name.removesuffix(".edit"))
    return found


def table(found):
    rows = ["| Crate | `rt ci` tries | On demand |", "| --- | --- | --- |"]
    for crate, parts in sorted(found.items()):
        names = ", ".join(f"`{name}`" for name in parts[0])
        rows.append(f"| `{crate}` | {names} | {len(parts[1]) or ''} |")
    return "\n".join(rows) + "\n"


def written(text, found):
    """The page with the table and the counts as they are."""
    head, rest = text.split(START)
    tail = rest.split(END)[1]
    for at, pattern in enumerate(COUNTS):
        count = sum(len(parts[at]) for parts in found.values())
        head, changed = re.subn(pattern, rf"\g<1>{count}\g<2>", head)
        if changed != 1:
            sys.exit(f"docs/AUDIT.md: no place for the count {count}")
    return head + START + table(found) + END + tail


def main(words):
    if words not in (["--write"], ["--check"]):
        sys.exit(__doc__)
    with open(PAGE, encoding="utf-8") as file:
        old = file.read()
    new = written(old, edits())
    if words == ["--write"]:
        with open(PAGE, "w", encoding="utf-8") as file:
            file.write(new)
    elif new != old:
        print("docs/AUDIT.md has another table: run lint/audit.py --write")
        return 1
    return 0


if __name__ == "__main__":
    sys.exit(main(sys.argv[1:]))
