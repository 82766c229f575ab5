#!/usr/bin/env python3
"""options.py PROGRAM --write | --check: the tables of options in docs/MANUAL.md, made from what
`PROGRAM COMMAND --help` lists.

An option that each command has, or several commands, is in a table for all of them, but for
`--help` and `--version`; each command has a table of its own options, and a line with the names of
the others. Each table stands between two comments that name it. `--check` ends with status 1 where
the page has other tables.
"""

import os
import re
import sys

import help_text

TOP = os.path.dirname(os.path.dirname(os.path.abspath(__file__)))
PAGE = os.path.join(TOP, "docs", "MANUAL.md")
PLACE = re.compile(
    r"(<!-- Written by packaging/options\.py (\w+), to the next comment\. -->\n)(.*?)"
    r"(<!-- The end of \2\. -->\n)",
    re.S,
)


def by_name(helps):
    """By the name of each option, the entry of each command that has it."""
    found = {}
    for command, help_ in helps.items():
        for entry in help_.options:
            if entry.name not in ("", "--help", "--version"):
                found.setdefault(entry.name, {})[command] = entry
    return found


def named(entry):
    """An option's names and what it takes."""
    names = ", ".join(it for it in (entry.short, entry.name) if it)
    return f"`{names} {entry.value}`" if entry.value else f"`{names}`"


def meaning(entry):
    """What an option's text says, with its possible values and its default."""
    text = entry.text.rstrip(".").replace("|", "\\|")
    text += f": {', '.join(f'`{it}`' for it in entry.choices)}" if entry.choices else ""
    return text + (f" ({entry.default} if left out)" if entry.default else "")


def table(rows, *heads):
    lines = [list(heads), ["---"] * len(heads), *rows]
    return "\n".join(f"| {' | '.join(row)} |" for row in lines) + "\n"


def tables(helps):
    """The text of each table, by its name."""
    options = by_name(helps)
    of_all = {name: own for name, own in options.items() if len(own) == len(helps)}
    shared = {name: own for name, own in options.items() if 1 < len(own) < len(helps)}

    def one(own):
        return own.get("worst") or next(iter(own.values()))

    found = {
        "every": table([[named(one(it)), meaning(one(it))] for it in of_all.values()],
                       "Option", "Meaning"),
        "several": table([[named(one(it)), meaning(one(it)), ", ".join(f"`{own}`" for own in it)]
                          for it in shared.values()], "Option", "Meaning", "Commands"),
    }  # fmt: skip
    for command, help_ in helps.items():
        rows = [[named(it), meaning(it)] for it in help_.options
                if it.name in options and len(options[it.name]) == 1]  # fmt: skip
        others = [f"`{it.name}`" for it in help_.options if it.name in shared]
        text = table(rows, "Option", "Meaning") if rows else ""
        line = f"Shared options: {', '.join(others)}.\n" if others else ""
        found[command] = text + ("\n" if text and line else "") + folded(line)
    return found


def folded(line):
    """A line on lines of at most 100 columns."""
    out, row = [], ""
    for word in line.split():
        if row and len(row) + 1 + len(word) > 100:
            out, row = [*out, row], word
        else:
            row = f"{row} {word}".strip()
    return "\n".join([*out, row]) + "\n" if row else ""


def written(page, helps):
    """The page with the tables as help has them. Ends the script where one has no place."""
    found = tables(helps)
    places = [it[2] for it in PLACE.finditer(page)]
    if sorted(places) != sorted(name for name, text in found.items() if text):
        sys.exit(f"options.py: docs/MANUAL.md has places for {', '.join(places)}")
    return PLACE.sub(lambda it: it[1] + found[it[2]] + it[4], page)


def main(words):
    if len(words) != 2 or words[1] not in ("--write", "--check"):
        sys.exit(__doc__)
    _, helps = help_text.read(os.path.abspath(words[0]))
    with open(PAGE, encoding="utf-8") as file:
        old = file.read()
    new = written(old, helps)
    if words[1] == "--write":
        with open(PAGE, "w", encoding="utf-8") as file:
            file.write(new)
    elif new != old:
        print("docs/MANUAL.md has other options: run packaging/options.py PROGRAM --write")
        return 1
    return 0


if __name__ == "__main__":
    sys.exit(main(sys.argv[1:]))
