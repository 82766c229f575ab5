"""Tables that scripts write into pages, each between two comments that name it."""

import os

import sources

# The page of what was measured.
FIGURES = os.path.join(sources.TOP, "docs", "FIGURES.md")


class NoPlace(Exception):
    """A page has no place for a table, or more than one."""


def put(page, script, name, text):
    """Writes the text of a table into a page, between the comments that name script and table."""
    with open(page, encoding="utf-8") as file:
        old = file.read()
    start = f"<!-- Written by {script} {name}, to the next comment. -->\n"
    end = f"<!-- The end of {name}. -->\n"
    if old.count(start) != 1 or old.count(end) != 1 or old.index(start) > old.index(end):
        raise NoPlace(f"{page} has no place for {name}: it lacks {start}{end}")
    new = old[: old.index(start)] + start + text + old[old.index(end) :]
    part = f"{page}.{os.getpid()}"
    with open(part, "w", encoding="utf-8") as file:
        file.write(new)
    os.replace(part, page)
