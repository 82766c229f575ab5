#!/usr/bin/env python3
"""picture.py [--write | --check]: the picture of the crates in docs/ARCHITECTURE.md, made from
crates.txt.

A crate stands in the lowest layer above all crates that it uses. Each layer is a line, the highest
first, and the crates of tests, whose names end in `_rows`, stand apart below. After `on` stand the
crates that a crate uses, without those that another one of them stands on.

Without a word it prints the picture. `--write` puts it into docs/ARCHITECTURE.md between two marker
comments, `--check` looks whether it is there (exit status 1 where that page has another one). Run
it at the top of the repository.
"""

import os
import re
import sys
import textwrap

sys.path.insert(
    0, os.path.join(os.path.dirname(os.path.dirname(os.path.abspath(__file__))), "build")
)
from crates import lower_first, uses_of  # noqa: E402

PAGE = "docs/ARCHITECTURE.md"
START = re.compile(
    r"<!-- The picture from here to the next comment is written by \w+/picture\.py\. -->\n"
)
END = "<!-- The picture ends. -->\n"
WIDTH = 100


def own_uses():
    """The crates of the repository that each of its crates uses; lower crates come first."""
    uses = uses_of()
    return {crate: [low for low in uses[crate] if low in uses] for crate in lower_first(uses, uses)}


def layers_of(uses):
    """The number of each crate's layer, from 1."""
    layers = {}
    for crate in uses:
        layers[crate] = 1 + max((layers[low] for low in uses[crate]), default=0)
    return layers


def nearest(uses, crate):
    """The crates that a crate uses, without those that another one of them stands on."""
    return [
        low
        for low in uses[crate]
        if not any(low in lower_first(uses, uses[other]) for other in uses[crate])
    ]


def entries(uses, crates):
    """A text for these crates with what they stand on; those that stand on the same stand
    together.
    """
    groups = {}
    for crate in crates:
        groups.setdefault(tuple(nearest(uses, crate)), []).append(crate)
    for lower, group in groups.items():
        yield ", ".join(group) + (" on " + ", ".join(lower) if lower else "")


def folded(head, texts):
    """Lines no longer than WIDTH, of these texts after a head."""
    rows = []
    for text in texts:
        if rows and len(rows[-1] + " | " + text) <= WIDTH:
            rows[-1] += " | " + text
        else:
            first, later = " " * len(head) if rows else head, " " * (len(head) + 4)
            rows += textwrap.wrap(text, WIDTH, initial_indent=first, subsequent_indent=later)
    return rows


def picture():
    uses = own_uses()
    layers = layers_of(uses)
    tests = [crate for crate in uses if crate.endswith("_rows")]
    rows = []
    for layer in range(max(layers.values()), 0, -1):
        crates = [crate for crate in uses if layers[crate] == layer and crate not in tests]
        rows += folded(f"{layer:5}  ", entries(uses, crates))
    rows += folded("tests  ", entries(uses, sorted(tests, key=layers.get, reverse=True)))
    return "```\n" + "\n".join(rows) + "\n```\n"


def main():
    words = sys.argv[1:]
    if not words:
        print(picture(), end="")
        return
    if words not in (["--write"], ["--check"]):
        sys.exit(__doc__)
    with open(PAGE) as file:
        text = file.read()
    start = START.search(text)
    shown, end, behind = text[start.end() :].partition(END) if start else ("", "", "")
    if not end:
        sys.exit(f"picture.py: {PAGE} lacks the marker comments")
    same = shown == picture()
    if words == ["--check"]:
        print(
            f"the picture of the crates in {PAGE}: "
            + ("as crates.txt says" if same else "another one")
        )
        sys.exit(0 if same else 1)
    with open(PAGE, "w") as file:
        file.write(text[: start.end()] + picture() + end + behind)


if __name__ == "__main__":
    main()
