#!/usr/bin/env python3
"""twins.py [--check]: definitions of specs/ that stand twice, under whatever names.

Two are twins where they are the same text but for their own names, comments and spaces. It prints
them, a group a line, and how many lines the copies take. Some are of types that share a name, as
the signals of two domains. `--check` prints the last line alone, and its exit status is 1 where
there are more groups than this file says. Run it at the top of the repository.
"""

import glob
import os
import re
import sys
from collections import defaultdict

from model import definitions_of

# As many groups stand today. Who takes one away lowers this, so that none comes back.
GROUPS = 20
SHORT = 12  # a body of fewer letters says too little to be a copy
NAMES = re.compile(r"data _ : Type 0 where( _ : _)+")  # only names, which say nothing else


def body_of(definition):
    """The definition's text without its own names, comments and spaces."""
    text = definition.text()
    for name in sorted(definition.names, key=len, reverse=True):
        text = re.sub(rf"(?<![\w.-]){re.escape(name)}(?![\w-])", "_", text)
    text = re.sub(r"\b(pub|abbrev|unfoldable|opaque) ", "", text)
    return re.sub(r"\s+", " ", text).strip()


def groups():
    found = defaultdict(list)
    for path in sorted(glob.glob("crates/*/specs/*.antt")):
        if os.path.basename(path) != "Lib.antt":
            for definition in definitions_of(path):
                body = body_of(definition)
                if len(body) >= SHORT and not NAMES.fullmatch(body):
                    found[body].append(definition)
    return [them for them in found.values() if len(them) > 1]


def main(words):
    if not set(words) <= {"--check"}:
        sys.exit(__doc__)
    them = groups()
    lines = 0
    for group in them:
        lines += sum(len(one.lines) for one in group[1:])
        if not words:
            print(", ".join(f"{one.path}:{one.line} {min(one.names)}" for one in group))
    print(f"twins: {len(them)} groups, at most {GROUPS}, {lines} lines of copies")
    return 1 if words and len(them) > GROUPS else 0


if __name__ == "__main__":
    sys.exit(main(sys.argv[1:]))
