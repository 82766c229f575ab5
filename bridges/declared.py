#!/usr/bin/env python3
"""declared.py GATES.v > OUT.v: a netlist of gates with all its nets declared, which yosys reads in
a fraction of the time.
"""

import re
import sys

from refusal import ending_by_name

GATE = re.compile(r"^[a-z]+ (?:#\(\d+,\d+\) )?\((\\\S+ |[\w$]+)(?=,)", re.M)
PORT = re.compile(r"^(?:input|output|wire) (?:\[\d+:\d+\] )?(\\\S+ |[\w$]+);$", re.M)


def declared(text: str) -> str:
    """The text with a declaration for each net that has none."""
    known = set(PORT.findall(text))
    nets = [net for net in dict.fromkeys(GATE.findall(text)) if net not in known]
    first = re.search(r"^[a-z]+ (?:#\(\d+,\d+\) )?\(", text, re.M)
    place = first.start() if first else len(text)
    return text[:place] + "".join(f"wire {net};\n" for net in nets) + text[place:]


def main():
    if len(sys.argv) != 2:
        print(__doc__, file=sys.stderr)
        sys.exit(2)
    with open(sys.argv[1], encoding="utf-8", errors="surrogateescape") as file:
        sys.stdout.write(declared(file.read()))


if __name__ == "__main__":
    ending_by_name("declared.py", main)
