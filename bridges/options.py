#!/usr/bin/env python3
"""options.py nets OUT [NET..] | steps TOP NET.. | constraints OUT: the words of `tdelay worst` in
OUT.options, which figure.sh gives it.

Each line has options with their words, as a shell reads them; a comment begins with #. What stands
after the line MARK is that of from_liberty.sh, the rest is yours and stays. `nets` prints the nets
that `--keep` names there, and those given; `steps` the steps of yosys that leave nets of the module
TOP in the netlist; `constraints` takes the options of constraints from standard input.
"""

import os
import re
import shlex
import sys
from typing import Dict, Iterator, List

from refusal import Refusal, ending_by_name

MARK = "# Of the constraints, by from_liberty.sh, to the end:"


def text_of(out: str) -> str:
    """The text of OUT.options, or none."""
    path = f"{out}.options"
    if not os.path.exists(path):
        return ""
    with open(path, encoding="utf-8", errors="surrogateescape") as file:
        return file.read()


def own(text: str) -> str:
    """The part of a text that isn't from_liberty.sh's."""
    return text.partition(f"{MARK}\n")[0]


def lines_of(text: str, out: str) -> Dict[int, List[str]]:
    """The words of each line that has some, by its number."""
    found = {}
    for number, line in enumerate(text.splitlines(), 1):
        try:
            words = shlex.split(line, comments=True)
        except ValueError as fault:
            wrong = f"line {number} of {out}.options: {str(fault).lower()}"
            raise Refusal("BadOptions", wrong, "close each quotation mark on its line") from None
        if words:
            found[number] = words
    return found


def words_of(out: str) -> List[str]:
    """All words of OUT.options."""
    return [word for words in lines_of(text_of(out), out).values() for word in words]


def kept_nets(words: List[str]) -> List[str]:
    """The nets that `--keep NET=FS` names, without the number of a bit, each once."""
    given = [it for before, it in zip(words, words[1:]) if before == "--keep"]
    given += [word[len("--keep=") :] for word in words if word.startswith("--keep=")]
    found = (re.fullmatch(r"\\?(\S+?) ?(?:\[\d+\])?=(?:=|[01.]{2})", it) for it in given)
    return list(dict.fromkeys(match[1] for match in found if match))


def steps(top: str, nets: List[str]) -> Iterator[str]:
    """Steps of yosys that leave the nets in the netlist, by their names."""
    for net in nets:
        pattern = re.sub(r"([\[\]*?\\])", r"\\\1", net)
        yield f"setattr -set keep 1 {top}/w:{pattern}"


def constrained(text: str, options: str) -> str:
    """The text with these options of constraints in place of others."""
    mine = own(text)
    if not options.strip():
        return mine
    return mine + "\n" * (mine != "" and not mine.endswith("\n")) + f"{MARK}\n{options}"


def main():
    words = sys.argv[1:]
    if len(words) < 2:
        sys.exit(__doc__)
    how, first, *nets = words
    if how == "nets":
        print(" ".join(dict.fromkeys(kept_nets(words_of(first)) + nets)))
    elif how == "steps":
        print("\n".join(steps(first, nets)))
    else:
        new = constrained(text_of(first), sys.stdin.read())
        with open(f"{first}.options", "w", encoding="utf-8", errors="surrogateescape") as file:
            file.write(new)


if __name__ == "__main__":
    ending_by_name("options.py", main)
