#!/usr/bin/env python3
"""Runs searches with inputs by name on a file in whose place two netlists take turns.

The two netlists differ in the order of their inputs alone, so the answers differ in their vectors.
Another process puts one in place of the other, by `rename`, while the program runs. Each answer has
to be one of the two, whole: a program that takes the place of an input from one reading and the
answer from another prints a time that is true of neither. Each of the two answers comes in a tenth
of the cases at least.
"""

import os
import sys
import threading

from lib import check

CASES = 300
NETLISTS = {
    "first.v": "module t(a,b,y);\ninput a,b;\n",
    "second.v": "module t(b,a,y);\ninput b,a;\n",
}
GATES = "output y;\nbuf #1 g(p,a);\nbuf #5 h(q,b);\nand #1 k(y,p,q);\nendmodule\n"
ASKED = (["worst", "--pin", "b=1"], ["worst", "--hold-input", "b"], ["bound", "--pin", "a=0"])


def take_turns(folder, ended):
    """Puts the netlists in place of each other, again and again."""
    path, following = os.path.join(folder, "t.v"), os.path.join(folder, "next.v")
    while not ended.is_set():
        for name in NETLISTS:
            os.link(os.path.join(folder, name), following)
            os.replace(following, path)


def work(tested):
    for name, head in NETLISTS.items():
        tested.write(name, head + GATES)
    right = [
        {tuple(tested.run(command, name, *words)): name for name in NETLISTS}
        for command, *words in ASKED
    ]
    tested.write("t.v", NETLISTS["first.v"] + GATES)
    ended = threading.Event()
    turns = threading.Thread(target=take_turns, args=(tested.folder, ended), daemon=True)
    turns.start()
    try:
        while tested.goes_on():
            place = tested.cases % len(ASKED)
            command, *words = ASKED[place]
            got = tuple(tested.run(command, "t.v", *words))
            if got not in right[place]:
                tested.fault(f"{command} {' '.join(words)}: {got}, which is true of neither netlist")
                tested.case()
            else:
                tested.case(right[place][got])
    finally:
        ended.set()
        turns.join()


def shares(tested, _cut):
    for name in NETLISTS:
        tested.require(name, 0.1)


if __name__ == "__main__":
    sys.exit(check.main(work, __doc__, CASES, shares))
