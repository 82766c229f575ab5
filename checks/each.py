#!/usr/bin/env python3
"""Compares the table of `worst --each` with what is asked about each output by itself.

Each case is a random circuit of up to three outputs, some with pins, held inputs, few flips,
moments of inputs and default delays, by a strategy and within a budget. The outputs are those of
`info`. The table has to have a line for each of them, in order: the figures of `worst --output
NAME` with the same words, and the bound `e` of `bound --edges --output NAME` for the same pins,
byte for byte. The status has to be the greatest of the searches, and where one of them is refused,
its line and its status stand in place of the table. With `--json` it has to be the same table.
"""

import re
import sys

from lib import check, netlists, questions, reports

CASES = 250
STRATEGIES = ("least", "lead", "refute", "auto")


def outputs_of(report):
    """The names of the outputs, in the order of `info`."""
    return re.findall(r"(?m)^output \d+ (.*)$", report)


def of_bounds(words):
    """Those of the words of a search that `bound` takes."""
    taken = ("--first", "--second", "--at", "--default-rise", "--default-fall")
    pairs = zip(words[::2], words[1::2])
    return [word for pair in pairs if pair[0] in taken for word in pair]


def row_of(tested, name, words):
    """How `worst` ends for one output, and the line that a table has to have of it."""
    done = tested.run("worst", "t.v", "--output", name, *words)
    bound = tested.run("bound", "t.v", "--edges", "--output", name, *of_bounds(words))
    edges = reports.values_of(bound.out).get("e")
    figures = [line for line in done.out.splitlines() if re.match("exact |between ", line)]
    return done, f"each {name} {''.join(figures)} edges {edges}\n"


def wanted_of(tested, names, words):
    """The status, the report and the message that a table has to give."""
    head, lines, status = "", "", 0
    for name in names:
        done, line = row_of(tested, name, words)
        if done.status not in (0, 3):
            return tuple(done)
        head = "".join(done.out.splitlines(keepends=True)[:2])
        lines += line
        status = max(status, done.status)
    return (status, head + lines, "")


def random_words(tested, inputs):
    """What is asked, how the search goes, and the delays of gates that state none."""
    words = questions.random_question(tested.random, inputs)
    words += ["--strategy", tested.random.choice(STRATEGIES)]
    if tested.random.random() < 0.5:
        words += ["--budget", str(tested.random.randint(0, 12))]
    if tested.random.random() < 0.5:
        words += ["--default-rise", "3", "--default-fall", "2"]
    return words


def work(tested):
    while True:
        text, inputs, _ = netlists.random_netlist(tested.random)
        # Some gates take the default delays.
        text = re.sub(r" #\(1,\d\)", "", text)
        tested.write("t.v", text)
        words = random_words(tested, inputs)
        names = outputs_of(tested.run("info", "t.v").out)
        wanted = wanted_of(tested, names, words)
        done = tested.run("worst", "t.v", "--each", *words)
        if tuple(done) != wanted:
            tested.fault(f"{' '.join(words)}: {tuple(done)}, not {wanted}\n{text}")
        again = tested.run("worst", "t.v", "--each", "--json", *words)
        form = reports.lines_of_json(again.out) if again.out else []
        if (again.status, form, again.err) != (wanted[0], reports.as_json(wanted[1]), wanted[2]):
            tested.fault(f"{' '.join(words)}: as JSON {tuple(again)}\n{text}")
        kinds = {0: "all exact", 3: "some cut short"}
        tested.case(kinds.get(done.status, "refused"), f"{len(names)} outputs")


def shares(tested, _cut):
    tested.require("all exact", 0.3)
    tested.require("some cut short", 0.05)
    tested.require("3 outputs", 0.1)


if __name__ == "__main__":
    sys.exit(check.main(work, __doc__, CASES, shares))
