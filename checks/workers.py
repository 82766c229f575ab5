#!/usr/bin/env python3
"""Compares searches by several workers with searches by one.

Each case is a search of a random circuit by each strategy in turn, some with pins, held inputs, few
flips, moments of inputs, a small budget and few seconds, by 1, 4 or 64 workers. Where both answer
exactly the times are equal; where one answers between two figures they hold the other's; and the
certificate of each exact answer is accepted by `check`. An answer has to be there, or, from each
number of workers, that there is no admitted pair. At least 60 of 100 searches are exact, and 2 of
100 are cut short.
"""

import sys

from lib import check, reports
from lib.netlists import random_netlist
from lib.questions import random_question

CASES = 1500
STRATEGIES = ["auto", "least", "lead", "refute"]


def fault_of(tested, done, name):
    """What is wrong with a search by itself."""
    if reports.finds_no_pair(done):
        return None
    found, is_exact = reports.figures_of(done.out), reports.is_exact(done.out)
    if done.err or done.status != (0 if is_exact else 3) or found is None:
        return f"status {done.status}: {done.out}{done.err}"
    if not is_exact:
        is_there = tested.read(name) is not None
        return "a certificate of a search that was cut short" if is_there else None
    checked = tested.run("check", "t.v", name)
    if reports.accepted_time(checked.out) != found.low:
        return f"{done.out}its certificate: {checked.out}{checked.err}"
    return None


def search(tested, words, workers):
    """A search and what is wrong with it."""
    tested.remove("c")
    done = tested.run("worst", "t.v", "--workers", str(workers), "--cert", "c", *words)
    return done, fault_of(tested, done, "c")


def kinds_of(done):
    return {0: ["exact"], 3: ["cut short"]}.get(done.status, ["no pair"])


def differs(one, other):
    """Whether two answers can't both be right."""
    figures = [reports.figures_of(done.out) for done in (one, other)]
    return figures[0] != figures[1] if None in figures else not reports.agree(*figures)


def random_effort(rng):
    """Random words of `worst` that say how it searches, and when it ends."""
    words = ["--strategy", rng.choice(STRATEGIES)]
    if rng.random() < 0.3:
        words += ["--budget", str(rng.choice([0, 1, 10, rng.randint(0, 200)]))]
    if rng.random() < 0.2:
        words += ["--seconds", str(rng.choice([1, 600]))]
    return words


def one_circuit(tested, counts):
    """A random question, searched by one worker and by the others."""
    rng = tested.random
    text, inputs, _ = random_netlist(rng)
    tested.write("t.v", text)
    words = [*random_question(rng, inputs), *random_effort(rng)]
    one = None
    for workers in [1, *counts]:
        done, fault = search(tested, words, workers)
        one = one or done
        if fault is None and differs(one, done):
            fault = f"{done.out}where one worker answers\n{one.out}"
        if fault is not None:
            tested.fault(f"{workers} workers, {' '.join(words)}: {fault}\n{text}")
        tested.case(*kinds_of(done))


def work(tested):
    counts = [int(word) for word in tested.asked.workers.split(",")]
    while True:
        one_circuit(tested, counts)


def shares(tested, _cut):
    tested.require("exact", 0.6)
    tested.require("cut short", 0.02)


if __name__ == "__main__":
    options = {
        "--workers": {
            "default": "4,64",
            "metavar": "N,N,..",
            "help": "how many workers beside one (4,64 if left out)",
        }
    }
    sys.exit(check.main(work, __doc__, CASES, shares, options))
