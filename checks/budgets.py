#!/usr/bin/env python3
"""Compares searches within small budgets with the greatest delay of all admitted pairs.

Each case is a search of a random circuit of at most three inputs, some with pins, held inputs, few
flips and moments of inputs, by a strategy and within a budget from 0 to 40. Its worst delay is
found by running every admitted pair in tools/second_opinion.py. An exact answer has to be this
delay, in no more nodes than the budget; `between` has to have figures around it, the budget as its
cause, and as many nodes as the budget, with `refute` none. The pair has to be admitted, and to have
the lower figure.
"""

import sys

from lib import check, exhausted, questions, reports

CASES = 600
MOST = 40


def answer_fits(done, strategy, budget, wanted):
    """Whether the figures, the nodes and the cause of an answer are right."""
    values, figures = reports.values_of(done.out), reports.figures_of(done.out)
    if figures is None or done.err:
        return False
    nodes = int(values["nodes"])
    if reports.is_exact(done.out):
        return done.status == 0 and figures.low == wanted and nodes <= budget
    handled = 0 if strategy == "refute" else budget
    is_cut_short = done.status == 3 and values.get("cause") == "budget" and nodes == handled
    return is_cut_short and figures.low <= wanted <= figures.high


def fault_in(tested, circuit, words, strategy, budget, wanted):
    """What is wrong with one search, None where nothing is."""
    done = tested.run("worst", "t.v", "--budget", str(budget), "--strategy", strategy, *words)
    ended = f"status {done.status}: {done.out}{done.err}"
    if wanted is None:
        return None if reports.finds_no_pair(done) else f"{ended}where no pair is admitted"
    if not answer_fits(done, strategy, budget, wanted):
        return f"{ended}where the worst delay is {wanted}"
    values = reports.values_of(done.out)
    pair, moments = (values["from"], values["to"]), questions.moments_of(words, circuit.inputs)
    if pair not in questions.admitted(words, circuit.inputs):
        return f"the pair {pair} isn't admitted"
    if exhausted.delay_of(circuit, pair, moments) != reports.figures_of(done.out).low:
        return f"the pair {pair} has another delay"
    tested.has_kind("exact" if done.status == 0 else "cut short")
    return None


def work(tested):
    while True:
        text, circuit, words, wanted = exhausted.random_case(tested, most_inputs=3)
        for strategy in ("least", "lead", "refute", "auto"):
            budget = tested.random.randint(0, MOST)
            fault = fault_in(tested, circuit, words, strategy, budget, wanted)
            if fault is not None:
                asked = " ".join([*words, "--strategy", strategy])
                tested.fault(f"--budget {budget} {asked}: {fault}\n{text}")
            tested.case("no pair" if wanted is None else "a worst delay")


def shares(tested, _cut):
    tested.require("exact", 0.3)
    tested.require("cut short", 0.03)


if __name__ == "__main__":
    sys.exit(check.main(work, __doc__, CASES, shares))
