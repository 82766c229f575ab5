#!/usr/bin/env python3
"""Compares each strategy with the greatest delay of all admitted pairs.

Each case is a search of a random circuit of at most four inputs, some with pins, held inputs, few
flips and moments of inputs. Its worst delay is found by running every admitted pair in
tools/second_opinion.py, which shares no code with the program. `worst` has to answer exactly this
with each strategy, and with `lead` also by two workers, by an admitted pair that has the delay, and
its certificate has to be accepted by `check`, and by the second opinion too. Where no pair is
admitted the program says so.
"""

import sys

from lib import check, exhausted, questions, reports

import second_opinion

CASES = 600


def fault_in(tested, circuit, words, way, wanted):
    """What is wrong with one search, None where nothing is."""
    tested.remove("c")
    done = tested.run("worst", "t.v", "--cert", "c", *words, *way)
    ended = f"status {done.status}: {done.out}{done.err}"
    if wanted is None:
        return None if reports.finds_no_pair(done) else f"{ended}where no pair is admitted"
    values = reports.values_of(done.out)
    if done.status != 0 or done.err or values.get("exact") != str(wanted):
        return f"{ended}where the worst delay is {wanted}"
    pair, moments = (values["from"], values["to"]), questions.moments_of(words, circuit.inputs)
    is_admitted = pair in questions.admitted(words, circuit.inputs)
    if not is_admitted or exhausted.delay_of(circuit, pair, moments) != wanted:
        return f"the pair {pair}"
    checked = tested.run("check", "t.v", "c")
    if reports.accepted_time(checked.out) != wanted:
        return f"the certificate: {checked.out}{checked.err}"
    certificate = second_opinion.read_certificate(tested.read("c"))
    judged = second_opinion.verdict(circuit, second_opinion.Told(), None, certificate)
    if judged != (second_opinion.Verdict.Accepted, None):
        return f"the certificate, by the second opinion: {judged}"
    return None


def work(tested):
    ways = [["--strategy", name] for name in ("least", "lead", "refute", "auto")]
    ways += [
        ["--strategy", "lead", "--workers", count] for count in tested.asked.workers.split(",")
    ]
    while True:
        text, circuit, words, wanted = exhausted.random_case(tested, most_inputs=4)
        for way in ways:
            fault = fault_in(tested, circuit, words, way, wanted)
            if fault is not None:
                tested.fault(f"{' '.join([*words, *way])}: {fault}\n{text}")
            tested.case("no pair" if wanted is None else "exact above 0" if wanted else "exact 0")


def shares(tested, _cut):
    tested.require("exact above 0", 0.4)


if __name__ == "__main__":
    options = {
        "--workers": {
            "default": "2",
            "metavar": "N,N,..",
            "help": "by how many workers `lead` searches (2 if left out)",
        }
    }
    sys.exit(check.main(work, __doc__, CASES, shares, options))
