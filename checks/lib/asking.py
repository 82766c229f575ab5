"""Random questions about small random circuits whose pairs can all be run, with conditions and
without, for the checks that compare answers with runs of all pairs.
"""

import itertools
import random

import opinions
from refutations import PAIRS, pairs_of

from . import conditions
from .netlists import random_netlist


def questions(tested, excluding, keeping):
    """Without end: a circuit's setup, the words of a question that some pair is admitted to, and
    the question. The share `excluding` of them has conditions that no pair keeps, `keeping` of the
    others such that some pair keeps.
    """
    for which in itertools.count():
        rng = random.Random(f"{tested.seed} {which}")
        text = random_netlist(rng, *rng.choice([(3, 12), (5, 25)]))[0]
        if rng.random() < 0.3:
            text = opinions.random_circuit(rng)
        setup = opinions.Setup(tested, rng, text.encode("latin-1"))
        circuit = setup.circuit
        if circuit is None or 4**circuit.inputs > PAIRS or not circuit.outputs:
            continue
        for _ in range(4):
            words = opinions.random_question(rng, circuit.inputs)
            question = opinions.question_of(words, circuit.inputs)
            pairs = pairs_of(circuit, question)
            if not pairs:
                continue
            keep = []
            if rng.random() < excluding:
                keep = conditions.excluding(rng, circuit, pairs, question) or []
            elif rng.random() < keeping:
                keep = conditions.random_conditions(rng, circuit, pairs, question.moments)
            yield setup, words, question._replace(keep=keep)
