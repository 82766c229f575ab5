"""Small circuits whose every admitted pair of vectors is run by tools/second_opinion.py."""

from lib import questions
from lib.netlists import random_netlist

import second_opinion


def delay_of(circuit, pair, moments):
    """The delay of a pair, two texts of bits."""
    levels = [[int(bit) for bit in vector] for vector in pair]
    return second_opinion.delay_of_pair(circuit, second_opinion.woven(*levels), moments)


def random_case(tested, most_inputs):
    """A random netlist in `t.v`: its text, its circuit, what is asked in words of `worst`, and the
    greatest delay of the admitted pairs, None where there is no such pair."""
    text, inputs, _ = random_netlist(tested.random, most_inputs=most_inputs)
    tested.write("t.v", text)
    circuit = second_opinion.read_circuit(text.encode())
    words = questions.random_question(tested.random, inputs)
    moments = questions.moments_of(words, inputs)
    delays = [delay_of(circuit, pair, moments) for pair in questions.admitted(words, inputs)]
    return text, circuit, words, max(delays, default=None)
