"""What a leaf by spans says of runs, by an event queue (event_queue.py): whether its clauses hold
in each of them, and whether its nets are at rest when their ends say so.
"""

from operator import ne

from . import conditions, event_queue

import second_opinion as opinion
from second_opinion import X
from second_spans import EVER, Leaf


class Runs:
    """The runs of all admitted pairs of a cube, side by side."""

    def __init__(self, circuit, question, cube):
        pairs = [[]]
        for level in cube:
            pairs = [[*pair, bit] for pair in pairs for bit in ((0, 1) if level == X else (level,))]
        pairs = [pair for pair in pairs if opinion.has_admitted(question, pair)]
        self.pairs = conditions.kept(circuit, pairs, question)
        run = event_queue.run_of(circuit, self.pairs, question.moments)
        self.waves, self.everyone = run.waves, run.everyone

    def stays(self, net, level, first, last):
        """In which runs a net is at a level at all places from one on to another."""
        wave, found = self.waves[net], self.everyone
        for (moment, bits), (after, _) in zip(wave, [*wave[1:], (EVER, 0)]):
            if moment < last and first <= after:
                found &= bits if level else ~bits
        return found

    def ends_at(self, net, level):
        return self.stays(net, level, EVER, EVER)

    def holds(self, variable):
        """In which runs a variable is true."""
        if variable.letter == "i":
            return self.stays(variable.of, 1, 0, 0)
        if variable.letter == "f":
            return self.ends_at(variable.of, 1)
        if variable.letter == "w":
            return self.stays(*variable.of)
        inputs, least = variable.of
        flips = [sum(map(ne, it[: 2 * inputs : 2], it[1 : 2 * inputs : 2])) for it in self.pairs]
        return sum(1 << which for which, count in enumerate(flips) if count >= least)

    def fault_in(self, leaf):
        """What isn't true of what a leaf says, None where all is."""
        true = [bits for it in leaf.variables for bits in (self.holds(it), ~self.holds(it))]
        for number, clause in enumerate(leaf.clauses):
            found = 0
            for literal in clause:
                found |= true[literal]
            if found & self.everyone != self.everyone:
                return f"clause {number} doesn't hold in each run"
        for net, ends in enumerate(leaf.ends):
            for level, end in enumerate(ends):
                if self.ends_at(net, level) & ~self.stays(net, level, end, EVER):
                    return f"{leaf.circuit.nets[net]} changes to {level} at {end} or later"
        return None


def leaves_of(circuit, certificate, until):
    """The cube and the lines of each leaf by spans before a line of the text, all where it is 0."""
    cubes, lines = [certificate.question.pins], None
    lines_before = max(until - opinion.first_line(certificate), 0) if until else None
    for line in certificate.tree[:lines_before]:
        if lines is None:
            cube = cubes.pop()
            if line.letter == "s":
                cubes += [cube[: line.number] + [side] + cube[line.number + 1 :] for side in (1, 0)]
            lines = [] if line.letter == "x" else None
        elif line.letter == "q":
            yield cube, lines
            lines = None
        else:
            lines.append(line)
    if lines:
        yield cube, lines


def of_leaves(circuit, certificate, until):
    """The letters of the lines of leaves by spans before a line of a certificate, of all where it
    is 0, and what isn't true of what they say, None where all is.
    """
    read, letters = opinion.read_certificate(certificate), set()
    for cube, lines in leaves_of(circuit, read, until):
        leaf = Leaf(circuit, read.question, cube)
        for letter, _, numbers in lines:
            leaf.line(letter, [int(number) for number in numbers.split()])
            letters.add(letter)
        fault = Runs(circuit, read.question, cube).fault_in(leaf)
        if fault:
            return letters, fault
    return letters, None
