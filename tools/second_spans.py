"""Leaves by spans of second_opinion.py, as docs/CERTIFICATE.md, "Leaves by spans", has them.
Whoever wrote this wrote that part of the page, too, and hadn't looked at the sources.

A `Leaf` is a leaf under way: its variables and clauses, and what is known of the nets. Its lines
are taken one by one; one that doesn't meet its needs is a `BadStep`. Nets have the numbers of
`Circuit` but in the lines themselves.
"""

from collections import namedtuple
from operator import and_

from second_domains import EDGES, Edges, edges_of_input, signals_of
from second_levels import X, table

# The letters of the variables and of the steps, and the most literals of a gate's clause.
VARIABLES, STEPS, MOST = "ifwc", "gtnukler", 4096
EVER = float("inf")

# How many numbers the line of a variable has.
COUNTS = {"i": (1,), "f": (1,), "w": (3, 4), "c": (2,)}
# A net is at a level at all places from one on to another.
Span = namedtuple("Span", "net level first last")
# What a variable is about: `of` is a net, the span, or the count with the number of inputs.
Variable = namedtuple("Variable", "letter of")


class BadStep(Exception):
    """A line that doesn't meet its needs."""


def require(holds):
    if not holds:
        raise BadStep


def differs(cube, which):
    """Whether an input surely differs in a cube."""
    return X not in cube[2 * which : 2 * which + 2] and cube[2 * which] != cube[2 * which + 1]


def still(first, second):
    """The signal of an input whose two bits are equal: it is never, and a free one is the other."""
    return Edges(second if first == X else first, first if second == X else second, 0, [0, 0, 0])


def stretches_at(level, kind, inputs, said):
    """The maximal spans of places, in order, at which a gate's table is a level, as first and last
    places. `said` has spans of each net, of which the first at a place counts.
    """
    spans = [span for of_net in said.values() for span in of_net]
    begins, ends = {span.first for span in spans}, {span.last + 1 for span in spans}
    places = sorted({0, *begins, *ends} - {EVER})
    found = []
    for first, after in zip(places, [*places[1:], EVER]):
        levels = [
            next((span.level for span in said[net] if span.first <= first <= span.last), X)
            for net in inputs
        ]
        if table(kind, levels) == level:
            begin = found.pop()[0] if found and found[-1][1] == first - 1 else first
            found.append((begin, after - 1))
    return found


def surely(stretches, delay, other):
    """The spans at which a gate's output surely is at a level, by the stretches of its target, the
    delay to the level and that to the other one.
    """
    found, since, reach = [], None, -1
    for first, last in stretches:
        if first == 0:
            since = 0
        elif first > reach:
            since = None
        if since is None and last - first + 1 >= delay:
            since = first + delay
        if since is not None:
            reach = last + other
            found.append((since, reach))
    return found


def sure_spans(circuit, gate, level, spans):
    """The spans at which a gate's output surely is at a level, by spans of nets of which the first
    counts.
    """
    said = {net: [] for net in gate.inputs}
    constants = [Span(circuit.inputs + each, each, 0, EVER) for each in (0, 1)]
    for span in [*spans, *constants]:
        if span.net in said:
            said[span.net].append(span)
    delays = gate.fall, gate.rise
    stretches = stretches_at(level, gate.kind, gate.inputs, said)
    return surely(stretches, delays[level], delays[1 - level])


def is_sure(circuit, target, spans):
    """Whether a gate's output surely has a span by these spans of nets."""
    gate = circuit.gates[target.net - circuit.inputs - 2]
    sure = sure_spans(circuit, gate, target.level, spans)
    return any(first <= target.first and target.last <= last for first, last in sure)


def nets_of(circuit):
    """The net of each number of the text."""
    return [circuit.inputs, circuit.inputs + 1, *range(circuit.inputs), *circuit.written]


class Leaf:
    """A leaf under way, of a cube of levels and a question."""

    def __init__(self, circuit, question, cube):
        self.circuit, self.cube = circuit, cube
        self.held, self.flips = question.held, question.flips
        self.nets = nets_of(circuit)
        self.keep = [(self.nets[number], form) for number, form in question.keep]
        signals = signals_of(EDGES, circuit, self.inputs(question.moments))
        self.early = [signal.earliest if signal.ends[X] else EVER for signal in signals]
        self.ends = [signal.ends[:X] for signal in signals]
        self.variables, self.clauses, self.has_steps = [], [], False

    def inputs(self, moments):
        """The signals of the inputs."""
        differ = [differs(self.cube, which) for which in range(self.circuit.inputs)]
        for which, moment in enumerate(moments):
            first, second = self.cube[2 * which : 2 * which + 2]
            if self.held[which] or sum(differ) - differ[which] >= self.flips:
                yield still(first, second)
            else:
                yield edges_of_input(first, second, moment)

    # ---- Numbers of the text ----

    def net_of(self, number):
        require(number < len(self.nets))
        return self.nets[number]

    def gate_of(self, net):
        """The gate whose output is a net."""
        require(net >= self.circuit.inputs + 2)
        return self.circuit.gates[net - self.circuit.inputs - 2]

    def variable_of(self, literal):
        require(literal < 2 * len(self.variables))
        return self.variables[literal // 2]

    def says(self, literal):
        """The span that a true literal says, or None."""
        letter, of = self.variable_of(literal)
        level = 1 - literal % 2
        if letter == "i":
            return Span(of, level, 0, self.early[of])
        if letter == "f":
            return Span(of, level, self.ends[of][level], EVER)
        return of if letter == "w" and level else None

    # ---- Variables ----

    def variable(self, letter, numbers):
        require(not self.has_steps and len(numbers) in COUNTS[letter])
        if letter == "c":
            require(numbers[0] <= self.circuit.inputs)
            return Variable(letter, numbers)
        net = self.net_of(numbers[0])
        if letter == "w":
            level, first, last = [*numbers[1:], EVER][:3]
            require(level <= 1 and first <= last)
            return Variable(letter, Span(net, level, first, last))
        return Variable(letter, net)

    # ---- Steps that add a clause: each gives it ----

    def by_gate(self, *clause):
        require(1 <= len(clause) <= MOST)
        target = self.says(clause[0])
        require(target and self.gate_of(target.net))
        spans = [self.says(literal ^ 1) for literal in clause[1:]]
        require(is_sure(self.circuit, target, [span for span in spans if span]))
        return clause

    def by_table(self, *clause):
        require(clause)
        letter, net = self.variable_of(clause[0])
        require(letter in "if")
        gate = self.gate_of(net)
        known = {}
        for literal in clause[1:]:
            variable = self.variable_of(literal)
            if variable.letter == letter:
                known.setdefault(variable.of, literal % 2)
        for level in (0, 1):
            known.setdefault(self.circuit.inputs + level, level)
        levels = [known.get(terminal, X) for terminal in gate.inputs]
        require(table(gate.kind, levels) == 1 - clause[0] % 2)
        return clause

    def by_net(self, one, other):
        whole, within, apart = self.says(one ^ 1), self.says(other), self.says(other ^ 1)
        require(whole)
        is_within = (
            self.variable_of(other).letter == "w"
            and within
            and within[:2] == whole[:2]
            and whole.first <= within.first
            and within.last <= whole.last
        )
        is_apart = (
            apart
            and apart[:2] == (whole.net, 1 - whole.level)
            and max(whole.first, apart.first) <= min(whole.last, apart.last)
        )
        require(is_within or is_apart)
        return one, other

    def by_pairs(self, *clause):
        cube, lower, upper = list(self.cube), None, None
        for literal in clause:
            letter, of = self.variable_of(literal)
            if letter == "c" and literal % 2:
                lower = lower or of
            elif letter == "c":
                upper = upper or of
            elif letter in "if" and of < self.circuit.inputs:
                position = 2 * of + "if".index(letter)
                if cube[position] == 1 - literal % 2:
                    return clause
                cube[position] = literal % 2
        differ = [differs(cube, which) for which in range(self.circuit.inputs)]
        (begin, least), (end, most) = lower or (0, 0), upper or (len(differ), self.flips + 1)
        too_many = begin <= end and least + sum(differ[begin:end]) >= most
        require(too_many or any(map(and_, differ, self.held)))
        return clause

    def by_conditions(self, *clause):
        said = [(self.variable_of(literal), 1 - literal % 2) for literal in clause]
        require(len(said) in (1, 2) and all(variable.letter in "if" for variable, _ in said))
        (one, level), (other, another) = said[0], said[-1]
        if len(said) == 1:
            side = "if".index(one.letter)
            require((one.of, str(level)) in {(net, form[side]) for net, form in self.keep})
        else:
            require((one.letter, other.letter) == ("i", "f") and one.of == other.of)
            require(level != another and (one.of, "==") in self.keep)
        return clause

    def by_hints(self, count, *numbers):
        return self.shown(count, numbers)

    def shown(self, count, numbers):
        """The literals that begin some numbers; BadStep unless the hints after them show these."""
        require(count <= len(numbers))
        literals, hints = numbers[:count], numbers[count:]
        require(all(literal < 2 * len(self.variables) for literal in literals))
        false = set(literals)
        for hint in hints:
            require(hint < len(self.clauses))
            left = self.clauses[hint] - false
            if not left:
                return literals
            require(len(left) == 1)
            false |= {literal ^ 1 for literal in left}
        raise BadStep

    # ---- Steps that lower an end ----

    def lower(self, number, level, place, count, *numbers):
        net = self.net_of(number)
        require(level <= 1)
        for literal in self.shown(count, numbers):
            letter, of = self.variable_of(literal)
            ends_away = (letter, of) == ("f", net) and literal % 2 == level
            stays = letter == "w" and literal % 2 == 0 and of.net == net
            require(ends_away or stays and of.last == EVER and of.first <= place)
        self.ends[net][level] = min(self.ends[net][level], place)

    def again(self, number):
        net = self.net_of(number)
        gate = self.gate_of(net)
        for level, delay in ((0, gate.fall), (1, gate.rise)):
            levels = LEVELS[gate.kind][level]
            end = max(self.ends[terminal][each] for terminal in gate.inputs for each in levels)
            self.ends[net][level] = min(self.ends[net][level], end + delay if end else 0)

    # ---- Lines ----

    def line(self, letter, numbers):
        """Takes a line; one that is bad changes nothing."""
        if letter in VARIABLES:
            self.variables.append(self.variable(letter, numbers))
            return
        step, least, most = MAKERS[letter]
        require(least <= len(numbers) and (most is None or len(numbers) <= most))
        clause = step(self, *numbers)
        self.has_steps = True
        if letter not in "er":
            require(all(literal < 2 * len(self.variables) for literal in clause))
            self.clauses.append(frozenset(clause))

    def has_no_pair(self):
        """Whether the last clause is empty."""
        return bool(self.clauses) and not self.clauses[-1]

    def is_within(self, moment):
        """Whether no output changes later than at a moment, by the ends."""
        return all(end <= moment + 1 for net in self.circuit.outputs for end in self.ends[net])


# By a gate's kind the last levels of inputs that give the output its last level 0, and 1.
SAME, OTHER, BOTH = ((0,), (1,)), ((1,), (0,)), ((0, 1), (0, 1))
LEVELS = {"and": SAME, "or": SAME, "buf": SAME, "nand": OTHER, "nor": OTHER, "not": OTHER}
LEVELS |= {"xor": BOTH, "xnor": BOTH}
# By the letter what does a step, and how many numbers it has at least and at most.
MAKERS = {
    "g": (Leaf.by_gate, 1, None),
    "t": (Leaf.by_table, 1, None),
    "n": (Leaf.by_net, 2, 2),
    "u": (Leaf.by_pairs, 0, None),
    "k": (Leaf.by_conditions, 0, None),
    "l": (Leaf.by_hints, 1, None),
    "e": (Leaf.lower, 4, None),
    "r": (Leaf.again, 1, 1),
}
