"""Leaves by spans for small circuits: `leaf_lines` writes one that is good, `none_lines` one that
shows that no admitted pair lies in a cube, and `random_lines` one of random steps
(docs/CERTIFICATE.md, "Leaves by spans").

That an output is at rest is shown by a tree over the inputs' bits. Where some bits are known, nets
surely are at a level at some places, gate after gate; where that is enough, the steps on the way to
it are written, and a lemma of the bits that they rest on; two halves of the tree give a lemma
without the bit that parts them. Whether a step is good is left to the leaf of the second opinion,
which takes each as it is written: one that isn't is an error here.
"""

from collections import namedtuple

from second_levels import X, settled
from second_spans import EVER, BadStep, Leaf, Span, is_sure, sure_spans

# What is known of a net: a span, the true literal that says it, and the facts that give it. Where
# it is a span of a gate's output, the literal is written when it is needed; where a bit of an input
# says it, `of` is None, or the letter `u` where the leaf's cube has the bit.
Fact = namedtuple("Fact", "span literal of")
# How a net is to be shown at rest: the literals of which one holds; the net, and at which levels it
# may be from which place on; and the literal that its last level is another one, if any.
Goal = namedtuple("Goal", "literals net levels place last")
# That no run is there.
NO_RUN = Goal([], None, (), 0, None)


class TooLong(Exception):
    """A proof needs more branches than it may have."""


class Written:
    """A leaf that is written: its lines, and the state that they lead to."""

    def __init__(self, circuit, question, cube, rng):
        self.rng, self.circuit = rng, circuit
        self.state = Leaf(circuit, question, cube)
        self.numbers = {net: number for number, net in enumerate(self.state.nets)}
        self.variables, self.steps, self.clauses = [], [], {}

    def lines(self):
        return [" ".join(map(str, line)) for line in self.variables + self.steps]

    def variable(self, letter, *numbers):
        """The literal that a variable is true, which is added where it isn't there."""
        line = letter, *numbers
        if line not in self.variables:
            self.state.has_steps = False
            self.state.line(letter, list(numbers))
            self.variables.append(line)
        return 2 * self.variables.index(line)

    def span(self, span):
        """The literal of a span."""
        last = [] if span.last == EVER else [span.last]
        return self.variable("w", self.numbers[span.net], span.level, span.first, *last)

    def at(self, letter, net, level):
        """The literal that the first or the last level of a net is this."""
        return self.variable(letter, self.numbers[net]) + 1 - level

    def add(self, letter, *numbers):
        """Writes a step that is good. Gives the number of its clause, if it adds one."""
        self.state.line(letter, list(numbers))
        self.steps.append((letter, *numbers))
        return len(self.state.clauses) - 1

    def clause(self, letter, *literals):
        """The number of a clause, which is written where it isn't there."""
        key = letter, *literals
        if key not in self.clauses:
            self.clauses[key] = self.add(letter, *literals)
        return self.clauses[key]

    def lemma(self, literals, hints):
        return self.add("l", len(literals), *literals, *hints)


def in_cone(circuit, net):
    """The nets that a net depends on, each after those that it reads."""
    first, found, open_ = circuit.inputs + 2, set(), [net]
    while open_:
        net = open_.pop()
        if net not in found:
            found.add(net)
            open_ += circuit.gates[net - first].inputs if net >= first else []
    return sorted(found)


def others_than(form, known):
    """The levels of a net, by `i` and `f`, that aren't as a condition has them; none where they are
    or may be.
    """
    if form == "==":
        return known if set(known.values()) == {0, 1} else {}
    wanted = {letter: int(it) for letter, it in zip("if", form) if it != "."}
    found = [letter for letter in wanted if known[letter] == 1 - wanted[letter]]
    return {letter: known[letter] for letter in found[:1]}


class Proof:
    """That a net is at rest, or that no run is there, as a tree over the bits of the inputs."""

    def __init__(self, leaf, goal, branches):
        self.leaf, self.goal, self.branches = leaf, goal, branches
        self.nets = [] if goal.net is None else in_cone(leaf.circuit, goal.net)
        asked = [each for net, _ in leaf.state.keep for each in in_cone(leaf.circuit, net)]
        others = range(leaf.circuit.inputs) if goal.net is None else []
        cones = dict.fromkeys([*self.nets, *asked, *others])
        inputs = [net for net in cones if net < leaf.circuit.inputs]
        cube = leaf.state.cube
        # The literals of the facts that are written for the goal, by their spans.
        self.written = {}
        self.open = [
            (letter, net)
            for net in inputs
            for side, letter in enumerate("if")
            if cube[2 * net + side] == X
        ]
        leaf.rng.shuffle(self.open)

    # ---- What is known where some bits are ----

    def facts(self, bits):
        """The facts of each net. `bits` has the levels of positions that aren't those of the cube.
        """
        circuit, found = self.leaf.circuit, {}
        for net in self.nets:
            if net < circuit.inputs:
                found[net] = list(self.facts_of_input(net, bits))
            elif net >= circuit.inputs + 2:
                gate = circuit.gates[net - circuit.inputs - 2]
                known = [fact for each in dict.fromkeys(gate.inputs) for fact in found[each]]
                found[net] = [
                    Fact(Span(net, level, first, last), None, known)
                    for level in (0, 1)
                    for first, last in self.sure(gate, level, known)
                ]
            else:
                found[net] = []
        return found

    def sure(self, gate, level, known):
        spans = sure_spans(self.leaf.circuit, gate, level, [fact.span for fact in known])
        return {first: (first, last) for first, last in spans}.values()

    def facts_of_input(self, net, bits):
        for side, letter in enumerate("if"):
            level = self.leaf.state.cube[2 * net + side]
            of = "u" if level != X else None
            level = bits.get((letter, net), level)
            if level != X:
                literal = self.leaf.at(letter, net, level)
                yield Fact(self.leaf.state.says(literal), literal, of)

    # ---- Writing what is needed ----

    def write(self, fact, hints, used):
        """Writes the steps that give a fact, adds their clauses to the hints, and the literals of
        bits that they rest on to those that are used. Gives the fact's literal.
        """
        if fact.of is None:
            used.append(fact.literal)
        elif fact.of == "u":
            hints.append(self.leaf.clause("u", fact.literal))
        if fact.literal is not None:
            return fact.literal
        if fact.span in self.written:
            return self.written[fact.span]
        body = list(fact.of)
        for each in self.leaf.rng.sample(body, len(body)):
            fewer = [other for other in body if other is not each]
            if is_sure(self.leaf.circuit, fact.span, [other.span for other in fewer]):
                body = fewer
        head = self.written[fact.span] = self.leaf.span(fact.span)
        said = [self.write(each, hints, used) ^ 1 for each in body]
        hints.append(self.leaf.clause("g", head, *said))
        return head

    def reached(self, facts):
        """The hints by which the facts reach the goal and the bits that are used, or None."""
        hints, used, goal, self.written = [], [], self.goal, {}
        for fact in facts.get(goal.net, ()):
            span = fact.span
            if span.last == EVER and span.level in goal.levels and span.first <= goal.place:
                wanted = self.leaf.span(Span(goal.net, span.level, goal.place, EVER))
                if fact.of not in (None, "u") and self.leaf.rng.random() < 0.5:
                    fact = fact._replace(span=span._replace(first=goal.place))
                said = self.write(fact, hints, used)
                if said != wanted:
                    hints.append(self.leaf.clause("n", said ^ 1, wanted))
                return hints, used
            if span.last == EVER and goal.last is not None and span.level not in goal.levels:
                said = self.write(fact, hints, used)
                if said != goal.last:
                    hints.append(self.leaf.clause("n", said ^ 1, goal.last))
                return hints, used
        return None

    def excluded(self, bits):
        """What shows that no admitted pair has these bits, or None."""
        literals = [self.leaf.at(letter, net, level) ^ 1 for (letter, net), level in bits.items()]
        try:
            self.leaf.state.by_pairs(*literals)
        except BadStep:
            return None
        for each in self.leaf.rng.sample(literals, len(literals)):
            fewer = [literal for literal in literals if literal != each]
            try:
                self.leaf.state.by_pairs(*fewer)
                literals = fewer
            except BadStep:
                pass
        return [self.leaf.clause("u", *literals)], [literal ^ 1 for literal in literals]

    def broken(self, bits):
        """What shows that a condition isn't kept where these bits are known, or None."""
        leaf, inputs = self.leaf, range(self.leaf.circuit.inputs)
        levels = {}
        for side, letter in enumerate("if"):
            vector = [bits.get((letter, net), leaf.state.cube[2 * net + side]) for net in inputs]
            levels[letter] = settled(leaf.circuit, vector)
        for net, form in leaf.rng.sample(leaf.state.keep, len(leaf.state.keep)):
            others = others_than(form, {letter: levels[letter][net] for letter in "if"})
            if others:
                hints, used = [], []
                for letter in others:
                    self.settle(letter, net, levels[letter], bits, hints, used)
                literals = [leaf.at(letter, net, level) ^ 1 for letter, level in others.items()]
                return [*hints, leaf.clause("k", *literals)], used
        return None

    def settle(self, letter, net, levels, bits, hints, used):
        """Writes the steps that give the first or the last level of a net, by those of all nets."""
        leaf, first = self.leaf, self.leaf.circuit.inputs + 2
        literal = leaf.at(letter, net, levels[net])
        if net < first:
            if (letter, net) in bits:
                used.append(literal)
            else:
                hints.append(leaf.clause("u", literal))
            return
        reads = dict.fromkeys(leaf.circuit.gates[net - first].inputs)
        known = [each for each in reads if levels[each] != X and each not in (first - 2, first - 1)]
        for each in leaf.rng.sample(known, len(known)):
            fewer = [other for other in known if other is not each]
            if self.is_by_table(literal, letter, fewer, levels):
                known = fewer
        for each in known:
            self.settle(letter, each, levels, bits, hints, used)
        body = [leaf.at(letter, each, levels[each]) ^ 1 for each in known]
        hints.append(leaf.clause("t", literal, *body))

    def is_by_table(self, literal, letter, known, levels):
        """Whether a gate's table gives a literal by these terminals."""
        body = [self.leaf.at(letter, each, levels[each]) ^ 1 for each in known]
        try:
            self.leaf.state.by_table(literal, *body)
        except BadStep:
            return False
        return True

    def shown(self, bits):
        """The hints that show the goal where these bits are known, and the literals of bits that
        they use; None where nothing does.
        """
        found = self.excluded(bits) or self.broken(bits) or self.reached(self.facts(bits))
        if found:
            return found
        self.branches -= 1
        if self.branches < 0:
            raise TooLong
        left = [position for position in self.open if position not in bits]
        if not left:
            return None
        lemmas, needed = [], []
        for level in self.leaf.rng.sample([0, 1], 2):
            half = self.shown({**bits, left[0]: level})
            literal = self.leaf.at(*left[0], level)
            if half is None or literal not in half[1]:
                return half
            needed += [each for each in half[1] if each != literal]
            lemmas.append(self.lemma(*half))
        return lemmas, needed

    def lemma(self, hints, used):
        """Writes the lemma of the goal and of the bits that are used."""
        denied = [literal ^ 1 for literal in dict.fromkeys(used)]
        return self.leaf.lemma([*self.goal.literals, *denied], hints)


def goals_of(leaf, net, place):
    """How a net is shown at rest from a place on: once for both levels, or level by level."""
    spans = [leaf.span(Span(net, level, place, EVER)) for level in (0, 1)]
    if leaf.rng.random() < 0.5:
        return [Goal(spans, net, (0, 1), place, None)]
    lasts = [leaf.at("f", net, 1 - level) for level in (0, 1)]
    return [Goal([spans[it], lasts[it]], net, (it,), place, lasts[it]) for it in (0, 1)]


def rest(leaf, net, place, branches):
    """Writes that a net is at rest from a place on. Whether it is; TooLong where no proof of few
    enough branches is found.
    """
    for goal in goals_of(leaf, net, place):
        if all(leaf.state.ends[net][level] <= place for level in goal.levels):
            continue
        found = Proof(leaf, goal, branches).shown({})
        if found is None:
            return False
        hints = found[0]
        if leaf.rng.random() < 0.3:
            hints = [leaf.lemma(goal.literals, hints)]
        for level in goal.levels:
            words = leaf.numbers[net], level, place, len(goal.literals), *goal.literals
            leaf.add("e", *words, *hints)
    return True


def sweep(leaf, branches, tries):
    """Lowers ends of some gates' outputs, from the inputs on."""
    for net in range(leaf.circuit.inputs + 2, len(leaf.circuit.nets)):
        if leaf.rng.random() < 0.5:
            leaf.add("r", leaf.numbers[net])
        end = max(leaf.state.ends[net])
        if end and tries and leaf.rng.random() < 0.4:
            tries -= 1
            try:
                rest(leaf, net, max(0, end - leaf.rng.choice([1, 1, 2, 5])), branches)
            except TooLong:
                pass


def leaf_lines(rng, circuit, question, cube, bound, branches=60):
    """The lines of a leaf by spans that is good, without `x` and `q`: after them no output changes
    later than the bound. None where some pair of the cube does, or where no proof of few enough
    branches is found.
    """
    leaf = Written(circuit, question, cube, rng)
    try:
        if rng.random() < 0.4:
            chatter(leaf, rng.choice([1, 10, 40]), [])
        if rng.random() < 0.4:
            sweep(leaf, 10, 3)
        for net in dict.fromkeys(circuit.outputs):
            if max(leaf.state.ends[net]) > bound + 1 and not rest(leaf, net, bound + 1, branches):
                return None
        if rng.random() < 0.4:
            chatter(leaf, rng.choice([1, 10]), [])
    except TooLong:
        return None
    return leaf.lines()


def none_lines(rng, circuit, question, cube, branches=200):
    """The lines of a leaf by spans that is good, without `x` and `q none`, or None as above."""
    leaf = Written(circuit, question, cube, rng)
    try:
        if rng.random() < 0.3:
            chatter(leaf, rng.choice([1, 10]), [])
        found = Proof(leaf, NO_RUN, branches).shown({})
    except TooLong:
        return None
    if found and (not leaf.state.has_no_pair() or rng.random() < 0.5):
        leaf.lemma([], found[0])
    return found and leaf.lines()


# ---- Random steps ----


def random_span(rng, leaf, net, waves):
    """A span of a net: a stretch of some run, or one near to it."""
    wave = rng.choice(waves)[net] if waves else [(-1, 0)]
    which = rng.randrange(len(wave))
    (moment, level), after = wave[which], [*wave, (EVER, 0)][which + 1][0]
    gate = rng.choice(leaf.circuit.gates)
    steps = [0, 0, 0, 1, -1, 2, gate.rise, -gate.fall]
    first, last = max(0, moment + 1 + rng.choice(steps)), after + rng.choice(steps)
    if rng.random() < 0.1:
        last = rng.choice([EVER, first + rng.randint(0, 9)])
    return Span(net, level ^ (rng.random() < 0.1), first, max(first, last))


def read_by(circuit, net):
    """The nets that the gate of a net reads."""
    return circuit.gates[net - circuit.inputs - 2].inputs if net >= circuit.inputs + 2 else []


def random_variables(leaf, net, waves):
    """Adds variables about a net and those that its gate reads, and some others."""
    rng, circuit = leaf.rng, leaf.circuit
    near = [net] * 3 + read_by(circuit, net)
    for each in [*near, *near, rng.randrange(len(circuit.nets))]:
        if rng.random() < 0.6:
            leaf.span(random_span(rng, leaf, each, waves))
        else:
            leaf.variable(rng.choice("if"), leaf.numbers[each])
    for which in range(circuit.inputs):
        if rng.random() < 0.5:
            leaf.variable(rng.choice("if"), leaf.numbers[which])
    for _ in range(rng.choice([0, 1, 2])):
        leaf.variable("c", rng.randint(0, circuit.inputs), rng.randint(0, 3))


def literal_with(leaf, letters, nets=None):
    """A literal of a variable of one of the letters and about one of the nets, if there is one."""
    found = [
        2 * number
        for number, line in enumerate(leaf.variables)
        if line[0] in letters and (nets is None or line[1] in nets)
    ]
    return leaf.rng.choice(found or [0]) + leaf.rng.randint(0, 1)


def is_about(leaf, clause, number):
    """Whether all literals of a clause are of how a net ends."""
    lines = [leaf.variables[literal // 2] for literal in clause]
    return all(letter in "wf" and net == number for letter, net, *_ in lines)


def literals_kept(leaf):
    """The literals of a step that may well be good, of a condition."""
    rng, (net, form) = leaf.rng, leaf.rng.choice(leaf.state.keep)
    net = leaf.numbers[net] if rng.random() < 0.9 else rng.randrange(len(leaf.numbers))
    if form == "==":
        return literal_with(leaf, "i", [net]), literal_with(leaf, "f", [net])
    sides = [side for side in (0, 1) if form[side] != "." or rng.random() < 0.1]
    side = rng.choice(sides)
    sign = int(form[side] == "0") if rng.random() < 0.9 else rng.randint(0, 1)
    return (literal_with(leaf, "if"[side], [net]) & ~1 | sign,)


def random_step(leaf, net):
    """A step about a net that may well be good, as its letter and numbers."""
    rng, circuit = leaf.rng, leaf.circuit
    number, reads = leaf.numbers[net], [leaf.numbers[each] for each in read_by(circuit, net)]
    letters = "ggggttnnuulleer" + "kkk" * bool(leaf.state.keep)
    letter, clauses = rng.choice(letters), leaf.state.clauses
    if letter == "k":
        return "k", *literals_kept(leaf)
    one = literal_with(leaf, "w" if rng.random() < 0.8 else "if", [number])
    if letter == "g":
        body = [literal_with(leaf, "wif", reads) for _ in range(rng.randint(0, 5))]
        return "g", one & ~(rng.random() < 0.8), *(it | (rng.random() < 0.8) for it in body)
    if letter == "t":
        kind = rng.choice("if")
        body = [literal_with(leaf, kind, reads) for _ in range(rng.randint(0, 4))]
        return "t", literal_with(leaf, kind, [number]), *body
    if letter == "n":
        return "n", one, literal_with(leaf, "wif", [number])
    if letter == "u":
        some = [literal_with(leaf, "ifc") for _ in range(rng.choice([0, 1, 2, 3, 4, 6, 9]))]
        return "u", *dict.fromkeys(some)
    if letter == "r":
        return "r", number if rng.random() < 0.9 else rng.randint(0, len(leaf.numbers))
    about = [which for which, clause in enumerate(clauses) if is_about(leaf, clause, number)]
    which = rng.choice((about if letter == "e" else range(len(clauses))) or [0])
    literals = sorted(clauses[which]) if clauses else []
    if letter == "l":
        more = [literal_with(leaf, "wifc") for _ in range(rng.choice([0, 0, 1]))]
        return "l", len(literals + more), *literals, *more, which
    level, (low, high) = rng.randint(0, 1), sorted(leaf.state.ends[net])
    place = rng.choice([low, high, max(0, high - 1), rng.randint(0, high + 1)])
    return "e", number, level, place, len(literals), *literals, which


def chatter(leaf, tries, waves):
    """Writes random steps that are good. Gives one that isn't, if there was one."""
    rng, bad = leaf.rng, None
    net = rng.randrange(len(leaf.circuit.nets))
    if leaf.state.keep and rng.random() < 0.5:
        net = rng.choice(leaf.state.keep)[0]
    random_variables(leaf, net, waves)
    for _ in range(tries):
        step = random_step(leaf, net)
        try:
            leaf.add(*step)
        except BadStep:
            bad = step
    return bad


def random_lines(rng, circuit, question, cube, waves):
    """The lines of a leaf of random steps without `x` and `q`, and how late an output may change
    after them; the last step may be a bad one. `waves` has the waves of the nets in some runs.
    """
    leaf = Written(circuit, question, cube, rng)
    bad = None
    for _ in range(rng.choice([1, 2, 4])):
        bad = chatter(leaf, 30, waves) or bad
        if rng.random() < 0.2:
            sweep(leaf, 10, 2)
    lines = leaf.lines()
    if bad and rng.random() < 0.5:
        lines.append(" ".join(map(str, bad)))
    end = max((end for net in circuit.outputs for end in leaf.state.ends[net]), default=0)
    return lines, max(0, end - 1)
