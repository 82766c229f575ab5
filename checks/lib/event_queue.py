"""An event queue that runs many pairs of vectors side by side, written from docs/CERTIFICATE.md,
"The delay of a pair". Each pair is a bit: a level of a net is a whole number with the bits of the
pairs in which the net is at 1. It shares nothing with the rule of tools/second_opinion.py, which
makes the wave of one net after the other.
"""

import functools
import heapq
import operator

OPERATION = {"and": operator.and_, "nand": operator.and_, "or": operator.or_, "nor": operator.or_}
OPERATION |= {"xor": operator.xor, "xnor": operator.xor}
NEGATES = ("nand", "nor", "xnor", "not")


class Queue:
    """A run of many pairs. `waves` has for each net the moments at which it changes in some pair,
    each with the levels from then on; the first has the moment -1. `targets` has the same for the
    table of each gate.
    """

    def __init__(self, circuit, firsts, seconds, moments, everyone):
        self.circuit, self.everyone = circuit, everyone
        self.levels = [*firsts, 0, everyone]
        self.pending = [{} for _ in circuit.gates]
        self.readers = [[] for _ in circuit.nets]
        for which, gate in enumerate(circuit.gates):
            self.levels.append(self.table(gate))
            for net in set(gate.inputs):
                self.readers[net].append(which)
        self.waves = [[(-1, level)] for level in self.levels]
        self.targets = [[(-1, self.table(gate))] for gate in circuit.gates]
        self.moments, self.queued = [], set()
        self.due = {}
        for net, (second, moment) in enumerate(zip(seconds, moments)):
            if second != firsts[net]:
                self.due.setdefault(moment, []).append((net, second))
                self.queue(moment)
        self.run()

    def table(self, gate):
        """The bits of a gate's table."""
        inputs = [self.levels[net] for net in gate.inputs]
        found = functools.reduce(OPERATION[gate.kind], inputs) if len(inputs) > 1 else inputs[0]
        return found ^ self.everyone if gate.kind in NEGATES else found

    def queue(self, moment):
        if moment not in self.queued:
            self.queued.add(moment)
            heapq.heappush(self.moments, moment)

    def run(self):
        while self.moments:
            moment = heapq.heappop(self.moments)
            self.evaluate(moment, self.update(moment))

    def update(self, moment):
        """All events of a moment take place. Gives the gates that are to be evaluated."""
        first = self.circuit.inputs + 2
        changed = self.due.pop(moment, [])
        for which, events in enumerate(self.pending):
            flips = events.pop(moment, 0)
            if flips:
                changed.append((first + which, self.levels[first + which] ^ flips))
        touched = set()
        for net, level in changed:
            self.levels[net] = level
            self.waves[net].append((moment, level))
            touched.update(self.readers[net])
            if net >= first:
                touched.add(net - first)
        return touched

    def evaluate(self, moment, gates):
        """Each of these gates is evaluated once."""
        for which in gates:
            gate = self.circuit.gates[which]
            table = self.table(gate)
            if table != self.targets[which][-1][1]:
                self.targets[which].append((moment, table))
            differ = table ^ self.levels[self.circuit.inputs + 2 + which]
            events, waiting = self.pending[which], 0
            for when in list(events):
                # An event is always for the other level than that of the output.
                events[when] &= differ
                waiting |= events[when]
                if not events[when]:
                    del events[when]
            new = differ & ~waiting
            for bits, delay in ((new & table, gate.rise), (new & ~table, gate.fall)):
                if bits:
                    events[moment + delay] = events.get(moment + delay, 0) | bits
                    self.queue(moment + delay)


def run_of(circuit, pairs, moments):
    """The run of pairs, each a list of the bits of both vectors input by input."""
    everyone = (1 << len(pairs)) - 1
    columns = [
        int("".join("01"[pair[position]] for pair in reversed(pairs)) or "0", 2)
        for position in range(2 * circuit.inputs)
    ]
    return Queue(circuit, columns[::2], columns[1::2], moments, everyone)


def level_at(wave, place):
    """The bits of a wave at a place: before moment 0 at place 0, after moment n - 1 at place n."""
    low, high = 0, len(wave)
    while high - low > 1:
        middle = (low + high) // 2
        if wave[middle][0] < place:
            low = middle
        else:
            high = middle
    return wave[low][1]


def latest_change(circuit, pairs, moments):
    """The greatest delay of these pairs, 0 where there are none."""
    if not pairs:
        return 0
    waves = run_of(circuit, pairs, moments).waves
    return max((max(0, waves[net][-1][0]) for net in circuit.outputs), default=0)


def earliest_change(circuit, pairs, moments):
    """The first moment at which an output changes for one of these pairs, None where none does."""
    waves = run_of(circuit, pairs, moments).waves
    firsts = [waves[net][1][0] for net in circuit.outputs if len(waves[net]) > 1]
    return min(firsts, default=None)
