"""The runs and the domains of second_opinion.py, written from docs/CERTIFICATE.md alone, "The delay
of a pair" and "The bound of a cube".
"""

from collections import namedtuple
from functools import partial
from itertools import groupby

from second_levels import CONTROLLING, NEGATED, NEGATES, X, table


# ---- Runs (docs/CERTIFICATE.md, "The delay of a pair") ----

# What gives each net a signal: functions of an input's two levels and moment, and of a gate's kind,
# delays and inputs' signals; and that of a signal's last moment, None where it has none.
Domain = namedtuple("Domain", "of_input of_gate last")


def quickest_to(level, rise, fall):
    """The delay to the level, the lesser one where that isn't known."""
    return (fall, rise, min(rise, fall))[level]


def wave_of_input(first, second, moment):
    """A wave is a start and a list of changes, each a moment and a level."""
    return first, [] if first == second else [(moment, second)]


def over_time(function, waves):
    """The wave of the function of the waves' levels."""
    levels = [start for start, _ in waves]
    changes = sorted(
        (moment, which, level)
        for which, (_, changes) in enumerate(waves)
        for moment, level in changes
    )
    start = at = function(levels)
    found = []
    for moment, together in groupby(changes, lambda change: change[0]):
        for _, which, level in together:
            levels[which] = level
        before, at = at, function(levels)
        if before != at:
            found.append((moment, at))
    return start, found


def run_of_gate(kind, rise, fall, waves):
    """The wave of a gate's output, by the scheduling rule. Where the target doesn't change the rule
    does nothing.
    """
    start, changes = over_time(partial(table, kind), waves)
    level, event, found = start, None, []
    for moment, wanted in changes:
        if event and event[0] <= moment:
            found.append(event)
            level, event = event[1], None
        if event and event[1] != wanted:
            event = None
        if wanted != level and not event:
            event = moment + quickest_to(wanted, rise, fall), wanted
    return start, found + [event] if event else found


def signals_of(domain, circuit, inputs):
    """The signals of the nets, by number, by those of the inputs. A constant is as an input that
    keeps its level.
    """
    found = [*inputs, domain.of_input(0, 0, 0), domain.of_input(1, 1, 0)]
    for gate in circuit.gates:
        found.append(
            domain.of_gate(gate.kind, gate.rise, gate.fall, [found[net] for net in gate.inputs])
        )
    return found


def signals(domain, circuit, cube, moments):
    """The signals of the nets, by number. A cube has two levels for each input."""
    return signals_of(domain, circuit, map(domain.of_input, cube[::2], cube[1::2], moments))


def lasts(domain, circuit, cube, moments):
    """The last moments of the outputs' signals in order."""
    found = signals(domain, circuit, cube, moments)
    return [domain.last(found[net]) for net in circuit.outputs]


def latest_of(moments):
    """The latest of those that are there, 0 where there is none."""
    return max((moment for moment in moments if moment is not None), default=0)


RUN = Domain(wave_of_input, run_of_gate, lambda wave: wave[1][-1][0] if wave[1] else None)


def delay_of_pair(circuit, pair, moments):
    """The delay of a pair, a cube in which nothing is free."""
    return latest_of(lasts(RUN, circuit, pair, moments))


# ---- Domains (docs/CERTIFICATE.md, "The bound of a cube") ----

CAP = 512

# The span is a pair of moments, None for never. The ends are those of 0, of 1 and of an unknown
# level, all of them 0 for never.
Arrival = namedtuple("Arrival", "start finish span")
Edges = namedtuple("Edges", "start finish earliest ends")


def arrival_of_input(first, second, moment):
    return Arrival(first, second, None if first == second != X else (moment, moment))


def arrival_of_gate(kind, rise, fall, inputs):
    start, finish = (table(kind, [signal[side] for signal in inputs]) for side in (0, 1))
    never, controlling = Arrival(start, finish, span=None), CONTROLLING.get(kind)
    spans = [signal.span for signal in inputs if signal.span]
    finishing = [signal.span for signal in inputs if signal.finish == controlling]
    if not spans or None in finishing:
        return never
    earliest = max(
        [min(spans)[0]]
        + [signal.span[0] for signal in inputs if signal.start == controlling and signal.span]
    )
    latest = min([max(end for _, end in spans)] + [end for _, end in finishing])
    lost = start == finish != X and latest - earliest < quickest_to(NEGATED[start], rise, fall)
    if earliest > latest or lost:
        return never
    return never._replace(
        span=(
            earliest + quickest_to(NEGATED[start], rise, fall),
            latest + (fall, rise, max(rise, fall))[finish],
        )
    )


def possible_of_gate(kind, rise, fall, inputs):
    """A signal is a wave in which X is the set of both levels. Whether a level is possible is a
    buffer of whether it is in the target.
    """
    target = over_time(partial(table, kind), inputs)
    zero = run_of_gate("buf", fall, rise, [over_time(lambda levels: int(levels[0] != 1), [target])])
    one = run_of_gate("buf", rise, fall, [over_time(lambda levels: int(levels[0] != 0), [target])])
    start, boundaries = over_time(lambda levels: X if all(levels) else levels[1], [zero, one])
    if len(boundaries) > CAP:
        boundaries[CAP - 1 :] = [] if boundaries[CAP - 2][1] == X else [(boundaries[CAP - 1][0], X)]
    return start, boundaries


def last_of_possible(signal):
    moment, level = ([(0, signal[0])] + signal[1])[-1]
    return None if level == X else moment


def edges_of_input(first, second, moment):
    ends = [0 if first == level or second == 1 - level else moment + 1 for level in (0, 1)]
    return Edges(first, second, moment, [*ends, max(ends)])


def ends_of_parity(kind, inputs):
    """The ends of 0 and 1 of the target of `xor` and `xnor`."""
    last, *others = sorted(inputs, key=lambda signal: -signal.ends[X])
    until = max((signal.ends[X] for signal in others), default=0)
    parity = table(kind, [signal.finish for signal in others])
    return [max(until, last.ends[X if parity == X else level ^ parity]) for level in (0, 1)]


def ends_of_target(kind, inputs):
    """The ends of 0 and 1 of the target, by rules 2 and 3."""
    if kind in ("xor", "xnor"):
        return ends_of_parity(kind, inputs)
    ends = [max(signal.ends[level ^ (kind in NEGATES)] for signal in inputs) for level in (0, 1)]
    for signal in inputs:
        if signal.finish == CONTROLLING.get(kind):
            settled = table(kind, [signal.finish])
            ends[settled] = min(ends[settled], signal.ends[signal.finish])
    return ends


def edges_of_gate(kind, rise, fall, inputs):
    start, finish = (table(kind, [signal[side] for signal in inputs]) for side in (0, 1))
    changing = [signal for signal in inputs if signal.ends[X]]
    held = [signal.earliest for signal in changing if signal.start == CONTROLLING.get(kind)]
    earliest = max([min((signal.earliest for signal in changing), default=0)] + held)
    ends = ends_of_target(kind, inputs)
    if finish != X:
        other = 1 - finish
        ends[other] = max(0, min(ends[other], ends[finish] - (fall, rise)[other]))
    ends = [end if end > earliest else 0 for end in ends]
    ends.append(max(ends))
    if not ends[finish] or not ends[NEGATED[start]]:
        return Edges(start, finish, 0, [0, 0, 0])
    late = [end + delay if end else 0 for end, delay in zip(ends, (fall, rise))]
    return Edges(
        start, finish, earliest + quickest_to(NEGATED[start], rise, fall), [*late, max(late)]
    )


ARRIVAL = Domain(
    arrival_of_input, arrival_of_gate, lambda signal: signal.span[1] if signal.span else 0
)
POSSIBLE = Domain(wave_of_input, possible_of_gate, last_of_possible)
EDGES = Domain(edges_of_input, edges_of_gate, lambda signal: max(0, signal.ends[X] - 1))
DOMAINS = {
    "a": [ARRIVAL],
    "t": [POSSIBLE],
    "m": [ARRIVAL, POSSIBLE],
    "e": [EDGES],
    "n": [EDGES, POSSIBLE],
}


def bounds(letter, circuit, cube, moments):
    """The bounds of the outputs in order, None where there is none. A cube is a list of 0, 1 and X
    for free."""
    of_outputs = zip(*(lasts(domain, circuit, cube, moments) for domain in DOMAINS[letter]))
    return [
        min((last for last in of_output if last is not None), default=None)
        for of_output in of_outputs
    ]


def bound(letter, circuit, cube, moments):
    """The bound of the cube, None where there is none."""
    least = bounds(letter, circuit, cube, moments)
    return None if None in least else latest_of(least)


def earliest(circuit, cube, moments):
    """The moment before which no output changes, by edges; None where none ever does."""
    found = signals(EDGES, circuit, cube, moments)
    starts = [found[net].earliest for net in circuit.outputs if found[net].ends[X]]
    return min(starts, default=None)
