"""Runs of a netlist in which each output of a cell is one gate, with the cell's function and its
slowest pin's delays. Written apart from bridges/ and from `tdelay`.
"""

from collections import defaultdict
from heapq import heappop, heappush

from .cells import depends, level, unescaped


class Gate:
    """An output of a cell: what it reads, its delays, and the event that is scheduled."""

    def __init__(self, cell, pin, delays):
        self.kind, self.pin, self.reads = cell.kind, pin, list(cell.inputs.values())
        self.net, self.delays = cell.outputs[pin], delays
        self.event = None

    def target(self, levels):
        return level(self.kind, self.pin, [levels[net] for net in self.reads])


def gates_of(made, sdf):
    """The gates of a netlist without registers; an output that is constant is none."""
    known, gates = {"1'b0": 0, "1'b1": 1}, []
    for cell in made.cells:
        constant = {pin: known[net] for pin, net in cell.inputs.items() if net in known}
        for pin, net in cell.outputs.items():
            free = depends(cell.kind, pin, constant)
            if free:
                gates.append(Gate(cell, pin, sdf.greatest(cell.name, free, pin)))
            else:
                known[net] = level(
                    cell.kind, pin, [known.get(it, 0) for it in cell.inputs.values()]
                )
    return gates


def last_changes(made, gates, names, pair):
    """When each net changes last, where it does, for a pair of vectors of these inputs.

    A gate whose inputs call for another level has an event after its delay, which is cancelled
    where they call for the old level before. Gates are evaluated when all nets of a moment have
    changed.
    """
    first, second = (dict(zip(names, map(int, vector))) for vector in pair)
    levels, last, queue = made.levels(first), {}, []
    readers = defaultdict(list)
    for gate in gates:
        gate.event = None
        for net in set(gate.reads):
            readers[net].append(gate)
    moment, changed = 0, [
        net for net in made.inputs if first[unescaped(net)] != second[unescaped(net)]
    ]
    while changed:
        for net in changed:
            levels[net], last[net] = 1 - levels[net], moment
        for gate in {id(gate): gate for net in changed for gate in readers[net]}.values():
            target = gate.target(levels)
            if target == levels[gate.net]:
                gate.event = None
            elif gate.event is None:
                gate.event = moment + gate.delays[1 - target]
                heappush(queue, (gate.event, id(gate), gate))
        changed = []
        while not changed and queue:
            moment = queue[0][0]
            while queue and queue[0][0] == moment:
                gate = heappop(queue)[-1]
                if gate.event == moment:
                    gate.event = None
                    changed.append(gate.net)
    return last
