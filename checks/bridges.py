#!/usr/bin/env python3
"""Looks that the scripts of bridges/ write netlists of library cells as gates that mean the same,
and refuse by name what they can't.

Made up are netlists of all cells of bridges/tiny.lib: constants at pins, escaped names, ranges, an
output that is an input, registers. Each is written by from_liberty.sh with both `--pins` and some
step. yosys proves by its `sat` that the gates compute what the cells do (where there are registers,
by equivalent.sh). 40 pairs of vectors are run on Icarus Verilog with the delays that are written,
and have to change last when `PROGRAM sim` says; with `--pins worst` and steps of 1 fs it has to say
of 40 more what one gate for each output of a cell does. In trees of cells each change of one input
has to reach the outputs when the arcs of the SDF file add up to it.

30 planted faults have to be caught: a gate exchanged, rise and fall swapped, an arc dropped. Each
refusal has to come by its name, and its remedy has to work. Cases of a designer's own (RTL of which
yosys drops something, constraints, latches and other state, cuts, SDF files, short delays, the one
command) stand in bridging/cases.py, conditions in bridging/promised.py, small designs on each
library that is installed in bridging/blocks.v, designs of each kind of RTL, with what is refused
and its remedy, in bridging/kinds.v. RTL with registers is synthesised and proved, .bench and BLIF
are read, a multiplier of 32 by 32 bits is written within 10 seconds of a processor, the commands of
docs/FROM-RTL.md do what that page says, and examples/from_rtl/ comes out as it is kept. It needs
`yosys`, `sta` (OpenSTA), `iverilog` and `vvp`.
"""

import os
import re
import sys
from collections import namedtuple
from itertools import product

from bridging import blocks, cases, designs, icarus, ideal, kinds, promised, refusals
from bridging.cells import CELLS, STEPS, Sdf, unescaped, whole
from bridging.made import paths, tree, web
from bridging.tools import LIBRARY, read, script, write, yosys
from lib import check, places

CASES = 276
# Random netlists that come before all else: whether they have registers.
FIRST = (False, True)
PAIRS = 40
PLANTS = 30
# What a gate is exchanged for. (An or of products that exclude each other may be an xor as well.)
OTHERS = {
    "and": ["nand", "or"],
    "nand": ["and", "nor"],
    "or": ["nor", "and"],
    "nor": ["or", "nand"],
    "xor": ["xnor"],
    "xnor": ["xor"],
    "buf": ["not"],
    "not": ["buf"],
}

# Gates as they were written, from which SDF file, with which options.
Written = namedtuple("Written", "gates sdf pins step")


def converted(tested, made, step):
    """A netlist of cells, written as gates with both `--pins`, or None where that failed."""
    write(tested.folder, "t.v", made.text())
    words = ["--step", step] + (["--clock", "clk"] if made.registers else [])
    ended = script(tested.folder, "from_liberty.sh", "t.v", "t", LIBRARY, "each", *words)
    if ended.status:
        tested.fault(f"from_liberty.sh: {ended.err}\n{made.text()}")
        return None
    return read(tested.folder, "each.sdf")


def gates_of(tested, name, *words):
    """What primitives.py writes of the netlist that was read last, also as a file, or None where it
    refuses.
    """
    ended = script(tested.folder, "primitives.py", "each.json", "t", *words)
    if ended.status:
        tested.fault(f"primitives.py {' '.join(words)}: {ended.err}")
        return None
    return write(tested.folder, name, ended.out)


def equivalent(tested, *names):
    """Whether yosys proves by its `sat` that modules of gates compute what the cells of t.v do."""
    steps = f"read_liberty {LIBRARY}; read_verilog t.v; hierarchy -top t; flatten; {stash('gold')}"
    for name in names:
        steps += f"read_verilog {name}; hierarchy -top t; proc; {stash('gate')}"
        steps += "design -copy-from gold -as gold gold; design -copy-from gate -as gate gate; "
        steps += "miter -equiv -flatten -make_assert gold gate m; hierarchy -top m; "
        steps += "sat -verify -prove-asserts -set-def-inputs m; design -reset; "
    return yosys(tested.folder, steps)


def stash(name):
    """Puts the design of yosys aside under a name."""
    return f"rename t {name}; design -stash {name}; "


def random_pairs(tested, text, count):
    width = len(icarus.bits_of(icarus.Module(text).inputs))
    vector = lambda: "".join(tested.random.choice("01") for _ in range(width))
    return [(vector(), vector()) for _ in range(count)]


def as_simulated(tested, name, text):
    """A case: the program's last changes are those of Icarus Verilog, with the written delays."""
    pairs, changes = random_pairs(tested, text, PAIRS), 0
    for (first, second), theirs in zip(pairs, icarus.last_changes(tested.folder, text, pairs)):
        ours = simulated(tested, name, first, second)
        if ours != theirs:
            told = f"sim says {ours}, Icarus Verilog {theirs}"
            tested.fault(f"{first} to {second}: {told}, of\n{text}")
        changes += max(theirs, default=-1) >= 0
    tested.has_kind(*["pair"] * PAIRS, *["pair that changes an output"] * changes)
    tested.case("simulated")


def as_one_gate_each(tested, made, sdf):
    """A case: in steps of 1 fs outputs change last as those of one gate for each cell."""
    text = gates_of(tested, "fine.v", "--sdf", "each.sdf", "--pins", "worst", "--step", "1fs")
    if text is None:
        return
    module, ends = icarus.Module(text), made.ends()
    gates, names = ideal.gates_of(made, Sdf(sdf, "1fs")), names_of(module.inputs)
    for pair in random_pairs(tested, text, PAIRS):
        last = ideal.last_changes(made, gates, names, pair)
        theirs = [last.get(ends[end], -1) for end in names_of(module.outputs)]
        ours = simulated(tested, "fine.v", *pair)
        # An output that is an input, or has the net of another one, is a step later.
        if len(ours) != len(theirs) or any(abs(a - b) > 1 for a, b in zip(ours, theirs)):
            tested.fault(f"{pair}: sim {ours}, cells {theirs}, of\n{made.text()}\n{text}")
    tested.case("one gate each")


def simulated(tested, name, first, second):
    """When each output changes last, as the program says."""
    ended = tested.run("sim", name, first, second)
    if ended.status:
        tested.fault(f"sim {name} {first} {second}: {ended}")
    words = re.findall(r"^last .* (\S+)$", ended.out, re.M)
    return [-1 if word == "never" else int(word) for word in words]


def names_of(ports):
    """The bits of ports, without what escapes their names."""
    bits = icarus.bits_of(ports)
    return [unescaped(name) + ("" if number is None else f"[{number}]") for name, number in bits]


def some_outputs(tested, text, step):
    """A case: with one output alone, its bits change as they do with all."""
    few = gates_of(tested, "few.v", "--sdf", "each.sdf", "--step", step, "--outputs", "y")
    if few is None or text is None:
        return
    pairs = random_pairs(tested, text, PAIRS)
    count = len(icarus.bits_of(icarus.Module(few).outputs))
    alone, whole = (icarus.last_changes(tested.folder, it, pairs) for it in (few, text))
    if alone != [moments[:count] for moments in whole] or "output z;" in few:
        tested.fault(f"--outputs y changes otherwise\n{text}\n{few}")
    tested.case("some outputs")


def random_netlist(tested, with_registers):
    """Cases of a random netlist."""
    made = web(tested.random, with_registers)
    step = tested.random.choice(sorted(STEPS))
    sdf = converted(tested, made, step)
    if sdf is None:
        return
    tested.has_kind(*(f"cell {cell.kind}" for cell in made.cells + made.registers))
    base = ("--sdf", "each.sdf", "--step", step)
    texts = {"each.v": gates_of(tested, "each.v", *base)}
    texts["worst.v"] = gates_of(tested, "worst.v", *base, "--pins", "worst")
    if made.registers:
        proved = script(tested.folder, "equivalent.sh", "t.v", "t", LIBRARY, "each")
    else:
        proved = equivalent(tested, *texts)
    if proved.status:
        tested.fault(f"not equivalent: {(proved.err or proved.out)[-500:]}\n{made.text()}")
    tested.case("proved")
    for name, text in texts.items():
        as_simulated(tested, name, text)
    some_outputs(tested, texts["each.v"], step)
    if not made.registers:
        as_one_gate_each(tested, made, sdf)
    trees(tested)


def with_wires(rng, made, sdf):
    """The file with delays of some wires.

    Where an output rises and falls with one edge, a wire has one delay.
    """
    lines = []
    for cell in made.cells:
        for pin in cell.inputs:
            rise, fall = (f"{rng.randint(1, 9999) / 100000:.5f}" for _ in range(2))
            second = rise if cell.kind in ("XOR2", "MUX2", "HA", "FA") else fall
            if rng.random() < 0.5:
                values = f"({rise}::{rise}) ({second}::{second})"
                lines.append(f"    (INTERCONNECT x {in_sdf(cell.name)}/{pin} {values})")
    lines += [
        f"    (INTERCONNECT x {end} (0.01230::0.01230) (0.00450::0.00450))"
        for end in made.ends()
        if rng.random() < 0.3
    ]
    cell = "\n".join(
        [
            "(CELL",
            '  (CELLTYPE "t")',
            "  (INSTANCE)",
            "  (DELAY",
            "   (ABSOLUTE",
            *lines,
            "   )",
            "  )",
            " )",
            ")",
            "",
        ]
    )
    return sdf.rstrip()[:-1] + cell if lines else sdf


def in_sdf(name):
    """A name as SDF escapes it."""
    return re.sub(r"([^A-Za-z0-9_])", r"\\\1", unescaped(name))


def expected(made, sdf, module, pins):
    """For each change of one input of a tree its pair, and when each output bit of `y` and `z`
    changes.
    """
    names = names_of(module.inputs)
    moment, ends = paths(made, sdf, pins == "worst"), made.ends()
    for bits in product((0, 1), repeat=len(names)):
        before = made.levels(dict(zip(names, bits)))
        for place in range(len(names)):
            flipped = bits[:place] + (1 - bits[place],) + bits[place + 1 :]
            after = made.levels(dict(zip(names, flipped)))
            pair = "".join(map(str, bits)), "".join(map(str, flipped))
            yield pair, {
                end: late(moment(net, before, after), end, net, made, sdf, after)
                for end, net in ends.items()
            }


def late(moment, end, net, made, sdf, after):
    """When an output changes whose net changes then."""
    if moment < 0:
        return moment
    if end in sdf.wires:
        return moment + whole(sdf.wires[end][after[net]])
    named = next(it for it, other in made.ends().items() if other == net and it not in sdf.wires)
    return moment + (end != named)


def untrue(tested, made, sdf, written):
    """What is wrong with the gates of a tree, or None."""
    module = icarus.Module(written.gates)
    wanted = list(expected(made, sdf, module, written.pins))
    names = names_of(module.outputs)
    for (pair, moments), got in zip(
        wanted, icarus.last_changes(tested.folder, written.gates, [pair for pair, _ in wanted])
    ):
        told = {name: moment for name, moment in zip(names, got) if name in moments}
        if told != moments:
            return f"{pair}: {told} in place of {moments} with --pins {written.pins}"
    return None


def grown(tested, pins):
    """A tree, what its SDF file says, and its gates."""
    made, step = tree(tested.random), tested.random.choice(sorted(STEPS))
    text = converted(tested, made, step)
    if text is None:
        return None
    if pins == "each":
        text = with_wires(tested.random, made, text)
        write(tested.folder, "each.sdf", text)
    gates = gates_of(tested, "tree.v", "--sdf", "each.sdf", "--step", step, "--pins", pins)
    return gates and (made, Sdf(text, step), Written(gates, text, pins, step))


def trees(tested):
    """A case for both `--pins`: a tree changes when the arcs add up to it."""
    for pins in ("each", "worst"):
        found = grown(tested, pins)
        if found:
            fault = untrue(tested, *found)
            if fault:
                tested.fault(f"{fault}, of\n{found[0].text()}\n{found[2].gates}")
            tested.case("tree")


def changed_gate(rng, text, change):
    """The text with another gate in place of one that `change` says is fit to be changed, or None
    where none is.
    """
    gates = [
        match
        for match in re.finditer(r"^(\w+) #\((\d+),(\d+)\) (\(.*\);)$", text, re.M)
        if change(*match.groups())
    ]
    if not gates:
        return None
    match = rng.choice(gates)
    return text[: match.start()] + change(*match.groups()) + text[match.end() :]


def exchanged(rng):
    """Another kind of gate."""

    def change(kind, rise, fall, rest):
        return f"{rng.choice(OTHERS[kind])} #({rise},{fall}) {rest}"

    return change


def swapped(kind, rise, fall, rest):
    """Rise and fall swapped, where they differ."""
    return f"{kind} #({fall},{rise}) {rest}" if rise != fall else None


def evened(kind, rise, fall, rest):
    """A pin's own delay dropped: a buf or not after it that has some."""
    inner = re.match(r"\(t\d+_, ", rest) and kind in ("buf", "not") and (rise, fall) != ("1", "1")
    return f"{kind} #(1,1) {rest}" if inner else None


def plants(tested):
    """Planted faults: each has to be caught, by the proof, by the arcs that don't add up, or by a
    refusal.
    """
    planted = 0
    while planted < PLANTS:
        found = grown(tested, "each")
        if not found or found[0].registers:
            continue
        made, sdf, written = found
        for kind, change in (
            ("exchanged", exchanged(tested.random)),
            ("swapped", swapped),
            ("dropped", evened),
        ):
            text = changed_gate(tested.random, written.gates, change)
            if text is None:
                continue
            write(tested.folder, "planted.v", text)
            caught = (
                equivalent(tested, "planted.v").status
                if kind == "exchanged"
                else untrue(tested, made, sdf, written._replace(gates=text))
            )
            if not caught:
                tested.fault(f"a gate {kind} isn't caught\n{written.gates}\n{text}")
            planted += 1
            tested.case(f"plant {kind}")
        arc = tested.random.choice(re.findall(r"\(IOPATH [^\n]*\n", written.sdf))
        write(tested.folder, "less.sdf", written.sdf.replace(arc, "\n", 1))
        words = ("--sdf", "less.sdf", "--step", written.step)
        ended = script(tested.folder, "primitives.py", "each.json", "t", *words)
        if ended.status != 1 or "NoDelay" not in ended.err:
            tested.fault(f"{arc} left out isn't caught: {ended.status} {ended.err}")
        planted += 1
        tested.case("plant dropped")


def work(tested):
    """A program that can't be right fails at once; then come some random netlists, so that few
    cases have of each kind, then what stands in lists, and random netlists until the end.
    """
    os.environ["TDELAY"] = os.path.abspath(tested.program)
    if designs.exact(tested, places.example("c17.v")) != 3:
        tested.fault("the worst delay of examples/c17.v isn't 3")
        return
    for with_registers in FIRST:
        random_netlist(tested, with_registers)
    refusals.work(tested)
    promised.work(tested)
    cases.work(tested)
    blocks.work(tested)
    designs.work(tested)
    plants(tested)
    kinds.work(tested)
    while tested.goes_on():
        random_netlist(tested, tested.random.random() < 0.3)


def shares(tested, cut):
    """Everything that the check is about was there."""
    if tested.most is not None and tested.most < CASES:
        return
    tested.require("pair that changes an output", 0.5, of="pair")
    tested.require("proved", 0.005)
    for kind in ("simulated", "one gate each", "some outputs", "tree"):
        tested.require(kind, 0.1, of="proved")
    for kind in (
        "refused",
        "case",
        "block",
        "by hand",
        "registers",
        "format",
        "command of the page",
        "plant exchanged",
        "plant swapped",
        "plant dropped",
        *["kind"] * bool(blocks.REAL),
    ):
        tested.require(kind, 0)
    if tested.most is None or tested.most >= 3 * CASES:
        for kind in CELLS:
            tested.require(f"cell {kind}", 0)


if __name__ == "__main__":
    sys.exit(check.main(work, __doc__, CASES, shares, needs=("yosys", "sta", "iverilog", "vvp")))
