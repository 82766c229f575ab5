#!/usr/bin/env python3
"""Compares `check`, `sim`, `path` and `bound` with tools/second_opinion.py, a second checker that
was written from the documents alone.

Makes random circuits and for each of them questions, certificates and pairs of vectors:
certificates that `worst` writes, trees of its own for all four versions (right ones, by the bounds
of second_opinion.py, and wrong ones), and both with bytes and lines mutated. Compared are the exit
status, standard output, and of faults the kind, and the line of those of certificates. A case is
one answer that both give. The files of the first difference are kept in DIR, where `--keep DIR`
names one.
"""

import itertools
import os
import random
import re
import shutil
import sys

from lib import check, conditions, event_queue
from lib.netlists import KINDS

import second_domains
import second_opinion as opinion
from second_opinion import X

CASES = 6000
# Of so many free positions all pairs are run.
MOST_FREE = 8
SYMBOLS = {"first": "01.", "second": "01.", "hold": ".=", "from": "01", "to": "01"}


class Differs(Exception):
    """The two say different things: the command's words and both answers."""


# ---- Circuits ----


def delay_text(rng, largest):
    """A delay as a text, perhaps none."""
    rise, fall = rng.randint(1, largest), rng.randint(1, largest)
    return rng.choice(
        [
            "",
            f"#{rise}",
            f"#({fall})",
            f"#({rise},{fall})",
            f"#({rise},{fall})",
            f"# (\t{rise} , {fall}_ )",
        ]
    )


def names_of(rng, count, letter):
    """Names for nets: simple, escaped, or bits of a vector, with the text that declares them."""
    form = rng.random()
    if count and form < 0.2:
        left, right = rng.choice([(count - 1, 0), (0, count - 1), (7, 8 - count)])
        low, high = sorted((left, right))
        bits = range(left, right + (1 if right >= left else -1), 1 if right >= left else -1)
        return [letter], f"[{left}:{right}] {letter}", [f"{letter}[{bit}]" for bit in bits]
    names = [f"{letter}{k}" if form < 0.8 else f"\\{letter}.{k}$ " for k in range(count)]
    return names, ",".join(names), names


def gate_lines(rng, inputs, outputs, largest):
    """Gate statements that drive the outputs and some more nets, in any order."""
    count = max(len(outputs), rng.randint(1, 14))
    made = [f"n{k}" for k in range(count - len(outputs))] + outputs
    rng.shuffle(made)
    constants = rng.choice([0, 0, 0.15])
    nets, lines = list(inputs), []
    while made:
        kind = rng.choice(KINDS)
        single = kind in ("buf", "not")
        drives = [
            made.pop() for _ in range(min(len(made), rng.choice([1, 1, 1, 2]) if single else 1))
        ]
        pool = nets[-rng.choice([3, 8, 99]) :]
        reads = [
            rng.choice(pool) if pool and rng.random() >= constants else rng.choice(["1'b0", "1'b1"])
            for _ in range(1 if single else rng.choice([1, 2, 2, 2, 3, 4]))
        ]
        name = rng.choice(["", f"g{len(lines)} "])
        lines.append(f"{kind} {delay_text(rng, largest)} {name}({','.join(drives + reads)});")
        nets += drives
    rng.shuffle(lines)
    return lines


def random_circuit(rng):
    """The text of a random circuit."""
    names, inputs, input_nets = names_of(rng, rng.choice([0, 1, 1, 2, 2, 2, 3, 3, 3, 4, 5, 7]), "i")
    ports, outputs, output_nets = names_of(rng, rng.choice([0, 1, 1, 1, 1, 2, 3]), "y")
    lines = gate_lines(
        rng, input_nets, output_nets, rng.choice([1, 2, 3, 3, 6, 6, 20, 1_000_000_000])
    )
    head = rng.choice(
        [
            "",
            "",
            "",
            "`timescale 1 ns/1ns\n",
            "`timescale 10ns / 1 ps // a step\n",
            "/* */ (* keep *) `celldefine\n",
        ]
    )
    items = [f"input {inputs};"] * bool(names) + [f"output {outputs};"] * bool(ports) + lines
    if "ps" in head:
        items = [
            line.replace("#", "#0.0")
            if "#(" not in line and "# (" not in line and "00000" not in line
            else line
            for line in items
        ]
    return head + "\n".join([f"module t ({','.join(names + ports)});", *items, "endmodule\n"])


def rippling_circuit(rng):
    """A circuit in which nets change some 512 times, where the possible levels are capped."""
    count, most_of = rng.randint(508, 516), rng.choice(["a", "aaaaaaab"])
    delays = rng.sample(range(1, 520), count)
    delayed = [f"buf #{2 * delay} (d{delay},{rng.choice(most_of)});" for delay in delays]
    taps = ",".join(f"d{delay}" for delay in delays)
    rise, fall = rng.choice([(1, 1), (2, 2), (1, 2), (2, 1)])
    kind, last = rng.choice(["xor", "xnor"]), rng.choice(["xor", "or", "and", "nand", "buf"])
    gates = [
        f"{kind} #({rise},{fall}) (w,{taps});",
        f"buf #{rng.randint(1, 1100)} (l,b);",
        f"{last} (y,{'w' if last == 'buf' else 'w,l'});",
    ]
    return "\n".join(
        ["module t (a,b,y,w);", "input a,b;", "output y,w;", *delayed, *gates, "endmodule\n"]
    )


def broken(rng, text):
    """The text with a small change, which it may mean a netlist without, or have a loop by."""
    words = text.split(" ")
    if rng.random() < 0.5:
        one, other = rng.randrange(len(words)), rng.randrange(len(words))
        words[one], words[other] = words[other], words[one]
        return " ".join(words)
    if rng.random() < 0.3:
        return re.sub(
            r"\bn[0-9]\b",
            lambda found: f"n{rng.randint(0, 9)}" if rng.random() < 0.1 else found[0],
            text,
        )
    place = rng.randrange(len(text))
    return (
        text[:place]
        + rng.choice(["", ",", "n0", "y", "i0", "1'b1", "#1", ";", "1", "["])
        + text[place + rng.choice([0, 1]) :]
    )


# ---- Questions and trees ----


def trits(rng, count, free):
    return "".join("." if rng.random() < free else rng.choice("01") for _ in range(count))


def random_question(rng, count):
    """The words of a question (first, second, hold, flips, at), None for one that is left out."""
    free = rng.choice([0.4, 0.8, 1])
    words = {name: None for name in ("first", "second", "hold", "flips", "at")}
    if rng.random() < 0.6:
        words["first"] = rng.choice([None, trits(rng, count, free)])
        words["second"] = rng.choice([None, trits(rng, count, free)])
        words["hold"] = rng.choice([None, None, "".join(rng.choice("...=") for _ in range(count))])
        words["flips"] = rng.choice([None, None, rng.randint(0, count + 1)])
    if rng.random() < 0.4:
        words["at"] = [
            rng.choice([0, 0, 1, 2, 3, 7, rng.randint(0, 40), 1_000_000_000]) for _ in range(count)
        ]
    return words


def question_of(words, count):
    first, second = words["first"] or "." * count, words["second"] or "." * count
    flips = count if words["flips"] is None else min(count, words["flips"])
    held = [symbol == "=" for symbol in words["hold"] or "." * count]
    return opinion.Question(
        opinion.woven(opinion.levels_of(first), opinion.levels_of(second)),
        held,
        flips,
        words["at"] or [0] * count,
    )


def version_of(question):
    if any(question.moments):
        return 3
    free = (
        set(question.pins) <= {X}
        and not any(question.held)
        and question.flips == len(question.held)
    )
    return 1 if free else 2


def admitted_pairs(rng, question):
    """Admitted pairs, each as a cube: all of them where there are few."""
    choices = [(0, 1) if pin == X else (pin,) for pin in question.pins]
    if sum(len(choice) == 2 for choice in choices) <= 6:
        pairs = itertools.product(*choices)
    else:
        pairs = ([rng.choice(choice) for choice in choices] for _ in range(40))
    return [list(pair) for pair in pairs if opinion.has_admitted(question, list(pair))]


def timed(circuit, question, pair):
    return opinion.delay_of_pair(circuit, pair, question.moments)


def tree_lines(rng, circuit, question, time, letters, with_none, most):
    """A tree that shows that no admitted pair has a delay greater than the time, or which ends
    where too many lines stand.
    """
    cubes, lines = [question.pins], []
    while cubes and len(lines) < most:
        cube = cubes.pop()
        free = [position for position, level in enumerate(cube) if level == X]
        line, letter = None, rng.choice(letters)
        if with_none and rng.random() < 0.8 and not opinion.has_admitted(question, cube):
            line = "none"
        elif rng.random() < 0.9 or not free:
            bound = opinion.bound(letter, circuit, cube, question.moments)
            if bound is not None and bound <= time and (free or rng.random() < 0.6):
                line = f"b {letter} {rng.choice([bound, bound, rng.randint(bound, time)])}"
            elif not free:
                line = f"p {timed(circuit, question, cube)}"
        if line is None:
            position = rng.choice(free)
            line = f"s {position}"
            cubes += [cube[:position] + [side] + cube[position + 1 :] for side in (1, 0)]
        lines.append(line)
    return lines


def one_leaf(rng, circuit, question, letter):
    """A tree of one leaf with the least number that its bound lets pass, or one less; the greatest
    one where there is no bound.
    """
    bound = opinion.bound(letter, circuit, question.pins, question.moments)
    return [f"b {letter} {opinion.LARGEST if bound is None else max(0, bound - rng.randint(0, 1))}"]


def symbols_of(levels):
    return "".join("01."[level] for level in levels) or "none"


def question_lines(version, defaults, question):
    """The lines of a text of this version that tell what is asked, of all outputs."""
    lines = []
    if version > 3:
        lines += [f"default {defaults.rise} {defaults.fall}", "output all"]
    if version > 1:
        lines += [
            f"first {symbols_of(question.pins[::2])}",
            f"second {symbols_of(question.pins[1::2])}",
            "hold " + ("".join(".="[held] for held in question.held) or "none"),
            f"flips {question.flips}",
        ]
    if version > 2:
        lines.append("at " + (" ".join(map(str, question.moments)) or "none"))
    if version > 3:
        lines.append("keep " + conditions.text_of(question.keep))
    return lines


def claim_lines(version, time, high, pair):
    """The lines of a text of this version that tell what is claimed."""
    return [
        f"time {time}",
        *([f"high {high}"] if version > 3 else []),
        f"from {symbols_of(pair[::2])}",
        f"to {symbols_of(pair[1::2])}",
    ]


def own_certificate(setup, question):
    """The lines of a certificate with a tree of its own, of version 4 or of the version of its
    question; a list, or None without a pair. In version 4 what it claims may be a bound alone, and
    it may tell other default delays than it is checked with.
    """
    rng, circuit, defaults = setup.rng, setup.circuit, setup.steps
    pairs = admitted_pairs(rng, question)
    if not pairs:
        return None
    pair = max(pairs, key=lambda pair: timed(circuit, question, pair))
    time, version = timed(circuit, question, pair), rng.choice([version_of(question), 4, 4])
    high = time + rng.choice([0, 0, 0, 1, 5]) if version > 3 else time
    letters = rng.choice(["a", "t", "m", "atm"] + (["e", "n", "en", "atmen"] * 2) * (version > 3))
    if rng.random() < 0.6:
        tree = tree_lines(rng, circuit, question, high, letters, version > 1, 400)
    else:
        tree = one_leaf(rng, circuit, question, rng.choice(letters))
    if rng.random() < 0.05:
        defaults = defaults._replace(fall=defaults.fall + 1)
    return [
        f"tdelay-cert {version}",
        f"circuit {circuit.inputs} {len(circuit.gates)}",
        *question_lines(version, defaults, question),
        *claim_lines(version, time, high, pair),
        *tree,
    ]


# ---- Mutations ----


def changed_number(rng, line):
    """The line with its last number changed a little, or much."""
    words = line.split(" ")
    if words[-1].isdigit():
        number = int(words[-1])
        near = [number - 1, number + 1, rng.randint(0, 2 * number)] if number else [1, 2, 3]
        far = [0, number * 10, 10**18, 10**18 + 1, 999_999_999, 10**9 + 1]
        words[-1] = str(rng.choice(near if rng.random() < 0.8 else far))
    return " ".join(words)


def changed_line(rng, line):
    """The line with another letter, number or symbol."""
    words = line.split(" ")
    if words[0] == "b" and len(words) == 3 and rng.random() < 0.5:
        return f"b {rng.choice('atmenx')} {words[2]}"
    if words[0] in ("b", "p", "none") and rng.random() < 0.4:
        number = words[-1] if words[1:] else str(rng.randint(0, 9))
        return rng.choice(
            [
                "none",
                "none",
                f"p {number}",
                f"b {rng.choice('atmen')} {number}",
                f"s {rng.randint(0, 9)}",
                "b a",
                "n",
                "",
            ]
        )
    if words[0] in SYMBOLS and words[1:] and words[1]:
        place = rng.randrange(len(words[1]))
        symbol = rng.choice(SYMBOLS[words[0]] if rng.random() < 0.9 else "01.=x ")
        return f"{words[0]} {words[1][:place]}{symbol}{words[1][place + 1:]}"
    if words[0] == "keep" and words[1:]:
        return conditions.changed(rng, line)
    if words[0] == "at" and words[1:]:
        words[rng.randrange(1, len(words))] = rng.choice(
            ["0", "1", "00", "1000000000", "1000000001", "none", "5"]
        )
        return " ".join(words)
    return changed_number(rng, line)


def by_lines(rng, lines):
    """The lines with a few of them changed, taken away, doubled, exchanged or cut off."""
    lines = list(lines)
    for _ in range(rng.choice([1, 1, 1, 2])):
        place = rng.randrange(len(lines))
        way = rng.random()
        if way < 0.8:
            lines[place] = changed_line(rng, lines[place])
        elif way < 0.85:
            lines[place : place + 1] = []
        elif way < 0.9:
            lines.insert(place, rng.choice(lines))
        elif way < 0.95:
            other = rng.randrange(len(lines))
            lines[place], lines[other] = lines[other], lines[place]
        else:
            lines[place:] = []
        if not lines:
            break
    return lines


def by_bytes(rng, text):
    """The bytes with one of them changed, taken away or put in, or cut off."""
    place = (
        rng.randrange(len(text) + 1)
        if rng.random() < 0.5
        else rng.randrange(min(len(text), 120) + 1)
    )
    byte = rng.choice([*b"0123456789", *b" \n\r\tatmenpbs.=x-+", 0, 255, rng.randrange(256)])
    run = bytes(rng.choice(b"0123456789") for _ in range(rng.choice([1, 9, 18, 30])))
    return rng.choice(
        [
            text[:place],
            text[:place] + text[place + 1 :],
            text[:place] + bytes([byte]) + text[place + 1 :],
            text[:place] + bytes([byte]) + text[place + 1 :],
            text[:place] + bytes([byte]) + text[place:],
            text[:place] + run + text[place:],
            text + bytes([byte]),
        ]
    )


# ---- Comparing ----


def read_or_none(text, steps):
    """The circuit of a text, with these default delays; None where it has none."""
    try:
        return opinion.read_circuit(text, steps)
    except opinion.Refusal:
        return None


class Setup:
    """A circuit's text with its files and default delays, and the check that compares what is said
    of it.
    """

    def __init__(self, tested, rng, text):
        self.tested, self.rng, self.netlist = tested, rng, text
        tested.write("t.v", text)
        self.steps = (
            opinion.Delays(rng.randint(1, 4), rng.randint(1, 4))
            if rng.random() < 0.4
            else opinion.Delays(1, 1)
        )
        self.defaults = (
            [f"--default-rise={self.steps.rise}", f"--default-fall={self.steps.fall}"]
            if max(self.steps) > 1
            else []
        )
        self.told = opinion.Told(*self.steps) if self.defaults else opinion.Told()
        self.circuit = read_or_none(text, self.steps)

    def read(self):
        return opinion.read_circuit(self.netlist, self.steps)

    def program(self, *words):
        """What the program says: standard output, standard error and the exit status."""
        done = self.tested.run_bytes(*words, *self.defaults)
        return done.out.decode("latin-1"), done.err.decode("latin-1"), done.status

    def compare(self, words, ours, kinds_of):
        """A case: what both say to these words. The kinds are those of what the program says."""
        theirs = self.program(*words)
        if comparable(theirs) != comparable(ours):
            keep(self.tested)
            self.tested.fault(
                f"{words} {self.defaults}: {theirs}, and the second opinion {ours}\n"
                f"{self.netlist.decode('latin-1')}"
            )
        self.tested.case(*kinds_of(*theirs))


def keep(tested):
    """Keeps the files of a difference where a folder is named for them."""
    if tested.asked.keep and tested.wrong == 0:
        shutil.rmtree(tested.asked.keep, ignore_errors=True)
        shutil.copytree(tested.folder, tested.asked.keep)


def comparable(answer):
    """An answer without what second_opinion.py reports in its own words."""
    out, fault, status = answer
    for kind in ("tdelay: netlist fault", "tdelay: circuit fault 1 Loop"):
        if fault.startswith(kind):
            fault = kind
    return out, fault, status


def compare_check(setup, certificate, origin):
    """Compares `check` of a certificate, and counts its version and what is said of it."""
    setup.tested.write("c", certificate)
    version = re.match(rb"tdelay-cert ([1-4])\n", certificate)

    def kinds_of(out, _, status):
        verdict = {0: "accepted", 4: "refused"}.get(status, "a fault of the text")
        return [
            f"check: {verdict}",
            *["check: accepted between"] * out.startswith("accepted between"),
            *["check: OtherQuestion"] * ("OtherQuestion" in out),
            f"check: version {version[1].decode() if version else 'none'}",
            f"check: {origin}",
        ]

    setup.compare(
        ["check", "t.v", "c"],
        opinion.told(
            lambda: opinion.check(setup.netlist, setup.told, certificate)
        ),
        kinds_of,
    )


def random_moments(rng, inputs):
    """A word for `--at`, which now and then gives nothing; None for no word."""
    moments = [
        str(rng.choice([0, 0, 1, 2, 5, rng.randint(0, 30), 1_000_000_000])) for _ in range(inputs)
    ]
    if rng.random() < 0.05:
        moments.append(rng.choice(["1", "", "1000000001", "007", "+1", "x"]))
        rng.shuffle(moments)
    if rng.random() < 0.05:
        moments = moments[1:]
    return rng.choice([None, ",".join(moments) or "none", ",".join(moments) or "none"])


def random_vector(rng, inputs):
    """A word for a vector, now and then one that gives nothing."""
    letters = rng.choice(
        ["01", "01", "01x", "01x", "01x2"] if rng.random() < 0.2 else ["01", "01x"]
    )
    return (
        "".join(rng.choice(letters) for _ in range(max(0, inputs + rng.choice([0] * 30 + [1, -1]))))
        or "none"
    )


def compare_runs(setup):
    """Compares `sim` and `path` of a random pair, with a moment for each input or without."""
    rng, circuit = setup.rng, setup.circuit
    inputs = circuit.inputs if circuit else rng.randint(0, 3)
    first, second, at = (
        random_vector(rng, inputs),
        random_vector(rng, inputs),
        random_moments(rng, inputs),
    )
    moments = [f"--at={at}"] if at is not None else []

    def run_kinds(command):
        return lambda out, _, status: [f"{command}: {'a run' if status == 0 else 'refused'}"] + [
            f"{command}: changes"
        ] * ("\nchange" in out)

    setup.compare(
        ["sim", "t.v", first, second, *moments],
        opinion.told(lambda: opinion.sim(setup.read(), first, second, at)),
        run_kinds("sim"),
    )
    outputs = [circuit.nets[net] for net in circuit.outputs] if circuit else []
    name = rng.choice([None, None, *outputs, "nothing"])
    ours = opinion.told(lambda: opinion.path(setup.read(), first, second, at, name))
    setup.compare(
        ["path", "t.v", first, second, *moments, *([f"--output={name}"] if name else [])],
        ours,
        run_kinds("path"),
    )


def all_pairs(pins):
    """All pairs of pins, as cubes."""
    return [list(pair) for pair in itertools.product(*((0, 1) if it == X else (it,) for it in pins))]


def require_earliest(setup, question, earliest):
    """That no pair of the pins changes an output before this moment, by runs of all of them."""
    pairs = all_pairs(question.pins)
    first = event_queue.earliest_change(setup.circuit, pairs, question.moments)
    if first is not None and (earliest is None or first < earliest):
        keep(setup.tested)
        setup.tested.fault(
            f"earliest {earliest}, and a pair of {question} changes an output at {first}\n"
            f"{setup.netlist.decode('latin-1')}"
        )
    setup.tested.case("earliest: reached" if first == earliest else "earliest: before all changes")


def compare_bounds(setup, question):
    """Compares the bounds of the pins, which output has the bound `m`, and when outputs change
    first, with what `bound --edges --outputs --earliest` reports; and that moment with runs of all
    pairs where they are few."""
    circuit = setup.circuit
    if circuit.inputs == 0:
        return
    pins = [
        f"--{name}={symbols_of(question.pins[side::2])}"
        for side, name in enumerate(("first", "second"))
    ]
    bounds = [
        (letter, opinion.bound(letter, circuit, question.pins, question.moments))
        for letter in "atmen"
    ]
    lines = [f"{letter} {'none' if bound is None else bound}" for letter, bound in bounds]
    of_outputs = second_domains.bounds("m", circuit, question.pins, question.moments)
    lines += [
        f"output {circuit.nets[net]}"
        for net, bound in zip(circuit.outputs, of_outputs)
        if bound == dict(bounds)["m"]
    ][:1]
    earliest = second_domains.earliest(circuit, question.pins, question.moments)
    lines.append(f"earliest {'none' if earliest is None else earliest}")
    ours = opinion.report([f"unit {circuit.unit}", f"defaulted {circuit.defaulted}", *lines]), "", 0
    at = "--at=" + ",".join(map(str, question.moments))
    words = ["bound", "t.v", *pins, at, "--edges", "--outputs", "--earliest"]
    setup.compare(
        words, ours, lambda out, _, __: ["bound: none" if "none" in out else "bound: all five"]
    )
    if question.pins.count(X) <= MOST_FREE:
        require_earliest(setup, question, earliest)


def options_of(words):
    """The words of a question as options."""
    options = [
        f"--{name}={value}"
        for name, value in words.items()
        if value not in (None, "") and name != "at"
    ]
    if words["at"]:
        options.append("--at=" + ",".join(map(str, words["at"])))
    return options


def worst(setup, words, budget, strategy):
    """The certificate that `worst` writes, or None where it has no exact answer."""
    setup.tested.remove("written")
    setup.program(
        "worst",
        "t.v",
        *options_of(words),
        "--budget",
        str(budget),
        "--strategy",
        strategy,
        "--cert",
        "written",
    )
    return setup.tested.read("written")


def compare_mutated(setup, certificate, origin, times):
    """Compares `check` of a certificate and of some mutated ones."""
    compare_check(setup, certificate, origin)
    for _ in range(times):
        lines = certificate.decode("latin-1").rstrip("\n").split("\n")
        by_line = ("\n".join(by_lines(setup.rng, lines)) + "\n").encode("latin-1")
        compare_check(
            setup,
            by_bytes(setup.rng, certificate) if setup.rng.random() < 0.3 else by_line,
            origin + ", mutated",
        )


def compare_circuit(tested, rng):
    """Makes a circuit and compares what is said of it."""
    kind = rng.random()
    text = rippling_circuit(rng) if kind < 0.01 else random_circuit(rng)
    setup = Setup(tested, rng, (broken(rng, text) if kind > 0.93 else text).encode("latin-1"))
    for _ in range(3):
        compare_runs(setup)
    if setup.circuit is None:
        return compare_check(setup, b"tdelay-cert 1\n", "own")
    for _ in range(3):
        words = random_question(rng, setup.circuit.inputs)
        written = worst(setup, words, rng.choice([1, 50, 300, 1000]), rng.choice(["least", "lead"]))
        if written:
            compare_mutated(setup, written, "of a search", 2)
        question = question_of(words, setup.circuit.inputs)
        compare_bounds(setup, question)
        for times in (0, 0, 3):
            own = own_certificate(setup, question)
            if own:
                compare_mutated(setup, ("\n".join(own) + "\n").encode(), "own", times)
    return None


def work(tested):
    for which in itertools.count():
        compare_circuit(tested, random.Random(f"{tested.seed} {which}"))


def require_shares(tested, shares):
    """Of 100 cases at least this share has answers of each kind."""
    for kind, share in shares.items():
        tested.require(kind, share)


# The option of a check that keeps the files of the first difference.
KEEP = {"--keep": {"metavar": "DIR", "help": "where the files of the first difference are kept"}}
SHARES = {
    "sim: a run": 0.05,
    "path: changes": 0.02,
    "bound: all five": 0.002,
    "bound: none": 0.02,
    "check: accepted": 0.1,
    "check: refused": 0.1,
    "check: a fault of the text": 0.02,
    "check: accepted between": 0.01,
    "check: OtherQuestion": 0.005,
    "check: of a search": 0.03,
    "check: version 1": 0.02,
    "check: version 2": 0.02,
    "check: version 3": 0.02,
    "check: version 4": 0.1,
}


def shares(tested, _cut):
    require_shares(tested, SHARES)


if __name__ == "__main__":
    sys.exit(check.main(work, __doc__, CASES, shares, KEEP))
