#!/usr/bin/env python3
"""A second opinion on certificates of `tdelay worst` (versions 1 to 4), and on the runs of `tdelay
sim` and `tdelay path`.

    second_opinion.py check FILE CERT [--output NAME] [--default-rise N] [--default-fall N]
    second_opinion.py sim FILE FROM TO [--at M,M,..] [--default-rise N] [--default-fall N]
    second_opinion.py path FILE FROM TO [--output NAME] [--at M,M,..] [--default-rise N] [..]

prints what `tdelay` prints for these words, and ends with its exit statuses. Written from
docs/CERTIFICATE.md, netlists.md, domains.md and program.md of docs/model, and docs/MANUAL.md
alone, in Python's standard library: it shares nothing with the project, no code,
no proof and no toolchain. What differs: a fault of the netlist has no number and line,
a loop without a net on it, and a bad command line in argparse's words. It is slow, since each leaf
is bounded from nothing. Netlists are read in second_netlist.py; the runs and the domains are those
of second_domains.py, and second_spans.py has the leaves by spans.
"""

import argparse
import re
import sys
from collections import namedtuple
from enum import Enum

from second_domains import RUN, bound, delay_of_pair, lasts, latest_of, quickest_to, signals
from second_levels import X, settled
from second_netlist import BILLION, Delays, Refusal, read_circuit
from second_spans import STEPS, VARIABLES, BadStep, Leaf, nets_of

LARGEST = 10**18
if hasattr(sys, "set_int_max_str_digits"):
    sys.set_int_max_str_digits(0)  # the numbers of a text may be of any length


# ---- The certificate's text (docs/CERTIFICATE.md, "The text" and "What is wrong with a text") ----

Fault = Enum("Fault", "Syntax UnexpectedEnd Trailing NumberTooLarge Version TooLong")
DIGITS = "0123456789"

# What is asked: a cube of pins, for each input whether it is held, the flips, and the moments.
Question = namedtuple("Question", "pins held flips moments keep", defaults=[()])
# How the netlist is read that is asked about: the default delays, and the numbers of the outputs,
# None for all.
Terms = namedtuple("Terms", "defaults outputs")
# What the checker is told: a rise and a fall delay, None where one is left out, and names of
# outputs.
Told = namedtuple("Told", "rise fall names", defaults=(None, None, ()))
# A line of a tree; the number of a split is its position. The lines of a leaf by spans stand there
# one by one, each but its ends with the text of its numbers.
Line = namedtuple("Line", "letter domain number")
# Such a line as it mostly stands in a text, and what it may not have.
INNER = re.compile(rf"[{VARIABLES}{STEPS}][0-9 ]*\n")
ODD = re.compile(r"\A.[0-9]|  | \n| 0[0-9]|[0-9]{19}")
# `asked` are the lines of the question as they stand in the text, and `pair` is a cube. `terms` are
# None where the text tells none; so are `time`, `high` and `pair` where no pair is claimed.
Certificate = namedtuple("Certificate", "inputs gates terms question asked time high pair tree")


def levels_of(symbols):
    return [X if symbol in ".x" else int(symbol) for symbol in symbols]


def woven(first, second):
    """The cube with these levels of the inputs before and after."""
    return [level for pair in zip(first, second) for level in pair]


class Text:
    """A text and how much of it is read. Each method reads what has to stand there, and tells the
    first byte that can't be read on.
    """

    def __init__(self, text):
        self.text, self.place = text, 0

    def fault(self, fault):
        line = 1 + self.text.count("\n", 0, self.place)
        raise Refusal(f"certificate fault {fault.value} {fault.name} at line {line}", 1)

    def one_of(self, letters):
        """The next letter, which is one of these."""
        if self.place == len(self.text):
            self.fault(Fault.UnexpectedEnd)
        letter = self.text[self.place]
        if letter not in letters:
            self.fault(Fault.Syntax)
        self.place += 1
        return letter

    def word(self, word):
        for letter in word:
            self.one_of(letter)

    def number(self, front, end, limit=LARGEST, beyond=Fault.NumberTooLarge, least=0):
        """A number between these letters, of a first digit of at least `least`. `beyond` is the
        fault of one above the limit. Each letter of `end` ends it.
        """
        self.word(front)
        value, letter = 0, self.one_of(DIGITS[least:])
        while letter not in end:
            value = 10 * value + int(letter)
            if value > limit:
                self.fault(beyond)
            letter = self.one_of(DIGITS + end if value else end)
        return value

    def numbers(self):
        """The rest of a line, numbers with a space before each, as it stands in the text."""
        begin, end = self.place, self.one_of(" \n")
        while end == " ":
            self.number("", " \n")
            end = self.text[self.place - 1]
        return self.text[begin : self.place - 1]

    def symbols(self, front, letters, count):
        """A line with one of the letters for each input, or `none`."""
        self.word(front)
        found = "".join(self.one_of(letters) for _ in range(count))
        self.word("\n" if count else "none\n")
        return found


def version_in(text):
    """The number in line 1, which the whole run of digits decides."""
    text.word("tdelay-cert ")
    run = re.compile("[0-9]*").match(text.text, text.place).group()
    if run not in ("1", "2", "3", "4"):
        text.one_of(DIGITS)
        of_none = Fault.NumberTooLarge if len(run) > 19 or int(run) > LARGEST else Fault.Version
        text.fault(Fault.Syntax if run[0] == "0" != run else of_none)
    text.word(run + "\n")
    return int(run)


def terms_in(text):
    """The lines `default` and `output` of version 4."""
    defaults = Delays(
        text.number("default ", " ", BILLION, Fault.Syntax, 1),
        text.number("", "\n", BILLION, Fault.Syntax, 1),
    )
    text.word("output ")
    if text.text.startswith("a", text.place):
        text.word("all\n")
        return Terms(defaults, None)
    outputs, end = [], " "
    while end == " ":
        outputs.append(text.number("", " \n"))
        end = text.text[text.place - 1]
    return Terms(defaults, outputs)


def moments_in(text, version, inputs):
    """The line `at`; in version 3 some moment isn't 0."""
    text.word("at " if inputs else "at none\n")
    moments = []
    for which in range(1, inputs + 1):
        least = version == 3 and which == inputs and not any(moments)
        moments.append(
            text.number("", "\n" if which == inputs else " ", BILLION, Fault.Syntax, least)
        )
    return moments


def question_in(text, version, inputs):
    """The question, which has no lines in version 1, and no moments in version 2."""
    if version == 1:
        return Question([X] * (2 * inputs), [False] * inputs, inputs, [0] * inputs)
    first, second, hold = (
        text.symbols(*line, inputs)
        for line in (("first ", "01."), ("second ", "01."), ("hold ", "=."))
    )
    restricted = set(first + second + hold) - {"."}
    flips = text.number("flips ", "\n", inputs - (version == 2 and not restricted), Fault.Syntax)
    moments = moments_in(text, version, inputs) if version > 2 else [0] * inputs
    return Question(
        woven(levels_of(first), levels_of(second)),
        [symbol == "=" for symbol in hold],
        flips,
        moments,
    )


def conditions_in(text):
    """The line `keep` of version 4: each condition is a net's number and a form."""
    text.word("keep ")
    if text.text.startswith("n", text.place):
        text.word("none\n")
        return []
    keep, end = [], " "
    while end == " ":
        net = text.number("", " ")
        first = text.one_of("01.=")
        keep.append((net, first + text.one_of({"=": "=", ".": "01"}.get(first, "01."))))
        end = text.one_of(" \n")
    return keep


def lines_of_leaf(text):
    """The lines after a line `x`, up to `q`."""
    lines = []
    while True:
        found = INNER.match(text.text, text.place)
        if found and not ODD.search(found[0]):
            text.place = found.end()
            lines.append(Line(found[0][0], None, found[0][1:-1]))
            continue
        letter = text.one_of(VARIABLES + STEPS + "q")
        if letter == "q":
            return [*lines, Line(letter, None, number_or_none(text, " "))]
        lines.append(Line(letter, None, text.numbers()))


def number_or_none(text, front):
    """A number that ends a line, None for the word `none`."""
    text.word(front)
    if text.text.startswith("n", text.place):
        text.word("none\n")
        return None
    return text.number("", "\n")


# The letters with which lines of a tree begin, by the version, and those of its domains.
LETTERS = {1: "sbp", 2: "sbpn", 3: "sbpn", 4: "sbpnx"}
DOMAINS = {1: "atm", 2: "atm", 3: "atm", 4: "atmen"}


def tree_in(text, version):
    """The lines of the tree, where a leaf without a bound has no domain, and `none` and `x` no
    number.
    """
    lines, to_come = [], 1
    while to_come:
        letter = text.one_of(LETTERS[version])
        text.word({"n": "one\n", "x": "\n"}.get(letter, " "))
        domain = text.one_of(DOMAINS[version]) if letter == "b" else None
        number = None if letter in "nx" else text.number(" " if domain else "", "\n")
        lines.append(Line(letter, domain, number))
        if letter == "x":
            lines += lines_of_leaf(text)
        to_come += 1 if letter == "s" else -1
    return lines


def claim_in(text, version, inputs):
    """The time, the bound and the pair, all None where no pair is claimed."""
    time = number_or_none(text, "time ") if version == 4 else text.number("time ", "\n")
    if time is None:
        return None, None, None
    high = text.number("high ", "\n") if version == 4 else time
    fronts = ("from ", "to ")
    return time, high, woven(*(levels_of(text.symbols(it, "01", inputs)) for it in fronts))


def read_certificate(text):
    """The certificate that the bytes spell; Refusal where they spell none."""
    text = Text(text.decode("latin-1"))
    if len(text.text) > 268_435_456:
        text.fault(Fault.TooLong)
    version = version_in(text)
    inputs = text.number("circuit ", " ", 4096, least=version in (2, 3))
    gates = text.number("", "\n", 200_000)
    begin = text.place
    terms = terms_in(text) if version == 4 else None
    question = question_in(text, version, inputs)
    if version == 4:
        question = question._replace(keep=conditions_in(text))
    asked = text.text[begin : text.place]
    claim = claim_in(text, version, inputs)
    tree = tree_in(text, version)
    certificate = Certificate(inputs, gates, terms, question, asked, *claim, tree)
    if text.place < len(text.text):
        text.fault(Fault.Trailing)
    return certificate


# ---- The verdict (docs/CERTIFICATE.md, "What is checked") ----

Verdict = Enum(
    "Verdict",
    "Accepted PairTime LeafBound LeafAboveTime BadPosition NotAPoint OtherCircuit "
    "PairNotAdmitted LeafNotEmpty BadStep OtherQuestion",
)
BITS = ({0}, {1}, {0, 1})


def has_admitted(question, cube):
    """Whether an admitted pair lies in the cube."""
    allowed = [BITS[pin] & BITS[level] for pin, level in zip(question.pins, cube)]
    flips = [
        held
        for first, second, held in zip(allowed[::2], allowed[1::2], question.held)
        if not first & second
    ]
    return all(allowed) and not any(flips) and len(flips) <= question.flips


def is_broken(circuit, question, cube):
    """Whether some net settles otherwise than a condition has it, X for free bits."""
    if not question.keep:
        return False
    nets = nets_of(circuit)
    before, after = (settled(circuit, cube[side::2]) for side in (0, 1))
    return any(
        breaks(form, (before[nets[number]], after[nets[number]]))
        for number, form in question.keep
    )


def breaks(form, levels):
    """Whether known levels aren't as a condition has them."""
    if form == "==":
        return set(levels) == {0, 1}
    return any(
        wanted != "." and level == 1 - int(wanted) for wanted, level in zip(form, levels)
    )


def may_lie(circuit, question, cube):
    """Whether an admitted pair may lie in the cube."""
    return has_admitted(question, cube) and not is_broken(circuit, question, cube)


def is_fit(circuit, keep):
    """Whether conditions rise, and each is on an input or a gate's output."""
    end = 2 + circuit.inputs + len(circuit.gates)
    rises = all(this < that for this, that in zip(keep, keep[1:]))
    return rises and all(2 <= number < end for number, _ in keep)


def judge_end(leaf, high, number):
    """What is wrong with the line `q` of a leaf by spans, None where nothing is."""
    if number is None:
        return None if leaf.has_no_pair() else Verdict.LeafNotEmpty
    if high is None:
        return Verdict.LeafNotEmpty
    late = Verdict.LeafAboveTime if number > high else None
    return late if leaf.is_within(number) else Verdict.LeafBound


def judge_in_leaf(leaf, high, line):
    """What is wrong with a line of a leaf by spans, None where nothing is."""
    letter, _, number = line
    if letter == "q":
        return judge_end(leaf, high, number)
    try:
        return leaf.line(letter, [int(word) for word in number.split()])
    except BadStep:
        return Verdict.BadStep


def judge_line(circuit, question, high, cube, line):
    """What is wrong with another line of the tree, None where nothing is."""
    letter, domain, number = line
    if letter == "x":
        return None
    if letter == "s":
        return None if number < len(cube) and cube[number] == X else Verdict.BadPosition
    if letter == "n":
        return Verdict.LeafNotEmpty if may_lie(circuit, question, cube) else None
    if high is None:
        return Verdict.LeafNotEmpty
    if letter == "p":
        if X in cube:
            return Verdict.NotAPoint
        good = number == delay_of_pair(circuit, cube, question.moments)
    else:
        least = bound(domain, circuit, cube, question.moments)
        good = least is not None and number >= least
    return Verdict.LeafBound if not good else Verdict.LeafAboveTime if number > high else None


def first_line(certificate):
    """The line of the text on which the tree begins."""
    of_claim = 3 if certificate.terms is None else 1 if certificate.pair is None else 4
    return 3 + certificate.asked.count("\n") + of_claim


def with_outputs(circuit, numbers):
    """The circuit with the outputs of these numbers alone, or all; None where they aren't rising
    numbers of outputs.
    """
    if numbers is None:
        return circuit
    if sorted(set(numbers)) != numbers or numbers[-1] >= len(circuit.outputs):
        return None
    return circuit._replace(outputs=[circuit.outputs[it] for it in numbers])


def other_line(told, numbers, terms):
    """The line of a text that contradicts what the checker is told, if one does."""
    for delay, other in ((told.rise, terms.defaults.rise), (told.fall, terms.defaults.fall)):
        if delay not in (None, other):
            return 3
    return 4 if numbers not in (None, terms.outputs) else None


def verdict(circuit, told, numbers, certificate):
    """The verdict for a whole circuit, where the checker is told this and the outputs of these
    numbers, and its line or None.
    """
    question, high, terms = certificate.question, certificate.high, certificate.terms
    circuit = with_outputs(circuit, terms.outputs if terms else numbers)
    if circuit is None:
        return Verdict.OtherCircuit, None
    if (circuit.inputs, len(circuit.gates)) != (certificate.inputs, certificate.gates):
        return Verdict.OtherCircuit, None
    if not is_fit(circuit, question.keep):
        return Verdict.OtherCircuit, None
    if terms and other_line(told, numbers, terms):
        return Verdict.OtherQuestion, other_line(told, numbers, terms)
    if certificate.pair is not None:
        if not may_lie(circuit, question, certificate.pair):
            return Verdict.PairNotAdmitted, None
        if delay_of_pair(circuit, certificate.pair, question.moments) != certificate.time:
            return Verdict.PairTime, None
    cubes, leaf = [question.pins], None
    for number, line in enumerate(certificate.tree, first_line(certificate)):
        if leaf:
            wrong = judge_in_leaf(leaf, high, line)
            leaf = None if line.letter == "q" else leaf
        else:
            cube = cubes.pop()
            wrong = judge_line(circuit, question, high, cube, line)
            leaf = Leaf(circuit, question, cube) if line.letter == "x" else None
        if wrong:
            return wrong, number
        if line.letter == "s":
            cubes += [cube[: line.number] + [side] + cube[line.number + 1 :] for side in (1, 0)]
    return Verdict.Accepted, None


# ---- The commands (docs/model/program.md) ----
# Each answers standard output, standard error and the exit status.


def report(lines):
    return "".join(line + "\n" for line in lines)


def told(work):
    """What a command answers, where a refusal is one of the answers."""
    try:
        return work()
    except Refusal as refusal:
        message, status = refusal.args
        return "", f"tdelay: {message}\n", status


def told_lines(certificate):
    """The lines of the question that `check` prints: of version 4 those that aren't plain."""
    if certificate.terms is None:
        return certificate.asked
    plain = rf"default 1 1|output all|flips {certificate.inputs}|at (none|0( 0)*)|keep none"
    plain = re.compile(rf"({plain}|(first|second|hold) (\.+|none))\n")
    return "".join(it for it in certificate.asked.splitlines(True) if not plain.fullmatch(it))


def claim_line(certificate):
    """The line that `check` prints of an accepted certificate."""
    time, high = certificate.time, certificate.high
    if time is None:
        return "accepted none"
    return f"accepted {time}" if time == high else f"accepted between {time} {high}"


def numbers_of(circuit, names):
    """The numbers of the outputs of these names, rising; None where none is named."""
    if not names:
        return None
    there = {}
    for number, net in enumerate(circuit.outputs):
        there.setdefault(circuit.nets[net], number)
    if any(name not in there for name in names):
        raise Refusal("no output of this name", 2)
    return sorted({there[name] for name in names})


def certificate_or_fault(text):
    """The certificate that a text spells, and why it spells none: one of them."""
    try:
        return read_certificate(text), None
    except Refusal as fault:
        return None, fault


def check(netlist, told, text):
    """`check` of a certificate's text for a netlist's text, where the checker is told this. What
    is left out is as the certificate has it.
    """
    certificate, fault = certificate_or_fault(text)
    defaults = Delays(told.rise or 1, told.fall or 1)
    if certificate and certificate.terms:
        defaults = certificate.terms.defaults
    circuit = read_circuit(netlist, defaults)
    numbers = numbers_of(circuit, told.names)
    if fault:
        raise fault
    found, line = verdict(circuit, told, numbers, certificate)
    if found == Verdict.Accepted:
        return report([claim_line(certificate)]) + told_lines(certificate), "", 0
    place = f" line {line}" if line else ""
    return report([f"refused {found.value} {found.name}{place}"]), "", 4


def vector_of(name, word, count):
    """The levels that the word spells for the inputs."""
    if not re.fullmatch(f"[01x]{{{count}}}" if count else "none", word):
        raise Refusal(f"bad vector {name}", 2)
    return levels_of(word[:count])


def moments_of(word, count):
    """The moments that the word spells for the inputs, 0 where there is no word."""
    if word is None:
        return [0] * count
    numbers = word.split(",") if count or word != "none" else []
    if len(numbers) != count or not all(
        re.fullmatch("0*[0-9]{1,10}", number) and int(number) <= BILLION for number in numbers
    ):
        raise Refusal("bad vector at", 2)
    return [int(number) for number in numbers]


def sim(circuit, first, second, at):
    """`sim` of the words of a command line."""
    pair = woven(vector_of("FROM", first, circuit.inputs), vector_of("TO", second, circuit.inputs))
    moments = lasts(RUN, circuit, pair, moments_of(at, circuit.inputs))
    names = [circuit.nets[net] for net in circuit.outputs]
    lines = [
        f"last {name} {'never' if last is None else last}" for name, last in zip(names, moments)
    ]
    return (
        report(
            [
                f"unit {circuit.unit}",
                f"defaulted {circuit.defaulted}",
                *lines,
                f"time {latest_of(moments)}",
            ]
        ),
        "",
        0,
    )


def change_line(circuit, net, moment, levels, cause):
    return " ".join(
        ["change", str(moment), circuit.nets[net], *("01x"[level] for level in levels), cause]
    )


def chain(circuit, waves, net):
    """The lines of the changes that lead to the last change of a net, the first of them first."""
    lines = []
    place = len(waves[net][1]) - 1
    first_gate = circuit.inputs + 2
    while True:
        start, changes = waves[net]
        moment, level = changes[place]
        levels = [changes[place - 1][1] if place else start, level]
        if net < circuit.inputs:
            lines.append(change_line(circuit, net, moment, levels, "input"))
            return lines[::-1]
        gate = circuit.gates[net - first_gate]
        delay = quickest_to(level, gate.rise, gate.fall)
        lines.append(change_line(circuit, net, moment, levels, f"{gate.kind} {delay}"))
        moments = [[at for at, _ in waves[terminal][1]] for terminal in gate.inputs]
        which = next(which for which, at in enumerate(moments) if moment - delay in at)
        net, place = gate.inputs[which], moments[which].index(moment - delay)


def path(circuit, first, second, at, output=None):
    """`path` of the words of a command line: of the output of a name, else of the first one that
    changes last.
    """
    pair = woven(vector_of("FROM", first, circuit.inputs), vector_of("TO", second, circuit.inputs))
    moments = moments_of(at, circuit.inputs)
    named = [net for net in circuit.outputs if output in (None, circuit.nets[net])]
    if output is not None and not named:
        raise Refusal("no output of this name", 2)
    waves = signals(RUN, circuit, pair, moments)
    changing = [net for net in named if waves[net][1]]
    if changing:
        lines = chain(circuit, waves, max(changing, key=lambda net: RUN.last(waves[net])))
    else:
        lines = ["time 0" if output is None else f"last {output} never"]
    return report([f"unit {circuit.unit}", f"defaulted {circuit.defaulted}", *lines]), "", 0


def delay_in(word):
    if not re.fullmatch("[0-9]+", word) or not 1 <= int(word) <= BILLION:
        raise argparse.ArgumentTypeError("not in 1..=1000000000")
    return int(word)


def command_line():
    parser = argparse.ArgumentParser(description=__doc__.split("\n", 1)[0])
    commands = parser.add_subparsers(dest="command", required=True)
    for command, words in {
        "check": ("FILE", "CERT"),
        "sim": ("FILE", "FROM", "TO"),
        "path": ("FILE", "FROM", "TO"),
    }.items():
        sub = commands.add_parser(command)
        for word in words:
            sub.add_argument(word)
        for change in ("rise", "fall"):
            sub.add_argument(f"--default-{change}", type=delay_in, metavar="N")
    for command in ("sim", "path"):
        commands.choices[command].add_argument("--at", metavar="M,M,..")
    commands.choices["path"].add_argument("--output", metavar="NAME")
    commands.choices["check"].add_argument(
        "--output", metavar="NAME", action="append", default=[]
    )
    return parser


def bytes_of(name):
    """The bytes of a file, `stdin` for standard input."""
    try:
        with open(0 if name == "stdin" else name, "rb", closefd=name != "stdin") as file:
            return file.read()
    except OSError:
        raise Refusal(f"cannot read {name}", 5) from None


def answer(asked):
    """What the command that is asked for answers."""
    netlist = bytes_of(asked.FILE)
    defaults = Delays(asked.default_rise or 1, asked.default_fall or 1)
    if asked.command == "sim":
        return sim(read_circuit(netlist, defaults), asked.FROM, asked.TO, asked.at)
    if asked.command == "path":
        return path(read_circuit(netlist, defaults), asked.FROM, asked.TO, asked.at, asked.output)
    certificate = bytes_of(asked.CERT)
    told_so = Told(asked.default_rise, asked.default_fall, asked.output)
    return check(netlist, told_so, certificate)


def main():
    asked = command_line().parse_args()
    out, fault, status = told(lambda: answer(asked))
    sys.stdout.write(out)
    sys.stderr.write(fault)
    return status


if __name__ == "__main__":
    sys.exit(main())
