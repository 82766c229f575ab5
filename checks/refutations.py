#!/usr/bin/env python3
"""Compares `check` of certificates of version 4 with tools/second_opinion.py, and what is accepted
with runs of all admitted pairs.

Makes small random circuits and questions, with conditions (lib/conditions.py) and without, and for
each of them certificates whose trees have leaves by spans among others (lib/refuting.py): good
ones; ones with lines of such leaves changed, taken away, doubled or put elsewhere, with lines put
in (lib/tampering.py), and with lesser claims, all that is late being sooner; ones with changed
conditions; leaves of random steps; those that `worst` writes; ones of figures that are open; and
ones that claim that no pair is admitted, of questions that have none. The program has to accept the
good ones. Of each certificate both have to say the same, verdict and line, or fault of the text and
line. What the program takes has to be true by an event queue (lib/event_queue.py), which knows no
spans: the time of a certificate that it accepts is the greatest delay of all admitted pairs, and
where none is claimed, there is none; and up to the line that it refuses, each clause of a leaf
holds in each run of the leaf's admitted pairs, and no net changes later than its end says. The
example of docs/CERTIFICATE.md, with the changes that stand after it, comes first. A case is one
certificate. The files of the first difference are kept in DIR, where `--keep DIR` names one.
"""

import itertools
import random
import re
import sys

import opinions
from lib import check, conditions, event_queue, places, refuting, reports, tampering, truth
from lib.netlists import random_netlist, wide_netlist

import second_opinion as opinion
from second_opinion import X
from second_spans import STEPS, VARIABLES

CASES = 3000
# What is said of the page's example, with one text in place of another.
CHANGES = [
    ("", "", "accepted 3"),
    ("\nw 6 0 2\n", "\nw 6 0 1\n", "refused 10 BadStep line 20"),
    (" 0 1 3\ne", " 0 1\ne", "refused 10 BadStep line 24"),
    ("\nq 3\n", "\nq 2\n", "refused 3 LeafBound line 27"),
    ("\nhigh 3\n", "\nhigh 2\n", "refused 4 LeafAboveTime line 27"),
    ("\nhigh 3\n", "\nhigh 5\n", "accepted between 3 5"),
    ("\ntime 3\n", "\ntime 4\n", "refused 2 PairTime"),
    ("\ndefault 1 1\n", "\ndefault 1 2\n", "accepted 3"),
    ("\noutput all\n", "\noutput 0\n", "accepted 3"),
    ("\noutput all\n", "\noutput 1\n", "refused 7 OtherCircuit"),
    ("\nkeep none\n", "\nkeep 7 .1\n", "refused 8 PairNotAdmitted"),
    ("\nkeep none\n", "\nkeep 3 ==\n", "refused 8 PairNotAdmitted"),
    ("\nkeep none\n", "\nkeep 7 .0 7 ==\n", "accepted 3"),
    ("\nkeep none\n", "\nkeep 7 0. 7 .0\n", "refused 7 OtherCircuit"),
    ("\nkeep none\n", "\nkeep 8 .0\n", "refused 7 OtherCircuit"),
    ("\nkeep none\n", "\nkeep 7 ..\n", "certificate fault 1 Syntax at line 10"),
]
# What the page says of its netlist with a condition that no pair keeps, by the lines after `keep`.
NONE = "time none|x|f 3|f 5|f 6|f 7|k 6|t 7 2|t 7 4|t 3 0|t 5 1|l 0 0 1 2 3 4|q none"
NONE_CHANGES = [
    ("", "", "accepted none"),
    ("|l 0 0 1 2 3 4", "", "refused 9 LeafNotEmpty line 22"),
    ("|q none", "|q 9", "refused 9 LeafNotEmpty line 23"),
    (" 3 4|", " 3|", "refused 10 BadStep line 22"),
    (NONE, "time none|none", "refused 9 LeafNotEmpty line 12"),
    (NONE, "time none|b e 8", "refused 9 LeafNotEmpty line 12"),
    (NONE, "time none|x|q none", "refused 9 LeafNotEmpty line 13"),
    (NONE, "time none|p 0", "refused 9 LeafNotEmpty line 12"),
    ("time none", "time none|high 0", "certificate fault 1 Syntax at line 12"),
    ("time none", "time 3|high 3|from 11|to 10", "refused 8 PairNotAdmitted"),
]
# The most pairs that are run.
PAIRS = 1024
# The place of the line of conditions.
LINE_KEEP = 9


def pairs_of(circuit, question):
    """All admitted pairs, as cubes."""
    choices = [(0, 1) if pin == X else (pin,) for pin in question.pins]
    pairs = [list(pair) for pair in itertools.product(*choices)]
    pairs = [pair for pair in pairs if opinion.has_admitted(question, pair)]
    return conditions.kept(circuit, pairs, question)


def worst_pair(circuit, question):
    """The greatest delay of the admitted pairs, and a pair that has it; None without a pair."""
    pairs = pairs_of(circuit, question)
    if not pairs:
        return None
    waves = event_queue.run_of(circuit, pairs, question.moments).waves
    latest = [waves[net] for net in circuit.outputs if len(waves[net]) > 1]
    if not latest:
        return 0, pairs[0]
    (_, before), (time, behind) = max(latest, key=lambda wave: wave[-1][0])[-2:]
    return time, pairs[((before ^ behind) & -(before ^ behind)).bit_length() - 1]


# ---- Trees with leaves by spans ----


def leaf_of_none(rng, circuit, question, cube):
    """The lines of some leaf that says that no admitted pair lies in a cube, None where one may or
    where the cube is to be split.
    """
    may = opinion.may_lie(circuit, question, cube)
    if not may and rng.random() < 0.5:
        return ["none"]
    if rng.random() < (0.2 if may else 0.7):
        lines = refuting.none_lines(rng, circuit, question, cube)
        if lines is not None:
            return ["x", *lines, "q none"]
    return None if X in cube or may else ["none"]


def leaf_of(rng, circuit, question, cube, time):
    """The lines of some leaf that is good for a cube, None where the cube is to be split."""
    free = X in cube
    empty = leaf_of_none(rng, circuit, question, cube)
    if empty is not None:
        return empty
    if rng.random() < 0.6:
        bound = time if rng.random() < 0.6 else rng.randint(0, time)
        lines = refuting.leaf_lines(rng, circuit, question, cube, bound)
        if lines is not None:
            return ["x", *lines, f"q {rng.choice([bound, bound, rng.randint(bound, time)])}"]
    if free or rng.random() < 0.5:
        letter = rng.choice("atmen")
        bound = opinion.bound(letter, circuit, cube, question.moments)
        if bound is not None and bound <= time:
            return [f"b {letter} {rng.choice([bound, rng.randint(bound, time)])}"]
    if free:
        return None
    delay = opinion.delay_of_pair(circuit, cube, question.moments)
    return [f"p {delay}"] if delay <= time else ["none"]


def tree_lines(rng, circuit, question, time, most):
    """The lines of a tree that shows a time, or, where it is None, that no pair is admitted; None
    where no leaf came to be one by spans, or where there are too many leaves.
    """
    cubes, lines, leaves = [question.pins], [], 0
    while cubes:
        cube = cubes.pop()
        free = [position for position, level in enumerate(cube) if level == X]
        found = None
        if not free or lines or rng.random() < 0.6:
            if time is None:
                found = leaf_of_none(rng, circuit, question, cube)
            else:
                found = leaf_of(rng, circuit, question, cube, time)
        if found is None:
            position = rng.choice(free)
            found = [f"s {position}"]
            cubes += [cube[:position] + [side] + cube[position + 1 :] for side in (1, 0)]
        lines += found
        leaves += 1
        if leaves > most:
            return None
    return lines if "x" in lines else None


def random_leaf(rng, circuit, question, time):
    """The lines of a tree of one leaf of random steps, some of them not good."""
    pairs = pairs_of(circuit, question)
    waves = [
        [[(-1, start), *changes] for start, changes in opinion.signals(opinion.RUN, circuit, *it)]
        for it in ((pair, question.moments) for pair in rng.sample(pairs, min(4, len(pairs))))
    ]
    lines, bound = refuting.random_lines(rng, circuit, question, question.pins, waves)
    least = [max(0, bound - rng.choice([0, 0, 1]))]
    return ["x", *lines, f"q {rng.choice([*least, *least, min(bound, time)])}"]


def head_lines(circuit, defaults, question, time, pair, high=None):
    """The lines of a certificate of version 4 before its tree; the time and the pair are None where
    none is claimed. The moment that no pair passes is the time where it is left out.
    """
    high = time if high is None else high
    return [
        "tdelay-cert 4",
        f"circuit {circuit.inputs} {len(circuit.gates)}",
        *opinions.question_lines(4, defaults, question),
        *(["time none"] if pair is None else opinions.claim_lines(4, time, high, pair)),
    ]


# ---- Comparing ----


def kinds_of(answer, origin, line, letters):
    """The kinds of a case, by what the program says: the text of the line that it names, and the
    letters of lines of leaves that it takes.
    """
    out, fault, status = answer
    taken = [f"good {letter}" for letter in letters]
    if status == 0:
        keeps = ["accepted, conditions"] * ("\nkeep " in out)
        nones = ["accepted, none"] * out.startswith("accepted none\n")
        return ["accepted", f"accepted, {origin}", *keeps, *nones, *taken]
    verdict = re.match(r"refused \d+ (\w+)", out)
    kind = re.match(r"tdelay: certificate fault \d+ (\w+)", fault)
    bad = [f"bad {line[:1]}"] * ("BadStep" in out)
    return [verdict[1] if verdict else kind[1] if kind else f"status {status}", *taken, *bad]


def is_true(setup, certificate):
    """Whether the greatest delay of a certificate's admitted pairs is what it says, or there is no
    such pair where it says so.
    """
    read = opinion.read_certificate(certificate)
    pairs = pairs_of(setup.circuit, read.question)
    if read.pair is None:
        return not pairs
    latest = event_queue.latest_change(setup.circuit, pairs, read.question.moments)
    return read.time <= latest <= read.high


def compare(setup, lines, origin, wanted=None):
    """A case: both say the same of a certificate, what is wanted where that is known, and what the
    program takes is true.
    """
    certificate = lines if isinstance(lines, bytes) else ("\n".join(lines) + "\n").encode()
    tested = setup.tested
    tested.write("c", certificate)
    theirs = setup.program("check", "t.v", "c")
    ours = opinion.told(lambda: opinion.check(setup.netlist, setup.told, certificate))
    at = re.match(r"refused .* line (\d+)\n", theirs[0])
    line = int(at[1]) if at else 0
    letters, wrong = set(), None
    if theirs != ours:
        wrong = f"{theirs}, and the second opinion {ours}"
    elif wanted and not (theirs[0] + theirs[1].removeprefix("tdelay: ")).startswith(wanted + "\n"):
        wrong = f"{theirs}, and not {wanted}"
    elif theirs[2] == 0 and not is_true(setup, certificate):
        wrong = f"{theirs}, and the greatest delay is another"
    elif theirs[2] == 0 or line:
        letters, wrong = truth.of_leaves(setup.circuit, certificate, line)
    if wrong:
        opinions.keep(tested)
        tested.fault(
            f"{wrong} {setup.defaults}\n{setup.netlist.decode('latin-1')}\n"
            f"{certificate.decode('latin-1')[:1500]}"
        )
    text = certificate.decode("latin-1").split("\n")[line - 1] if line else ""
    tested.case(*kinds_of(theirs, origin, text, letters))


def compare_example(tested):
    """Cases: the example of the page, whole and changed."""
    page = places.text_of("docs", "CERTIFICATE.md")
    netlist = re.search(r"(?s)```\n(module .*?)```", page)[1]
    example = re.search(r"```\n(tdelay-cert 4\n[^`]*\nx\n[^`]*)```", page)[1]
    setup = opinions.Setup(tested, random.Random(0), netlist.encode())
    setup.defaults, setup.steps, setup.told = [], opinion.Delays(1, 1), opinion.Told()
    for old, new, wanted in CHANGES:
        compare(setup, example.replace(old, new, 1).encode(), "of the page", wanted)
    head = example.partition("\nkeep none\n")[0].splitlines() + ["keep 7 .1"]
    for old, new, wanted in NONE_CHANGES:
        compare(setup, head + NONE.replace(old, new, 1).split("|"), "of the page", wanted)


def changed(rng, head, tree):
    """A changed certificate, as lines or as bytes."""
    way = rng.random()
    if way < 0.15:
        keep = conditions.changed(rng, head[LINE_KEEP])
        return [*head[:LINE_KEEP], keep, *head[LINE_KEEP + 1 :], *tree]
    if way < 0.8:
        return head + tampering.tampered(rng, tree)
    if way < 0.9:
        return opinions.by_lines(rng, head + tree)
    return opinions.by_bytes(rng, ("\n".join(head + tree) + "\n").encode())


def lesser(setup, question, worst, tree):
    """A certificate of a pair with a lesser delay, whose leaves say no more than that, and in which
    now and then all that is late is sooner by as much.
    """
    rng, circuit = setup.rng, setup.circuit
    pair = rng.choice(pairs_of(circuit, question))
    time = event_queue.latest_change(circuit, [pair], question.moments)
    if time == worst:
        return None
    by = rng.choice([0, worst - time])
    head = head_lines(circuit, setup.steps, question, time, pair)
    return head + tampering.sooner(rng, tree, by, time)


def accepted_line(time, high):
    """What is said of a certificate that is accepted."""
    return f"accepted {time}" if time == high else f"accepted between {time} {high}"


def compare_open(setup, question, worst, tree):
    """Compares certificates of figures that are open, which a tree shows that is good for the worst
    delay, and changed ones.
    """
    rng, circuit = setup.rng, setup.circuit
    pair = rng.choice(pairs_of(circuit, question))
    time = event_queue.latest_change(circuit, [pair], question.moments)
    high = worst + rng.choice([0, 0, 1, 7])
    head = head_lines(circuit, setup.steps, question, time, pair, high)
    compare(setup, head + tree, "open", accepted_line(time, high))
    for _ in range(4):
        compare(setup, changed(rng, head, tree), "open, changed")
    less = rng.randint(time, worst)
    head = head_lines(circuit, setup.steps, question, time, pair, less)
    by = rng.choice([0, worst - less])
    compare(setup, head + tampering.sooner(rng, tree, by, less), "open, a lesser claim")


def compare_cut_short(setup, words):
    """Compares the certificate that `worst` writes of figures that it leaves open, and changed
    ones.
    """
    rng, tested = setup.rng, setup.tested
    ways = ["--strategy", rng.choice(["auto", "refute"]), "--budget", str(rng.randint(1, 12))]
    tested.remove("written")
    out, _, _ = setup.program(
        "worst", "t.v", *opinions.options_of(words), *ways, "--cert-between", "--cert", "written"
    )
    written, figures = tested.read("written"), reports.figures_of(out)
    if written is None or not figures or figures.low == figures.high:
        return
    compare(setup, written, "open, of a search", accepted_line(*figures[:2]))
    lines = written.decode().splitlines()
    head, tree = lines[:14], lines[14:]
    for _ in range(4):
        compare(setup, changed(rng, head, tree), "open, changed")


def compare_written(setup, words, question, worst):
    """Compares a certificate that `worst` writes, and changed ones, where it has such a leaf."""
    rng = setup.rng
    written = opinions.worst(setup, words, 10_000, "refute")
    lines = written.decode().splitlines() if written else []
    if "x" not in lines:
        return
    compare(setup, written, "of a search", f"accepted {worst}")
    head, tree = lines[:14], lines[14:]
    for _ in range(4):
        compare(setup, changed(rng, head, tree), "changed")
    less = lesser(setup, question, worst, tree)
    if less:
        compare(setup, less, "a lesser claim")


def compare_own(setup, question, worst, pair):
    """Compares certificates of leaves that are made here."""
    rng, circuit = setup.rng, setup.circuit
    head = head_lines(circuit, setup.steps, question, worst, pair)
    for _ in range(4):
        compare(setup, head + random_leaf(rng, circuit, question, worst), "random steps")
    tree = tree_lines(rng, circuit, question, worst, rng.choice([1, 8, 60]))
    if not tree:
        return
    mixed = {line.split(" ")[0] for line in tree} & {"b", "p", "none"}
    origin = "mixed leaves" if mixed else "spans alone"
    compare(setup, head + tree, origin, f"accepted {worst}")
    for _ in range(8):
        compare(setup, changed(rng, head, tree), "changed")
    for _ in range(2):
        less = lesser(setup, question, worst, tree)
        if less:
            compare(setup, less, "a lesser claim")
    compare_open(setup, question, worst, tree)


def compare_none(setup, question):
    """Compares certificates that no pair is admitted, of a question of which that is true."""
    rng, circuit = setup.rng, setup.circuit
    head = head_lines(circuit, setup.steps, question, None, None)
    leaf = random_leaf(rng, circuit, question, 0)
    compare(setup, head + leaf[:-1] + [rng.choice(["q none", leaf[-1]])], "random steps")
    tree = tree_lines(rng, circuit, question, None, rng.choice([1, 8, 60]))
    if not tree:
        return
    compare(setup, head + tree, "no pair", "accepted none")
    for _ in range(4):
        compare(setup, changed(rng, head, tree), "changed")
    pair = [0 if pin == X else pin for pin in question.pins]
    compare(setup, head_lines(circuit, setup.steps, question, 0, pair) + tree, "a lesser claim")
    # The same tree, of a question that admits pairs.
    wide = question._replace(keep=question.keep[1:])
    compare(setup, head_lines(circuit, setup.steps, wide, None, None) + tree, "changed")


def compare_circuit(tested, rng):
    """Makes a circuit and certificates for it, and compares what is said of them."""
    kind = rng.random()
    if kind < 0.65:
        text, _, _ = random_netlist(rng, *((3, 12) if kind < 0.45 else (5, 25)))
    else:
        text = opinions.random_circuit(rng) if kind < 0.95 else wide_netlist(rng)
    setup = opinions.Setup(tested, rng, text.encode("latin-1"))
    circuit = setup.circuit
    if circuit is None or 4**circuit.inputs > PAIRS:
        return
    for _ in range(3):
        words = opinions.random_question(rng, circuit.inputs)
        question = opinions.question_of(words, circuit.inputs)
        worst = worst_pair(circuit, question)
        if worst:
            compare_own(setup, question, *worst)
            compare_written(setup, words, question, worst[0])
            compare_cut_short(setup, words)
        pairs = pairs_of(circuit, question)
        keep = conditions.random_conditions(rng, circuit, pairs, question.moments)
        asked = question._replace(keep=keep)
        worst = worst_pair(circuit, asked)
        if worst:
            compare_own(setup, asked, *worst)
        keep = conditions.excluding(rng, circuit, pairs, question)
        if keep is not None:
            compare_none(setup, question._replace(keep=keep))


def work(tested):
    compare_example(tested)
    for which in itertools.count():
        compare_circuit(tested, random.Random(f"{tested.seed} {which}"))


def shares(tested, _cut):
    opinions.require_shares(tested, SHARES)


# Of 100 cases at least this share is of a kind.
SHARES = {
    "accepted": 0.1,
    "accepted, spans alone": 0.01,
    "accepted, mixed leaves": 0.005,
    "accepted, changed": 0.02,
    "accepted, of a search": 0.01,
    "accepted, random steps": 0.01,
    "accepted, none": 0.02,
    "accepted, open": 0.01,
    "accepted, open, changed": 0.01,
    "accepted, open, of a search": 0.001,
    "BadStep": 0.1,
    "LeafBound": 0.02,
    "LeafAboveTime": 0.002,
    "Syntax": 0.01,
    "accepted, conditions": 0.05,
    "PairNotAdmitted": 0.002,
    "OtherCircuit": 0.005,
    "LeafNotEmpty": 0.002,
    **{f"good {letter}": 0.02 for letter in VARIABLES + STEPS},
    **{f"bad {letter}": 0.001 for letter in VARIABLES + STEPS},
}

if __name__ == "__main__":
    sys.exit(check.main(work, __doc__, CASES, shares, opinions.KEEP))
