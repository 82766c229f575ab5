"""The table of hostile certificates: leaves by spans that are as long, as wide or as wrong as one
text allows, and what `check` takes to accept or refuse them.
"""

import os
from collections import namedtuple

from . import measuring, netlists
from .table import number, seconds_of

# The lines of a certificate of version 4 before its tree, for a netlist with one input.
HEAD = """tdelay-cert 4
circuit 1 {gates}
default 1 1
output all
first .
second .
hold .
flips 1
at 0
keep none
time 1
high 1
from 0
to 1
"""
# The net of `a` is 2, that of `y` 3.
SMALL = ["buf #1 (y,a)"]
# One more gate, of net 4, with as many terminals as one may have.
WIDE = [*SMALL, f"and #1 (w{',a' * 1023})"]
# The greatest number of a certificate, and the most literals of a gate's clause.
MOST, LITERALS = 10**18, 4096

# A certificate: its gates, pieces of the text of its leaf, and how `check` ends.
Case = namedtuple("Case", "gates lines status answer")

ACCEPTED = 0, "accepted 1"


def refused(line):
    return 4, f"refused 10 BadStep line {line}"


def long_clause(literals):
    """The variables of a gate's clause of some literals, each but the first a span of its own, and
    the line of the clause.
    """
    spans = "".join(f"w 2 1 {place} {place}\n" for place in range(1, literals))
    body = "".join(f" {2 * which + 1}" for which in range(1, literals))
    return f"w 3 1 2 {literals}\n{spans}", f"g 0{body}\n"


LONG, CLAUSE = long_clause(LITERALS)
LONGER, TOO_LONG = long_clause(LITERALS + 1)
# Each text is given as pieces and how often each of them stands there.
CASES = {
    "ten million variables": Case(SMALL, [("f 2\n", 10_000_000)], *ACCEPTED),
    "as many variables as a text has room for": Case(SMALL, [("f 2\n", 67_000_000)], *ACCEPTED),
    "as many clauses as a text has room for": Case(
        SMALL, [("f 2\n", 1), ("u 0 1\n", 44_000_000)], *ACCEPTED
    ),
    "ten million ends taken again": Case(SMALL, [("r 3\n", 10_000_000)], *ACCEPTED),
    "a wide gate's ends taken again": Case(WIDE, [("r 4\n", 100_000)], *ACCEPTED),
    "a gate's longest clauses": Case(SMALL, [(LONG, 1), (CLAUSE, 100)], *ACCEPTED),
    "a gate's clause that is too long": Case(
        SMALL, [(LONGER + TOO_LONG, 1)], *refused(17 + LITERALS)
    ),
    "a lemma of a hundred million literals": Case(
        SMALL, [("f 2\nu 0 1\nl 100000001 1", 1), (" 0", 100_000_001), ("\n", 1)], *ACCEPTED
    ),
    "a line of a hundred million hints": Case(
        SMALL, [("f 2\nu 0 1\nl 1 0", 1), (" 0", 100_000_000), ("\n", 1)], *refused(18)
    ),
    "a number of a hundred million digits": Case(
        SMALL, [("l ", 1), ("9", 100_000_000), ("\n", 1)], 1,
        "tdelay: certificate fault 4 NumberTooLarge at line 16",
    ),
    "a lemma that shows itself": Case(SMALL, [("f 2\nl 1 0 0\n", 1)], *refused(17)),
    "lemmas that show each other": Case(SMALL, [("f 2\nl 1 0 1\nl 1 1 0\n", 1)], *refused(17)),
    "a literal of no variable": Case(SMALL, [(f"l 1 {MOST} 0\n", 1)], *refused(16)),
    "a variable of no net": Case(SMALL, [(f"f {MOST}\n", 1)], *refused(16)),
    "more literals than numbers": Case(SMALL, [(f"l {MOST} 0 0\n", 1)], *refused(16)),
    "a span as late as a number": Case(
        SMALL, [(f"w 3 1 {MOST}\nw 2 1 1\ng 0 3\n", 1)], *ACCEPTED
    ),
    "a span after all numbers": Case(
        SMALL, [(f"w 3 1 {MOST}\nw 2 1 {MOST}\ng 0 3\n", 1)], *refused(18)
    ),
    "more flips than inputs": Case(SMALL, [(f"c 1 {MOST}\nu 1\n", 1)], *ACCEPTED),
}


def write(table, case):
    """Writes the netlist and the certificate of a case, and gives their paths."""
    netlist, certificate = (os.path.join(table.folder, it) for it in ("hostile.v", "hostile.cert"))
    with open(netlist, "w", encoding="utf-8") as file:
        file.write(netlists.module("a", "y", *case.gates))
    with open(certificate, "w", encoding="utf-8") as file:
        file.write(HEAD.format(gates=len(case.gates)) + "x\n")
        for piece, count in case.lines:
            file.write(piece * count)
        file.write("q 1\n")
    return netlist, certificate


def hostile(table):
    """Hostile certificates, and what `check` takes for them."""
    table.head("Lines", "MB", "Answer", "Seconds", "Memory, MB")
    for name, case in CASES.items():
        if not table.is_asked(name):
            continue
        netlist, certificate = write(table, case)
        size = os.path.getsize(certificate)
        command = [table.asked.programs[0], "check", netlist, certificate]
        run = measuring.measured(command, table.asked.seconds)
        lines = [*run.report.splitlines(), *run.said.splitlines()]
        answer = case.answer
        if not run.ended:
            answer = "did not end"
        elif (run.status, lines[:1]) != (case.status, [case.answer]):
            table.faults.append(f"{name}: status {run.status}: {' '.join(lines)[:200]}")
            answer = "failed"
        cells = number(size, 1, 1e-6), f"`{answer}`", seconds_of(run), number(run.cost.memory)
        table.add(name, *cells)
