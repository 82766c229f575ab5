"""Tables of required times, and of the certificates that every answer has."""

import os
import sys
from collections import Counter
from concurrent.futures import ThreadPoolExecutor
from typing import NamedTuple, Optional

from . import measuring, places, reports, running
from .table import number, seconds_of

# A circuit, a moment that is required, and how it stands: at the worst delay, one below and one
# above, and within a range that a search of a minute leaves open.
REQUIRED = [
    ("c6288x", 11650, "violated"), ("c6288x", 11674, "violated"), ("c6288x", 11675, "met"),
    ("c6288x", 11676, "met"), ("c6288x", 11700, "met"),
    ("booth16", 5019, "violated"), ("booth16", 5020, "met"), ("booth16", 5021, "met"),
    ("booth16", 5025, "met"),
    ("arr16", 10181, "violated"), ("arr16", 10800, "met"),
    ("arr8", None, "met"), ("booth8", None, "met"), ("mul8_r", None, "met"),
    ("mul9_r", None, "met"), ("nmul16_k", None, "met"), ("nmul16_r", None, "met"),
    ("c432x", None, "met"), ("c880x", None, "met"),
    ("wal8", None, "met"), ("mul8", None, "met"), ("add32", None, "met"), ("prio64", None, "met"),
]  # fmt: skip
# The seconds of a search whose certificate is asked for, whatever it leaves open.
SHORT = 5
# The longest certificate that the second opinion reads here, in bytes.
LONG = 3_000_000


def certified(table, path, words, claim):
    """Runs a search with its certificate, and checks that; gives both runs and the text's bytes. A
    claim that isn't accepted is noted.
    """
    program, seconds = table.asked.programs[0], table.asked.seconds
    certificate = table.certificate(path)
    running.remove(table.folder, os.path.basename(certificate))
    done = measuring.measured([program, "worst", path, *words, "--cert", certificate], seconds)
    checked = measuring.measured([program, "check", path, certificate], seconds)
    text = running.read(table.folder, os.path.basename(certificate)) or b""
    wanted = f"accepted {claim(done.report)}"
    if wanted not in checked.report.splitlines():
        table.faults.append(f"{path} {words}: {checked.report or checked.said}, not {wanted}")
    return done, checked, text


def claimed(report):
    """What a certificate claims of an answer: both figures, or the one that they are."""
    figures = reports.figures_of(report)
    if figures is None:
        return "nothing"
    return str(figures.low) if figures.low == figures.high else f"between {figures[0]} {figures[1]}"


def moments_of(table, name, path, moment, standing):
    """The moments that are asked for, and how they stand: where none is given, the worst delay, and
    one before it.
    """
    if moment is not None:
        return [(moment, standing)]
    whole = measuring.measured([table.asked.programs[0], "worst", path], table.asked.seconds)
    if whole.exact is None:
        table.faults.append(f"{name}: {whole.answer()}")
        return []
    return [(whole.exact, "met"), (max(whole.exact - 1, 0), "violated")]


def required(table):
    """Required times: how they stand, and what the answers and their certificates take."""
    table.head("Netlist", "Moment, seconds", "Seconds of `check`, at most", "kB, at most")
    for name in dict.fromkeys(it[0] for it in REQUIRED):
        path = table.path(name)
        if path is None:
            continue
        cells, checks, sizes = [], [], []
        wanted = [moments_of(table, name, path, *it[1:]) for it in REQUIRED if it[0] == name]
        for asked, stands in sum(wanted, []):
            words = ["--strategy", "refute", "--required", str(asked)]
            done, checked, text = certified(table, path, words, claimed)
            line = f"required {asked} {stands}"
            if line not in done.report.splitlines():
                table.faults.append(f"{name}: {done.report} {done.said}, not {line}")
            cells.append(f"{asked} {stands} {seconds_of(done, places_after=2)}")
            checks.append(checked.cost.processor)
            sizes.append(len(text) / 1024)
        table.add(f"`{name}`", "; ".join(cells), number(max(checks, default=None), 2),
                  number(max(sizes, default=None)))  # fmt: skip


class Certified(NamedTuple):
    """A certificate: of an exact answer or of one that is open, its kB, the seconds of `check`, and
    those of the second opinion, where that read it.
    """

    kind: str
    size: float
    check: float
    second: Optional[float]


def second_opinion(table, path, certificate):
    """How the second opinion's reading of a certificate ended."""
    script = os.path.join(places.TOP, "tools", "second_opinion.py")
    return measuring.measured([sys.executable, script, "check", path, certificate], 600)


def certified_soon(table, name, path):
    """The certificate of a short search."""
    words = ["--seconds", str(SHORT), "--cert-between"]
    done, checked, text = certified(table, path, words, claimed)
    second = None
    if 0 < len(text) <= LONG:
        other = second_opinion(table, path, table.certificate(path))
        second = other.cost.processor
        if other.report != checked.report:
            table.faults.append(f"{name}: {checked.report}, the second opinion {other.report}")
    kind = done.answer().strip("`").split(" ")[0]
    return Certified(kind, len(text) / 1024, checked.cost.processor, second)


def sum_and_most(values, places_after=0):
    """A sum and the greatest, as a cell has them."""
    return f"{number(sum(values), places_after)}, {number(max(values, default=None), places_after)}"


def certificates(table):
    """The certificates of short searches of a folder's netlists, whatever these leave open."""
    table.head(
        "Netlists", "Exact", "Between", "kB in all, the most", "Seconds of `check`, likewise",
        "Read by the second opinion", "Its seconds, likewise",
    )  # fmt: skip
    paths = {name: table.path(name) for name in table.names()}
    with ThreadPoolExecutor(table.asked.jobs) as pool:
        found = list(pool.map(lambda it: certified_soon(table, *it), paths.items()))
    both = Counter(it.kind for it in found)
    read = [it.second for it in found if it.second is not None]
    table.add(len(found), both["exact"], both["between"], sum_and_most([it.size for it in found]),
              sum_and_most([it.check for it in found], 2), len(read), sum_and_most(read, 1))
