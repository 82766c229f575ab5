#!/usr/bin/env python3
"""Compares answers to required times, and certificates of open answers, with runs of all pairs.

Makes small random circuits and questions as kept_pairs.py does, half of them without conditions,
and asks `worst --required T` with T near the worst delay, far from it, or 0, by each strategy that
answers the question, now and then with a small budget; or `--cert-between` without a required time.
The figures have to be true by an event queue, as there. `required T met` is printed only where no
pair is later, `violated` only where the printed pair is; the status is 0, 6 or 3, and with a whole
budget no question stays open. A certificate that is written claims the figures that are printed,
and is accepted, by the program and by tools/second_opinion.py.

Now and then the table of the outputs has to say the same of each of them (`--each`), with the slack
of its figures, and end as the worst of its rows; or the bounds (`bound --required T`) say `met`,
which has to be true, just where one of them is at most T; or the parts of the question hand T on. A
case is one question.
"""

import re
import sys

import kept_pairs
import opinions
from lib import asking, check, reports
from refutations import worst_pair

import second_opinion as opinion

CASES = 1500
STATUSES = {"met": 0, "violated": 6, "open": 3}


def moment_near(rng, worst):
    """A moment that may be required."""
    truth = 0 if worst is None else worst[0]
    far = rng.randint(0, 3 * truth + 10)
    return max(0, rng.choice([truth - 1, truth, truth + 1, truth // 2, far, 0]))


def standing_of(moment, figures):
    """What two figures say of a required moment."""
    if figures.high <= moment:
        return "met"
    return "violated" if moment < figures.low else "open"


def certified_kinds(setup, values):
    """The certificate, where one was written, claims the figures that are printed."""
    written = setup.tested.read("written")
    if written is None:
        return ["no certificate"]
    claimed = f"between {values['between']}" if "between" in values else values.get("exact", "none")
    low, _, high = claimed.removeprefix("between ").partition(" ")
    wanted = f"accepted {low if low == high else claimed}"
    theirs = setup.program("check", "t.v", "written")
    ours = opinion.told(lambda: opinion.check(setup.netlist, setup.told, written))
    if theirs != ours or theirs[0].split("\n")[0] != wanted:
        setup.tested.fault(f"{theirs}, the second opinion {ours}, wanted {wanted}\n{setup.netlist}")
    return ["both figures certified"] if "between" in values else ["certified"]


def is_row(setup, asked, moment, output, row):
    """Whether a row of the table is true: its figures, how the moment stands, and its slack."""
    low, high, standing, slack = row
    worst = worst_pair(setup.circuit._replace(outputs=[output]), asked)
    if worst is None:
        known = standing_of(moment, reports.Figures(0, high)) if low == "none" else "met"
        is_true = low in ("none", None)
    else:
        least = 0 if low == "none" else low
        is_true = low is not None and least <= worst[0] <= high
        known = is_true and standing_of(moment, reports.Figures(least, high))
    if low is None:
        wanted = "none"
    elif low == "none":
        wanted = f"{moment - high}..none"
    else:
        wanted = f"{moment - high}..{moment - low}"
    exact = [str(moment - low)] if low == high and low != "none" and low is not None else []
    return is_true and standing == known and slack in [wanted, *exact]


def rows_in(report):
    """The rows of a table with a required moment: the lower and the upper figure, how the moment
    stands, and the slack.
    """
    form = (
        r"(?m)^each .* (?:exact (\d+)|between (\d+|none) (\d+)|none) edges \S+"
        r" required (met|violated|open) slack (\S+)$"
    )
    rows = []
    for exact, low, high, standing, slack in re.findall(form, report):
        lower = int(exact) if exact else None if not low else low if low == "none" else int(low)
        rows.append((lower, int(exact or high or 0), standing, slack))
    return rows


def compare_each(setup, asked, moment, options, ways):
    """The table says it of each output, and ends as the worst of its rows."""
    ended = setup.program("worst", "t.v", "--each", *options, *ways, "--required", str(moment))
    out, err, status = ended
    rows, outputs = rows_in(out), setup.circuit.outputs
    standings = {row[2] for row in rows}
    wanted = 6 if "violated" in standings else 3 if "open" in standings else 0
    are_true = len(rows) == len(outputs) and all(
        is_row(setup, asked, moment, *it) for it in zip(outputs, rows)
    )
    if err or status != wanted or not are_true:
        setup.tested.fault(f"{ended}: {moment} {options} {ways}\n{setup.netlist}")
    return ["each output", *(f"a row {standing}" for standing in sorted(standings))]


def compare_bound(setup, words, moment, worst):
    """Bounds say at once that the moment is met, or that it is open."""
    options = opinions.options_of(words)
    ended = setup.program("bound", "t.v", *options, "--required", str(moment))
    out, err, status = ended
    values = reports.values_of(out)
    bounds = [int(values[key]) for key in "atmen" if values.get(key, "").isdigit()]
    standing = "met" if min(bounds, default=moment + 1) <= moment else "open"
    is_true = standing == "open" or worst is None or worst[0] <= moment
    said = values.get("required", "")
    if err or said != f"{moment} {standing}" or status != STATUSES[standing] or not is_true:
        setup.tested.fault(f"{ended}, not {worst}: {moment} {options}\n{setup.netlist}")
    return [f"bounds {standing}"]


def compare_parts(setup, options, moment):
    """Each part is asked for the same moment."""
    ended = setup.program("parts", "t.v", "--parts", "2", *options, "--required", str(moment))
    lines = ended[0].splitlines()
    if not lines or not all(f" --required {moment}" in line for line in lines):
        setup.tested.fault(f"{ended}: {options}\n{setup.netlist}")
    return ["parts"]


def beside(setup, words, asked, worst, moment, options, ways):
    """What else says how the moment stands."""
    kinds = []
    if setup.rng.random() < 0.2:
        kinds += compare_each(setup, asked, moment, options, ways)
    if not asked.keep and setup.rng.random() < 0.3:
        kinds += compare_bound(setup, words, moment, worst)
    if setup.rng.random() < 0.05:
        kinds += compare_parts(setup, options, moment)
    return kinds


def compare(setup, words, asked):
    """A case: the question with its conditions, and a required moment or none."""
    rng, tested = setup.rng, setup.tested
    worst = worst_pair(setup.circuit, asked)
    moment = None if rng.random() < 0.2 else moment_near(rng, worst)
    strategies = ["auto", "refute"] + ([] if asked.keep else ["least", "lead"])
    ways = ["--strategy", rng.choice(strategies), "--workers", rng.choice("1114")]
    is_whole = rng.random() < 0.7
    if not is_whole:
        ways += ["--budget", str(rng.randint(0, 6))]
    wants = ["--cert-between"] if moment is None or rng.random() < 0.5 else []
    if moment is not None:
        wants += ["--required", str(moment)]
    options = opinions.options_of(words)
    if asked.keep:
        options = kept_pairs.options_of(setup, words, asked.keep)
    tested.remove("written")
    ended = setup.program("worst", "t.v", *options, *ways, *wants, "--cert", "written")
    out, err, status = ended
    case = f"{ended}, not {worst}: {options} {ways} {wants}\n{setup.netlist}"
    if err or not kept_pairs.is_right(setup, asked, out, worst):
        tested.fault(case)
        tested.case("wrong")
        return
    values = reports.values_of(out)
    kinds = certified_kinds(setup, values)
    if "none" in values:
        if status != 1 or "required" in values:
            tested.fault(case)
        tested.case("none", *kinds)
        return
    is_open = "between" in values
    if moment is None:
        if status != (3 if is_open else 0) or "required" in values:
            tested.fault(case)
        tested.case("open" if is_open else "exact", *kinds)
        return
    said, _, standing = values.get("required", "").partition(" ")
    bound = reports.bound_without_pair(out)
    figures = reports.figures_of(out) if bound is None else reports.Figures(0, bound)
    is_true = standing != "met" or worst is None or worst[0] <= moment
    if said != str(moment) or standing != standing_of(moment, figures) or not is_true:
        tested.fault(case)
    if status != STATUSES.get(standing) or (is_whole and standing == "open"):
        tested.fault(case)
    if is_open and (values["cause"] == "required") != (standing != "open"):
        tested.fault(case)
    kinds += beside(setup, words, asked, worst, moment, options, ways)
    tested.case(standing, *kinds)


def work(tested):
    for setup, words, asked in asking.questions(tested, 0.1, 0.5):
        compare(setup, words, asked)


def shares(tested, _cut):
    opinions.require_shares(tested, SHARES)


# Of 100 cases at least this share is of a kind.
SHARES = {
    "met": 0.2,
    "violated": 0.15,
    "open": 0.02,
    "none": 0.01,
    "certified": 0.2,
    "both figures certified": 0.1,
    "each output": 0.05,
    "a row met": 0.03,
    "a row violated": 0.008,
    "bounds met": 0.008,
    "bounds open": 0.02,
    "parts": 0.005,
}

if __name__ == "__main__":
    sys.exit(check.main(work, __doc__, CASES, shares, opinions.KEEP))
