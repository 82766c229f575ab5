#!/usr/bin/env python3
"""Compares answers to questions with conditions (`--keep`) with runs of all pairs.

Makes small random circuits and questions, with conditions that some admitted pair keeps and with
such that none keeps (lib/conditions.py), on inputs, on gates' outputs and on nets that constants
drive; now and then some of them stand in a file (`--keep-file`). The answer of `worst` has to be
true by an event queue (lib/event_queue.py), which knows no spans: of an exact one the printed pair
keeps the conditions and has the time, and no such pair is later; `none` is printed just where there
is no such pair; a search that is cut short has figures around that time. Its certificate is
accepted, by the program and by tools/second_opinion.py. Now and then the question is asked of each
output by itself, with its changes and its hazards, or cut into parts that are searched and joined:
the figures have to be the same. Of a row of hazards the certificate is asked for. A case is one
question.
"""

import re
import sys

import opinions
from lib import asking, check, conditions, event_queue, reports
from refutations import worst_pair

import second_opinion as opinion
from second_spans import nets_of

CASES = 1500
PARTS = 3


def line_of(rng, name, form):
    """A line of a file that says a condition, and perhaps others that say nothing."""
    line = rng.choice(["", " "]) + name + rng.choice([" ", "\t", "  "]) + form
    line += rng.choice(["", "", " # asked", "#asked", " "])
    return rng.choice(["", "", "\n", "# y ..\n"]) + line + rng.choice(["\n", "\r\n"])


def options_of(setup, words, keep):
    """The words of a command line that ask this. Some conditions may stand in a file."""
    rng, nets = setup.rng, nets_of(setup.circuit)
    said = [(setup.circuit.nets[nets[number]], form) for number, form in keep]
    said += rng.sample(said, min(len(said), rng.choice([0, 0, 1])))
    rng.shuffle(said)
    options = opinions.options_of(words)
    if rng.random() < 0.3:
        filed = rng.randint(1, len(said))
        text = "".join(line_of(rng, *it) for it in said[:filed])
        setup.tested.write("asked", text.encode("latin-1"))
        options += ["--keep-file", "asked"]
        said = said[filed:]
    for name, form in said:
        options += ["--keep", name + ("==" if form == "==" else f"={form}")]
    return options


def wanted_line(worst):
    """The line of an exact answer."""
    return "none" if worst is None else f"exact {worst[0]}"


def is_right(setup, asked, report, worst):
    """Whether the figures and the pair of a report are true."""
    values, bound = reports.values_of(report), reports.bound_without_pair(report)
    if "none" in values or "exact" in values:
        line = "none" if "none" in values else f"exact {values['exact']}"
        if line != wanted_line(worst):
            return False
    elif bound is not None:
        return worst is None or worst[0] <= bound
    elif worst is None:
        return False
    else:
        figures = reports.figures_of(report)
        if not figures or not figures.low <= worst[0] <= figures.high:
            return False
    if "from" not in values:
        return "none" in values
    levels = [opinion.levels_of(values[key].replace("none", "")) for key in ("from", "to")]
    pair = opinion.woven(*levels)
    low = int(values.get("exact") or values["between"].split()[0])
    return (
        opinion.has_admitted(asked, pair)
        and conditions.kept(setup.circuit, [pair], asked) == [pair]
        and event_queue.latest_change(setup.circuit, [pair], asked.moments) == low
    )


def compare_certificate(setup, wanted):
    """Both checkers say this of the certificate that was written."""
    theirs = setup.program("check", "t.v", "written")
    written = setup.tested.read("written") or b""
    ours = opinion.told(lambda: opinion.check(setup.netlist, setup.told, written))
    if theirs != ours or theirs[0].split("\n")[0] != wanted:
        setup.tested.fault(f"{theirs}, the second opinion {ours}, wanted {wanted}\n{setup.netlist}")


def compare_each(setup, options, asked):
    """The table has the answer to each output's question."""
    out, err, status = setup.program("worst", "t.v", "--each", *options)
    circuit = setup.circuit
    rows = re.findall(r"(?m)^each .* (exact \d+|between .*|none) edges", out)
    for row, output in zip(rows, circuit.outputs):
        worst = worst_pair(circuit._replace(outputs=[output]), asked)
        if not row.startswith("between") and row != wanted_line(worst):
            setup.tested.fault(f"row {row}, not {wanted_line(worst)}: {options}\n{setup.netlist}")
    if len(rows) != len(circuit.outputs):
        setup.tested.fault(f"{len(rows)} rows: {(out, err, status)} {options}\n{setup.netlist}")
    return ["each output"]


def number_of(circuit, output):
    """The number by which conditions name an output's net."""
    return nets_of(circuit).index(output)


def worst_where(setup, asked, output, form):
    """The greatest delay of the asked pairs under which an output settles so, of this output
    alone; None without a pair.
    """
    alone = setup.circuit._replace(outputs=[output])
    more = sorted({*asked.keep, (number_of(setup.circuit, output), form)})
    return worst_pair(alone, asked._replace(keep=more))


def is_column(text, worst, whether):
    """Whether a column of changes is true of the greatest delay of its pairs; where it is only
    asked whether there is a late one, it may be between two figures.
    """
    if text in ("none", "never") or text.isdigit():
        return text == ("none" if worst is None else str(worst[0]) if worst[0] else "never")
    low, high = text.split("..")
    if worst is None:
        return low == "none"
    known = low != "none" and 0 < int(low) <= worst[0] <= int(high)
    return known if whether else (low == "none" or int(low) <= worst[0]) and worst[0] <= int(high)


def compare_changes(setup, options, asked, figures):
    """The table has the figure of each change of each output."""
    more = ["--figures"] if figures else []
    out, err, status = setup.program("worst", "t.v", "--each", "--changes", *more, *options)
    rows = re.findall(r"(?m)^each .* rise (.*) fall (.*) glitch (.*)$", out)
    if len(rows) != len(setup.circuit.outputs) or status:
        setup.tested.fault(f"{(out, err, status)}: {options}\n{setup.netlist}")
    kinds = []
    for row, output in zip(rows, setup.circuit.outputs):
        for text, form in zip(row, ("01", "10", "==")):
            worst = worst_where(setup, asked, output, form)
            whether = form == "==" and not figures
            if not is_column(text, worst, whether) or (".." in text and not whether):
                setup.tested.fault(f"{row}, {form} {worst}: {options}\n{out}{setup.netlist}")
            kinds.append("none" if worst is None else "late" if worst[0] else "never")
    return ["changes", *(f"a change {kind}" for kind in kinds)]


def is_hazard(setup, asked, output, level, words):
    """Whether what is said of a hazard is true."""
    form = level * 2
    worst = worst_where(setup, asked, output, form)
    wanted = "none" if worst is None else "can" if worst[0] else "never"
    if words[0] != "can" or wanted != "can":
        return words == [wanted]
    pair = opinion.woven(*(opinion.levels_of(word.replace("none", "")) for word in words[1:]))
    alone = setup.circuit._replace(outputs=[output])
    more = sorted({*asked.keep, (number_of(setup.circuit, output), form)})
    question = asked._replace(keep=more)
    return (
        opinion.has_admitted(question, pair)
        and conditions.kept(alone, [pair], question) == [pair]
        and event_queue.latest_change(alone, [pair], asked.moments) > 0
    )


def compare_row(setup, options, output, level, said):
    """The certificate of the question of a row of hazards says what the row says."""
    name = setup.circuit.nets[output]
    words = ["--output", name, "--keep", f"{name}={level}{level}", "--required", "0"]
    setup.tested.remove("written")
    ended = setup.program("worst", "t.v", *words, *options, "--cert", "written")
    values = reports.values_of(ended[0])
    standing = {0: ("never", "0 met"), 1: ("none", ""), 6: ("can", "0 violated")}.get(ended[2])
    if standing != (said, values.get("required", "")):
        setup.tested.fault(f"{ended}, not {said}: {words} {options}\n{setup.netlist}")
    between = values.get("between", "")
    claimed = f"between {between}" if between else values.get("exact", "none")
    compare_certificate(setup, f"accepted {claimed}")
    return f"a row certified, {said}"


def compare_hazards(setup, options, asked):
    """The table has the hazards of each output. Of some row the certificate is asked for."""
    out, err, status = setup.program("worst", "t.v", "--hazards", *options)
    rows = re.findall(r"(?m)^hazard .* ([01]) (can .* .*|never|none)$", out)
    wanted = [(output, level) for output in setup.circuit.outputs for level in "01"]
    if [row[0] for row in rows] != [level for _, level in wanted] or status:
        setup.tested.fault(f"{(out, err, status)}: {options}\n{setup.netlist}")
    kinds = []
    for (_, said), (output, level) in zip(rows, wanted):
        if not is_hazard(setup, asked, output, level, said.split(" ")):
            setup.tested.fault(f"{output} {level} {said}: {options}\n{out}{setup.netlist}")
        kinds.append(f"a hazard {said.split(' ')[0]}")
    # Few can, so that these come first.
    rows = [(*row, said.split(" ")[0]) for row, (_, said) in zip(wanted, rows)]
    row = setup.rng.choice([row for row in rows if row[2] == "can"] or rows or [(*wanted[0], "")])
    return ["hazards", *kinds, compare_row(setup, options, *row)]


def compare_tables(setup, options, asked):
    """The tables of changes and of hazards."""
    kinds = compare_changes(setup, options, asked, setup.rng.random() < 0.5)
    return kinds + compare_hazards(setup, options, asked)


def compare_parts(setup, options, worst):
    """The parts of the question, searched and joined, have its figure."""
    lines, err, status = setup.program("parts", "t.v", "--parts", str(PARTS), "--json", *options)
    if status:
        setup.tested.fault(f"parts: {err} {options}")
        return []
    parts = dict(reports.lines_of_json(lines))["parts"]
    kinds, names = ["parts"], []
    for place, part in enumerate(parts):
        words = [word for word in dict(part)["options"] if word not in setup.defaults]
        name = f"part-{place}"
        setup.tested.remove(name)
        done = setup.tested.run_bytes("worst", "t.v", "--cert", name, *words)
        if done.status == 1:
            kinds.append("a part without a pair")
        names.append(name)
    out, err, status = setup.program("join", "t.v", *names, *options)
    line = out.splitlines()[2] if status == 0 else err
    if line != wanted_line(worst):
        setup.tested.fault(f"joined {line}, not {wanted_line(worst)}: {options}\n{setup.netlist}")
    return kinds


def compare(setup, words, asked):
    """A case: the question with its conditions."""
    rng, circuit = setup.rng, setup.circuit
    worst = worst_pair(circuit, asked)
    options = options_of(setup, words, asked.keep)
    ways = ["--strategy", rng.choice(["auto", "refute"]), "--workers", rng.choice("1114")]
    if rng.random() < 0.1:
        ways += ["--budget", str(rng.randint(0, 3))]
    setup.tested.remove("written")
    out, err, status = setup.program("worst", "t.v", *options, *ways, "--cert", "written")
    if err or not is_right(setup, asked, out, worst):
        setup.tested.fault(f"{(out, err, status)}, not {worst}: {options} {ways}\n{setup.netlist}")
    if status != {"exact": 0, "none": 1}.get(out.split("\n")[2].split(" ")[0], 3):
        setup.tested.fault(f"status {status}: {out}")
    kinds = [{0: "exact", 1: "none", 3: "cut short"}.get(status, "refused")]
    kinds += ["by a file"] * ("--keep-file" in options)
    if status in (0, 1):
        compare_certificate(setup, "accepted none" if worst is None else f"accepted {worst[0]}")
        if rng.random() < 0.15:
            kinds += compare_each(setup, options, asked)
        if rng.random() < 0.15:
            kinds += compare_tables(setup, options, asked)
        if rng.random() < 0.15:
            kinds += compare_parts(setup, options, worst)
    setup.tested.case(*kinds)


def work(tested):
    for setup, words, asked in asking.questions(tested, 0.25, 1):
        if asked.keep:
            compare(setup, words, asked)


def shares(tested, _cut):
    opinions.require_shares(tested, SHARES)


# Of 100 cases at least this share is of a kind.
SHARES = {
    "exact": 0.4,
    "none": 0.1,
    "cut short": 0.01,
    "each output": 0.05,
    "changes": 0.05,
    "hazards": 0.05,
    "a change never": 0.02,
    "a change none": 0.02,
    "a change late": 0.04,
    "a hazard never": 0.02,
    "a hazard none": 0.02,
    "a hazard can": 0.002,
    "a row certified, can": 0.002,
    "a row certified, never": 0.01,
    "a row certified, none": 0.02,
    "parts": 0.05,
    "by a file": 0.15,
    "a part without a pair": 0.01,
}

if __name__ == "__main__":
    sys.exit(check.main(work, __doc__, CASES, shares, opinions.KEEP))
