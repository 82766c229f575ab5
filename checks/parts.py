#!/usr/bin/env python3
"""Compares searches in parts with searches as a whole.

Each case is a random circuit, some with pins, held inputs, few flips and moments of inputs, whose
question is cut by `parts` into 2 to 40 parts with either strategy; each part is searched by
`worst`, and the certificates are joined by `join` in a random order. Each admitted pair lies in the
pins of exactly one part (by looking at all pairs, where they are few); each part has one; there are
no more parts than were asked for; `join`, with a check or without, reports the time of the whole
search, and what it is about as `check` does; `check` accepts what it writes, which is about the
question that was asked. Parts that are cut short and have certificates of both figures, or claim a
greater upper one, are joined: the whole has the greatest of both, which decide whether a required
moment is met. A part left out, one taken twice, one of another question, one with another time and
words of another question are refused. One more case is examples/many_machines.sh without GNU
parallel, and one with it, where it is there: on examples/mult_8.v, and on examples/adder_8.v with a
budget that cuts parts short, where the worst delay has to lie between the two figures that it
gives, with their certificates and without; and on examples/c17.v with each option of `worst` that
says what is asked. The commands of docs/MANY-MACHINES.md for one machine are run of examples/c17.v.
At least 60 of 100 cases are cut into two parts or more.
"""

import os
import re
import shutil
import sys

from lib import check, places, reports, running
from lib.netlists import random_netlist
from lib.questions import ASKED, admitted, fits, random_question, word

CASES = 120
LEAD = ["--strategy", "lead"]
# What cuts the parts of the adder short.
SHORT = ["--strategy", "least", "--budget", "50"]
SCRIPT = os.path.join(places.EXAMPLES, "many_machines.sh")


class Question:
    """A netlist in the folder of a check, and what is asked of it."""

    def __init__(self, tested, inputs, words):
        self.tested, self.inputs, self.words = tested, inputs, words

    def run(self, *words):
        return self.tested.run(*words)


def wrong_cut(asked, lines, count):
    """What is wrong with the parts."""
    if not 1 <= len(lines) <= count:
        return f"{len(lines)} parts of {count}"
    free = "." * asked.inputs
    parts = [(word(line, "--first", free), word(line, "--second", free)) for line in lines]
    holding = [0] * len(parts)
    for before, after in admitted(asked.words, asked.inputs):
        inside = [
            place
            for place, (first, second) in enumerate(parts)
            if fits(first, before) and fits(second, after)
        ]
        if len(inside) != 1:
            return f"{before} to {after} lies in {len(inside)} parts"
        holding[inside[0]] += 1
    return f"part {holding.index(0)} has no pair" if 0 in holding else None


def search_parts(asked, lines):
    """Searches each part; gives what is wrong with a search."""
    for place, line in enumerate(lines):
        done = asked.run(
            "worst",
            "t.v",
            *line,
            "--cert",
            f"p{place}",
            "--strategy",
            asked.tested.random.choice(["least", "lead"]),
        )
        if done.status != 0:
            return f"part {place}: {done.status} {done.err}"
    return None


def wrong_join(asked, lines):
    """What is wrong with the certificates, joined."""
    found = search_parts(asked, lines)
    if found:
        return found
    whole = asked.run("worst", "t.v", *asked.words, "--cert", "whole")
    time = reports.values_of(whole.out).get("exact")
    if whole.status != 0 or time is None:
        return f"the whole search: {whole.status} {whole.out}{whole.err}"
    names = [f"p{place}" for place in range(len(lines))]
    asked.tested.random.shuffle(names)
    how = asked.tested.random.choice([[], ["--no-check"]])
    done = asked.run("join", "t.v", *names, *asked.words, *how, "--cert", "joined")
    key = "unchecked" if how else "exact"
    if done.status != 0 or reports.values_of(done.out).get(key) != time:
        return (
            f"join: {done.status} {done.out}{done.err}where the whole search reports\n{whole.out}"
        )
    checked, of_whole = asked.run("check", "t.v", "joined"), asked.run("check", "t.v", "whole")
    if checked.status != 0 or str(reports.accepted_time(checked.out)) != time:
        return f"check: {checked.out}{checked.err}"
    told = asked.tested.read("joined").decode()
    if not done.out.endswith(checked.out.split("\n", 1)[1]) or "\nnodes " not in done.out:
        return f"join says {done.out} of what check says {checked.out} of: {told}"
    for key in ("first", "second", "hold", "flips", "at"):
        these, those = (reports.values_of(report.out).get(key) for report in (checked, of_whole))
        if None not in (these, those) and these != those:
            return f"joined is about {key} {these}, searched about {those}"
    return wrong_count(asked, names) or wrong_question(asked, names)


def standing_of(required, figures):
    """How a required moment stands by two figures, and the status."""
    if figures.high <= required:
        return "met", 0
    return ("violated", 6) if required < figures.low else ("open", 3)


def figures_less_sure(tested, name, figures):
    """Some figures that a certificate claims, rewritten, which it shows too: where it tells the upper
    one, it may claim a greater one.
    """
    told = f"\nhigh {figures.high}\n"
    text = tested.read(name).decode()
    more = tested.random.choice([0, 0, 1, 3])
    if told not in text:
        return figures
    tested.write(name, text.replace(told, f"\nhigh {figures.high + more}\n"))
    return figures._replace(high=figures.high + more)


def wrong_open(asked, lines):
    """What is wrong where parts are cut short and joined as they are, if all have certificates."""
    names, found = [], []
    for place, line in enumerate(lines):
        asked.tested.remove(f"o{place}")
        words = ["--budget", str(asked.tested.random.choice([0, 2, 1000])), "--cert-between"]
        words += ["--strategy", asked.tested.random.choice(["least", "lead"])]
        done = asked.run("worst", "t.v", *line, *words, "--cert", f"o{place}")
        if asked.tested.read(f"o{place}") is None:
            return None
        names.append(f"o{place}")
        found.append(figures_less_sure(asked.tested, names[-1], reports.figures_of(done.out)))
    figures = reports.Figures(*(max(each) for each in zip(*found)))
    status = 0 if figures.low == figures.high else 3
    asked.tested.random.shuffle(names)
    how = asked.tested.random.choice([[], ["--no-check"]])
    done = asked.run("join", "t.v", *names, *asked.words, *how, "--cert", "open")
    ended = f"open parts: {done.status} {done.out}{done.err}of {found}"
    if done.status != status or reports.figures_of(done.out) != figures:
        return ended
    checked = asked.run("check", "t.v", "open")
    accepted = "accepted " + (f"between {figures.low} {figures.high}" if status else f"{figures.low}")
    if checked.status != 0 or checked.out.splitlines()[0] != accepted:
        return f"{ended}: {checked.out}{checked.err}"
    required = asked.tested.random.randint(max(figures.low - 2, 0), figures.high + 1)
    standing, status = standing_of(required, figures)
    done = asked.run("join", "t.v", *names, *asked.words, *how, "--required", str(required))
    if done.status != status or f"required {required} {standing}" not in done.out.splitlines():
        return f"{ended}: {done.status} {done.out}{done.err}"
    asked.tested.has_kind("open" if accepted.startswith("accepted between") else "closed")
    return None


def wrong_count(asked, names):
    """What is wrong where a part is left out, or taken twice."""
    if len(names) > 1:
        if asked.run("join", "t.v", *names[1:], *asked.words, "--cert", "less").status != 4:
            return "joined with a part left out"
        if asked.run("join", "t.v", *names, names[0], *asked.words, "--cert", "more").status != 4:
            return "joined with a part taken twice"
    return None


def wrong_question(asked, names):
    """What is wrong where the words ask another question, by moments, than the parts answer."""
    words = list(asked.words)
    if "--at" in words:
        del words[words.index("--at") : words.index("--at") + 2]
    moments = ",".join(["4321"] * asked.inputs)
    done = asked.run("join", "t.v", *names, *words, "--at", moments, "--cert", "less")
    if done.status != 4 or done.err != "tdelay: parts of another question: other input times\n":
        return f"joined with other moments: {done.out}{done.err}"
    return None


def mixed(asked, lines):
    """What is wrong where the first part is one of a question with other flips."""
    line, flips = list(lines[0]), int(word(asked.words, "--flips", str(asked.inputs)))
    if "--flips" in line:
        del line[line.index("--flips") : line.index("--flips") + 2]
    other = asked.inputs if flips < asked.inputs else asked.inputs - 1
    done = asked.run("worst", "t.v", *line, "--flips", str(other), "--cert", "mixed")
    names = [f"p{place}" for place in range(1, len(lines))]
    if done.status != 0 or not names:
        return None
    asked.tested.has_kind("of another question")
    joined = asked.run("join", "t.v", "mixed", *names, *asked.words, "--cert", "other")
    if joined.status == 0 or "other flips" not in joined.err:
        return f"joined with a part of another question: {joined.out}{joined.err}"
    return None


def forged(asked, lines):
    """What is wrong where a part claims another time."""
    names = [f"p{place}" for place in range(len(lines))]
    text = asked.tested.read(names[0]).decode().splitlines()
    place = next(place for place, line in enumerate(text) if line.startswith("time "))
    text[
        place
    ] = f"time {int(text[place].split()[1]) + 1_000_001 + asked.tested.random.randrange(3)}"
    asked.tested.write("forged", "\n".join(text) + "\n")
    names[0] = "forged"
    done = asked.run("join", "t.v", *names, *asked.words, "--cert", "other")
    if done.status != 4 or not done.err.startswith("tdelay: forged: refused "):
        return f"a forged time: {done.status} {done.out}{done.err}"
    done = asked.run("join", "t.v", "--no-check", *names, *asked.words, "--cert", "other")
    if done.status not in (0, 3) or asked.run("check", "t.v", "other").status != 4:
        return f"a forged time, unchecked: {done.status} {done.out}{done.err}"
    return None


def wrong(tested, text, inputs):
    """What is wrong with a random question, if something is, and into how many parts it is cut."""
    asked = Question(tested, inputs, random_question(tested.random, inputs))
    count = tested.random.randint(2, 40)
    strategy = ["--strategy", tested.random.choice(["least", "lead"])]
    cut = tested.run("parts", "t.v", "--parts", str(count), *asked.words, *strategy)
    if reports.finds_no_pair(cut):
        searched = tested.run("worst", "t.v", *asked.words)
        is_so = reports.finds_no_pair(searched)
        return None if is_so else "parts finds no pair, worst finds one", 0
    if cut.status != 0:
        return f"parts: {cut.status} {cut.err}", 0
    lines = [line.split() for line in cut.out.splitlines()]
    found = (
        wrong_cut(asked, lines, count)
        or wrong_join(asked, lines)
        or wrong_open(asked, lines)
        or mixed(asked, lines)
        or forged(asked, lines)
    )
    return found and f"{found}\n{asked.words}\n{text}", len(lines)


def wrong_script(tested, path, name, words, status):
    """What is wrong with the example's script on a circuit, with this search path."""
    netlist, out = f"examples/{name}.v", os.path.join(tested.folder, "out")
    environment = {**os.environ, "TDELAY": tested.program, "PATH": path, "JOBS": "2"}
    asked = [SCRIPT, netlist, "24", out, *words]
    done = running.run(asked, places.TOP, seconds=300, env=environment)
    whole = running.run([tested.program, "worst", netlist, *LEAD], places.TOP, seconds=300)
    ended = (
        f"{words}: {done.status} {done.out}{done.err}where the whole search reports\n{whole.out}"
    )
    figures, reported = (reports.figures_of(report.out) for report in (whole, done))
    if done.status != status or None in (figures, reported):
        return ended
    if not reported.low <= figures.low <= figures.high <= reported.high:
        return ended
    if status == 0 and f"accepted {reported.low}" not in done.out.splitlines():
        return f"{ended}, nothing accepted"
    return None


def asked_scripts(tested):
    """Cases: the example's script with each option that says what is asked."""
    environment = {**os.environ, "TDELAY": tested.program, "JOBS": "2"}
    for asked in ASKED:
        out = os.path.join(tested.folder, "asked")
        words = asked.split()
        done = running.run(
            [SCRIPT, "examples/c17.v", "4", out, *words], places.TOP, seconds=300, env=environment
        )
        whole = running.run([tested.program, "worst", "examples/c17.v", *words], places.TOP)
        time = reports.values_of(whole.out).get("exact")
        ends = done.status, f"accepted {time}" in done.out.splitlines()
        tested.expect(f"the script with {asked}: {done.out}{done.err}", (0, True), ends, "asked")


def link_all_but(folder, name):
    """Puts a link to each program on the path into a folder, but for one of this name."""
    for there in os.environ["PATH"].split(os.pathsep):
        for program in os.listdir(there) if os.path.isdir(there) else ():
            link = os.path.join(folder, program)
            if program != name and not os.path.lexists(link):
                os.symlink(os.path.join(os.path.abspath(there), program), link)


def scripts(tested):
    """The example's script without GNU parallel, and with it where it is there."""
    without = os.path.join(tested.folder, "bin")
    os.mkdir(without)
    link_all_but(without, "parallel")
    for path in [without] + [os.environ["PATH"]] * (shutil.which("parallel") is not None):
        found = wrong_script(tested, path, "mult_8", LEAD, 0)
        found = found or wrong_script(tested, path, "adder_8", SHORT, 3)
        found = found or wrong_script(tested, path, "adder_8", [*SHORT, "--cert-between"], 3)
        if found:
            tested.fault(found)
        tested.case("script without parallel" if path == without else "script with parallel")


def page_commands(tested):
    """Cases: the commands of docs/MANY-MACHINES.md for one machine, of examples/c17.v: those at its
    top, the line for a part once for each, and those by hand, where GNU parallel is there.
    """
    text = places.text_of("docs", "MANY-MACHINES.md")
    top = re.search(r"(?ms)^```sh\n(.*?)^```", text)[1].replace("FILE", "big.v")
    each = re.search(r"(?m)^.* for each line N.*$", top)[0]
    loop = f"N=0; while read -r LINE; do N=$((N + 1))\n{each}\ndone < parts.txt"
    by_hand = re.search(r"(?ms)^By hand:\n\n```sh\n(.*?)^```", text)[1]
    by_hand += "./tdelay check big.v whole.cert\n"
    for commands in [top.replace(each, loop)] + [by_hand] * (shutil.which("parallel") is not None):
        with running.folder() as folder:
            os.symlink(tested.program, os.path.join(folder, "tdelay"))
            os.symlink(places.example("c17.v"), os.path.join(folder, "big.v"))
            done = running.run(["bash", "-e", "-c", commands], folder)
            ends = done.status, "accepted 3" in done.out.splitlines()
            tested.expect(f"the page: {commands}{done}", (0, True), ends, "by the page")


def work(tested):
    rng = tested.random
    scripted = False
    while True:
        text, inputs, _ = random_netlist(rng)
        tested.write("t.v", text)
        found, parts = wrong(tested, text, inputs)
        if found:
            tested.fault(found)
        tested.case("cut" if parts > 1 else "one part" if parts else "no pair")
        if not scripted:
            scripted = True
            page_commands(tested)
            asked_scripts(tested)
            scripts(tested)


def shares(tested, _cut):
    tested.require("cut", 0.4)
    tested.require("of another question", 0.3)
    tested.require("open", 0.1)


if __name__ == "__main__":
    sys.exit(check.main(work, __doc__, CASES, shares))
