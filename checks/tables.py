#!/usr/bin/env python3
"""Tests of checks/figures.py, and of what build/gate.py writes: the tables say what the program
answers, how long a run took that is known to sleep, and which runs didn't end; programs that
contradict each other, answers that aren't the known ones, and certificates that aren't accepted end
it with status 1; bad words are refused; `--write` puts a table into its place in a page, and
docs/FIGURES.md has a place for each but those that are run by hand. The gate is run of a toolchain that does nothing.
"""

import os
import re
import subprocess
import sys

from lib import check, circuits, places, running

import figures
import watch

FIGURES = os.path.join(places.CHECKS, "figures.py")
GATE = os.path.join(places.TOP, "build", "gate.py")
LIES = {
    # One more, where a search is exact.
    "more": """$R "$@" | awk '$1 == "exact" { $2 += 1 } 1'; exit ${PIPESTATUS[0]}""",
    "later": """$R "$@" | awk '$1 == "time" { $2 += 1 } 1'; exit ${PIPESTATUS[0]}""",
    "refuses": 'if [ "$1" = check ]; then echo refused 1 WrongTime; exit 4; fi; exec $R "$@"',
    "sleeps": 'sleep 1; exec $R "$@"',
    "hangs": 'if [[ "$*" =~ lead|inverters ]]; then exec sleep 100; fi; exec $R "$@"',
    "dies": 'echo lost >&2; exit 5',
}
# A script at the top of a repository that takes a second more at its first run.
LAUNCHER = '[ -e made ] || { sleep 1; touch made; }; exec $R "$@"'
PAGE = (
    "before\n<!-- Written by checks/figures.py speed, to the next comment. -->\nold\n"
    "<!-- The end of speed. -->\nafter\n"
)
GATES = PAGE.replace("checks/figures.py speed", "build/gate.py proofs").replace("speed", "proofs")
# A toolchain that does nothing, but for a second of a prover of one crate.
KIT = """case "$1" in
version) echo kit-of-tests;;
help) echo "rt ci {help}" >&2;;
ci) echo "words: $*"; exec -a /kit/rattle {python} -c '{busy}' --crate-name td_one;;
esac"""
BUSY = """import time
while time.process_time() < {seconds}: pass
print("{last}")"""
# Words of provers, and what these are for.
PROVERS = [("build src/lib.rt -o out", watch.PROOF), ("check -o checked", watch.PROOF)]
PROVERS += [("check --incremental out/incremental", watch.PROOF), ("build --test", watch.TESTS)]
PROVERS += [("check", watch.EDIT), ("check --incremental /tmp/rt-edits-1", watch.EDIT)]
PROVERS += [("check --incremental /tmp/rt-edits-1/seed", watch.AGAIN)]
# Words that are refused, before anything is measured.
BAD = ["", "speeds P", "commands P P", "speed P P P", "speed --runs 0 P"]
BAD += ["collection P", "workers --instructions P", "commands --seconds 0 P", "first --jobs 0 P"]


def script(tested, name, text):
    """A script in the folder of the test, which knows the right program as `$R`."""
    path = tested.write(name, f"#!/bin/bash\nR='{tested.program}'\n{text}\n")
    os.chmod(path, 0o755)
    return path


def lie(tested, name):
    """A program that does other than the right one."""
    return script(tested, name, LIES[name])


def nets(tested, name, text):
    """The words for a folder with one netlist, which has this name there."""
    os.makedirs(os.path.join(tested.folder, "nets"), exist_ok=True)
    tested.write(f"nets/{name}.v", text)
    return ["--netlists", "nets", "--only", name]


def lists(tested, *words):
    """What the script prints and how it ends: status, rows of the table, and the whole text."""
    done = running.run([sys.executable, FIGURES, *words], tested.folder, seconds=60)
    rows = [line.strip("| ").split(" | ") for line in done.out.splitlines() if line[:1] == "|"]
    return done.status, rows[2:], done.out + done.err


def table(tested, *words):
    """As `lists`, with the rows by their first cell."""
    status, rows, text = lists(tested, *words)
    return status, {cells[0].strip("`"): cells[1:] for cells in rows}, text


def refusals(tested):
    """Cases: words that are refused."""
    for words in BAD:
        status, rows, text = lists(tested, *words.split())
        tested.expect(f"{words}: {text}", (2, []), (status, rows))


def speeds(tested):
    """Cases: the table `speed` of one program, and of two."""
    words = ["speed", "--runs", "1", "--only", "adder_8", "--seconds", "20"]
    status, rows, text = table(tested, *words, tested.program)
    tested.expect(f"{text}the status", 0, status)
    cells = rows.get("adder_8", [])
    tested.expect("what is answered", ["`least`", "`between 45 53`", "20,000"], cells[:3])
    if tested.wrong:
        return
    status, rows, text = table(tested, *words, tested.program, lie(tested, "sleeps"))
    tested.expect(f"{text}two programs", (0, 6), (status, len(rows.get("adder_8", []))))
    status, _, text = table(tested, *words, tested.program, lie(tested, "dies"))
    tested.expect(f"{text}a program that dies", (1, True), (status, "failed: lost" in text))


def by_commands(tested):
    """Cases: the table `commands` of a wide gate and of inverters, with programs that lie."""
    words = ["commands", "--runs", "1", *nets(tested, "and1024_3000", circuits.ands(1, 1024))]
    status, rows, text = lists(tested, *words[:-1], f"{words[-1]},inverters_4096", tested.program)
    wanted = ["`sim` `time 1`", "`bound` `a 1`, `t none`, `m 1`", "`worst` `exact 1`, `nodes 1`"]
    wanted += ["`check` `accepted 1`", "`sim` `time 1`"]
    answers = [" ".join(cells[2:4]) for cells in rows]
    tested.expect(f"{text}what is answered", (0, wanted), (status, answers))
    tested.expect("megabytes", "0.2", rows[-1][1])
    for name, command in (("more", "worst"), ("refuses", "check"), ("later", "sim")):
        status, _, text = lists(tested, *words, lie(tested, name))
        found = re.findall(r"(?m)^wrong: (\w+) of and1024_3000: ", text)
        tested.expect(f"{text}a program that {name}", (1, [command]), (status, found[:1]))
    words = ["commands", "--only", "inverters_4096", "--seconds", "1"]
    status, rows, text = lists(tested, *words, lie(tested, "hangs"))
    ends = [cells[3:5] for cells in rows]
    tested.expect(f"{text}a run that doesn't end", (0, [["did not end", "-"]]), (status, ends))


def by_strategies(tested):
    """Cases: the table `strategies`, with a run that doesn't end, and one that contradicts."""
    words = ["strategies", "--only", "adder_8", "--budget", "2000", "--strategies", "least,lead"]
    status, rows, text = table(tested, *words, tested.program)
    tested.expect(f"{text}the status", 0, status)
    answers = rows.get("adder_8", [""])[::2]
    tested.expect("the answers", ["`between 45 53`", "`exact 45`"], answers)
    status, rows, text = table(tested, *words, "--seconds", "2", lie(tested, "hangs"))
    answers = rows.get("adder_8", [""])[::2]
    tested.expect(f"{text}a run that doesn't end", (0, "did not end"), (status, answers[-1]))
    status, _, text = table(tested, *words, lie(tested, "more"))
    tested.expect(f"{text}one more than its certificate", (1, True), (status, "wrong: " in text))


def by_workers(tested):
    """Cases: the table `workers`, of a program that sleeps a second."""
    only = nets(tested, "mult_8", places.text_of("examples", "c17.v"))
    words = ["workers", *only, "--runs", "1"]
    status, rows, text = table(tested, *words, lie(tested, "sleeps"))
    cells = rows.get("mult_8", [""] * 7)
    slow = all(1 <= float(it or 0) < 20 for it in cells[2:5])
    tested.expect(f"{text}what is answered", (0, "`exact 3`", True), (status, cells[1], slow))


def by_growth(tested):
    """Cases: the table `growth`, of an adder of 8 bits, and with a program that refuses all."""
    words = ["growth", "--only", "adder_8", "--runs", "1"]
    status, rows, text = table(tested, *words, tested.program)
    cells = rows.get("adder_8", [""] * 7)
    tested.expect(f"{text}an adder", (0, ["adders", "49", "`exact 45`"]), (status, cells[:3]))
    tested.expect("bytes of its certificate", True, 100 < int(cells[5] or 0) < 1000)
    status, _, text = table(tested, *words, lie(tested, "refuses"))
    tested.expect(f"{text}none is accepted", (1, True),
                  (status, "wrong: check of adder_8: " in text))  # fmt: skip


def by_hostile(tested):
    """Cases: the table `hostile`, of three certificates, and with a program that refuses all."""
    names = ["a lemma that shows itself", "a variable of no net", "a span as late as a number"]
    words = ["hostile", "--only", ",".join(names)]
    status, rows, text = lists(tested, *words, tested.program)
    wanted = [f"`refused 10 BadStep line {line}`" for line in (17, 16)] + ["`accepted 1`"]
    found = [cells[0] for cells in rows], [cells[2] for cells in rows]
    tested.expect(f"{text}what is answered", (0, (names, wanted)), (status, found))
    status, _, text = lists(tested, *words, lie(tested, "refuses"))
    said = f"wrong: {names[2]}: status 4: " in text
    tested.expect(f"{text}none is accepted", (1, True), (status, said))


def by_first(tested):
    """Cases: the table `first`, of a repository whose first command takes a second more."""
    clone = os.path.join(tested.folder, "repository")
    os.makedirs(os.path.join(clone, "examples"))
    for name in ("c17", "mult_8"):
        tested.write(f"repository/examples/{name}.v", places.text_of("examples", f"{name}.v"))
    right, wrong = tested.program, lie(tested, "more")
    for text, program, wanted in ((LAUNCHER, right, 0), (LAUNCHER, wrong, 1), ("exit 5", right, 1)):
        script(tested, "repository/tdelay", f'cd "$(dirname "$0")"; {text}')
        git = ["git", "-C", clone, "-c", "user.name=t", "-c", "user.email=t"]
        for words in (["init", "-q"], ["add", "."], ["commit", "--allow-empty", "-qm", "all"]):
            subprocess.run([*git, *words], check=True, stdout=subprocess.DEVNULL)
        status, rows, text = lists(tested, "first", "--clone", clone, "--runs", "2", program)
        tested.expect(f"{text}the status", wanted, status)
        if wanted == 0:
            answers = ["`exact 3`"] * 3 + ["`between 76 134`"] * 2
            tested.expect("the answers", answers, [cells[1] for cells in rows])
            seconds = [float(cells[2]) for cells in rows]
            slow = 1 <= seconds[0] < 20 and seconds[2] <= seconds[1] < seconds[0]
            tested.expect(f"the seconds {seconds}", True, slow)
    status, _, text = lists(tested, "first", "--clone", "absent", tested.program)
    tested.expect(f"{text}no repository", (1, True), (status, "wrong: git clone: " in text))


def collections(tested):
    """Cases: the table `collection`, of a folder with four netlists."""
    for name in ("c17", "hazard", "inverter", "adder_8"):
        os.makedirs(os.path.join(tested.folder, "four"), exist_ok=True)
        tested.write(f"four/{name}.v", places.text_of("examples", f"{name}.v"))
    words = ["collection", "--netlists", "four", "--jobs", "2", "--budget", "1000"]
    words += ["--strategies", "least", "--seconds", "20"]
    _, rows, text = table(tested, *words, "--only", "c17,absent", tested.program)
    tested.expect(f"{text}one of the folder", ["1", "1", "0", "0"], rows["least"][:4])
    tested.expect("one that isn't there", True, "weren't there: absent." in text)
    status, rows, text = table(tested, *words, tested.program)
    tested.expect(f"{text}the counts", (0, ["4", "3", "1", "0"]), (status, rows["least"][:4]))
    left = re.findall(r"`(\w+)` by `least`: `between 45 53`", text)
    tested.expect("what isn't exact", ["adder_8"], left)
    status, _, text = table(tested, *words, lie(tested, "refuses"))
    refused = sorted(re.findall(r"(?m)^wrong: (\w+): check: refused", text))
    tested.expect(f"{text}no certificate is accepted", (1, ["c17", "hazard", "inverter"]),
                  (status, refused))  # fmt: skip


def by_conditions(tested):
    """Cases: the tables of questions with conditions."""
    for name, only, wanted in (
        ("promises", "rrarb16", ["base_ok=11 req_ok=11", "`exact 2410`"]),
        ("hazards", "rrarb16", ["base_ok=11 req_ok=11", "17", "16 never, 1 none", "17 can", "0"]),
        ("changes", "c432x", ["7", "20", "0", "1"]),
    ):
        words = [name, "--seconds", "40", "--only", only]
        status, rows, text = lists(tested, *words, tested.program)
        shown = [cells[1 : 1 + len(wanted)] for cells in rows]
        tested.expect(f"{text}{name}", (0, True), (status, wanted in shown))
    status, _, text = lists(tested, "promises", "--only", "rrarb16", lie(tested, "refuses"))
    tested.expect(f"{text}no certificate is accepted", (1, True), (status, "wrong: " in text))


def written(tested):
    """Cases: tables that are put into a page."""
    page = tested.write("page.md", PAGE)
    words = ["--runs", "1", "--only", "adder_8", "--write", "--page", page, tested.program]
    status, _, text = table(tested, "speed", *words)
    lines = (tested.read("page.md") or b"").decode().splitlines()
    tested.expect(f"{text}a table that is written", 0, status)
    tested.expect("what stands around it", PAGE.splitlines()[:2], lines[:2])
    tested.expect("what stands after it", PAGE.splitlines()[3:], lines[-2:])
    there = "| `adder_8`" in lines[4], "old" in lines
    tested.expect("what stands there", (True, False), there)
    before = tested.read("page.md")
    status, _, text = table(tested, "strategies", "--budget", "2000", *words[2:])
    after = tested.read("page.md")
    tested.expect(f"{text}a page without a place", (1, before), (status, after))
    marks = r"(?m)^<!-- Written by (\S+ \w+), to the next comment. -->$"
    found = re.findall(marks, places.text_of("docs", "FIGURES.md"))
    placed = sorted(set(figures.TABLES) - figures.UNPLACED)
    wanted = ["build/gate.py proofs", *(f"checks/figures.py {name}" for name in placed)]
    tested.expect("the places in docs/FIGURES.md", sorted(wanted), sorted(found))


def gate(tested, *words, seconds=0, help="", last="3 passed, 0 failed"):
    """How build/gate.py ends with the toolchain that does nothing, for some processor seconds."""
    os.makedirs(os.path.join(tested.folder, "kit"), exist_ok=True)
    busy = BUSY.format(seconds=seconds, last=last)
    script(tested, "kit/rt", KIT.format(help=help, busy=busy, python=sys.executable))
    path = os.pathsep.join([os.path.join(tested.folder, "kit"), os.environ["PATH"]])
    asked = [sys.executable, GATE, *words]
    return running.run(asked, tested.folder, env={**os.environ, "PATH": path}, seconds=60)


def gates(tested):
    """Cases: what a gate costs, and how it gets into a page; of two kits the words of `rt ci`."""
    page = tested.write("gate.md", GATES)
    busy = BUSY.format(seconds=100, last="")
    other = ["/kit/rattle", "-c", busy, "--crate-name", "td_other"]
    with subprocess.Popen(other, executable=sys.executable) as process:
        done = gate(tested, "--anew", "--write", "--page", page, seconds=1.3)
        status = process.poll()
        process.kill()
    tested.expect("the other prover was at work", None, status)
    text = (tested.read("gate.md") or b"").decode()
    whole = r"(?m)^\| `kit-of-tests` \| \d+ \| \d minutes \| \d+ \| `3 passed, 0 failed` \|$"
    said = "words: ci\n" in done.out, bool(re.search(whole, text))
    tested.expect(f"{done}a gate", (0, True, True), (done.status, *said))
    crates = re.findall(r"(?m)^\| `(td_\w+)` \| (\d+) \| (\d+) \|", text)
    one = [(name, 1 <= int(clock) <= 59, int(used)) for name, clock, used in crates]
    tested.expect(f"{text}provers of this gate alone", [("td_one", True, 1)], one)
    around = GATES.splitlines()
    tested.expect("what stands around it", (around[:2], around[3:]),
                  (text.splitlines()[:2], text.splitlines()[-2:]))  # fmt: skip
    for words, what in PROVERS:
        found = watch.work_of(["/kit/rattle", *words.split(), "--crate-name", "td_one"])
        tested.expect(f"what a prover is for: {words}", ("td_one", what), found)
    log, page = tested.write("log", done.out), tested.write("gate.md", GATES)
    done = gate(tested, "--log", log, "--write", "--page", page)
    tested.expect(f"{done}by a log", (0, text.encode()), (done.status, tested.read("gate.md")))
    for help, words, wanted in (("[--anew]", ["--anew"], "ci --anew"), ("[--anew]", [], "ci")):
        done = gate(tested, *words, help=help)
        said = re.findall("(?m)^words: (.*)$", done.out)
        tested.expect(f"{done}a kit that keeps proofs", [wanted], said)
    page = tested.write("gate.md", GATES)
    done = gate(tested, "--write", "--page", page, last="3 passed, 10 failed")
    tested.expect(f"{done}a gate that fails", 1, done.status)
    bad = [["speed"], *(["--log", it] for it in (page, "absent"))]
    for words in [*bad, ["--log", log, "--anew"], ["--log", log, "--record"]]:
        done = gate(tested, *words, "--write", "--page", page)
        tested.expect(f"{done}refused", False, done.status == 0)
    tested.expect("the page as it was", GATES.encode(), tested.read("gate.md"))


def work(tested):
    parts = [speeds, by_commands, by_strategies, by_workers, by_hostile]
    parts += [by_growth, by_first, collections, by_conditions, written, refusals, gates]
    for part in parts:
        part(tested)
        if tested.wrong:
            # A program that can't answer one question takes long to fail the others.
            return


if __name__ == "__main__":
    sys.exit(check.main(work, __doc__))
