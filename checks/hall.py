#!/usr/bin/env python3
"""hall.py [--main CRATE] PROGRAM: the measures of the program's part of the library.

Counts what can be counted in the sources: lines of the program's crates (src, specs, proofs), all
crates, the functions on the way from `main` to the search, both among them, those that call the
parser of words, and functions with six parameters and more. And measures PROGRAM: that it reads
each file once (it says the same of pipes with names, which give their bytes once), the processor
seconds of `--each` on 1,000 outputs, and of a refused check with hints beside one without.

CRATE is the program's, `tdelay` where it is left out. Prints a line for each measure, with its
goal. The exit status is 1 where one is missed.
"""

import argparse
import collections
import os
import re
import resource
import subprocess
import sys
import tempfile
import threading
import time

from lib import places
from parameters import FUNCTION, closing, parameters, without_generics

sys.path.append(os.path.join(places.TOP, "build"))
import crates as listed  # noqa: E402

# The crates of the core: what the program's part of the library stands on.
CORE = set(
    "td_text td_gates td_nets td_reading td_syntax td_netlist td_circuit td_source td_info td_run "
    "td_path td_vcd td_domain td_arrival td_ternary td_edges td_stop td_event_sim td_lead td_climb "
    "td_propagation td_spans td_refutation td_cdcl td_span_search td_refute td_certificate "
    "td_checker td_join td_incumbent td_book td_search td_pool td_parts td_worst".split()
)
SEARCH = ("td_worst", "worst")
# A call of a function, by its crate where that stands before it, or of a method.
CALL = re.compile(r"(?:(td_\w+)::)?(?<!\w)(\w+)(?:::<[^(]*>)?\(")


def crate_files(crate, part):
    """The files of a part of a crate."""
    for at, _, names in os.walk(os.path.join(places.TOP, "crates", crate, part)):
        yield from (os.path.join(at, name) for name in sorted(names))


def text_of(path):
    with open(path, encoding="utf-8") as file:
        return file.read()


def program_crates(uses, main):
    """The crates of the program's part, on which its crate stands."""
    return [it for it in listed.lower_first(uses, [main]) if it not in CORE]


def lines_of(crate):
    """The lines of a crate, but for its tests."""
    paths = [it for part in ("src", "specs", "proofs") for it in crate_files(crate, part)]
    return sum(text_of(it).count("\n") for it in paths if os.path.basename(it) != "tests.rt")


class Function:
    """A function in a crate's sources: its body, and what its file imports."""

    def __init__(self, crate, name, body, imports, count):
        self.crate, self.name, self.body = crate, name, body
        self.imports, self.count = imports, count


def imports_of(text):
    """The crates from which a file imports names, by these names."""
    found = {}
    for crate, names in re.findall(r"^use (td_\w+)(?:::\w+)*::\{?([^;]*?)\}?;", text, re.M | re.S):
        for name in re.findall(r"\w+", names):
            found[name] = crate
    return found


def functions_of(crate):
    found = []
    for path in crate_files(crate, "src"):
        if path.endswith("tests.rt"):
            continue
        text = text_of(path)
        imports = imports_of(text)
        for match in FUNCTION.finditer(text):
            opening = without_generics(text, match.end())
            end = closing(text, opening)
            begin = re.compile(r"^%s\{\n|\{\n|;\n" % match["indent"], re.M).search(text, end)
            body = ""
            if begin and "{" in begin[0]:
                at = begin.end() - 2
                body = text[at : closing(text, at)]
            inside = text[opening + 1 : end - 1]
            found.append(Function(crate, match["name"], body, imports, parameters(inside)))
    return found


def calls_between(functions, begin, end):
    """The fewest functions on a way of calls from one to another, both among them; or None."""
    by_place = collections.defaultdict(list)
    for it in functions:
        by_place[it.crate, it.name].append(it)
    reached, queue = {begin: 1}, collections.deque([begin])
    while queue:
        place = queue.popleft()
        if place == end:
            return reached[place]
        for function in by_place[place]:
            for crate, name in CALL.findall(function.body):
                other = crate or function.imports.get(name) or function.crate, name
                if other in by_place and other not in reached:
                    reached[other] = reached[place] + 1
                    queue.append(other)
    return None


class Measures:
    """What was measured, a line for each."""

    def __init__(self):
        self.missed = 0

    def tell(self, what, value, most):
        fits = value is not None and value <= most
        self.missed += not fits
        shown = f"{value:.2f}" if isinstance(value, float) else f"{value or 0:,}"
        print(f"{'  ' if fits else '! '}{what}: {shown}, at most {most:,}")


def count_sources(measures, main):
    uses = listed.uses_of(places.TOP)
    crates = program_crates(uses, main)
    lines = sum(map(lines_of, crates))
    measures.tell(f"lines of the {len(crates)} crates of the program", lines, 15000)
    measures.tell("crates", len(uses), 32)
    functions = [it for crate in uses if not crate.endswith("_rows") for it in functions_of(crate)]
    way = calls_between(functions, (main, "main"), SEARCH)
    measures.tell("functions from main to the search", way, 6)
    parses = [it for it in functions if it.crate in crates and "try_get_matches_from(" in it.body]
    names = ", ".join(f"{it.crate}::{it.name}" for it in parses)
    measures.tell(f"functions that call the parser of words ({names})", len(parses), 2)
    long = [it for it in functions if it.count >= 6]
    measures.tell("functions with six parameters and more", len(long), 40)


def seconds_of(words, folder, runs=3):
    """The processor seconds of a run: the fewest of some."""
    fewest = None
    for _ in range(runs):
        before = resource.getrusage(resource.RUSAGE_CHILDREN)
        subprocess.run(words, cwd=folder, capture_output=True, timeout=300)
        after = resource.getrusage(resource.RUSAGE_CHILDREN)
        taken = after.ru_utime + after.ru_stime - before.ru_utime - before.ru_stime
        fewest = taken if fewest is None else min(fewest, taken)
    return fewest


def wide(outputs):
    """A netlist with that many outputs: inverters of one input each."""
    names = range(outputs)
    head = ", ".join([*(f"a{it}" for it in names), *(f"y{it}" for it in names)])
    gates = "".join(f"not #{1 + it % 7} g{it}(y{it}, a{it});\n" for it in names)
    declared = "".join(f"input a{it};\noutput y{it};\n" for it in names)
    return f"module t ({head});\n{declared}{gates}endmodule\n"


def give_once(path, text):
    """Writes a text into a pipe with a name, for the first that opens it."""
    with open(path, "wb") as file:
        file.write(text)


def ended(words, folder):
    """How a run ends: its status and its outputs; None where it waits for more."""
    try:
        ran = subprocess.run(words, cwd=folder, capture_output=True, timeout=20)
    except subprocess.TimeoutExpired:
        return None
    return ran.returncode, ran.stdout, ran.stderr


def is_read_again(words, given):
    """Whether a run says something else where its files are pipes, or waits for more."""
    with tempfile.TemporaryDirectory() as folder:
        for name, text in given.items():
            with open(os.path.join(folder, name), "wb") as file:
                file.write(text)
        plain = ended(words, folder)
        for name, text in given.items():
            path = os.path.join(folder, name)
            os.remove(path)
            os.mkfifo(path)
            threading.Thread(target=give_once, args=(path, text), daemon=True).start()
        return ended(words, folder) != plain


BUS = b"module t (input [1:0] v, input a, output y);\nand #1 (y, v[1], v[0], a);\nendmodule\n"
TWO = b"module t (a, y);\ninput a;\noutput y;\nbuf #1 g(y,a);\nbuf #1 h(y,a);\nendmodule\n"


def count_readings(measures, program, folder):
    """Calls that had reasons to read a file twice: names of inputs, hints, outputs in turn."""
    certificate = os.path.join(folder, "kept")
    with open(os.path.join(folder, "bus.v"), "wb") as file:
        file.write(BUS)
    subprocess.run([program, "worst", "bus.v", "--cert", certificate, "-q"], cwd=folder)
    with open(certificate, "rb") as file:
        spelled = file.read()
    calls = [
        (["worst", "n", "--pin", "v=2'b10", "--at", "a=3", "--hints"], {"n": BUS}),
        (["worst", "n", "--pin", "q=1", "--hints"], {"n": BUS}),
        (["worst", "n", "--first", "0", "--hints"], {"n": BUS}),
        (["worst", "n", "--each", "--json"], {"n": BUS}),
        (["info", "n", "--hints"], {"n": TWO}),
        (["check", "n", "c", "--hints"], {"n": BUS, "c": spelled.replace(b"time ", b"time 1", 1)}),
        (["join", "n", "c", "--check", "--hints"], {"n": BUS, "c": spelled}),
    ]
    again = sum(is_read_again([program, *words], given) for words, given in calls)
    measures.tell(f"calls of {len(calls)} that read a file twice", again, 0)


def measure_program(measures, program):
    with tempfile.TemporaryDirectory() as folder:
        count_readings(measures, program, folder)
        with open(os.path.join(folder, "wide.v"), "w", encoding="utf-8") as file:
            file.write(wide(1000))
        each = seconds_of([program, "worst", "wide.v", "--each"], folder)
        measures.tell("seconds of --each on 1,000 outputs", each, 0.2)
        with open(os.path.join(folder, "wider.v"), "w", encoding="utf-8") as file:
            file.write(wide(20000))
        with open(os.path.join(folder, "bad"), "w", encoding="utf-8") as file:
            file.write("x\n")
        checked = [program, "check", "wider.v", "bad"]
        plain, hinted = seconds_of(checked, folder, 5), seconds_of([*checked, "--hints"], folder, 5)
        ratio = hinted / max(plain, 0.001)
        measures.tell("a refused check with hints, beside without", ratio, 1.05)


def main(words):
    asked = argparse.ArgumentParser(description=__doc__.split("\n\n")[0])
    asked.add_argument("--main", default="tdelay")
    asked.add_argument("program")
    asked = asked.parse_args(words)
    measures = Measures()
    began = time.monotonic()
    count_sources(measures, asked.main)
    measure_program(measures, os.path.abspath(asked.program))
    print(f"{measures.missed} missed, {time.monotonic() - began:.0f} s")
    return 1 if measures.missed else 0


if __name__ == "__main__":
    sys.exit(main(sys.argv[1:]))
