"""Conditions from RTL: the words of OUT.options, nets that stay for them, what the environment
promises, as a module beside the design, and the hazards of a design whose lines change one by one.
"""

import json
import os
import re

from lib.places import text_of

from .cases import Cases
from .designs import KEPT, VERSIONS, versions
from .icarus import last_changes
from .tools import LIBRARY, read, script, write

ARBITER, ONES = (os.path.join(KEPT, f"{name}.v") for name in ("arbiter", "ones"))
ADDER = "module d(input [2:0] a,b, output [2:0] y); assign y=a+b; endmodule\n"
TOP_OF = """module t(input [2:0] a,b, output [2:0] y); wire ok; d d0(a,b,y); p p0(a,ok); endmodule
module p(input [2:0] a, output ok); assign ok = {}; endmodule
"""
# Promises of all kinds: logic, a constant, an input.
PROMISES = ("^a", "1'b1", "a[0]")
CLOCKED = """module t(input clk, input [2:0] a, output reg [2:0] y); wire ok;
always @(posedge clk) y <= a + y; p p0(a ^ y,ok); endmodule
module p(input [2:0] a, output ok); assign ok = |a; endmodule
"""
SDC = """set_input_transition 0.1 [all_inputs]
set_load 0.05 [all_outputs]
create_clock -name all -period 5
set_output_delay 0 -clock all [all_outputs]
set_input_delay {} -clock all [all_inputs]
"""
# Lines of OUT.options that are refused, each with its status and its name, if it has one.
BAD = (
    ("--kep ok=11", 2, "BadWord: line 3 of"),
    ("--keep ok=1", 2, "BadWord: line 3 of"),
    ("--keep", 2, "BadWord: line 3 of"),
    ("--cert x.cert", 2, "BadWord: line 3 of"),
    ("other.v", 2, "BadWord: line 3 of"),
    ("--keep 'ok=11", 1, "BadOptions: line 3 of"),
    ("--keep nok=11", 1, "where: line 3 of"),
    ("--pin nok=1", 2, "where: line 3 of"),
)
# The rows of the page's table, each with its options beside those of the code.
ROWS = {
    "all outputs": (),
    "`any` stays 1": ("--keep", "any=11", "--output", "any"),
    "`grant[7]` stays 0": ("--keep", "grant[7]=00", "--output", "grant[7]"),
    "`waiting[1]` stays 0": ("--keep", "waiting[1]=00", "--output", "waiting[1]"),
}


class Promised(Cases):
    """The cases, in the folder of the check."""

    def figure_of(self, out, *words, status=0, design=ARBITER, top="arbiter"):
        """The report of the one command."""
        command = ("figure.sh", design, top, LIBRARY, out, "--json", *words)
        ended = script(self.tested.folder, *command)
        self.same(f"status of {' '.join(command)}: {ended}"[:900], status, ended.status)
        return json.loads(ended.out or "{}")

    def used(self):
        """The words of OUT.options are asked, and stay there."""
        promise = text_of("examples", "from_rtl", "arbiter.options")
        text = f"# The promise.\n{promise}--flips 8 # all\n"
        self.write("code.options", text)
        code, every = self.figure_of("code"), self.figure_of("every")
        same = self.figure_of("named", "--keep", "ok=11")
        asked = code.get("options"), every.get("options"), code.get("accepted")
        self.same("the options are told", ("--keep ok=11 --flips 8", None, code["exact"]), asked)
        self.same("OUT.options stays", text, read(self.tested.folder, "code.options"))
        self.same("the same by words", code["exact"], same.get("exact"))
        self.same("less under the code", True, code["exact"] < every["exact"])
        self.same("nothing stays unasked", False, "Kept" in read(self.tested.folder, "every.v"))
        self.write("none.options", "--keep ok=11 --keep ok=00\n")
        none = self.figure_of("none", status=1)
        self.same("no pair", (True, "none"), (none.get("none"), none.get("accepted")))

    def apart(self):
        """The design's cells and their delays are those that it has alone."""
        arcs = {}
        for top, out in (("arbiter", "code"), ("lowest_first", "alone")):
            if out == "alone":
                self.figure_of(out, design=ARBITER, top=top)
            arcs[out] = sorted(re.findall(r"\(IOPATH .*", read(self.tested.folder, f"{out}.sdf")))
        alone, beside = arcs["alone"], arcs["code"]
        lost = [arc for arc in set(alone) if alone.count(arc) > beside.count(arc)]
        self.same("arcs of the design that the promise changes", [], lost)

    def bad(self):
        """A bad word is refused with its line."""
        words = ("figure.sh", ARBITER, "arbiter", LIBRARY, "bad")
        for line, status, said in BAD:
            self.write("bad.options", f"# two lines\n--flips 8\n{line}\n")
            ended = script(self.tested.folder, *words)
            found = ended.status, not ended.out, f"{said} bad.options" in ended.err
            self.same(f"{line} in OUT.options: {ended}"[:900], (status, True, True), found)

    def stays(self):
        """Nets stay by their names, and both readers compare them."""
        for promise in PROMISES:
            self.write("case.v", ADDER + TOP_OF.format(promise))
            self.write("stay.options", "--keep ok=11\n")
            self.run("synth.sh", "case.v", "t", LIBRARY, "stay")
            self.run("from_liberty.sh", "stay.mapped.v", "t", LIBRARY, "stay", "--outputs", "y")
            self.equal("case.v", "stay")
            self.run("from_gates.sh", "case.v", "t", "stay")
            ended = self.tested.run("worst", "stay.v", "--keep", "ok=11")
            self.same(f"worst with ok = {promise}: {ended}", 0, ended.status)
        self.write("case.v", CLOCKED)
        self.run("synth.sh", "case.v", "t", LIBRARY, "stay")
        self.run("from_liberty.sh", "stay.mapped.v", "t", LIBRARY, "stay", "--clock", "clk")
        self.equal("case.v", "stay")
        self.wrong("case.v", "t", "stay")
        self.wrong(ARBITER, "arbiter", "code")

    def wrong(self, design, top, out):
        """A case: gates that compute another promise are refused."""
        text = read(self.tested.folder, f"{out}.v")
        gate = re.search(r"^(\w+) #\(\d+,\d+\) \(ok,", text, re.M)
        other = {"nor": "or", "or": "nor", "nand": "and", "and": "nand", "not": "buf", "buf": "not"}
        changed = text[: gate.start()] + other[gate[1]] + text[gate.end(1) :]
        write(self.tested.folder, f"{out}.v", changed)
        ended = script(self.tested.folder, "equivalent.sh", design, top, LIBRARY, out)
        found = ended.status, ": NotEquivalent: " in ended.err
        self.same(f"another promise in {out}: {ended}"[:900], (1, True), found)
        write(self.tested.folder, f"{out}.v", text)

    def with_constraints(self):
        """Options of constraints stand after one's own, in place of those of another run."""
        self.write("case.v", ADDER.replace("module d", "module t"))
        self.run("synth.sh", "case.v", "t", LIBRARY, "both")
        mine = "--flips 2 # few"
        self.write("both.options", mine)
        words = ("from_liberty.sh", "both.mapped.v", "t", LIBRARY, "both")
        for moment, wanted in (("1.0", "1000"), ("2.0", "2000"), (None, None)):
            if moment:
                self.write("case.sdc", SDC.format(moment))
            self.run(*words, *["--sdc", "case.sdc"] * bool(moment))
            found = read(self.tested.folder, "both.options")
            told = re.findall(r"--at a=(\d+) --at b=(\d+)$", found, re.M)
            wanted_told = [(wanted, wanted)] if wanted else []
            self.same(f"OUT.options: {found}", (True, wanted_told), (found.startswith(mine), told))

    def page(self):
        """The table of examples/from_rtl/README.md: all pairs, and those of the code."""
        gates = os.path.join(KEPT, "arbiter.gates.v")
        options = text_of("examples", "from_rtl", "arbiter.options")
        code = [word for line in options.splitlines() for word in line.split("#")[0].split()]
        page = text_of("examples", "from_rtl", "README.md")
        for name, words in ROWS.items():
            row = re.search(rf"^\| {re.escape(name)} \| \D*(\d+)\D* \| \D*(\d+)\D*\|$", page, re.M)
            found = []
            for more in ((), code):
                said = self.tested.run("worst", gates, *words, *more).out
                found += re.findall(r"^exact (\d+)$", said, re.M)
            self.same(f"the row {name}", found, list(row.groups()) if row else None)
        if versions() == VERSIONS:
            made = [str(self.figure_of(out)["exact"]) for out in ("every", "code")]
            shown = re.search(r"^\| all outputs \| \D*(\d+)\D* \| \D*(\d+)", page, re.M)
            self.same("the figures of the one command", list(shown.groups()), made)

    def hazards(self):
        """The hazards of lines that change one by one are those that Icarus shows of all pairs."""
        self.run("synth.sh", ONES, "ones", LIBRARY, "made")
        self.run("from_liberty.sh", "made.mapped.v", "ones", LIBRARY, "made")
        gates = read(self.tested.folder, "made.v")
        flips = [(at, at ^ 1 << place) for at in range(16) for place in range(4)]
        pairs = [(f"{before:04b}", f"{after:04b}") for before, after in flips]
        late = {}
        for pair, changes in zip(pairs, last_changes(self.tested.folder, gates, pairs)):
            ones = [vector.count("1") for vector in pair]
            for place, last in zip((2, 1, 0), changes):
                level = ones[0] >> place & 1
                if level == ones[1] >> place & 1 and last >= 0:
                    late.setdefault((f"sum[{place}]", level), []).append(pair)
        said = self.tested.run("worst", "made.v", "--hazards", "--flips", "1").out
        rows = re.findall(r"(?m)^hazard (\S+) ([01]) (never|can (\d+) (\d+))$", said)
        self.same("rows of hazards", 6, len(rows))
        for name, level, told, *pair in rows:
            found = late.get((name, int(level)), [])
            self.same(f"the hazard {name} {level}: {told}", bool(found), told != "never")
            if told != "never":
                self.same(f"its pair, of {found}", True, tuple(pair) in found)
        self.same("some hazard", True, bool(late))
        if versions() == VERSIONS:
            shown = said.partition("\ndefaulted 0")[2] + "```\n"
            page = text_of("examples", "from_rtl", "README.md")
            self.same("the page's hazards", True, "```" + shown in page)


def work(tested):
    """All of them."""
    cases = Promised(tested)
    cases.hazards()
    cases.used()
    cases.apart()
    cases.bad()
    cases.stays()
    cases.with_constraints()
    cases.page()
