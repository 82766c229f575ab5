"""RTL, .bench and BLIF on the way to gates, and what is kept in examples/from_rtl/."""

import os
import re
import resource
import shutil

from lib.places import TOP, text_of

from . import beside
from .tools import LIBRARY, read, script, tool, write

COUNTER = """module t (input clk, input rst_n, input up, output reg [3:0] q);
  always @(posedge clk or negedge rst_n) if (!rst_n) q <= 0; else q <= up ? q + 1 : q - 1;
endmodule
"""
PIPELINE = """module t (input clk, input rst, input en, input [2:0] a, input [2:0] b,
    output reg [5:0] p);
  reg [2:0] ra, rb;
  always @(posedge clk) if (rst) begin ra <= 0; rb <= 0; p <= 0; end
    else if (en) begin ra <= a; rb <= b; p <= ra * rb; end
endmodule
"""
MULTIPLIER = (
    "module t (input [31:0] a, input [31:0] b, output [63:0] p); assign p = a * b; endmodule\n"
)
C17 = """# c17
INPUT(N1)
INPUT(N2)
INPUT(N3)
INPUT(N6)
INPUT(N7)
OUTPUT(N22)
OUTPUT(N23)
N10 = NAND(N1, N3)
N11 = NAND(N3, N6)
N16 = NAND(N2, N11)
N19 = NAND(N11, N7)
N22 = NAND(N10, N16)
N23 = NAND(N16, N19)
"""
# Two cells, and delays of every kind that is read: corners, conditions, edges, a wire, comments.
BY_HAND = """module t (a, b, y);
input a, b; output y; wire n;
INV \\top/g1 (.A(a), .Y(n));
NAND2 g2 (.A(n), .B(b), .Y(y));
endmodule
"""
BY_HAND_SDF = """(DELAYFILE (SDFVERSION "3.0") (DIVIDER .) // a comment (with a parenthesis
 (TIMESCALE 10 ps) /* and ) another */
 (CELL (CELLTYPE "INV") (INSTANCE top.g1) (DELAY (ABSOLUTE
  (COND b == 1'b1 (IOPATH A Y (1.0:2.0:3.0) (1.1:2.1:3.1)))
  (CONDELSE (IOPATH A Y (0.5:4.0:0.6))))))
 (cell (celltype "NAND2") (instance g2)
  (delay (absolute (iopath A Y (10) (20)) (IOPATH (posedge B) Y (10) (20)) (PORT B (0.3) (0.4))))
  (TIMINGCHECK (WIDTH (posedge B) (1)))))
"""
# The gates of it, by the options.
BY_HAND_GATES = {
    ("--corner", "min"): "not #(10,11) (n, a)",
    ("--corner", "typ"): "not #(40,40) (n, a)",
    ("--corner", "max"): "not #(30,31) (n, a)",
    ("--pins", "worst"): "nand #(104,203) (y, n, b)",
    ("--pins", "each"): "nand #(99,199) (y, t1_, t2_)",
    ("--pins", "each", "--step", "10fs"): "nand #(9999,19999) (y, t1_, t2_)",
    ("--corner", "typ", "--pins", "each"): "buf #(4,5) (t2_, b)",
}
# The seconds of a processor that the multiplier may take from cells to gates.
LONGEST = 10
# With these the kept examples were made.
VERSIONS = ("0.23", "2.0.17")
KEPT = os.path.join(TOP, "examples", "from_rtl")


def exact(tested, netlist):
    """The worst delay of a netlist, or None where the program says none."""
    ended = tested.run("worst", netlist, "--strategy", "lead")
    found = re.search(r"^exact (\d+)$", ended.out, re.M)
    return int(found[1]) if found and not ended.status else None


def versions():
    """The versions of yosys and OpenSTA."""
    yosys = tool(["yosys", "-V"], None).out.split()[1:2]
    return tuple(yosys + tool(["sta", "-version"], None).out.split()[:1])


class Designs:
    """The cases, in the folder of the check."""

    def __init__(self, tested):
        self.tested = tested

    def write(self, name, text):
        write(self.tested.folder, name, text)

    def read(self, name):
        return read(self.tested.folder, name)

    def script(self, name, *words):
        """Runs a script, which has to succeed."""
        ended = script(self.tested.folder, name, *words)
        if ended.status:
            self.tested.fault(f"{name} {' '.join(words)}: {ended.status} {ended.out} {ended.err}")
        return ended

    def registers(self):
        """RTL with registers is what its gates and flip-flops do, with a library and without."""
        for text, states in ((COUNTER, 4), (PIPELINE, 12)):
            self.write("rtl.v", text)
            self.script("synth.sh", "rtl.v", "t", LIBRARY, "mapped")
            self.script(
                "from_liberty.sh", "mapped.mapped.v", "t", LIBRARY, "cells", "--clock", "clk"
            )
            self.script("from_gates.sh", "rtl.v", "t", "unit")
            for liberty, name in ((LIBRARY, "cells"), ("-", "unit")):
                self.script("equivalent.sh", "rtl.v", "t", liberty, name)
                gates = self.read(f"{name}.v")
                if len(re.findall(r"^input \\.*\.q ;$", gates, re.M)) != states or re.search(
                    r"^input clk;$", gates, re.M
                ):
                    self.tested.fault(f"{states} states and no clock, of\n{gates}")
                if exact(self.tested, f"{name}.v") is None:
                    self.tested.fault(f"no exact figure of {name}.v")
                self.tested.case("registers")

    def delays(self):
        """Delays that were worked out by hand."""
        self.write("hand.v", BY_HAND)
        self.write("hand.sdf", BY_HAND_SDF)
        base = ("from_liberty.sh", "hand.v", "t", LIBRARY, "by_hand", "--sdf", "hand.sdf")
        for words, gate in BY_HAND_GATES.items():
            self.script(*base, *words)
            if f"{gate};\n" not in self.read("by_hand.v"):
                self.tested.fault(f"{words}: no {gate} in\n{self.read('by_hand.v')}")
            self.tested.case("by hand")
        self.write("table.txt", "INV 7 9 # a comment\n\nNAND2 11 13\n")
        told = self.script("primitives.py", "by_hand.json", "t", "--delays", "table.txt").out
        if not all(f"\n{it};\n" in told for it in ("not #(7,9) (n, a)", "nand #(11,13) (y, n, b)")):
            self.tested.fault(f"a table of delays:\n{told}")
        self.tested.case("by hand")

    def formats(self):
        """Six nand gates by .bench, and by BLIF as it is and mapped: the same worst delay."""
        wanted = exact(self.tested, os.path.join(TOP, "examples", "c17.v"))
        self.write("c17.bench", C17)
        self.write("bench.v", self.script("bench.py", "c17.bench").out)
        gates = re.findall(r"(N\d+) = NAND\((N\d+), (N\d+)\)", C17)
        names = "".join(f".names {a} {b} {y}\n0- 1\n-0 1\n" for y, a, b in gates)
        self.write(
            "c17.blif", f".model c17\n.inputs N1 N2 N3 N6 N7\n.outputs N22 N23\n{names}.end\n"
        )
        self.script("from_gates.sh", "c17.blif", "c17", "kept", "--keep")
        self.script("from_gates.sh", "c17.blif", "c17", "mapped")
        for name in ("bench", "kept"):
            found = exact(self.tested, f"{name}.v")
            if found != wanted:
                self.tested.fault(f"{found} in place of {wanted}, of\n{self.read(f'{name}.v')}")
            self.tested.case("format")
        allow = ("--allow", "ImplicitNet")
        self.script("equivalent.sh", "--cec", *allow, "kept.v", "c17", "-", "mapped")
        self.script("equivalent.sh", *allow, "bench.v", "c17", "-", "kept")
        self.tested.case("format")

    def multiplier(self):
        """A multiplier of 32 by 32 bits is written in time."""
        self.write("rtl.v", MULTIPLIER)
        self.script("synth.sh", "rtl.v", "t", LIBRARY, "wide")
        before = resource.getrusage(resource.RUSAGE_CHILDREN).ru_utime
        ended = self.script("from_liberty.sh", "wide.mapped.v", "t", LIBRARY, "wide")
        took = resource.getrusage(resource.RUSAGE_CHILDREN).ru_utime - before
        if took > LONGEST or not re.search(
            r"primitives.py: [\d,]+ gates, [\d.]+ % of the 200,000", ended.err
        ):
            self.tested.fault(f"a multiplier of 32 by 32 bits took {took:.1f} s: {ended.err}")
        self.tested.case("multiplier")

    def page(self):
        """The commands of docs/FROM-RTL.md, but for those of viewers, end well in a folder that has
        what they name, and the figures are those of the page.
        """
        page = text_of("docs", "FROM-RTL.md")
        folder = os.path.join(self.tested.folder, "page")
        os.mkdir(folder)
        for name in ("bridges", "examples", "lint", "packaging", "tools"):
            os.symlink(os.path.join(TOP, name), os.path.join(folder, name))
        os.symlink(self.tested.program, os.path.join(folder, "tdelay"))
        write(folder, "pipe.v", PIPELINE.replace("module t ", "module pipe "))
        shutil.copy(LIBRARY, os.path.join(folder, "lib.lib"))
        tool(["bridges/synth.sh", "pipe.v", "pipe", "lib.lib", "cells"], folder)
        os.rename(os.path.join(folder, "cells.mapped.v"), os.path.join(folder, "pipe.mapped.v"))
        printed, commands = "", 0
        for block in re.findall(r"^```sh\n(.*?)^```", page, re.M | re.S):
            own = re.sub(r"^(?:gtkwave|apt-get) .*\n", "", block, flags=re.M)
            environment = {**os.environ, "TDELAY": self.tested.program}
            ended = tool(["bash", "-e", "-o", "pipefail", "-c", own], folder, env=environment)
            if ended.status:
                said = f"{ended.status} {ended.out} {ended.err}"
                self.tested.fault(f"docs/FROM-RTL.md: {own}: {said}")
            printed += ended.out
            commands += len(re.findall(r"^(?:\./tdelay|bridges/|python3 )", own, re.M))
            self.tested.case("command of the page")
        unit = re.search(r"It prints `(exact \d+)`", page)
        if commands < 10 or not unit or f"\n{unit[1]}\n" not in printed:
            self.tested.fault(f"docs/FROM-RTL.md: {commands} commands, which print {printed}")
        self.figure(page, read(folder, "out/alu_8.txt"))
        self.tutorial(folder)
        self.beside()
        self.several()

    def tutorial(self, folder):
        """The first command of docs/TUTORIAL.md prints the lines that the page shows, where the
        tools are those with which the examples were made.
        """
        page = text_of("docs", "TUTORIAL.md")
        command = re.search(r"^```sh\n((?:(?!```).*\n)*bridges/.*\n)```", page, re.M)
        shown = re.search(r"^```text\n(.*?)^```", page, re.M | re.S)
        environment = {**os.environ, "TDELAY": self.tested.program}
        ended = tool(["bash", "-e", "-c", command[1]], folder, env=environment)
        printed = iter(ended.out.splitlines())
        lacking = [line for line in shown[1].splitlines() if line not in printed]
        if ended.status or versions() == VERSIONS and lacking:
            self.tested.fault(f"docs/TUTORIAL.md: {lacking[:1]}: {ended.out}{ended.err}")
        self.tested.case("command of the page")

    def beside(self):
        """A row of docs/BESIDE.md: the figures of all three tools, where the tools are those with
        which the examples were made.
        """
        found = beside.row(self.tested.program, self.tested.folder, "bcd_adder").split(" | ")
        shown = re.search(r"^\| `bcd_adder` .*$", text_of("docs", "BESIDE.md"), re.M)[0].split(" | ")
        # Every other cell of the rest has seconds.
        figures = [[row[place] for place in (1, 2, 4, 6, 7)] for row in (found, shown)]
        if versions() == VERSIONS and figures[0] != figures[1]:
            self.tested.fault(f"docs/BESIDE.md: {figures[1]}, not {figures[0]}")
        self.tested.case("command of the page")

    def several(self):
        """Several blocks by make and by GNU parallel: their reports and their statuses."""
        folder, kept = self.tested.folder, os.path.join(TOP, "examples", "from_rtl")
        environment = {**os.environ, "TDELAY": self.tested.program}
        by_make = ["make", "-s", "-f", os.path.join(kept, "Makefile"), "OUT=made"]
        by_parallel = [os.path.join(kept, "blocks.sh"), "side_by_side"]
        for program, words, status in (
            ("make", by_make, 0),
            ("make", [*by_make, "OUT=short", "BLOCKS=bcd_adder", "OPTIONS=--budget 1"], 0),
            ("make", [*by_make, "OUT=wrong", "BLOCKS=bcd_adder", "OPTIONS=--budgt 1"], 2),
            ("parallel", by_parallel, 0),
            ("parallel", [*by_parallel, "--budget", "1"], 3),
        ):
            if not shutil.which(program):
                print(f"skipped: blocks by {program}, which isn't here")
                continue
            ended = tool(words, folder, env=environment)
            if ended.status != status:
                self.tested.fault(f"{words}: status {ended.status}, not {status}: {ended.err}")
            self.tested.case("command of the page")

    def figure(self, page, report):
        """The exact figure of the page's first design, where the tools are those of the page."""
        wanted = re.search(r"^\| `alu_8`, all \|(?: [^|]* \|){3} (\d+) \|", page, re.M)
        found = re.search(r"^exact (\d+)$", report, re.M)
        if not found or not wanted:
            self.tested.fault(f"docs/FROM-RTL.md: no exact figure in {report}")
        elif versions() == VERSIONS and found[1] != wanted[1]:
            self.tested.fault(f"docs/FROM-RTL.md: {found[0]}, not {wanted[1]}")
        self.tested.case("command of the page")

    def examples(self):
        """The examples come out as they are kept, where yosys and OpenSTA are those with which they
        were made.
        """
        out = os.path.join(self.tested.folder, "examples")
        environment = {**os.environ, "TDELAY": self.tested.program}
        ended = tool([os.path.join(KEPT, "run.sh"), out], self.tested.folder, env=environment)
        figures = re.findall(r"^(\w+): exact (\d+) ps, accepted (\d+)$", ended.out, re.M)
        if (
            ended.status
            or len(figures) != 9
            or any(time != accepted for _, time, accepted in figures)
            or not re.search(r"^sum_stays: (?:exact )?(.+) ps, accepted \1$", ended.out, re.M)
        ):
            self.tested.fault(f"examples/from_rtl/run.sh: {ended.status} {ended.out} {ended.err}")
        if versions() != VERSIONS:
            print(f"skipped: the kept examples, which {VERSIONS} of yosys and OpenSTA made")
            print(f"  here are {' and '.join(versions())}")
            return
        for name in sorted(os.listdir(KEPT)):
            made = name.replace(".gates.v", ".v")
            if not name.endswith((".gates.v", ".svg")):
                continue
            with open(os.path.join(KEPT, name), encoding="utf-8") as kept, open(
                os.path.join(out, made), encoding="utf-8"
            ) as new:
                if kept.read() != new.read():
                    self.tested.fault(f"examples/from_rtl/{name} isn't what run.sh makes")
            self.tested.case("example")


def work(tested):
    """All of them."""
    cases = Designs(tested)
    cases.delays()
    cases.registers()
    cases.formats()
    cases.page()
    cases.examples()
    cases.multiplier()
