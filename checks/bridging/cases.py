"""Cases of a designer's own: each was wrong once, or refused with a remedy that didn't work."""

import json
import os
import re

from . import library_of_cases
from .blocks import BLOCKS, REAL
from .designs import VERSIONS, exact, versions
from .icarus import IVERILOG, VVP
from .tools import LIBRARY, read, script, tool, write

SILENT = {
    "TwoDrivers": "module t(input a,b,c, output y); wire n;\nassign n=a&b; assign n=b|c;\n"
    "assign y=~n; endmodule\n",
    "HighZ": "module t(input a,b,s, output y);\nassign y = s ? (a&b) : 1'bz; endmodule\n",
    "HighZ of a gate": "module t(input a,b, output y);\nwire n; bufif1 (n,a,b); not (y,n);\n"
    "endmodule\n",
    "NoDriver": "module t(input a,b, output y);\nwire n; assign y=a&n; endmodule\n",
    "NoDriver of a pin": "module t(input a, output y);\nlow s(.p(a),.q(y)); endmodule\n"
    "module low(input p,r, output q); assign q=p^r; endmodule\n",
    "ImplicitNet": "interface bus; logic [3:0] d; modport src(output d); endinterface\n"
    "module prod(input logic [3:0] a, bus.src o); assign o.d=a+4'd1; endmodule\n"
    "module t(input logic [3:0] a, output logic [3:0] y); bus b(); prod p(a,b); assign y=b.d;\n"
    "endmodule\n",
}
ADDER = "module t(input [2:0] a,b, input s, output [2:0] y); assign y=s?a-b:a+b; endmodule\n"
SDC = """set_input_transition 0.1 [all_inputs]
set_load 0.05 [all_outputs]
create_clock -name all -period 5
set_output_delay 0 -clock all [all_outputs]
set_input_delay 0 -clock all [get_ports {a* s}]
set_input_delay 1.0 -clock all [get_ports b*]
"""
LATCHES = """module t(en, d, q, y); input en; input [1:0] d; output [1:0] q; output y; wire n;
XOR2 x0(.A(d[0]),.B(d[1]),.Y(n)); DLAT l0(.G(en),.D(n),.Q(q[0])); DLAT l1(.G(en),.D(d[1]),.Q(q[1]));
XOR2 x1(.A(q[0]),.B(d[1]),.Y(y)); endmodule
"""
LATCH_OF_RTL = """module t(input en, input [1:0] d, output [1:0] q, output y);
DLAT l0(.G(en),.D(d[0]^d[1]),.Q(q[0])); DLAT l1(.G(en),.D(d[1]),.Q(q[1])); assign y=q[0]^d[1];
endmodule
"""
STATE = {
    "C2F": "CElement", "C2L": "CElement", "C2S": "StateTable"
}  # fmt: skip
ELEMENT = """module t(a,b,c,y); input a,b,c; output y; wire n; ND2 n0(.A(a),.B(c),.Y(n));
{} u(.A(n),.B(b),.Y(y)); endmodule
"""
GATED = """module t(ck,e,d,y); input ck,e,d; output y; wire g,q; ICG i(.CK(ck),.E(e),.GCK(g));
DFF r(.CK(g),.D(d),.Q(q)); ND2 n(.A(q),.B(d),.Y(y)); endmodule
"""
POWERED = """module t(a,y,VDD,VSS); input a; output y; inout VDD,VSS;
INVP u(.A(a),.Y(y),.VDD(VDD),.VSS(VSS)); endmodule
"""
CONDITIONS = """module t(a,b,c,y); input a,b,c; output y; wire n; XORC u(.A(a),.B(b),.Y(n));
XORC v(.A(n),.B(c),.Y(y)); endmodule
"""
LOOP = """module t(a,b,y); input a,b; output y; wire n,m; NAND2 g(.A(a),.B(m),.Y(n));
NAND2 h(.A(b),.B(n),.Y(m)); INV i(.A(n),.Y(y)); endmodule
"""
LOOP_OF_OUTPUTS = """module t(a,b,y,z); input a,b; output y,z;
NAND2 g(.A(a),.B(z),.Y(y)); NAND2 h(.A(b),.B(y),.Y(z)); endmodule
"""
CHAIN = """module t(a,b,s,y,z); input a,b,s; output y,z; MUX2 m0(.A(a),.B(b),.S(s),.Y(y));
MUX2 m1(.A(b),.B(a),.S(s),.Y(z)); endmodule
"""
# What a reader needs of the source that yosys passes over: its own default of nets, delays without
# a scale, a file of levels, a clock that gates make.
SOURCE = (
    "`default_nettype none\nmodule t(input wire [3:0] a, output wire [7:0] y);\n"
    "reg [7:0] m [0:15]; initial $readmemh(\"levels.hex\", m); wire [7:0] #2 n = m[a];\n"
    "assign y = n + 8'd1; endmodule\n",
    "module t(input clk,en, input [2:0] d, output reg [2:0] q);\n"
    "wire g = clk & en; always @(posedge g) q <= d + q; endmodule\n",
)
RESET = """module t(input clk,rst_n,d, output reg [1:0] q);
always @(posedge clk or negedge rst_n) if (!rst_n) q <= 0; else q <= {q[0]^q[1],d}; endmodule
"""
# The exact figure of rot4 with two inputs pinned, and the last change on the cells of the pair that
# `least` gives.
PINNED = 711, 778
BOX = """(* blackbox *) module ram(input [1:0] a, output [1:0] q); endmodule
module t(input [1:0] x, input s, output [1:0] y); wire [1:0] q; ram r(.a(x ^ {2{s}}), .q(q));
assign y = q & x; endmodule
"""


class Cases:
    """The cases, in the folder of the check."""

    def __init__(self, tested):
        self.tested = tested
        self.write("mine.lib", library_of_cases.TEXT)

    def write(self, name, text):
        write(self.tested.folder, name, text)

    def run(self, name, *words):
        """How a script ends that has to end well."""
        ended = script(self.tested.folder, name, *words)
        if ended.status:
            self.tested.fault(f"{name} {' '.join(words)}: {ended}"[:900])
        return ended

    def refused(self, name, *words):
        """A case: a script refuses by this name. Answers what it says to do."""
        ended = script(self.tested.folder, *words)
        found = re.search(rf": {name}: .*\n  what to do: (.*)", ended.err)
        if ended.status != 1 or not found:
            self.tested.fault(f"{' '.join(words)}: {name} in place of {ended}"[:900])
        self.tested.case("case")
        return found[1] if found else ""

    def same(self, what, wanted, found):
        """A case: two figures or words are the same."""
        if wanted != found:
            self.tested.fault(f"{what}: {found} in place of {wanted}")
        self.tested.case("case")

    def gates(self, text, out, *words, library=LIBRARY):
        """A netlist of cells as gates. Answers what was said."""
        self.write("case.v", text)
        return self.run("from_liberty.sh", "case.v", "t", library, out, *words).err

    def equal(self, design, out, *words, library=LIBRARY):
        """A case: both readers say equal."""
        said = self.run("equivalent.sh", *words, design, "t", library, out).out
        both = "equal by yosys" in said and "equal by Icarus" in said
        self.same(f"equivalent.sh {design} {out}: {said}", True, both)

    # The cases.

    def silent(self):
        """What yosys drops is refused with its line, and --allow goes on."""
        for what, text in SILENT.items():
            self.write("case.v", text)
            ended = script(self.tested.folder, "synth.sh", "case.v", "t", LIBRARY, "silent")
            name = what.split()[0]
            told = rf"{name}: case.v:2: .*\n  what to do: .*; --allow {name} goes on"
            found = ended.status == 1 and bool(re.search(told, ended.err))
            self.same(f"{what} with its line and its remedy: {ended}", True, found)
        self.write("case.v", SILENT["ImplicitNet"])
        allow = ("--allow", "ImplicitNet", "--allow", "NoDriver")
        self.run("synth.sh", "case.v", "t", LIBRARY, "silent", *allow)
        self.run("from_liberty.sh", "silent.mapped.v", "t", LIBRARY, "silent")
        said = self.run("equivalent.sh", *allow, "case.v", "t", LIBRARY, "silent").out
        self.same(f"what Icarus can't read: {said}", True, "by one reader alone" in said)
        self.write("case.v", SILENT["NoDriver"])
        self.run("synth.sh", "case.v", "t", LIBRARY, "silent", "--allow", "NoDriver")
        self.run("from_liberty.sh", "silent.mapped.v", "t", LIBRARY, "silent")
        words = ("--allow", "NoDriver", "case.v", "t", LIBRARY, "silent")
        self.refused("UnknownLevel", "equivalent.sh", *words)

    def source(self):
        """The second reader reads what the design reads, waits until it is settled, and changes no
        clock and what is taken at it at once.
        """
        self.write("levels.hex", "".join(f"{17 * it:02x}\n" for it in range(16)))
        for text in (*SOURCE, BLOCKS["cskip16"].replace("cskip16", "t")):
            self.write("case.v", text)
            self.run("synth.sh", "case.v", "t", LIBRARY, "read")
            self.run("from_liberty.sh", "read.mapped.v", "t", LIBRARY, "read")
            self.equal("case.v", "read")
        self.refused("NoFolder", "synth.sh", "case.v", "t", LIBRARY, "nowhere/read")

    def allowed(self):
        """What is allowed goes on to the end: 0 on a pin that nothing drives, no proof of a net with
        two drivers.
        """
        self.write("case.v", SILENT["NoDriver of a pin"])
        allow = ("--allow", "NoDriver")
        self.run("synth.sh", "case.v", "t", LIBRARY, "silent", *allow)
        self.run("from_liberty.sh", "silent.mapped.v", "t", LIBRARY, "silent")
        self.equal("case.v", "silent", *allow, "--allow", "UnknownLevel")
        self.write("case.v", SILENT["TwoDrivers"])
        allow = ("--allow", "TwoDrivers")
        self.run("synth.sh", "case.v", "t", LIBRARY, "silent", *allow)
        self.run("from_liberty.sh", "silent.mapped.v", "t", LIBRARY, "silent")
        allow += ("--allow", "UnknownLevel")
        said = self.run("equivalent.sh", *allow, "case.v", "t", LIBRARY, "silent").out
        self.same(f"two drivers that are allowed: {said}", True, "not proved by yosys" in said)

    def clocks(self):
        """OpenSTA's arrival is the latest of its groups; a clock that it doesn't know is told."""
        self.write("case.v", RESET)
        words = ("case.v", "t", LIBRARY, "clocked", "--json")
        found = json.loads(self.run("figure.sh", *words, "--clock", "clk").out or "{}")
        wanted = found.get("exact", 0)
        near = abs(found.get("opensta_ps", 0) - wanted) < 0.2 * wanted
        other = json.loads(self.run("figure.sh", *words).out or "{}")
        told = any("--clock clk" in note for note in other.get("notes", []))
        self.same(f"clocks of OpenSTA: {found} {other}", (True, True), (near, told))

    def constraints(self):
        """An input's moment and level of an SDC file are options of tdelay."""
        self.write("case.v", ADDER)
        self.run("synth.sh", "case.v", "t", LIBRARY, "sdc")
        words = ("from_liberty.sh", "sdc.mapped.v", "t", LIBRARY, "sdc", "--sdc", "case.sdc")
        for text, options in (
            (SDC, "--at b=1000"),
            (SDC + "set_case_analysis 0 s\n", "--at b=1000 --pin s=0"),
            (SDC.replace("1.0 -clock", "0 -clock"), ""),
            (SDC.replace("get_ports b*", "get_ports {b[1]}"), "--at b[1]=1000"),
        ):
            self.write("case.sdc", text)
            said = self.run(*words).err
            found = re.findall(r"^[^#\n]+", read(self.tested.folder, "sdc.options"), re.M)
            self.same("OUT.options", options, "".join(found))
            self.same(f"the options are printed: {said}", True, f"tdelay: {options}" in said)
            ended = self.tested.run("worst", "sdc.v", *options.split())
            self.same(f"worst with {options}: {ended.err}", 0, ended.status)
        for name, line in (
            ("SdcCommand", "set_false_path -from a[0]"),
            ("SdcCommand", "set_disable_timing [get_ports s]"),
            ("SdcCommand", "set_driving_cell -lib_cell INV [get_ports s]"),
            ("SdcCommand", "create_clock -name late -period 5 -waveform {1 3}"),
            ("SdcWindow", "set_input_delay -max 2.0 -clock all [get_ports s]"),
        ):
            self.write("case.sdc", f"{SDC}{line}\n")
            remedy = self.refused(name, *words)
            self.same(f"a remedy of {name}", True, bool(remedy))

    def short(self):
        """Negative and short delays are raised, or refused."""
        self.gates(CHAIN, "short")
        text = read(self.tested.folder, "short.sdf")
        arc = re.search(r"\(IOPATH A Y \(([^)]*)\)", text)
        self.write("neg.sdf", text.replace(arc[1], "-0.1036::-0.1036", 1))
        words = ("case.v", "t", LIBRARY, "neg", "--sdf", "neg.sdf")
        said = self.run("from_liberty.sh", *words).err
        wanted = "the least was -103.6 ps (A to Y of m0)"
        self.same(f"a raised delay is told: {said}", True, wanted in said)
        remedy = self.refused("DisabledArc", "from_liberty.sh", *words, "--short", "refuse")
        self.same(f"a unit in {remedy}", True, " ps" in remedy)

    def latches(self):
        """A latch that an input holds open is timed from D to Q; else it is said what to do."""
        self.gates(LATCHES, "open")
        self.equal("case.v", "open")
        self.gates(LATCHES, "cut", "--latch", "cut")
        self.equal("case.v", "cut")
        wide = exact(self.tested, "open.v"), exact(self.tested, "cut.v")
        self.same(f"an open latch takes longer: {wide}", True, wide[0] > wide[1])
        self.write("case.v", LATCHES.replace("G(en)", "G(n)", 1))
        words = ("from_liberty.sh", "case.v", "t", LIBRARY, "made")
        remedy = self.refused("LatchEnable", *words)
        for word in re.findall(r"--latch (\w+)", remedy):
            self.run(*words, "--latch", word)
        self.write("case.v", LATCH_OF_RTL)
        self.run("synth.sh", "case.v", "t", LIBRARY, "inst")
        self.run("from_liberty.sh", "inst.mapped.v", "t", LIBRARY, "inst")
        self.equal("case.v", "inst")

    def state(self):
        """Cells with state are refused by their own name, and cut."""
        for kind, name in STATE.items():
            self.write("case.v", ELEMENT.format(kind))
            words = ("from_liberty.sh", "case.v", "t", "mine.lib", "state")
            remedy = self.refused(name, *words)
            self.run(*words, *re.search(r"(--cut \w+)", remedy)[1].split())
            ports = read(self.tested.folder, "state.v")
            self.same("ports of the pins", True, all(f"\\u.{it} ;" in ports for it in "ABY"))
        self.write("case.v", GATED)
        words = ("from_liberty.sh", "case.v", "t", "mine.lib", "gated")
        remedy = self.refused("ClockGate", *words)
        self.run(*words, *re.search(r"(--cut \w+)", remedy)[1].split())
        said = self.gates(POWERED, "power", library="mine.lib")
        self.same(f"power pins: {said}", ["a"], inputs_of(self, "power.v"))
        self.gates(CONDITIONS, "cond", library="mine.lib")
        self.same("conditions", 610, exact(self.tested, "cond.v"))

    def cuts(self):
        """A loop is cut at a net, a black box at its pins."""
        self.write("case.v", LOOP)
        words = ("from_liberty.sh", "case.v", "t", LIBRARY, "loop")
        remedy = self.refused("Loop", *words)
        self.run(*words, *re.search(r"(--cut-net \w+)", remedy)[1].split())
        self.equal("case.v", "loop")
        self.gates(LOOP_OF_OUTPUTS, "loop", "--cut-net", "y")
        self.equal("case.v", "loop")
        self.write("case.v", BOX)
        self.run("synth.sh", "case.v", "t", LIBRARY, "box")
        words = ("from_liberty.sh", "box.mapped.v", "t", LIBRARY, "box")
        remedy = self.refused("BlackBox", *words)
        self.run(*words, *re.search(r"(--cut \w+)", remedy)[1].split())
        self.equal("case.v", "box")

    def annotation(self):
        """Wildcards, later entries, negative wires, cells of another netlist."""
        self.gates(CHAIN, "sdf")
        text = read(self.tested.folder, "sdf.sdf")
        before = exact(self.tested, "sdf.v")
        more = '(CELL (CELLTYPE "MUX2") (INSTANCE {}) (DELAY (ABSOLUTE (IOPATH A Y {}) {})))\n'
        others = "(IOPATH B Y (0.02) (0.02)) (IOPATH S Y (0.02) (0.02))"
        words = ("case.v", "t", LIBRARY, "sdf", "--sdf", "other.sdf")
        for what, entry, wanted in (
            ("(INSTANCE *)", more.format("*", "(1.9) (1.9)", ""), 1900),
            (
                "a later entry",
                "".join(more.format(it, "(0.02) (0.02)", others) for it in ("m0", "m1")),
                20,
            ),
        ):
            self.write("other.sdf", text.rstrip()[:-1] + entry + ")\n")
            self.run("from_liberty.sh", *words)
            self.same(what, wanted, exact(self.tested, "sdf.v"))
        wire = re.search(r"INTERCONNECT s m0/S \(([^)]*)\)", text)
        self.write("other.sdf", text.replace(wire[0], wire[0].replace(wire[1], "-0.2::-0.2"), 1))
        self.run("from_liberty.sh", *words)
        after = exact(self.tested, "sdf.v")
        self.same(f"a negative wire: {before} {after}", True, after <= before)
        self.write("other.sdf", text.replace('"MUX2"', '"MUX4"').replace('"t"', '"u"'))
        said = self.run("from_liberty.sh", *words).err
        self.same(f"other cells: {said}", True, "2 instances have another cell" in said)
        self.same(f"another design: {said}", True, "of the design u, not t" in said)
        self.write("other.sdf", text.rstrip()[:-1] + more.format("m9", "(1) (1)", "") + ")\n")
        said = self.run("from_liberty.sh", *words).err
        self.same(f"entries of none: {said}", True, "1 entries of the SDF file match no" in said)
        self.write("other.sdf", text)
        self.run("from_liberty.sh", *words, "--round", "up")
        self.same("--round up", True, exact(self.tested, "sdf.v") >= before)

    def same_files(self):
        """An OUT that is an input, by a link too, is refused by each script."""
        folder = self.tested.folder
        self.gates(CHAIN, "kept")
        kept = read(folder, "case.v")
        for name, link, words in (
            ("synth.sh", "o.mapped.v", ("case.v", "t", LIBRARY, "o")),
            ("synth.sh", "o.v", ("case.v", "t", LIBRARY, "o")),
            ("figure.sh", "o.v", ("case.v", "t", LIBRARY, "o")),
            ("from_liberty.sh", "o.v", ("case.v", "t", LIBRARY, "o")),
            ("from_liberty.sh", "o.sdf", ("case.v", "t", LIBRARY, "o", "--sdf", "kept.sdf")),
            ("from_gates.sh", "o.shell.v", ("case.v", "t", "o")),
            ("equivalent.sh", "kept.equiv.log", ("case.v", "t", LIBRARY, "kept")),
            ("figure.sh", "o.vcd", ("case.v", "t", LIBRARY, "o")),
        ):
            target = "kept.sdf" if link.endswith(".sdf") else "case.v"
            if link.endswith(".sdf"):
                link = "o.v"
            os.symlink(target, os.path.join(folder, link))
            self.refused("SameFile", name, *words)
            os.remove(os.path.join(folder, link))
        self.same("the input stays", kept, read(folder, "case.v"))

    def figure(self):
        """One command: its figures, its path, its statuses."""
        self.write("case.v", ADDER)
        ended = self.run("figure.sh", "case.v", "t", LIBRARY, "fig", "--json")
        found = json.loads(ended.out or "{}")
        self.same("accepted", found.get("exact"), found.get("accepted"))
        keys = {"opensta_ps", "bound", "exact", "equal", "accepted", "path", "first", "second"}
        self.same("the keys of --json", set(), keys - set(found))
        self.same("the path by cells", True, " -> Y" in found.get("path", [""])[-1])
        inner = [line for line in found.get("path", []) if re.search(r" t\d+_ ", line)]
        self.same("no net inside a cell", [], inner)
        netlist = ("fig.mapped.v", "t", LIBRARY, "fig2", "--json", "--sdf", "fig.sdf")
        again = json.loads(self.run("figure.sh", *netlist).out or "{}")
        self.same("from a netlist with its SDF", found.get("exact"), again.get("exact"))
        budget = ("figure.sh", "case.v", "t", LIBRARY, "fig3", "--budget", "1")
        ended = script(self.tested.folder, *budget)
        both = "between " in ended.out and "bound " in ended.out
        self.same(f"a search cut short: {ended}", (3, True), (ended.status, both))
        ended = script(self.tested.folder, "figure.sh", "none.v", "t", LIBRARY, "fig4", "--json")
        self.same(f"a refusal as JSON: {ended.out}", 1, json.loads(ended.out)["status"])
        self.pairs()
        self.questions()

    def questions(self):
        """Questions of the search through the one command: few flips, a time, pins on the cells."""
        words = ("case.v", "t", LIBRARY, "one", "--json", "--flips", "1", "--strategy")
        found = json.loads(self.run("figure.sh", *words, "lead").out or "{}")
        ended = script(self.tested.folder, "figure.sh", *words, "refute")
        low, high = json.loads(ended.out).get("between", [found.get("exact")] * 2)
        within = low <= found.get("exact", -1) <= high and ended.status in (0, 3)
        self.same(f"one flip by both strategies: {ended}", True, within)
        words = ("case.v", "t", LIBRARY, "one", "--seconds", "1", "--strategy", "refute")
        ended = script(self.tested.folder, "figure.sh", *words)
        self.same(f"a search of a second: {ended}", True, ended.status in (0, 3))
        if not REAL:
            print("skipped: cells with models, as no real library is installed")
            return
        self.write("rot4.v", BLOCKS["rot4"])
        words = ("rot4.v", "rot4", REAL[0].liberty, "rotated", "--models", REAL[0].models, "--json")
        told = json.loads(self.run("figure.sh", *words).out or "{}")
        self.same(f"cells beside gates: {told}", True, isinstance(told.get("cells"), int))
        pins = ("--pin", "d[2]=1", "--pin", "l=0", "--strategy", "least")
        told = json.loads(self.run("figure.sh", *words, *pins).out or "{}")
        found = told.get("exact"), told.get("cells")
        wanted = PINNED if versions() == VERSIONS else found
        self.same("a pinned question on gates and on cells", wanted, found)

    def pairs(self):
        """The pair of the report on RTL and on gates, by Icarus."""
        folder = self.tested.folder
        made = self.run("testbench.py", "fig.v", "fig.json", "--vcd", "fig.buses.vcd").out
        self.write("pair.v", made)
        for design in ("fig.v", "case.v"):
            files = [design, "pair.v"]
            done = tool([*IVERILOG, "-g2012", "-s", "testbench", "-o", "pair.vvp", *files], folder)
            said = tool([*VVP, "-n", "pair.vvp"], folder).out if not done.status else done.err
            last = max(map(int, re.findall(r"^pair 0 \S+ (-?\d+)$", said, re.M)), default=None)
            wanted = json.loads(read(folder, "fig.json"))["exact"] if design == "fig.v" else 0
            self.same(f"the pair on {design}: {said}", wanted, last)
        dump = read(folder, "fig.buses.vcd")
        self.same("buses in the dump", True, bool(re.search(r"\$var (reg|wire) +3 ", dump)))


def inputs_of(cases, name):
    """The inputs of a netlist."""
    return re.findall(r"^input (\S+);$", read(cases.tested.folder, name), re.M)


def work(tested):
    """All of them."""
    cases = Cases(tested)
    cases.silent()
    cases.constraints()
    cases.short()
    cases.latches()
    cases.state()
    cases.cuts()
    cases.annotation()
    cases.same_files()
    cases.figure()
    cases.source()
    cases.allowed()
    cases.clocks()
