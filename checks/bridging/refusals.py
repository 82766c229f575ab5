"""Inputs that the scripts of bridges/ refuse, each by its name."""

import json
import re

from .tools import LIBRARY, read, script, write, yosys

BASE = """module t (a, b, y);
input a, b; output y; wire n;
INV g1 (.A(a), .Y(n));
NAND2 g2 (.A(n), .B(b), .Y(y));
endmodule
"""
# A buffer with an enable, which yosys 0.23 reads as a buffer, a flip-flop without an output that is
# its state, and a cell without a function.
STRANGE = """library (strange) { time_unit : "1ns"; capacitive_load_unit (1, pf);
  default_input_pin_cap : 0.002;
  cell (TBUF) { pin (A) { direction : input; } pin (E) { direction : input; }
    pin (Y) { direction : output; function : "A"; three_state : "!E"; } }
  cell (DFFN) { ff (IQ, IQN) { next_state : "D"; clocked_on : "CK"; }
    pin (D) { direction : input; } pin (CK) { direction : input; }
    pin (QN) { direction : output; function : "IQN"; } }
  cell (GATE) { latch (IQ, IQN) { data_in : "E"; enable : "!CK"; }
    pin (E) { direction : input; } pin (CK) { direction : input; }
    pin (GCK) { direction : output; function : "IQ & CK"; } }
  cell (DARK) { pin (A) { direction : input; } pin (Y) { direction : output; } } }
"""
STRANGE_SDF = """(DELAYFILE (SDFVERSION "3.0") (TIMESCALE 1ns)
 (CELL (CELLTYPE "TBUF") (INSTANCE g)
  (DELAY (ABSOLUTE (IOPATH A Y (0.1) (0.1)) (IOPATH E Y (0.1) (0.1))))))
"""


class Refusals:
    """The cases, in a folder in which `base.json` and `base.sdf` are of the netlist above."""

    def __init__(self, tested):
        self.tested = tested
        self.write("base_cells.v", BASE)
        self.write("strange.lib", STRANGE)
        self.write("strange.sdf", STRANGE_SDF)
        ended = self.script("from_liberty.sh", "base_cells.v", "t", LIBRARY, "base")
        if ended.status:
            tested.fault(f"from_liberty.sh: {ended.err}")

    def write(self, name, text):
        write(self.tested.folder, name, text)

    def script(self, name, *words):
        return script(self.tested.folder, name, *words)

    def refused(self, name, script, *words):
        """A case: a script ends with status 1, and says the refusal's name and nothing else."""
        ended = self.script(script, *words)
        wanted = name if name == "CannotOpen" else rf"{script}: {name}: .*\n  what to do: ."
        if ended.status != 1 or ended.out or not re.match(f".*{wanted}", ended.err, re.S):
            line = " ".join((script, *words))
            self.tested.fault(f"{line}: {name} in place of {ended}"[:1000])
        self.tested.case("refused")

    def read(self, steps):
        """A netlist as yosys writes it after these steps."""
        ended = yosys(self.tested.folder, f"{steps}; write_json other.json")
        if ended.status:
            self.tested.fault(f"yosys: {ended.err or ended.out}")

    def netlist(self, body, name, *words, ports="a, y", library=None):
        """A netlist of cells with these statements, and what the conversion refuses of it."""
        self.write("other.v", f"module t ({ports});\n{body}\nendmodule\n")
        liberty = f"read_liberty -ignore_miss_func -setattr keep_hierarchy {library or LIBRARY}"
        self.read(f"{liberty}; read_verilog other.v; hierarchy -top t; flatten")
        self.refused(name, "primitives.py", "other.json", "t", *words)

    def sdf(self):
        """Faults of an SDF file."""
        text = read(self.tested.folder, "base.sdf")
        arc = re.search(r"\(IOPATH A Y (\([^)]*\)) (\([^)]*\))\)", text)
        for name, other in (
            ("NoDelay", text.replace("(INSTANCE g1)", "(INSTANCE g9)")),
            ("NoDelay", text.replace(arc[0], f"(IOPATH A Y () {arc[2]})")),
            ("NoDelay", text.replace(arc[0], "", 1)),
            ("DisabledArc", text.replace(arc[1], "(0.000::0.000)", 1)),
            ("DisabledArc", text.replace(arc[1], "(-0.010::-0.010)", 1)),
            ("SdfSyntax", text.rstrip()[:-1]),
            ("SdfSyntax", text + ")"),
            ("SdfSyntax", text.replace(arc[1], "(0.1x)", 1)),
            ("SdfSyntax", "module t; endmodule\n"),
            ("SdfSyntax", text.replace("(TIMESCALE 1ns)", "(TIMESCALE 3ns)")),
            ("SdfConstruct", text.replace("(ABSOLUTE", "(INCREMENT", 1)),
            ("SdfConstruct", text.replace(arc[0], "(PATHPULSE (0.1))", 1)),
            ("SdfConstruct", text.replace(arc[0], f"(IOPATH A Y (RETAIN (0.01)) {arc[1]})", 1)),
        ):
            if other == text:
                self.tested.fault(f"{name}: the SDF file has nothing to change")
            self.write("other.sdf", other)
            words = ("--sdf", "other.sdf", "--short", "refuse")
            self.refused(name, "primitives.py", "base.json", "t", *words)

    def words(self):
        """Words of the command line."""
        base = ("primitives.py", "base.json", "t", "--sdf", "base.sdf")
        self.refused("NoCorner", *base, "--corner", "typ")
        self.refused("DelayTooShort", *base, "--step", "1ns", "--short", "refuse")
        self.refused("BadStep", *base, "--step", "3ps")
        self.refused("NoOutput", *base, "--outputs", "n")
        self.refused("ShellOfAll", *base, "--outputs", "y", "--shell", "shell.v")
        self.refused("NoModule", "primitives.py", "base.json", "u", "--sdf", "base.sdf")
        self.refused("CannotOpen", "primitives.py", "none.json", "t")
        self.refused("BadJson", "primitives.py", "base_cells.v", "t")
        for name, text in (
            ("BadTable", "INV 1\n"),
            ("BadTable", "INV 0 1\n"),
            ("NoDelay", "INV 2 1 # and no NAND2\n"),
        ):
            self.write("table.txt", text)
            self.refused(name, "primitives.py", "base.json", "t", "--delays", "table.txt")

    def cells(self):
        """Cells and nets that aren't gates."""
        self.netlist(
            "input a, e; output y; TBUF g (.A(a), .E(e), .Y(y));",
            "StrangeArc",
            "--sdf",
            "strange.sdf",
            ports="a, e, y",
            library="strange.lib",
        )
        self.netlist(
            "input a, c; output y; DFFN g (.D(a), .CK(c), .QN(y));",
            "NoState",
            ports="a, c, y",
            library="strange.lib",
        )
        self.netlist(
            "input a, c; output y; GATE g (.E(a), .CK(c), .GCK(y));",
            "ClockGate",
            ports="a, c, y",
            library="strange.lib",
        )
        self.netlist(
            "input a; output y; DARK g (.A(a), .Y(y));", "UnknownCell", library="strange.lib"
        )
        self.netlist("input a; output y; INV g (.A(n), .Y(y));", "NoDriver")
        self.netlist(
            "input a, b; output y; INV g (.A(a), .Y(y)); INV h (.A(b), .Y(y));",
            "TwoDrivers",
            ports="a, b, y",
        )
        self.netlist("inout a; output y; INV g (.A(a), .Y(y));", "Inout")
        self.netlist(
            "input a; output y; INV \\x/g (.A(a), .Y(n)); INV \\x.g (.A(n), .Y(y));",
            "LikeInstances",
            "--sdf",
            "strange.sdf",
        )
        self.netlist("input [4096:0] a; output y; INV g (.A(a[0]), .Y(y));", "TooManyInputs")
        self.netlist("input a, b, s; output y; assign y = s ? b : a;", "NoGate", ports="a, b, s, y")
        self.netlist(
            "input [1:0] a, b; output [1:0] y; assign y = a + b;", "WidePin", ports="a, b, y"
        )
        self.write(
            "other.v", "module t (input a, b, s, output y); assign y = s ? b : a; endmodule\n"
        )
        self.read("read_verilog other.v; synth -top t; simplemap")
        self.refused("NoPrimitive", "primitives.py", "other.json", "t")
        self.wide_table(13)

    def wide_table(self, width):
        """A table of more pins than are read, which no reader of yosys makes."""
        ports = {
            "a": {"direction": "input", "bits": list(range(2, width + 2))},
            "y": {"direction": "output", "bits": [width + 2]},
        }
        ways, pins = {"A": "input", "Y": "output"}, {
            "A": ports["a"]["bits"],
            "Y": ports["y"]["bits"],
        }
        cell = {
            "type": "$lut",
            "parameters": {"LUT": "01" * 2 ** (width - 1)},
            "port_directions": ways,
            "connections": pins,
        }
        nets = {name: {"bits": port["bits"]} for name, port in ports.items()}
        self.write(
            "other.json",
            json.dumps(
                {"modules": {"t": {"ports": ports, "cells": {"g": cell}, "netnames": nets}}}
            ),
        )
        self.refused("WideCell", "primitives.py", "other.json", "t")

    def bad_words(self):
        """Words that no script knows: status 2, before any tool runs."""
        four = ("none.v", "t", LIBRARY, "none")
        for words in (
            ("from_liberty.sh", *four, "--clock"),
            ("from_liberty.sh", *four, "--clok", "c"),
            ("from_liberty.sh", *four, "--latch", "shut"),
            ("synth.sh", *four, "--allow", "All"),
            ("equivalent.sh", "--sta", *four),
            ("from_gates.sh", "none.v", "t", "none", "--kep"),
            ("figure.sh", *four, "--strategi", "lead"),
            ("testbench.py", "none.v"),
        ):
            ended = self.script(*words)
            if ended.status != 2 or ended.out or "NoFile" in ended.err:
                self.tested.fault(f"{' '.join(words)}: status 2 in place of {ended}"[:600])
            self.tested.case("refused")

    def scripts(self):
        """What the other scripts refuse."""
        self.write("dark.v", "module t (input a, output y); DARK g (.A(a), .Y(y)); endmodule\n")
        self.refused("ToolFailed", "from_liberty.sh", "dark.v", "t", "strange.lib", "gates")
        self.bad_words()
        self.write(
            "latch.v", "module t (input e, d, output reg q); always @* if (e) q = d; endmodule\n"
        )
        self.refused("SameFile", "from_liberty.sh", "dark.v", "t", LIBRARY, "dark")
        self.refused("UnmappedCells", "synth.sh", "latch.v", "t", LIBRARY, "cells")
        self.refused("ToolFailed", "synth.sh", "latch.v", "none", LIBRARY, "cells")
        text = read(self.tested.folder, "base.v")
        self.write("wrong.v", re.sub(r"^nand ", "and ", text, flags=re.M))
        self.write("wrong.shell.v", read(self.tested.folder, "base.shell.v"))
        self.refused("NotEquivalent", "equivalent.sh", "base_cells.v", "t", LIBRARY, "wrong")
        for name, text in (
            ("BenchSyntax", "INPUT a\n"),
            ("BenchKind", "INPUT(a)\nOUTPUT(y)\ny = MUX(a, a, a)\n"),
            ("BenchNet", "OUTPUT(y)\n"),
        ):
            self.write("other.bench", text)
            self.refused(name, "bench.py", "other.bench")
        self.refused("BadDump", "view.py", "base.v", "base.v")
        self.write("base.vcd", self.tested.run("sim", "base.v", "00", "11", "--vcd", "-").out)
        self.refused("NoPath", "view.py", "base.vcd", "base.v")


def work(tested):
    """All of them."""
    cases = Refusals(tested)
    cases.sdf()
    cases.words()
    cases.cells()
    cases.scripts()
