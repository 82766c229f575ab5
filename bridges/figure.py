#!/usr/bin/env python3
"""figure.sh DESIGN.v TOP LIBERTY OUT [options]: from RTL to the worst delay, proved and checked.

It maps the RTL onto cells, takes their delays from OpenSTA, writes gates, looks that these do what
the design does (by yosys and by Icarus), searches for the worst delay, and checks its certificate.
From a netlist of cells the same: --netlist, or --sdf FILE with the delays of your own timing tool.
"""

import argparse
import json
import os
import re
import shlex
import shutil
import subprocess
import sys
import tempfile
from typing import Dict, List, Optional

from header import Header, slices, width
from options import kept_nets, lines_of, own, words_of
from options import text_of as options_text
from refusal import Refusal, refuse_same
from route import Cells, path_lines

HERE = os.path.dirname(os.path.realpath(__file__))
# The options of the other scripts, which take a word each.
OF_LIBERTY = ("clock", "slew", "load", "sdc", "sdf", "corner", "pins", "step", "round", "short",
              "latch", "outputs")  # fmt: skip
# What bounds may be asked about too.
OF_BOUND = ("--first", "--second", "--pin", "--at", "--output", "--default-rise", "--default-fall")
OPTIONS = """More of them may stand in
OUT.options: whole options on each line, comments after #. A net that `--keep`
names stays in the netlist by its name, though nothing reads it.

"""
STATUSES = """exit status:
  0  the figure is exact, both readers say equal, the certificate is accepted
  1  a refusal, by its name, or `none`: no pair keeps the conditions
  2  bad words, before any tool runs
  3  between two figures        4  the certificate is refused
  5  a device or memory failed  6  the gates do other than the design"""


class Failed(Exception):
    """A command that ended the run, with its status."""

    def __init__(self, status: int, said: str):
        super().__init__(said)
        self.status, self.said = status, said


def program() -> str:
    """The program: TDELAY, that of the checkout, the installed one, or that on PATH."""
    places = [os.environ.get("TDELAY"), os.path.join(HERE, "..", "tdelay")]
    places += [os.path.join(HERE, "..", "..", "..", "bin", "tdelay"), shutil.which("tdelay")]
    for place in places:
        if place and os.access(place, os.X_OK):
            return os.path.abspath(place)
    raise Refusal("NoTool", "tdelay isn't there", "install it, or set TDELAY to its path")


def run(words: List[str], statuses=(0,)) -> subprocess.CompletedProcess:
    """Runs a command that has to end well."""
    done = subprocess.run(words, capture_output=True, text=True, errors="surrogateescape")
    if done.returncode not in statuses:
        status = 6 if ": NotEquivalent: " in done.stderr else done.returncode
        raise Failed(status if 0 < status < 7 else 5, done.stderr or done.stdout)
    return done


def script(name: str) -> str:
    return os.path.join(HERE, name)


def words_of_the_line():
    words = argparse.ArgumentParser(
        prog="figure.sh", description=__doc__, allow_abbrev=False,
        formatter_class=argparse.RawDescriptionHelpFormatter,
    )  # fmt: skip
    words.add_argument("design", help="RTL or a netlist; several files as one word with spaces")
    words.add_argument("top", help="the module")
    words.add_argument("liberty", help="the library; several files as one word with spaces")
    words.add_argument("out", help="what files begin with: OUT.v, OUT.cert, OUT.vcd, OUT.json")
    words.add_argument("--netlist", action="store_true", help="DESIGN is a netlist of cells")
    words.add_argument(
        "--models",
        metavar="CELLS.v",
        default="",
        help="the library's Verilog models: the same pair on the cells, with their SDF",
    )
    words.add_argument("--json", action="store_true", help="print one JSON object")
    words.add_argument(
        "--allow",
        action="append",
        default=[],
        metavar="NAME",
        help="pass over TwoDrivers, HighZ, NoDriver, ImplicitNet or UnknownLevel",
    )
    words.add_argument("--seed", default="1", help="of the vectors of the second reader (1)")
    for name in OF_LIBERTY:
        words.add_argument(f"--{name}", metavar="WORD", help="as of from_liberty.sh")
    for name in ("--cut", "--cut-net"):
        words.add_argument(name, action="append", default=[], metavar="NAME", help="likewise")
    words.epilog = "All other options are those of `tdelay worst`. " + OPTIONS + STATUSES
    return words.parse_known_args()


def refuse_words(tdelay: str, rest: List[str], where: str = ""):
    """Options that `tdelay worst` doesn't know, and those that are given here."""
    begin = f"figure.sh: BadWord: {where}"
    for word in rest:
        if word.split("=")[0] in ("--cert", "-o", "--vcd", "--path", "-q", "--quiet"):
            raise Failed(2, f"{begin}{word} is given here: see OUT.cert, OUT.vcd\n")
        if not word.startswith("-") and word.endswith(".v"):
            raise Failed(2, f"{begin}{word} isn't an option\n")
    with tempfile.NamedTemporaryFile("w", suffix=".v") as small:
        small.write("module t (a, y); input a; output y; buf (y, a); endmodule\n")
        small.flush()
        words = [tdelay, "worst", small.name, *rest]
        done = subprocess.run(words, capture_output=True, text=True)
    # This netlist has other nets and inputs than the design.
    if done.returncode == 2 and not re.match(r"tdelay: (no|bad (?!keep)\w+) ", done.stderr):
        said = done.stderr.replace("Usage: tdelay worst", "Usage: figure.sh ..")
        raise Failed(2, (begin if where else "") + said)


def refuse_lines(tdelay: str, out: str) -> List[str]:
    """Bad words in OUT.options, by their line. Answers the words."""
    lines = lines_of(own(options_text(out)), out)
    for number, words in lines.items():
        refuse_words(tdelay, words, f"line {number} of {out}.options: ")
    return [word for words in lines.values() for word in words]


def place_in(out: str, said: str) -> str:
    """The line of OUT.options with a name of which a tool says that it isn't there."""
    lacking = re.search(r"(?:no net is called|tdelay: no (?:net|input)) (\S+)$", said, re.M)
    for number, words in lines_of(options_text(out), out).items():
        named = {re.split(r"[=\[]", word)[0].lstrip("\\") for word in words}
        if lacking and re.split(r"[=\[]", lacking[1])[0] in named:
            return f"  where: line {number} of {out}.options\n"
    return ""


# What a run writes, after OUT.
MADE = (".v", ".shell.v", ".mapped.v", ".json", ".map.json", ".options", ".cert", ".vcd",
        ".models.v", ".tb.v", ".vvp", ".cut.v", ".tcl", ".sta.log", ".yosys.log", ".equiv.log")  # fmt: skip


class Figure:
    """One run, and what it found: keys as `--json` has them."""

    def __init__(self, asked, rest: List[str], tdelay: str):
        self.asked, self.rest, self.tdelay = asked, rest, tdelay
        self.found: Dict[str, object] = {"design": asked.design, "top": asked.top}
        self.rtl = not (asked.netlist or asked.sdf)
        self.mapped = f"{asked.out}.mapped.v" if self.rtl else asked.design
        self.head: Optional[Header] = None

    def run(self) -> int:
        """All of it. Answers the status."""
        asked = self.asked
        read = f"{asked.design} {asked.liberty} {asked.models}".split()
        made = (asked.out + end for end in MADE if self.rtl or end != ".mapped.v")
        refuse_same(made, [*read, asked.sdf, asked.sdc])
        try:
            self.gates()
            self.equal()
            options = words_of(asked.out)
            status = self.worst(options)
        except Failed as failed:
            failed.said += place_in(asked.out, failed.said)
            raise
        if self.asked.models and "first" in self.found:
            self.cells(options)
        return status

    def gates(self):
        """From the design to gates with delays."""
        asked = self.asked
        kinds = [name for name in asked.allow if name != "UnknownLevel"]
        nets = [word for net in kept_nets(self.rest) for word in ("--keep-net", net)]
        if self.rtl:
            allow = [word for name in kinds for word in ("--allow", name)]
            words = [asked.design, asked.top, asked.liberty, asked.out]
            run([script("synth.sh"), *words, *allow, *nets])
        words = [script("from_liberty.sh"), self.mapped, asked.top, asked.liberty, asked.out, *nets]
        for name in OF_LIBERTY:
            given = getattr(asked, name)
            words += [f"--{name}", given] if given is not None else []
        words += [word for name in asked.cut for word in ("--cut", name)]
        words += [word for name in asked.cut_net for word in ("--cut-net", name)]
        done = run(words)
        lines = done.stderr.splitlines()
        self.found["notes"] = [line.split("note: ", 1)[1] for line in lines if "note: " in line]
        text = text_of(f"{asked.out}.v")
        self.head = Header.of(text)
        self.found["unit"] = self.head.step
        self.found["gates"] = int(re.search(r"^// ([\d,]+) gates", text, re.M)[1].replace(",", ""))
        if not asked.sdf:
            said = text_of(f"{asked.out}.sta.log")
            arrivals = re.findall(r"^\s*(-?[\d.]+)\s+data arrival time", said, re.M)
            if self.head.clocks and not (asked.clock or asked.sdc):
                note = "OpenSTA knows no clock, and its arrival no registers: --clock "
                self.found["notes"].append(note + self.head.clocks[0])
            if arrivals:
                latest = max(map(float, arrivals)) * library_unit(asked.liberty)
                self.found["opensta_ps"] = round(latest, 4)

    def equal(self):
        """That the gates do what the design does, by both readers."""
        asked = self.asked
        if asked.outputs:
            self.found["equal"] = ["not looked at: some outputs alone"]
            return
        words = [script("equivalent.sh"), "--seed", asked.seed]
        # A netlist may leave nets of one bit undeclared.
        allow = [*asked.allow, *["ImplicitNet"] * (not self.rtl)]
        words += [word for name in allow for word in ("--allow", name)]
        done = run([*words, asked.design, asked.top, asked.liberty, asked.out])
        self.found["equal"] = [line for line in done.stdout.splitlines() if line]

    def worst(self, options: List[str]) -> int:
        """The search, its certificate, and its bound."""
        out, gates = self.asked.out, f"{self.asked.out}.v"
        if options:
            self.found["options"] = " ".join(map(shlex.quote, options))
        words = for_bound([*options, *self.rest])
        bound = run([self.tdelay, "bound", gates, "--edges", "--json", *words])
        said = json.loads(bound.stdout)
        self.found["bound"] = min(
            said[key] for key in ("a", "t", "m", "e", "n") if said[key] is not None
        )
        each = "--each" in self.rest
        more = (
            [] if each else ["--path", "--outputs", "--cert", f"{out}.cert", "--vcd", f"{out}.vcd"]
        )
        more = [word for word in more if word not in self.rest]
        for stale in (f"{out}.cert", f"{out}.vcd"):
            if os.path.exists(stale):
                os.remove(stale)
        done = run([self.tdelay, "worst", gates, "--json", *more, *options, *self.rest], (0, 1, 3))
        report = json.loads(done.stdout)
        if "error" in report:
            raise Failed(done.returncode, done.stderr)
        with open(f"{out}.json", "w", encoding="utf-8") as file:
            file.write(done.stdout)
        for key in ("exact", "between", "none", "cause", "each", "output"):
            if key in report:
                self.found[key] = report[key]
        if "from" in report:
            self.found["first"] = by_ports(self.head, report["from"])
            self.found["second"] = by_ports(self.head, report["to"])
            cells = Cells(json.loads(text_of(f"{out}.map.json")))
            self.found["path"] = path_lines(cells, report.get("change", []))
        if done.returncode != 3 and not each:
            checked = subprocess.run(
                [self.tdelay, "check", gates, f"{out}.cert"], capture_output=True, text=True
            )
            if checked.returncode:
                raise Failed(checked.returncode, checked.stderr or checked.stdout)
            accepted = re.search(r"^accepted (\d+|none)", checked.stdout, re.M)[1]
            self.found["accepted"] = int(accepted) if accepted != "none" else accepted
        return done.returncode

    def cells(self, options: List[str]):
        """The last change of the same pair on the cells, by Icarus with their models and SDF."""
        out = self.asked.out
        if self.head.states or self.head.cuts:
            self.found["cells"] = "not run: registers or cuts, whose ports the cells don't have"
            return
        moments = moments_in([*options, *self.rest])
        sdf = self.asked.sdf or f"{out}.sdf"
        words = [script("testbench.py"), f"{out}.v", f"{out}.json", "--sdf", os.path.abspath(sdf)]
        done = run([*words, *(word for it in moments for word in ("--at", it))])
        fine = f"{out}.models.v"
        with open(f"{out}.tb.v", "w", encoding="utf-8", errors="surrogateescape") as file:
            file.write(done.stdout)
        with open(fine, "w", encoding="utf-8", errors="surrogateescape") as file:
            for model in self.asked.models.split():
                file.write(
                    re.sub(
                        r"(`timescale\s+\S+\s*/)\s*\w+", rf"\g<1> {self.head.step}", text_of(model)
                    )
                )
        run(["iverilog", "-g2012", "-gspecify", "-Tmax", "-s", "testbench", "-o", f"{out}.vvp",
             fine, *self.mapped.split(), f"{out}.tb.v"])  # fmt: skip
        said = run(["vvp", "-n", f"{out}.vvp"]).stdout
        self.found["cells"] = max(
            map(int, re.findall(r"^pair 0 .* (-?\d+)$", said, re.M)), default=-1
        )

    def lines(self) -> List[str]:
        """The report in words."""
        found, unit = self.found, self.found.get("unit", "")
        lines = [f"note: {note}" for note in found.get("notes", [])]
        lines += [f"unit {unit}", f"gates {found.get('gates')}"]
        if "opensta_ps" in found:
            lines.append(f"opensta {found['opensta_ps']:g} ps")
        for key in ("options", "bound", "exact", "none", "cause", "accepted", "cells", "output"):
            if key == "none" and key in found:
                lines.append("none: no pair keeps the conditions")
            elif key in found:
                said = found[key]
                named = isinstance(said, list)
                lines.append(f"{key} {' '.join(it['name'] for it in said) if named else said}")
            if key == "bound" and "between" in found:
                ends = ("none" if end is None else str(end) for end in found["between"])
                lines.append(f"between {' '.join(ends)}")
        lines += found.get("equal", [])
        for each in found.get("each", []):
            lines.append("each " + " ".join(words_in(each)))
        for key in ("first", "second"):
            if key in found:
                lines.append(
                    f"{key} " + " ".join(f"{name}={level}" for name, level in found[key].items())
                )
        return lines + [f"path {step}" for step in found.get("path", [])]


def words_in(row: dict) -> List[str]:
    """The words of a row of outputs, as its line has them."""
    found = [row["output"]]
    for key, said in list(row.items())[1:]:
        inner = isinstance(said, dict)
        known = next(iter(said.values())) if inner else said
        ends = known if isinstance(known, list) else [known]
        words = ["none" if end is None or (inner and end is True) else str(end) for end in ends]
        if inner:
            words = ["never" if words == ["0"] and key != "slack" else "..".join(words)]
        found += ["required" if key == "standing" else key, *words * (said is not True)]
    return found


def for_bound(words: List[str]) -> List[str]:
    """Those of the words that ask a bound the same question."""
    found, left = [], list(words)
    while left:
        word = left.pop(0)
        if word in OF_BOUND and left:
            found += [word, left.pop(0)]
        elif word.split("=")[0] in OF_BOUND:
            found.append(word)
    return found


def moments_in(words: List[str]) -> List[str]:
    """The moments NAME=T that options give."""
    found = [it for before, it in zip(words, words[1:]) if before == "--at"]
    return found + [word[5:] for word in words if word.startswith("--at=")]


def by_ports(head: Header, vector: str) -> Dict[str, str]:
    """A vector as a level of each port."""
    sizes = {port.name: width(port) for port in head.inputs}
    places = slices(head.inputs).items()
    return {name: spelled_level(vector[first:last], sizes[name]) for name, (first, last) in places}


def spelled_level(bits: str, size: int) -> str:
    return (
        bits
        if size == 1
        else f"{size}'h{int(bits, 2):x}"
        if set(bits) <= {"0", "1"}
        else f"{size}'b{bits}"
    )


def library_unit(liberty: str) -> float:
    """How many picoseconds the library's unit of time is."""
    found = re.search(r"time_unit\s*:\s*\"([\d.]+)\s*([munpf]?)s\"", text_of(liberty.split()[0]))
    scale = {"m": 1e9, "u": 1e6, "n": 1e3, "p": 1.0, "f": 1e-3}
    return float(found[1]) * scale.get(found[2], 1e12) if found else 1e3


def text_of(path: str) -> str:
    with open(path, encoding="utf-8", errors="surrogateescape") as file:
        return file.read()


def main() -> int:
    asked, rest = words_of_the_line()
    try:
        tdelay = program()
        refuse_words(tdelay, [*refuse_lines(tdelay, asked.out), *rest])
        figure = Figure(asked, rest, tdelay)
        status = figure.run()
    except Failed as failed:
        if asked.json:
            print(json.dumps({"refused": failed.said.strip(), "status": failed.status}))
        sys.stderr.write(failed.said)
        return failed.status
    except Refusal as refusal:
        if asked.json:
            print(json.dumps({"refused": str(refusal), "status": 1}))
        print(f"figure.sh: {refusal}", file=sys.stderr)
        return 1
    except OSError as fault:
        print(f"figure.sh: CannotOpen: {fault.filename}: {fault.strerror}", file=sys.stderr)
        return 1
    print(json.dumps(figure.found) if asked.json else "\n".join(figure.lines()))
    return status


if __name__ == "__main__":
    sys.exit(main())
