#!/usr/bin/env python3
"""Tests of the tools that stand beside the program: tools/second_opinion.py with its reader of
netlists, and tools/drawing.py.

By its command line the second opinion has to print what the program prints, with its exit status:
of the netlists in examples/ and random pairs `sim` and `path`, of certificates that `worst` writes,
whole and changed, `check`, and of netlists and words that are refused the status and the kind. The
pictures in examples/ and examples/from_rtl/ are what drawing.py makes of the waves that the program
writes for a command of the same section of the README.md there. A picture is well-formed, as wide
as is asked for and of the nets that are, and a text that is no dump is refused.
"""

import os
import re
import sys
from xml.etree import ElementTree

from lib import check, places, running

CASES = 100
# How many cases stand in lists.
OF_LISTS = 60
SECOND, DRAWING = (os.path.join(places.TOOLS, name) for name in ("second_opinion.py", "drawing.py"))
SMALL = [
    "c17.v",
    "hazard.v",
    "inverter.v",
    "late_fall.v",
    "lost_pulse.v",
    "passed_pulse.v",
    "adder_8.v",
]
# Netlists that are refused, with what standard error begins with.
REFUSED = [
    ("module t(a, y); input a; output y; nand #0 g(y,a); endmodule", "tdelay: netlist fault"),
    (
        "module t(a, y); input a; output y; buf #1 g(y,a); not #1 h(y,a); endmodule",
        "tdelay: netlist fault",
    ),
    (
        "module t(a, q); input a; output q; nand #1 g(q,a,q); endmodule",
        "tdelay: circuit fault 1 Loop",
    ),
    ("module t(a, y); input a; output y; buf #1 g(y,a);", "tdelay: netlist fault"),
    ("module t(a, y); input a; output y; buf #1 g(y,b); endmodule", "tdelay: netlist fault"),
]


def second(tested, *words):
    """How the second opinion ends."""
    return running.run([sys.executable, SECOND, *words], tested.folder)


def draw(tested, *words):
    return running.run([sys.executable, DRAWING, *words], tested.folder)


def agrees(tested, *words):
    """A case: both print the same to these words, and end with one status."""
    ours, theirs = second(tested, *words), tested.run(*words)
    tested.expect(
        f"{' '.join(words)}, by the second opinion",
        tuple(theirs),
        tuple(ours),
        f"both say status {theirs.status}",
    )


def drawn_of(tested, command):
    """The picture of the waves that a command of a page writes."""
    tested.remove("out.vcd")
    tested.run(*command.split(), "--vcd", os.path.join(tested.folder, "out.vcd"), folder=places.TOP)
    return draw(tested, "out.vcd").out


def drawn_by_path(tested, command):
    """The same of the nets on the path to its pair's last change, as run.sh there draws it."""
    tested.remove("out.vcd")
    dump = os.path.join(tested.folder, "out.vcd")
    report = tested.run(*command.split(), "--path", "--vcd", dump, folder=places.TOP).out
    running.write(tested.folder, "out.txt", report)
    return draw(tested, "out.vcd", "--width", "900", "--path", "out.txt").out


def pictures(tested, folder, drawn, least):
    """Cases: the pictures of a folder are what is drawn of the waves of a command beside them."""
    count = 0
    for section in re.split(r"(?m)^## ", places.text_of(folder, "README.md")):
        commands = [
            re.sub("^path ", "sim ", it)
            for it in re.findall(r"(?m)^\./tdelay ((?:sim|path|worst) .*)$", section)
        ]
        for name in re.findall(r"!\[.*?\]\((\w+\.svg)\)", section):
            count += 1
            wanted = places.text_of(folder, name)
            found = [command for command in commands if drawn(tested, command) == wanted]
            tested.expect(f"{name} is drawn of one of {commands}", True, bool(found), "picture")
            elements = [it.tag.rpartition("}")[2] for it in ElementTree.fromstring(wanted).iter()]
            tested.expect(f"lines of {name}", True, "polyline" in elements)
    if count < least:
        tested.fault(f"{folder}/README.md shows {count} pictures, where there have to be {least}")


def parts_of(picture):
    """The width of a picture, the names of its nets in order, and how many lines it has of them."""
    root = ElementTree.fromstring(picture or "<none/>")
    tags = [(it.tag.rpartition("}")[2], it) for it in root.iter()]
    names = [it.text for tag, it in tags if tag == "text" and it.get("text-anchor") == "end"]
    return root.get("width"), names, sum(tag == "polyline" for tag, _ in tags)


def choices(tested):
    """Cases: pictures of a width, of chosen nets, and of the nets of a path."""
    tested.write("t.v", places.text_of("examples", "hazard.v"))
    tested.run("sim", "t.v", "111", "011", "--vcd", "out.vcd")
    tested.write("path", tested.run("path", "t.v", "111", "011").out)
    every = parts_of(draw(tested, "out.vcd").out)[1]
    for words, width, names in (
        ([], None, ["s", "a", "b", "n", "p", "q", "y"]),
        (["--width", "900"], 900, every),
        (["--nets", "y,s"], None, ["y", "s"]),
        (["--path", "path"], None, ["s", "n", "q", "y"]),
        (["--path", "path", "--width", "300"], 300, ["s", "n", "q", "y"]),
    ):
        done = draw(tested, "out.vcd", *words)
        got_width, *got = parts_of(done.out)
        near = width is None or abs(float(got_width or 0) - width) < 1
        tested.expect(
            f"a picture by {words}", (0, True, [names, len(names)]), (done.status, near, got)
        )
    for words in (["--nets", "other"], ["--width", "10"], ["--width", "x"], ["--path", "t.v"]):
        done = draw(tested, "out.vcd", *words)
        tested.expect(
            f"no picture by {words}", (True, "", True), (done.status != 0, done.out, bool(done.err))
        )


def bad_dumps(tested):
    """Cases: texts that are no dumps, which are not drawn."""
    for name, text in (("empty", ""), ("text", "no dump\n"), ("cut", "$var wire 1 ! a $end\n")):
        tested.write(name, text)
        done = draw(tested, name)
        tested.expect(
            f"a picture of {name}", (True, "", True), (done.status != 0, done.out, bool(done.err))
        )
    done = draw(tested, "absent")
    tested.expect("a picture of no file", (True, ""), (done.status != 0, done.out))


def refusals(tested):
    """Cases: what is refused, by both with one status and kind."""
    for text, kind in REFUSED:
        tested.write("t.v", text)
        for words in (("sim", "t.v", "0", "1"), ("path", "t.v", "0", "1")):
            ours, theirs = second(tested, *words), tested.run(*words)
            got = [(it.status, it.out, it.err.startswith(kind)) for it in (ours, theirs)]
            tested.expect(f"{text}: {ours}, {theirs}", [(1, "", True)] * 2, got)
    tested.write("t.v", places.text_of("examples", "c17.v"))
    for vectors in (("0", "01110"), ("01010", "0111z"), ("none", "01110")):
        agrees(tested, "sim", "t.v", *vectors)
        agrees(tested, "path", "t.v", *vectors)
    agrees(tested, "path", "t.v", "01010", "01110", "--output", "N3")
    agrees(tested, "sim", "t.v", "01010", "01110", "--at", "0,0,0,0")
    agrees(tested, "sim", "absent.v", "01010", "01110")
    agrees(tested, "check", "t.v", "absent")


def certificates(tested):
    """Cases: certificates of searches, whole and changed."""
    for words in (
        ["--flips", "2"],
        ["--at", "0,1,2,3,4"],
        ["--strategy", "lead"],
        ["--first", "0...."],
        [],
    ):
        tested.run("worst", "t.v", *words, "--cert", "c")
        agrees(tested, "check", "t.v", "c")
    text = tested.read("c") or b""
    for old, new in (
        (b"time 3", b"time 2"),
        (b"b a 3", b"b a 2"),
        (b"b a 3", b"s 10\nb a 3\nb a 3"),
        (b"circuit 5 6", b"circuit 5 7"),
        (b"cert 1", b"cert 9"),
    ):
        tested.write("c", text.replace(old, new))
        agrees(tested, "check", "t.v", "c")
    tested.write("c", text + b"b a 3\n")
    agrees(tested, "check", "t.v", "c")


def random_pairs(tested, count):
    """Cases: `sim` and `path` of random pairs."""
    rng = tested.random
    for _ in range(count):
        name = rng.choice(SMALL)
        tested.write("t.v", places.text_of("examples", name))
        inputs = int(re.search(r"(?m)^inputs (\d+)$", tested.run("info", "t.v").out)[1])
        vectors = ["".join(rng.choice("0101x") for _ in range(inputs)) for _ in range(2)]
        moments = ["--at", ",".join(str(rng.choice([0, 0, 1, 5])) for _ in range(inputs))]
        moments *= rng.random() < 0.5
        agrees(tested, rng.choice(["sim", "path"]), "t.v", *vectors, *moments)


def work(tested):
    pictures(tested, "examples", drawn_of, 4)
    pictures(tested, os.path.join("examples", "from_rtl"), drawn_by_path, 3)
    random_pairs(tested, max(10, tested.most - OF_LISTS))
    certificates(tested)
    choices(tested)
    bad_dumps(tested)
    refusals(tested)


def shares(tested, _cut):
    tested.require("picture", 0.02)
    tested.require("both say status 0", 0.2)


if __name__ == "__main__":
    sys.exit(check.main(work, __doc__, CASES, shares))
