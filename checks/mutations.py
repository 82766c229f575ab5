#!/usr/bin/env python3
"""Gives all commands mutated netlists, certificates and command lines.

The corpus is made from examples/: its small netlists, and certificates of every version that
`worst` writes of them, of whole questions and of the parts of some. Each case takes one command,
mutates some of its netlist, certificate and words, and runs it. A run must not crash; must end
within 10 seconds, with a status that docs/MANUAL.md has; has one line on standard error, `tdelay:
..`, where the status is 1, 2 or 5, or 4 of `join` (or what the library of command lines says, with
status 2), and none elsewhere but lines of progress; an `exact` answer has a certificate that
`check` accepts with its time; and where tools/second_opinion.py reads the same netlist, its verdict
on the certificate is that of `check`. The files of the first run that did anything else are kept in
DIR, where `--keep DIR` names one. Of each command a fair share of the runs has to end well, and a
fair share of all with each status.
"""

import re
import shutil
import sys

from lib import check, places, reports, running

import second_opinion

CASES = 4000
# The longest that a run may take, in seconds.
LONGEST = 10
SMALL = ["c17.v", "hazard.v", "inverter.v", "late_fall.v", "lost_pulse.v", "passed_pulse.v"]
STATUSES = {
    "sim": {0, 1, 2, 5},
    "path": {0, 1, 2, 5},
    "bound": {0, 1, 2, 5},
    "worst": {0, 1, 2, 3, 5},
    "parts": {0, 1, 2, 5},
    "join": {0, 1, 2, 4, 5},
    "info": {0, 1, 2, 5},
    "check": {0, 1, 2, 4, 5},
}
WRITTEN = ("out.cert", "out.vcd")
TOKENS = [
    b"module",
    b"endmodule",
    b"input",
    b"output",
    b"wire",
    b"and",
    b"nand",
    b"or",
    b"nor",
    b"xor",
    b"xnor",
    b"not",
    b"buf",
    b"inout",
    b"reg",
    b"assign",
    b"(",
    b")",
    b"[",
    b"]",
    b",",
    b";",
    b":",
    b"#",
    b"#(1,2)",
    b"#(1,2,3)",
    b"1'b0",
    b"1'b1",
    b"1'bx",
    b"4096",
    b"1000000001",
    b"(*",
    b"*)",
    b"//",
    b"/*",
    b"*/",
    b"\\",
    b"`timescale 1ns/1ps",
    b"`celldefine",
    b"`define",
    b"\n",
    b"\r",
    b"\0",
    b"\xff",
    b'"',
    b"1.5",
    b"1e3",
]
LINES = [
    b"tdelay-cert 1",
    b"tdelay-cert 2",
    b"tdelay-cert 3",
    b"tdelay-cert 4",
    b"s 0",
    b"s 1",
    b"b a 0",
    b"b t 3",
    b"b m 1000000000000000000",
    b"b e 3",
    b"b n 2",
    b"p 3",
    b"none",
    b"x",
    b"f 2",
    b"w 2 1 1",
    b"g 0 1",
    b"l 0 0",
    b"e 2 0 1 0 0",
    b"r 4",
    b"q 3",
    b"time 99",
    b"flips 1",
    b"hold .",
    b"at 7",
    b"",
    b"s 99999999999999999999",
]


def mutated(rng, text, pieces, corpus):
    """A text with some of it changed, put in, left out or doubled."""
    text = bytearray(text)
    for _ in range(rng.choice([1, 1, 1, 2, 3, 8])):
        at, end = sorted((rng.randint(0, len(text)), rng.randint(0, len(text))))
        end = min(end, at + rng.choice([1, 4, 40, 10**6]))
        kind = rng.randrange(7)
        if kind == 0 and text:
            text[at % len(text)] = rng.randrange(256)
        elif kind == 1:
            text[at:at] = b" " + rng.choice(pieces) + b" "
        elif kind == 2:
            del text[at:end]
        elif kind == 3:
            text[at:at] = text[at:end]
        elif kind == 4:
            other = rng.choice(corpus)
            start = rng.randint(0, len(other))
            text[at:end] = other[start : start + rng.randint(0, 60)]
        elif kind == 5:
            number = rng.choice(
                [
                    b"0",
                    b"1",
                    b"2",
                    b"7",
                    b"4096",
                    b"1000000000",
                    b"1000000001",
                    b"99999999999999999999",
                    b"00",
                ]
            )
            found = list(re.finditer(rb"[0-9]+", text))
            if found:
                one = rng.choice(found)
                text[one.start() : one.end()] = number
        else:
            lines = bytes(text).split(b"\n")
            lines[rng.randrange(len(lines))] = rng.choice(pieces)
            text = bytearray(b"\n".join(lines))
    return bytes(text)


def vector(rng, inputs, letters):
    """A word for a vector, mostly of the right length."""
    count = max(0, inputs + rng.choice([0] * 40 + [-1, 1]))
    return "".join(rng.choice(letters) for _ in range(count)) or "none"


def pins(rng, inputs, chance=0.2):
    words = []
    for option in ("--first", "--second"):
        if rng.random() < chance:
            words += [option, vector(rng, inputs, "01.")]
    return words


def moments(rng, inputs, chance=0.3):
    return (
        ["--at", ",".join(str(rng.choice([0, 1, 2, 7, 10**9])) for _ in range(inputs))]
        if rng.random() < chance
        else []
    )


def question(rng, inputs):
    """Options that say which pairs are asked about, and when the inputs change."""
    words = pins(rng, inputs)
    if rng.random() < 0.2:
        words += ["--hold", vector(rng, inputs, "..=")]
    if rng.random() < 0.2:
        words += ["--flips", str(rng.choice([0, 1, 2, 5, 4097]))]
    return words + moments(rng, inputs)


def flags(rng, *names):
    """Some of these options: a flag, or an option with one of its values."""
    return [
        word
        for name, *values in names
        if rng.random() < 0.3
        for word in [name, *([rng.choice(values)] if values else [])]
    ]


def pair_words(rng, inputs):
    return [vector(rng, inputs, "0011x"), vector(rng, inputs, "0011x"), *moments(rng, inputs)]


def sim_words(rng, inputs):
    return ["t.v", *pair_words(rng, inputs), *flags(rng, ("--vcd", "out.vcd"))]


def path_words(rng, inputs):
    return ["t.v", *pair_words(rng, inputs), *flags(rng, ("--output", "y", "N22", "nothing"))]


def bound_words(rng, inputs):
    words = [*pins(rng, inputs), *moments(rng, inputs)]
    return ["t.v", *words, *flags(rng, ("--edges",), ("--outputs",), ("--earliest",))]


def worst_words(rng, inputs):
    words = [
        "t.v",
        "--budget",
        str(rng.choice([0, 1, 10, 300, 3000])),
        *question(rng, inputs),
        "--cert",
        "out.cert",
    ]
    more = (
        ("--workers", "1", "2", "4"),
        ("--strategy", "least", "lead", "lead"),
        ("--path",),
        ("--progress",),
        ("--vcd", "out.vcd"),
    )
    return words + flags(rng, *more)


def parts_words(rng, inputs):
    count = str(rng.choice([1, 2, 3, 7, 40, 0, 65537]))
    return [
        "t.v",
        "--parts",
        count,
        *question(rng, inputs),
        *flags(rng, ("--strategy", "least", "lead")),
    ]


def join_words(rng, inputs):
    names = rng.choice(
        [["p0", "p1"], ["p0", "p1"], ["p1", "p0"], ["p0"], ["p0", "p1", "c"], ["c", "p1"]]
    )
    return [
        "t.v",
        *names,
        *(question(rng, inputs) if rng.random() < 0.3 else []),
        *flags(rng, ("--check",), ("--no-check",), ("--cert", "out.cert")),
    ]


WORDS = {
    "sim": sim_words,
    "path": path_words,
    "bound": bound_words,
    "worst": worst_words,
    "parts": parts_words,
    "join": join_words,
    "info": lambda rng, inputs: ["t.v"],
    "check": lambda rng, inputs: ["t.v", "c"],
}


def command(rng, inputs):
    """The words of a command on `t.v`, `c` and the parts `p0` and `p1`."""
    name = rng.choice(list(WORDS))
    words = [name, *WORDS[name](rng, inputs)]
    if rng.random() < 0.1:
        words += ["--default-rise", str(rng.choice([1, 7, 10**9, 0, 10**9 + 1]))]
    return words


def mangled(rng, words):
    """Words of which one is changed, left out or doubled."""
    words = list(words)
    place = rng.randrange(len(words))
    kind = rng.randrange(4)
    if kind == 0:
        del words[place]
    elif kind == 1:
        words.insert(place, words[place])
    elif kind == 2:
        words[place] = "".join(rng.choice("01x.=-, \u00e9/abc") for _ in range(rng.randint(0, 9)))
    else:
        words.insert(
            place,
            rng.choice(
                [
                    "--budget",
                    "--cert",
                    "--at",
                    "-h",
                    "--",
                    "-",
                    "--workers=0",
                    "--flips=-1",
                    "--parts=0",
                    "stdin",
                    "",
                ]
            ),
        )
    return words


def inputs_of(text):
    """How many bits a netlist takes, 2 where nobody can say."""
    try:
        return second_opinion.read_circuit(text).inputs
    except second_opinion.Refusal:
        return 2


class Netlist:
    """A small netlist with certificates of every version, and those of two of its parts."""

    def __init__(self, tested, name):
        with open(places.example(name), "rb") as file:
            self.text = file.read()
        tested.write("t.v", self.text)
        self.inputs = inputs_of(self.text)
        whole = [
            [],
            ["--flips", "1"],
            ["--at", ",".join(["3"] * self.inputs)],
            ["--strategy", "lead"],
            ["--strategy", "refute"],
        ]
        self.certificates = [certificate_of(tested, words) for words in whole]
        free = "." * (self.inputs - 1)
        self.parts = [
            certificate_of(tested, ["--first", bit + free, "--second", "." + free]) for bit in "01"
        ]


def certificate_of(tested, words):
    """The certificate of a search of `t.v`."""
    tested.remove("out.cert")
    done = tested.run("worst", "t.v", "--cert", "out.cert", *words)
    certificate = tested.read("out.cert")
    if done.status != 0 or certificate is None:
        raise RuntimeError(
            f"worst {words}: status {done.status}, {done.out}{done.err}, no certificate"
        )
    return certificate


def fault_of_exact(tested, words, out):
    """What is wrong with the certificate of an exact answer, None where nothing is."""
    time = reports.figures_of(out.decode()).low
    defaults = [
        word
        for at, word in enumerate(words)
        if word.startswith("--default") or at and words[at - 1].startswith("--default")
    ]
    checked = tested.run("check", "t.v", "out.cert", *defaults, seconds=LONGEST)
    if reports.accepted_time(checked.out) != time:
        return f"its certificate is not accepted: {checked.out}{checked.err}"
    return None


def fault_of_check(texts, done):
    """What is wrong with a verdict, by the second opinion, None where nothing is."""
    out, fault, status = second_opinion.told(
        lambda: second_opinion.check(texts["t.v"], second_opinion.Told(), texts["c"])
    )
    if (done.status, done.out.decode()) != (status, out):
        return f"the second opinion says {status}: {out}{fault}"
    return None


# A line of progress.
PROGRESS = (
    rb"(?:nodes \d+|units \d+ question \d+)(?: low \d+ high \d+(?: open \d+)?)?"
    rb"(?: seconds \d+ rate \d+)?\n"
)


def fault_of_error(words, done):
    """What is wrong with standard error, None where nothing is."""
    error = done.err
    if "--progress" in words:
        error = re.sub(PROGRESS, b"", error)
    one_line = re.fullmatch(rb"tdelay: [^\n]*\n", error)
    if done.status in (1, 5) or done.status == 4 and words[0] == "join":
        return None if one_line else "standard error"
    return None if bool(error) == (done.status == 2) else "standard error"


def fault_of(tested, words, done, texts):
    """What is wrong with a run, None where nothing is."""
    if done.status not in STATUSES.get(words[0] if words else "", {0, 2}) | {0, 2}:
        return f"status {done.status}"
    if (
        done.status in (1, 2, 5)
        and done.out
        and not (done.status == 5 and b"cannot write" in done.err)
    ):
        return "standard output"
    if done.status in (0, 3, 4) and not done.out and not (done.status == 4 and words[0] == "join"):
        return "nothing on standard output"
    fault = fault_of_error(words, done)
    if fault is None and done.status == 0 and words[0] == "worst" and b"\nexact " in done.out:
        return (
            fault_of_exact(tested, words, done.out) if tested.read("out.cert") is not None else None
        )
    if fault is None and words == ["check", "t.v", "c"]:
        return fault_of_check(texts, done)
    return fault


def made_up(rng, corpus):
    """The words of a command, and the texts of its files, some of them mutated."""
    one = rng.choice(corpus)
    texts = {
        "t.v": one.text,
        "c": rng.choice(one.certificates),
        "p0": one.parts[0],
        "p1": one.parts[1],
    }
    words = command(rng, one.inputs)
    what = rng.random()
    if what < 0.35:
        texts["t.v"] = mutated(rng, one.text, TOKENS, [it.text for it in corpus])
    elif what < 0.7 and words[0] in ("check", "join"):
        name = "c" if words[0] == "check" else rng.choice(["p0", "p1"])
        texts[name] = mutated(
            rng, texts[name], LINES, [text for it in corpus for text in it.certificates]
        )
    elif what < 0.8:
        words = mangled(rng, words)
    return words, texts


def keep(tested):
    """Keeps the files of the first wrong run where a folder is named for them."""
    if tested.asked.keep and tested.wrong == 0:
        shutil.rmtree(tested.asked.keep, ignore_errors=True)
        shutil.copytree(tested.folder, tested.asked.keep)


def work(tested):
    rng = tested.random
    corpus = [Netlist(tested, name) for name in SMALL]
    while True:
        words, texts = made_up(rng, corpus)
        for name, text in texts.items():
            tested.write(name, text)
        tested.remove(*WRITTEN)
        try:
            done = tested.run_bytes(*words, seconds=LONGEST)
        except running.Hangs:
            keep(tested)
            raise
        fault = fault_of(tested, words, done, texts)
        if fault is not None:
            keep(tested)
            tested.fault(f"{fault}: {words}: {done}"[:1000])
        name = words[0] if words and words[0] in STATUSES else "other words"
        tested.case(f"{name}: status {done.status}", f"all: status {done.status}", name)


def shares(tested, _cut):
    for name in STATUSES:
        # `join` refuses parts that don't fill the question, which mutated words often narrow.
        tested.require(f"{name}: status 0", 0.05 if name == "join" else 0.1, of=name)
    tested.require("worst: status 3", 0.01, of="worst")
    tested.require("check: status 4", 0.005, of="check")
    tested.require("join: status 4", 0.05, of="join")
    tested.require("all: status 1", 0.1)
    tested.require("all: status 2", 0.05)


if __name__ == "__main__":
    keeping = {
        "--keep": {"metavar": "DIR", "help": "where the files of the first wrong run are kept"}
    }
    sys.exit(check.main(work, __doc__, CASES, shares, keeping))
