#!/usr/bin/env python3
"""Runs all commands on texts that are cut, deep, and at each limit, and compares how they end with
the documents.

Each front of a netlist's text and of certificates of every version, byte by byte; a certificate of
100,000 nested splits; a chain of 100,000 gates through each command; 200,000 gates of two inputs in
a hundred layers, searched, cut, joined and checked; and each limit of docs/model/netlists.md,
docs/CERTIFICATE.md and docs/MANUAL.md at its value and one beyond. Each case is how one run ends.
"""

import sys

from lib import check, reports
from lib.netlists import INVERTER, LOST, buffers, chain, layered, module, terminals

# The longest that a run on a large input may take, in seconds.
LONGEST = 40
LARGE = 1_000_000_000
MOST_BYTES = 67_108_864
HEAD = "unit 1 ns\ndefaulted 0\n"
TWO = module("a, b", "y", "buf #4 s(t,a)", "or #1 g(y,b,t)")
OF_TWO = "first ..\nsecond ..\nhold ..\n"
# Certificates of the versions.
CERTIFICATES = [
    (INVERTER, "tdelay-cert 1\ncircuit 1 1\ntime 3\nfrom 0\nto 1\nb a 3\n"),
    (TWO, f"tdelay-cert 2\ncircuit 2 2\n{OF_TWO}flips 1\ntime 5\nfrom 00\nto 10\nb a 5\n"),
    (TWO, f"tdelay-cert 3\ncircuit 2 2\n{OF_TWO}flips 2\nat 0 2\ntime 5\nfrom 00\nto 10\nb a 5\n"),
    (
        TWO,
        f"tdelay-cert 4\ncircuit 2 2\ndefault 1 1\noutput all\n{OF_TWO}flips 2\nat 0 0\nkeep none\n"
        "time 5\nhigh 5\nfrom 00\nto 10\nb e 5\n",
    ),
]


def fault(text):
    """How a run ends that refuses a netlist."""
    return 1, "", f"tdelay: netlist fault {text}\n"


class Limits:
    """The cases, by what is cut, deep or large."""

    def __init__(self, tested):
        self.tested = tested

    def run(self, *words):
        return tuple(self.tested.run(*words, seconds=LONGEST))

    def expect(self, what, wanted, *words):
        """A case: how a run ends."""
        self.tested.expect(what, wanted, self.run(*words))

    def report(self, what, lines, *words):
        """A case: what a run reports after `unit` and `defaulted`."""
        self.expect(what, (0, HEAD + lines, ""), *words)

    def sim(self, what, text, wanted, *vectors):
        """A case: a run of a netlist, where `wanted` is a moment with the whole of it."""
        self.tested.write("t.v", text)
        got = status, out, err = self.run("sim", "t.v", *(vectors or ("0", "1")))
        if isinstance(wanted, int):
            wanted, got = (0, f"time {wanted}", ""), (
                status,
                out.splitlines()[-1:] and out.splitlines()[-1],
                err,
            )
        self.tested.expect(what, wanted, got)

    def fronts_of_a_netlist(self):
        text = INVERTER.replace("module t(", "module t (")
        for length in range(len(text)):
            front = text[:length]
            line, word = 1 + front.count("\n"), front.split("\n")[-1].split(" ")[-1]
            wanted = fault(f"2 UnexpectedEnd at line {line}")
            if 1 <= length <= 5:
                wanted = fault("3 Syntax at line 1")
            elif length in (*range(18, 22), *range(27, 32), 37, 38, *range(56, 64)):
                wanted = fault(f"4 OutOfSubset at line {line} ({word})")
            self.sim(f"front of {length} bytes", front, 3 if length == 64 else wanted)

    def fronts_of_certificates(self):
        for text, certificate in CERTIFICATES:
            self.tested.write("t.v", text)
            self.tested.write("c", certificate)
            status, out, err = self.run("check", "t.v", "c")
            self.tested.expect(
                "a whole certificate", (0, "accepted", ""), (status, out.split(" ")[0], err)
            )
            for length in range(len(certificate)):
                front = certificate[:length]
                self.tested.write("c", front)
                ends = f"certificate fault 2 UnexpectedEnd at line {1 + front.count(chr(10))}\n"
                self.expect(
                    f"front of {length} bytes of {certificate[:13]}",
                    (1, "", f"tdelay: {ends}"),
                    "check",
                    "t.v",
                    "c",
                )
                self.expect(
                    f"front of {length} bytes as a part",
                    (1, "", f"tdelay: c: {ends}"),
                    "join",
                    "t.v",
                    "c",
                )

    def nested_splits(self):
        self.tested.write("t.v", LOST)
        self.tested.write(
            "c",
            "tdelay-cert 1\ncircuit 1 2\ntime 0\nfrom 0\nto 1\n"
            + "s 0\n" * 100_000
            + "b a 0\n" * 100_001,
        )
        self.expect("nested splits", (4, "refused 5 BadPosition line 7\n", ""), "check", "t.v", "c")
        self.expect(
            "nested splits, as a part",
            (4, "", "tdelay: c: refused 5 BadPosition line 7\n"),
            "join",
            "t.v",
            "c",
            "--check",
        )

    def long_chain(self):
        """A chain of 100,000 gates through each command."""
        last = "w100000"
        self.tested.write("t.v", chain(100_000))
        self.report("a chain", f"last {last} 100000\ntime 100000\n", "sim", "t.v", "0", "1")
        changes = ["change 0 w0 0 1 input\n"] + [
            f"change {place} w{place} 0 1 buf 1\n" for place in range(1, 100_001)
        ]
        self.report("its path", "".join(changes), "path", "t.v", "0", "1")
        self.report(
            "its bounds",
            "a 100000\nt none\nm 100000\ne 100000\nn 100000\n",
            "bound",
            "t.v",
            "--edges",
        )
        self.report(
            "its worst delay",
            "exact 100000\nfrom 0\nto 1\nnodes 1\n",
            "worst",
            "t.v",
            "--cert",
            "c",
        )
        self.report(
            "by four workers",
            "exact 100000\nfrom 0\nto 1\nnodes 1\n",
            "worst",
            "t.v",
            "--workers",
            "4",
        )
        self.expect("its certificate", (0, "accepted 100000\n", ""), "check", "t.v", "c")
        self.expect(
            "its parts",
            (0, "--first 0 --second .\n--first 1 --second .\n", ""),
            "parts",
            "t.v",
            "--parts",
            "2",
        )
        for bit in "01":
            ended = self.run("worst", "t.v", "--first", bit, "--second", ".", "--cert", f"p{bit}")
            self.tested.expect(
                "a part",
                (0, "100000", ""),
                (ended[0], reports.values_of(ended[1]).get("exact"), ended[2]),
            )
        ended = self.run("join", "t.v", "p0", "p1", "--check", "--cert", "c")
        self.tested.expect(
            "the parts joined",
            (0, "100000", ""),
            (ended[0], reports.values_of(ended[1]).get("exact"), ended[2]),
        )
        self.expect("the joined certificate", (0, "accepted 100000\n", ""), "check", "t.v", "c")
        sizes = "inputs 1\noutputs 1\ngates 100000\ndefaulted 0\ndepth 100000\ndelay 1 1\n"
        self.expect(
            "what is in it",
            (0, f"module t\nunit 1 ns\n{sizes}input 0 w0\noutput 0 {last}\n", ""),
            "info",
            "t.v",
        )

    def many_gates(self):
        """200,000 gates in layers: what each command says agrees with the others."""
        zeros, ones = "0" * 64, "1" * 64
        self.tested.write("t.v", layered(200_000, 64, 2000))
        pins = ["--first", zeros, "--second", ones]
        status, out, err = self.run("sim", "t.v", zeros, ones)
        time = reports.values_of(out).get("time")
        self.tested.expect("a run", (0, True, ""), (status, (time or "").isdigit(), err))
        self.report(
            "its worst delay",
            f"exact {time}\nfrom {zeros}\nto {ones}\nnodes 1\n",
            "worst",
            "t.v",
            *pins,
            "--cert",
            "c",
        )
        self.expect(
            "its certificate",
            (0, f"accepted {time}\nfirst {zeros}\nsecond {ones}\nhold {'.' * 64}\nflips 64\n", ""),
            "check",
            "t.v",
            "c",
        )
        about = f"first {zeros}\nsecond {ones}\nhold {'.' * 64}\nflips 64\n"
        self.report(
            "joined alone",
            f"exact {time}\nfrom {zeros}\nto {ones}\nnodes 1\n{about}",
            "join",
            "t.v",
            "c",
            *pins,
        )
        self.expect(
            "its part", (0, " ".join(pins) + "\n", ""), "parts", "t.v", "--parts", "2", *pins
        )
        status, out, err = self.run("worst", "t.v", "--budget", "2", "--workers", "2")
        figures = reports.figures_of(out)
        self.tested.expect(
            "a search cut short",
            (3, True, ""),
            (status, figures is not None and figures.high >= int(time), err),
        )

    def limits_of_netlists(self):
        one = "output y; buf #1 (y,a[0]); endmodule\n"
        self.sim("1,024 terminals", terminals(1024), 1)
        self.sim("1,025 terminals", terminals(1025), fault("14 TooMany at line 4"))
        self.sim(
            "4,096 inputs",
            f"module t(a, y); input [4095:0] a; {one}",
            1,
            "0" * 4096,
            "0" * 4095 + "1",
        )
        self.sim(
            "4,097 inputs",
            f"module t(a, y);\ninput [4096:0] a; {one}",
            fault("14 TooMany at line 2"),
        )
        self.sim(
            "a range's number",
            f"module t(a, y); input a; output y; wire [{LARGE}:{LARGE}] w;\n"
            "buf #1 (y,a); endmodule\n",
            1,
        )
        self.sim(
            "the next one",
            f"module t;\nwire [{LARGE + 1}:{LARGE + 1}] w;\nendmodule\n",
            fault("14 TooMany at line 2"),
        )
        self.sim("200,000 gates", buffers(200_000), 1)
        self.sim("200,001 gates", buffers(200_001), fault("14 TooMany at line 200004"))
        self.sim("a delay", module("a", "y", f"buf #{LARGE} (y,a)"), LARGE)
        self.sim(
            "the next one",
            module("a", "y", f"buf #{LARGE + 1} (y,a)"),
            fault("7 DelayTooLarge at line 4"),
        )
        self.sim("a text", INVERTER + " " * (MOST_BYTES - len(INVERTER)), 3)
        self.sim(
            "a byte more",
            INVERTER + " " * (MOST_BYTES + 1 - len(INVERTER)),
            fault("14 TooMany at line 1"),
        )

    def status(self, what, wanted, *words):
        """A case: the exit status of a run."""
        self.tested.expect(f"{what}: {words}", wanted, self.run(*words)[0])

    def limits_of_words(self):
        self.tested.write("t.v", INVERTER)
        for option, last in (
            ("--workers", 64),
            ("--budget", 10_000_000),
            ("--default-rise", LARGE),
            ("--default-fall", LARGE),
        ):
            self.status("the last one", 0, "worst", "t.v", option, str(last))
            self.status("the next one", 2, "worst", "t.v", option, str(last + 1))
        for words in (["worst", "t.v"], ["parts", "t.v", "--parts", "2"]):
            self.status("the last one", 0, *words, "--flips", str(2**64 - 1))
            self.status("the next one", 2, *words, "--flips", str(2**64))
        for words in (
            ["sim", "t.v", "0", "1"],
            ["path", "t.v", "0", "1"],
            ["bound", "t.v"],
            ["worst", "t.v"],
            ["parts", "t.v", "--parts", "2"],
        ):
            self.status("a moment", 0, *words, "--at", str(LARGE))
            self.status("the next one", 2, *words, "--at", str(LARGE + 1))
        for count, status in ((0, 2), (1, 0), (65_536, 0), (65_537, 2)):
            self.status("parts", status, "parts", "t.v", "--parts", str(count))
        self.status("no worker", 2, "worst", "t.v", "--workers", "0")
        self.status("no certificate", 2, "join", "t.v")


def work(tested):
    limits = Limits(tested)
    limits.fronts_of_a_netlist()
    limits.fronts_of_certificates()
    limits.nested_splits()
    limits.long_chain()
    limits.many_gates()
    limits.limits_of_netlists()
    limits.limits_of_words()


if __name__ == "__main__":
    sys.exit(check.main(work, __doc__))
