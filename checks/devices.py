#!/usr/bin/env python3
"""Runs all commands on devices that fail, and compares how they end with docs/MANUAL.md.

Standard input and output closed, a full disk (/dev/full), a directory as FILE, a name that is no
UTF-8, FIFOs, an output in a folder that isn't there or that is a directory, a file that may not be
read, standard output that is closed in the midst, outputs that are the netlist, a part or each
other, and files that are cut off. Each case is how one run ends, or what is there afterwards. As
root, files that may not be read are left out.
"""

import os
import resource
import stat
import sys
import threading

from lib import check, running
from lib.netlists import INVERTER, LOST

SIM = ["sim", "t.v", "0", "1"]
WORST = ["worst", "t.v"]
JOIN = ["join", "t.v", "p0", "p1"]
HEAD = b"unit 1 ns\ndefaulted 0\n"
REPORT = HEAD + b"last y 3\ntime 3\n"
EXACT = HEAD + b"exact 3\nfrom 0\nto 1\nnodes 1\n"
JOINED = HEAD + b"exact 3\nfrom 0\nto 1\nnodes 5\n"
SHORT = HEAD + b"between 0 3\ncause budget\nfrom 0\nto 1\nnodes 1\n"
CERTIFICATE = b"tdelay-cert 1\ncircuit 1 1\ntime 3\nfrom 0\nto 1\nb a 3\n"
WHOLE = b"tdelay-cert 1\ncircuit 1 1\ntime 3\nfrom 0\nto 1\ns 0\nb a 3\ns 1\nb a 2\nb a 0\n"
# Each command that reads a netlist, with what it reports of an inverter.
REPORTS = [
    (SIM, REPORT),
    (["path", "t.v", "0", "1"], HEAD + b"change 0 a 0 1 input\nchange 3 y 1 0 not 3\n"),
    (["bound", "t.v"], HEAD + b"a 3\nt none\nm 3\n"),
    (WORST, EXACT),
    (["parts", "t.v", "--parts", "2"], b"--first 0 --second .\n--first 1 --second .\n"),
    (
        ["info", "t.v"],
        b"module t\nunit 1 ns\ninputs 1\noutputs 1\ngates 1\ndefaulted 0\ndepth 1\ndelay 2 3\n"
        b"input 0 a\noutput 0 y\n",
    ),
]


def unread(name):
    """How a run ends that can't read a file."""
    return 5, b"", b"tdelay: cannot read " + name + b"\n"


def unwritten(name, out=b""):
    """How a run ends that can't write a file, after this output."""
    return 5, out, b"tdelay: cannot write " + name + b"\n"


def is_other(name, other):
    """How a run ends whose output would be written over another file."""
    return 2, b"", f"tdelay: {name} is {other}\n".encode()


def over(words, name):
    """The words with another netlist."""
    return [words[0], name, *words[2:]]


class Devices:
    """The cases, by what fails."""

    def __init__(self, tested):
        self.tested = tested

    def path(self, name):
        return os.path.join(self.tested.folder, name)

    def open(self, name):
        return open(self.path(name), "rb")

    def expect(self, what, wanted, got):
        self.tested.expect(what, wanted, got)

    def run(self, what, words, wanted, **how):
        """A case: the status, standard output and standard error of a run."""
        self.expect(f"{what}: {words}", wanted, tuple(self.tested.run_bytes(*words, **how)))

    def commands(self):
        """What each command reports where nothing fails."""
        for words, report in REPORTS:
            self.run("a file", words, (0, report, b""))
        for bit in "01":
            self.run(
                "a part",
                ["worst", "t.v", "--first", bit, "--second", ".", "--cert", f"p{bit}"],
                self.searched(bit),
            )
        self.run("both parts", JOIN, (0, JOINED, b""))
        self.run("both parts, checked", [*JOIN, "--check"], (0, JOINED, b""))

    @staticmethod
    def searched(bit):
        """What the search of a part reports."""
        time, other, nodes = (3, 1, 1) if bit == "0" else (2, 0, 3)
        return 0, HEAD + f"exact {time}\nfrom {bit}\nto {other}\nnodes {nodes}\n".encode(), b""

    def reading(self):
        """Netlists and certificates that can't be read."""
        os.mkdir(self.path("folder"))
        for name in ("folder", "absent.v", "absent/t.v", "t.v/t.v"):
            for words, _ in REPORTS:
                self.run("the netlist", over(words, name), unread(name.encode()))
            self.run("the certificate", ["check", "t.v", name], unread(name.encode()))
            self.run("a part", ["join", "t.v", "p0", name], unread(name.encode()))
            self.run("the netlist of parts", ["join", name, "p0", "p1"], unread(name.encode()))
        self.run(
            "the name not UTF-8",
            [b"sim", b"\xff.v", b"0", b"1"],
            (2, b"", b"tdelay: bad command line\n"),
        )
        self.run("the name empty", over(SIM, ""), unread(b""))
        if os.geteuid() != 0:
            self.tested.write("closed.v", "")
            os.chmod(self.path("closed.v"), 0)
            self.run("the netlist may not be read", over(SIM, "closed.v"), unread(b"closed.v"))

    def standard_input(self):
        """A netlist from standard input, which is there, closed, or a folder."""
        self.run(
            "standard input closed",
            over(SIM, "stdin"),
            unread(b"stdin"),
            stdin=None,
            before=lambda: os.close(0),
        )
        self.run(
            "standard input a folder",
            over(SIM, "stdin"),
            unread(b"stdin"),
            stdin=os.open(self.tested.folder, os.O_RDONLY),
        )
        for words, report in REPORTS:
            for name in ("stdin", "-"):
                with self.open("t.v") as file:
                    self.run("standard input", over(words, name), (0, report, b""), stdin=file)
        with self.open("p1") as file:
            self.run(
                "a part from standard input",
                ["join", "t.v", "p0", "-"],
                (0, JOINED, b""),
                stdin=file,
            )

    def fifos(self):
        """A netlist from a FIFO, and a certificate into one."""
        text = self.tested.read("t.v")
        os.mkfifo(self.path("in"))
        os.mkfifo(self.path("out"))
        with Beside(lambda: self.fill("in", text), self.path("in")):
            self.run("a FIFO", over(SIM, "in"), (0, REPORT, b""))
        got = []
        with Beside(lambda: got.append(self.tested.read("out")), self.path("out")):
            self.run("a FIFO as OUT", [*WORST, "--cert", "out"], (0, EXACT, b""))
        self.expect("what the FIFO has", [CERTIFICATE], got)

    def fill(self, name, text):
        """Writes into a FIFO, as far as somebody reads it."""
        try:
            with open(self.path(name), "wb") as file:
                file.write(text)
        except BrokenPipeError:
            pass

    def standard_output(self):
        """Standard output that can't be written."""
        with open("/dev/full", "wb") as full:
            for words in [words for words, _ in REPORTS] + [
                JOIN,
                ["check", "t.v", "p0"],
                ["--help"],
            ]:
                self.run("standard output full", words, unwritten(b"stdout"), stdout=full)
            for words in (WORST, JOIN):
                self.run(
                    "the certificate isn't begun",
                    [*words, "--cert", "new.cert"],
                    unwritten(b"stdout"),
                    stdout=full,
                )
        self.expect("no certificate", False, os.path.exists(self.path("new.cert")))
        for words in (SIM, ["parts", "t.v", "--parts", "2"], ["info", "t.v"], JOIN):
            self.run(
                "standard output closed",
                words,
                unwritten(b"stdout"),
                stdout=None,
                before=lambda: os.close(1),
            )
            ends = os.pipe()
            os.close(ends[0])
            self.run("a pipe that nobody reads", words, unwritten(b"stdout"), stdout=ends[1])
            os.close(ends[1])
        status = self.tested.run_bytes(
            "sim", "t.v", "0", stderr=None, before=lambda: os.close(2)
        ).status
        self.expect("standard error closed", True, status in (2, 5))

    def outputs(self):
        """Certificates and waveforms that can't be written."""
        for name in ("/dev/full", "absent/out", "folder", ""):
            self.run("a certificate", [*WORST, "--cert", name], unwritten(name.encode(), EXACT))
            self.run(
                "a joined certificate", [*JOIN, "--cert", name], unwritten(name.encode(), JOINED)
            )
            self.run("a waveform", [*SIM, "--vcd", name], unwritten(name.encode(), REPORT))
        self.run(
            "no waveform",
            [*WORST, "--cert", "/dev/full", "--vcd", "new.vcd"],
            unwritten(b"/dev/full", EXACT),
        )
        self.expect("no waveform", False, os.path.exists(self.path("new.vcd")))
        self.run("both", [*WORST, "--cert", "new.cert", "--vcd", "new.vcd"], (0, EXACT, b""))
        self.expect("the certificate", CERTIFICATE, self.tested.read("new.cert"))
        self.expect(
            "the waveform", True, (self.tested.read("new.vcd") or b"").endswith(b'#1\n1!\n#4\n0"\n')
        )
        self.run("joined", [*JOIN, "--cert", "joined"], (0, JOINED, b""))
        self.expect("the joined certificate", WHOLE, self.tested.read("joined"))
        self.run("/dev/null", [*WORST, "--cert", "/dev/null"], (0, EXACT, b""))
        self.expect("/dev/null is a device", False, os.path.isfile("/dev/null"))

    def standard_files(self):
        """Certificates and waveforms that go to standard output."""
        self.tested.write("-", "kept")
        self.run("certificate to -", [*WORST, "--cert", "-"], (0, CERTIFICATE, b""))
        self.run("joined certificate to -", [*JOIN, "--cert", "-"], (0, WHOLE, b""))
        self.run(
            "waveform to a file",
            [*WORST, "--cert", "-", "--vcd", "/dev/null"],
            (0, CERTIFICATE, b""),
        )
        self.run(
            "no certificate to -",
            ["worst", "two.v", "--budget", "1", "--cert", "-"],
            (3, SHORT, b""),
        )
        with self.open("t.v") as file:
            self.run("a pipe", ["worst", "-", "--cert", "-"], (0, CERTIFICATE, b""), stdin=file)
        self.run("both to -", [*WORST, "--cert", "-", "--vcd", "-"], is_other("-", "-"))
        with open("/dev/full", "wb") as full:
            for words in ([*WORST, "--cert", "-"], [*JOIN, "--cert", "-"], [*SIM, "--vcd", "-"]):
                self.run("to a full disk as -", words, unwritten(b"stdout"), stdout=full)
        self.tested.run_bytes(*SIM, "--vcd", "t.vcd")
        self.run("waveform to -", [*SIM, "--vcd", "-"], (0, self.tested.read("t.vcd"), b""))
        self.expect("a file of this name", b"kept", self.tested.read("-"))

    def over_others(self):
        """Outputs that are the netlist, a part, or each other."""
        text = self.tested.read("t.v")
        os.link(self.path("t.v"), self.path("hard.v"))
        os.symlink("t.v", self.path("soft.v"))
        for name in ("t.v", "./t.v", "hard.v", "soft.v"):
            self.run("waveform over the netlist", [*SIM, "--vcd", name], is_other(name, "t.v"))
            self.run(
                "certificate over the netlist", [*WORST, "--cert", name], is_other(name, "t.v")
            )
            self.run("joined over the netlist", [*JOIN, "--cert", name], is_other(name, "t.v"))
        for name in ("p1", "./p1"):
            self.run("joined over a part", [*JOIN, "--cert", name], is_other(name, "p1"))
        self.run(
            "one new file for both",
            [*WORST, "--cert", "one", "--vcd", "./one"],
            is_other("./one", "one"),
        )
        self.expect("no such file", False, os.path.exists(self.path("one")))
        for name in ("stdin", "-"):
            with self.open("t.v") as file:
                self.run(
                    "over standard input",
                    ["worst", name, "--cert", "t.v"],
                    is_other("t.v", "stdin"),
                    stdin=file,
                )
        self.run(
            "a device for both",
            [*WORST, "--cert", "/dev/null", "--vcd", "/dev/null"],
            (0, EXACT, b""),
        )
        self.expect("the netlist", text, self.tested.read("t.v"))

    def whole_or_nothing(self):
        """Outputs in the place of files, written in full and cut off."""
        self.tested.write("old", "old")
        os.chmod(self.path("old"), 0o640)
        os.symlink("old", self.path("link"))
        cut = {
            "before": lambda: resource.setrlimit(resource.RLIMIT_FSIZE, (20, 20)),
            "restore_signals": False,
        }
        for name in ("old", "link", "fresh"):
            self.run(
                "a certificate cut off",
                [*WORST, "--cert", name],
                unwritten(name.encode(), EXACT),
                **cut,
            )
            self.run(
                "a joined one cut off",
                [*JOIN, "--cert", name],
                unwritten(name.encode(), JOINED),
                **cut,
            )
            self.run(
                "a waveform cut off", [*SIM, "--vcd", name], unwritten(name.encode(), REPORT), **cut
            )
        self.expect("the old file", b"old", self.tested.read("old"))
        self.expect("no new file", False, os.path.exists(self.path("fresh")))
        self.run(
            "in the place of a file, through a link", [*WORST, "--cert", "link"], (0, EXACT, b"")
        )
        self.expect("the new file", CERTIFICATE, self.tested.read("old"))
        self.expect("its permissions", 0o640, stat.S_IMODE(os.stat(self.path("old")).st_mode))
        self.expect("the link is one", True, os.path.islink(self.path("link")))
        self.expect(
            "nothing else is left",
            [],
            [name for name in os.listdir(self.tested.folder) if ".part" in name],
        )


class Beside:
    """Work at the other end of a FIFO while the program runs. It ends also where the program never
    opens the FIFO.
    """

    def __init__(self, work, fifo):
        self.fifo = fifo
        self.thread = threading.Thread(target=work, daemon=True)

    def __enter__(self):
        self.thread.start()

    def __exit__(self, *_):
        self.thread.join(timeout=1)
        while self.thread.is_alive():
            end = os.open(self.fifo, os.O_RDWR | os.O_NONBLOCK)
            self.thread.join(timeout=0.1)
            os.close(end)
            self.thread.join(timeout=0.1)


def work(tested):
    tested.write("t.v", INVERTER)
    tested.write("two.v", LOST)
    devices = Devices(tested)
    devices.commands()
    devices.reading()
    devices.standard_input()
    devices.fifos()
    devices.standard_output()
    devices.outputs()
    devices.standard_files()
    devices.over_others()
    devices.whole_or_nothing()


if __name__ == "__main__":
    sys.exit(check.main(work, __doc__))
