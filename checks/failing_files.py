#!/usr/bin/env python3
"""Runs commands whose files fail after each number of bytes.

A reader that fails after k bytes, for each k up to the length of the netlist, of the certificate
and of the parts: the file in which that is can't be read, and nothing is printed. Standard output
that fails after k bytes has exactly the first k, and no file is begun. A certificate or waves that
fail after k bytes leave no file, nor a part of one, and what had its name is as it was. Where files
fail only after all is read or written, the command ends as usual. Each run is a case. It needs a C
compiler, `cc`.
"""

import os
import subprocess
import sys
from collections import namedtuple

from lib import check, places
from lib.netlists import INVERTER

# A command, the files that it reads in order, and the file that it writes.
Command = namedtuple("Command", "words reads writes")
COMMANDS = [
    Command(["sim", "t.v", "0", "1"], ["t.v"], None),
    Command(["sim", "t.v", "0", "1", "--vcd", "new"], ["t.v"], "new"),
    Command(["path", "t.v", "0", "1"], ["t.v"], None),
    Command(["bound", "t.v", "--edges"], ["t.v"], None),
    Command(["worst", "t.v", "--cert", "new"], ["t.v"], "new"),
    Command(["parts", "t.v", "--parts", "2"], ["t.v"], None),
    Command(["worst", "t.v", "--keep-file", "kept"], ["t.v", "kept"], None),
    Command(["info", "t.v"], ["t.v"], None),
    Command(["check", "t.v", "p0"], ["t.v", "p0"], None),
    Command(["join", "t.v", "p0", "p1", "--cert", "new"], ["t.v", "p0", "p1"], "new"),
]


class Failing:
    """Runs of the program whose files fail."""

    def __init__(self, tested):
        self.tested = tested
        self.shim = os.path.join(tested.folder, "failing.so")
        source = os.path.join(places.CHECKS, "lib", "failing.c")
        subprocess.run(["cc", "-shared", "-fPIC", "-O1", "-o", self.shim, source], check=True)

    def run(self, words, **limits):
        """The status, both outputs, and what stands under the name `new`."""
        self.tested.write("new", "old")
        environment = {name: str(limit) for name, limit in limits.items()}
        done = self.tested.run_bytes(*words, env={"LD_PRELOAD": self.shim, **environment})
        return (*done, self.tested.read("new"))

    def expect(self, command, wanted, **limits):
        """A case: how a run ends whose files fail after a number of bytes."""
        got = self.run(command.words, **limits)
        fails = wanted[0] == 5
        kind = f"{next(iter(limits))}: {'fails' if fails else 'as usual'}"
        self.tested.expect(f"{command.words}, {limits}", wanted, got, kind)

    def reads(self, command, usual):
        """Cases: the files that a command reads fail after each number of bytes."""
        so_far = 0
        for name in command.reads:
            length = len(self.tested.read(name))
            message = f"tdelay: cannot read {name}\n".encode()
            # The end of a file is read, too: where that fails, the file can't be read.
            for limit in range(
                so_far if name == command.reads[0] else so_far + 1, so_far + length + 1
            ):
                self.expect(command, (5, b"", message, b"old"), FAIL_READS=limit)
            so_far += length
        self.expect(command, usual, FAIL_READS=so_far + 1)

    def output(self, command, usual):
        """Cases: standard output fails after each number of bytes."""
        for limit in range(len(usual[1])):
            wanted = 5, usual[1][:limit], b"tdelay: cannot write stdout\n", b"old"
            self.expect(command, wanted, FAIL_OUTPUT=limit)
        self.expect(command, usual, FAIL_OUTPUT=len(usual[1]))

    def files(self, command, usual):
        """Cases: the file that a command writes fails after each number of bytes."""
        for limit in range(len(usual[3])):
            wanted = 5, usual[1], b"tdelay: cannot write new\n", b"old"
            self.expect(command, wanted, FAIL_FILES=limit)
        self.expect(command, usual, FAIL_FILES=len(usual[3]))


def work(tested):
    tested.write("t.v", INVERTER)
    tested.write("kept", "y 01\n")
    for bit in "01":
        tested.run("worst", "t.v", "--first", bit, "--second", ".", "--cert", f"p{bit}")
    failing = Failing(tested)
    for command in COMMANDS:
        usual = failing.run(command.words)
        if (
            usual[0] != 0
            or not usual[1]
            or usual[2]
            or (usual[3] == b"old") == bool(command.writes)
        ):
            raise RuntimeError(f"{command.words}: {usual}")
        failing.reads(command, usual)
        failing.output(command, usual)
        if command.writes:
            failing.files(command, usual)
    left = sorted(name for name in os.listdir(tested.folder) if ".part" in name)
    tested.expect("nothing else is left", [], left)


if __name__ == "__main__":
    sys.exit(check.main(work, __doc__, needs=["cc"]))
