#!/usr/bin/env python3
"""proved.py [--record] FOLDER: proves and builds FOLDER/tdelay, and shows how far it is.

It runs the gate, `rt ci`, over a copy of the crates that the program stands on, without their
must-fail edits: crates that don't need each other are proved side by side, as many as there are
processors and memory for. Some kits keep on this machine what they proved, by checksums of all
that was read: there an interrupted build goes on after the crates that were proved, and `rt ci`
doesn't prove these again. `--record` writes how long each crate took into times.json, from which
the time that is left follows: give it on a machine where nothing is kept or else at work.
Exit status 0 where the program is built, else 5, with what the toolchain said.
"""

import errno
import os
import queue
import re
import shutil
import signal
import subprocess
import sys
import tempfile
import threading
import time

import sources
from kit import fail, find_kit, keeps_proofs, need_disk
from times import read_times, write_times
from watch import Watch

ROOM_MEGABYTES = 5000


def copy_crates(crates, room):
    """Makes a repository of these crates alone, without their edits and what was built of them."""
    shutil.copy(os.path.join(sources.TOP, "HANDLES"), room)
    with open(os.path.join(room, "crates.txt"), "w") as text:
        text.write(sources.lines_of_crates(crates))
    for crate in crates:
        folder, unread = os.path.join("crates", crate), shutil.ignore_patterns("out", "must-fail")
        shutil.copytree(os.path.join(sources.TOP, folder), os.path.join(room, folder), ignore=unread)


def lines_of(process):
    """What a process writes, line by line, and None about each second in between."""
    lines = queue.Queue()

    def put_lines():
        for line in process.stdout:
            lines.put(line.rstrip("\n"))
        lines.put(process)

    threading.Thread(target=put_lines, daemon=True).start()
    while True:
        try:
            line = lines.get(timeout=1)
        except queue.Empty:
            line = None
        if line is process:
            return
        yield line


class Build:
    def __init__(self):
        self.uses = sources.program_crates()
        self.usual = read_times()["crates"]
        self.began = time.monotonic()
        self.done, self.said = [], []
        self.kept = set()
        self.watch = Watch()
        self.terminal = sys.stderr.isatty()

    def left(self):
        """The seconds on the longest chain of crates that aren't proved yet."""
        chain = {}
        for crate, lows in self.uses.items():
            own = 0 if crate in self.done else self.usual.get(crate, 30)
            chain[crate] = own + max([chain[low] for low in lows], default=0)
        return chain[sources.PROGRAM]

    def show(self):
        so_far = int(time.monotonic() - self.began)
        last = f", {self.done[-1]} last" if self.done else ""
        text = f"tdelay: {len(self.done)} of {len(self.uses)} crates proved{last}: "
        text += f"{so_far} s so far, at most some {self.left()} s left"
        sys.stderr.write("\r\033[K" + text if self.terminal else text + "\n")
        sys.stderr.flush()

    def read(self, line):
        """Takes a line of the toolchain, which may say that a crate is proved."""
        self.said.append(line)
        proved = re.match(r"rt: (\w+)( proved$| is kept: )", line)
        if proved and proved[1] in self.uses:
            self.done.append(proved[1])
            if proved[2] != " proved":
                self.kept.add(proved[1])
            self.show()

    def follow(self, process):
        """Reads what the toolchain says until it ends. Answers its exit status."""
        for line in lines_of(process):
            self.watch.look()
            if line is not None:
                self.read(line)
            elif self.terminal:
                self.show()
        return process.wait()

    def run(self, folder):
        """Builds the program into the folder. Answers whether it is built."""
        self.show()
        made_of = sources.stamp()
        with tempfile.TemporaryDirectory(prefix="tdelay-build-") as room:
            copy_crates(self.uses, room)
            process = subprocess.Popen(
                ["rt", "ci"], cwd=room, stdin=subprocess.DEVNULL, stdout=subprocess.PIPE,
                stderr=subprocess.STDOUT, text=True, errors="replace",
            )  # fmt: skip
            try:
                status = self.follow(process)
            finally:
                process.terminate()
                process.wait()
            if self.terminal:
                sys.stderr.write("\r\033[K")
            return status == 0 and take(room, made_of, folder)

    def record(self):
        """Writes how long the crates took that were proved in this run."""
        times = read_times()
        proved = [it for it in self.done if it not in self.kept]
        times["crates"].update({it: round(self.watch.seconds_by_clock(it)) for it in proved})
        write_times(times)


def take(room, made_of, folder):
    """Puts the program and its stamp into the folder. Answers whether there is one."""
    built = os.path.join(room, "crates", sources.PROGRAM, "out", sources.PROGRAM)
    if not os.access(built, os.X_OK):
        return False
    os.makedirs(folder, exist_ok=True)
    program = os.path.join(folder, sources.PROGRAM)
    part = f"{program}.{os.getpid()}"
    shutil.copy(built, part)
    os.replace(part, program)
    sources.write_stamp(program, made_of)
    return True


def interrupt(*_):
    raise KeyboardInterrupt


def after_interrupt():
    """What a later build has to do."""
    if keeps_proofs():
        return "what is proved is kept, and ./prove goes on after it"
    return "./prove begins anew, since this toolchain keeps no proofs"


def main(words):
    is_recorded = words[:1] == ["--record"]
    if len(words) != 1 + is_recorded:
        sys.exit(__doc__)
    signal.signal(signal.SIGTERM, interrupt)
    find_kit()
    build = Build()
    try:
        need_disk(tempfile.gettempdir(), ROOM_MEGABYTES, "proving")
        if not build.run(os.path.abspath(words[-1])):
            sys.stderr.write("\n".join(build.said) + "\n")
            fail(5, "the build failed")
    except KeyboardInterrupt:
        fail(5, f"interrupted; {after_interrupt()}")
    except OSError as why:
        full = why.errno in (errno.ENOSPC, errno.EDQUOT)
        fail(5, f"no room on disk: {why}" if full else f"the program can't be built: {why}")
    if is_recorded:
        build.record()


if __name__ == "__main__":
    main(sys.argv[1:])
