#!/usr/bin/env python3
"""Runs commands whose standard error is a terminal, and compares what comes there with
docs/MANUAL.md.

At a terminal a line of progress takes the place of the one before, by the codes of ECMA-48, unless
`TERM` is `dumb` or isn't set; hints come after a refusal without the option. Elsewhere neither is
so. Each case is what one run writes there.
"""

import os
import re
import select
import subprocess
import sys
import time

from lib import check, circuits, running
from lib.netlists import INVERTER

# Goes to the line above, and clears it.
UP = b"\x1b[A\x1b[2K"
ROW = rb"rows \d+ of \d+ output \S+ seconds \d+"
LINE = rb"nodes \d+ low \d+ high \d+ open \d+ seconds \d+ rate \d+"
REFUSED = ["sim", "t.v", "0", "01"]


def read_all(terminal, words):
    """What a run of these words writes to a terminal until nobody has it open any more."""
    parts, ends = [], time.monotonic() + running.LONGEST
    while True:
        left = max(0, ends - time.monotonic())
        if not select.select([terminal], [], [], left)[0]:
            raise running.Hangs(words, running.LONGEST)
        try:
            part = os.read(terminal, 65536)
        except OSError:
            # Linux says so where the other side is closed.
            return b"".join(parts)
        if not part:
            return b"".join(parts)
        parts.append(part)


def at_terminal(tested, words, term):
    """What a run writes on standard error where that is a terminal, with lines that end as they
    were written.
    """
    ours, theirs = os.openpty()
    env = {**os.environ, "TERM": term} if term is not None else {}
    with subprocess.Popen(
        [tested.program, *words], cwd=tested.folder, stdin=subprocess.DEVNULL,
        stdout=subprocess.DEVNULL, stderr=theirs, env=env, start_new_session=True,
    ) as process:  # fmt: skip
        os.close(theirs)
        try:
            said = read_all(ours, [tested.program, *words])
            process.wait(running.LONGEST)
        finally:
            running.end_all(process)
            os.close(ours)
    return said.replace(b"\r\n", b"\n")


def progress(tested):
    """Cases: lines of progress, in place and not."""
    words = ["worst", "adder.v", "--strategy", "least", "--progress"]
    said = at_terminal(tested, words, "xterm")
    lines = said.split(b"\n")
    wanted = [re.fullmatch((re.escape(UP) if place else b"") + LINE, line) is not None
              for place, line in enumerate(lines[:-1])]  # fmt: skip
    tested.expect(f"in place: {said!r}", (True, b""), (len(lines) > 3 and all(wanted), lines[-1]))
    plain = re.compile(rb"(?:" + LINE + rb"\n){3,}")
    for term in ("dumb", None):
        said = at_terminal(tested, words, term)
        tested.expect(f"TERM {term}: {said!r}", True, plain.fullmatch(said) is not None)
    said = tested.run_bytes(*words).err
    tested.expect(f"a pipe: {said!r}", True, plain.fullmatch(said) is not None)
    said = at_terminal(tested, ["worst", "adder.v", "--each", "--progress"], "xterm")
    rows = re.fullmatch(rb"(?:" + ROW + rb"\n" + re.escape(UP) + rb"each .*\n){3,}", said)
    tested.expect(f"rows in place: {said!r}", True, rows is not None)


def hints(tested):
    """Cases: what a refusal says."""
    line = tested.run_bytes(*REFUSED).err
    tested.expect(f"one line on a pipe: {line!r}", 1, line.count(b"\n"))
    wanted = tested.run_bytes(*REFUSED, "--hints").err
    tested.expect(f"more with the option: {wanted!r}", True, wanted.count(b"\n") > 1)
    for term in ("xterm", "dumb", None):
        tested.expect(f"hints, TERM {term}", wanted, at_terminal(tested, REFUSED, term))


def work(tested):
    tested.write("t.v", INVERTER)
    tested.write("adder.v", circuits.adder(4))
    progress(tested)
    hints(tested)


if __name__ == "__main__":
    sys.exit(check.main(work, __doc__))
