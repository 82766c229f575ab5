#!/usr/bin/env python3
"""Sends signals to the front of a long search, at random moments: to that of an install, and to
./tdelay with a proved program and with one without proofs.

After an INT, a TERM or a USR1, to the front alone or to the whole group, as from a terminal and
from `timeout`, there is a report with `cause stop`, and a certificate that `check` accepts. A
second INT or TERM ends a program that goes on. After a KILL of the front its program ends, too. No
process stays, no folder, and no certificate that isn't whole. Words that are no search, or that
have a `--stop` of their own, are the program's, and so are statuses and standard input. At a
terminal ^C prints a line. A run-time check that fails is explained.

No case goes by the clock: what takes longer than LONGEST seconds hangs, and is wrong.
"""

import contextlib
import fcntl
import os
import re
import shutil
import signal
import subprocess
import sys
import termios
import time

from lib import check, places, running

CASES = 240
INSTALL = os.path.join(places.PACKAGING, "install.sh")
NETLIST = os.path.join(places.EXAMPLES, "mult_8.v")
WORDS = ["worst", NETLIST, "--strategy", "least", "--budget", "10000000"]
WORDS += ["--cert", "c", "--cert-between"]
REPORT = r"unit 1 ns\ndefaulted \d+\n(between \d+ \d+)\ncause stop\nfrom \d+\nto \d+\nnodes \d+\n"
LINE = "tdelay: ends the search; ^C again ends it at once"
# The seconds after which a run hangs.
LONGEST = 60
# To whom a signal is sent.
ALONE, GROUP, TWICE = "alone", "to the group", "twice"
SENT = [
    (signal.SIGINT, ALONE), (signal.SIGINT, GROUP), (signal.SIGTERM, ALONE),
    (signal.SIGTERM, TWICE), (signal.SIGUSR1, ALONE), (signal.SIGUSR1, GROUP),
    (signal.SIGKILL, ALONE),
]  # fmt: skip


class Front:
    """A front: its name, the command, and where its program stands."""

    def __init__(self, name, command, program):
        self.name, self.command, self.program = name, command, program


def installed(tested):
    """The front of an install."""
    prefix = os.path.join(tested.folder, "prefix")
    words = [INSTALL, "--unproved", "--program", tested.program, prefix]
    done = running.run(words, seconds=LONGEST)
    tested.expect(f"an install: {done.out}{done.err}", 0, done.status)
    return Front("installed", f"{prefix}/bin/tdelay", f"{prefix}/lib/tdelay/tdelay")


def launcher(tested, name, place):
    """The front at the top of a checkout without sources, whose program stands at a place."""
    top = os.path.join(tested.folder, name.replace(" ", "_"))
    program = os.path.join(top, place)
    os.makedirs(os.path.dirname(program))
    for part in ("build", "packaging"):
        os.symlink(os.path.join(places.TOP, part), os.path.join(top, part))
    for file in ("HANDLES", "crates.txt"):
        running.write(top, file, "")
    shutil.copy(os.path.join(places.TOP, "tdelay"), top)
    shutil.copy(tested.program, program)
    return Front(name, os.path.join(top, "tdelay"), program)


def until(what, holds, step=0.005):
    """Waits until something holds, which is asked again after each step, in seconds."""
    ends = time.monotonic() + LONGEST
    while not holds():
        if time.monotonic() > ends:
            raise running.Hangs([what], LONGEST)
        time.sleep(step)


def take_signals():
    """What a front does before it begins: a shell can't catch a signal that is ignored then, as INT
    is where this check runs in the background.
    """
    for number, _ in SENT[:-1]:
        signal.signal(number, signal.SIG_DFL)


class Search:
    """A search by a front, in a session and a folder of its own, and with one for folders that are
    made while it runs.
    """

    def __init__(self, tested, front, words, **how):
        self.tested, self.what = tested, front.name
        self.room = os.path.join(tested.folder, "room")
        self.rooms = os.path.join(tested.folder, "rooms")
        for folder in (self.room, self.rooms):
            shutil.rmtree(folder, ignore_errors=True)
            os.makedirs(folder)
        pipes = {name: subprocess.PIPE for name in ("stdout", "stderr")}
        self.process = subprocess.Popen(
            [front.command, *words], cwd=self.room, env={**os.environ, "TMPDIR": self.rooms},
            start_new_session=True,
            **{"stdin": subprocess.DEVNULL, "preexec_fn": take_signals, **pipes, **how},
        )  # fmt: skip

    def __enter__(self):
        return self

    def __exit__(self, *_):
        running.end_all(self.process)
        self.process.communicate()

    def left(self):
        """The processes of the session that haven't ended."""
        found = []
        for name in filter(str.isdigit, os.listdir("/proc")):
            try:
                with open(f"/proc/{name}/stat", encoding="utf-8", errors="replace") as file:
                    state, _, _, session = file.read().rpartition(")")[2].split()[:4]
            except OSError:
                continue
            if int(session) == self.process.pid and state not in "ZX":
                found.append(int(name))
        return found

    def has_program(self):
        """Whether the program runs."""
        for process in self.left():
            with contextlib.suppress(OSError), open(f"/proc/{process}/cmdline", "rb") as file:
                if b"\0--stop\0" in file.read():
                    return True
        return False

    def begun(self, is_one=True):
        """Waits until the front takes a signal that it alone gets, or until its program runs: the
        group, and a KILL, may come too early.
        """
        holds = self.has_program if not is_one else lambda: os.listdir(self.rooms)
        until(f"{self.what}: begins", lambda: self.process.poll() is not None or holds())

    def send(self, number, whom=ALONE):
        """Sends a signal."""
        if whom != GROUP:
            self.process.send_signal(number)
        if whom != ALONE:
            with contextlib.suppress(ProcessLookupError):
                os.killpg(self.process.pid, number)

    def end(self):
        """How it ended, in texts, once no process of it is left."""
        try:
            out, err = self.process.communicate(timeout=LONGEST)
        except subprocess.TimeoutExpired:
            raise running.Hangs([f"{self.what}: goes on"], LONGEST) from None
        until(f"{self.what}: a process stays", lambda: not self.left())
        self.tested.expect(f"{self.what}: folders that stay", [], os.listdir(self.rooms))
        return running.Ended(self.process.returncode, (out or b"").decode(), (err or b"").decode())

    def verdict(self):
        """What `check` says of the certificate; none where there is none."""
        if running.read(self.room, "c") is None:
            return None
        return self.tested.run("check", NETLIST, "c", folder=self.room).out.splitlines()[:1]

    def kept(self, what, ended):
        """Cases: what there is after a search that was stopped."""
        found = re.fullmatch(REPORT, ended.out)
        ends = ended.status, found is not None
        self.tested.expect(f"{what}: {ended}", (3, True), ends, "report")
        claim = [f"accepted {found[1]}"] if found else None
        self.tested.expect(f"{what}: the certificate", claim, self.verdict(), "certificate")
        self.tested.expect(f"{what}: the files", ["c"], sorted(os.listdir(self.room)))


def stopped(tested, front, number, whom):
    """Cases: a signal at a random moment."""
    what = f"{front.name}: {number.name} {whom}"
    with Search(tested, front, WORDS) as search:
        search.begun(whom == ALONE and number != signal.SIGKILL)
        time.sleep(tested.random.choice([0, 0.02, 1]) * tested.random.random())
        search.send(number, whom)
        ended = search.end()
        if number != signal.SIGKILL:
            search.kept(what, ended)
            return
        tested.expect(f"{what}: the status", -number, ended.status, "a KILL")
        # Its program may have had too little time for it.
        verdict = search.verdict()
        if verdict is not None:
            accepted = verdict[:1] and verdict[0].startswith("accepted between ")
            tested.expect(f"{what}: the certificate, {verdict}", True, accepted, "after a KILL")


def early(tested, front):
    """Cases: a signal at a random moment of the first hundredths of a second, before or after the
    front takes any.
    """
    number = tested.random.choice([signal.SIGTERM, signal.SIGUSR1])
    with Search(tested, front, WORDS) as search:
        time.sleep(0.03 * tested.random.random())
        search.send(number)
        ended = search.end()
        if ended.status == -number:
            tested.expect(f"{number.name} at once: {ended}", "", ended.out, "at once")
        else:
            search.kept(f"{front.name}: {number.name}, early", ended)


@contextlib.contextmanager
def another_program(front, text):
    """A script in place of the program of a front."""
    kept = front.program + ".kept"
    shutil.move(front.program, kept)
    running.write(os.path.dirname(front.program), "tdelay", text)
    os.chmod(front.program, 0o755)
    yield
    shutil.move(kept, front.program)


def ended_at_once(tested, front):
    """Cases: a second signal, to the front of a program that goes on."""
    for number, status in ((signal.SIGINT, 130), (signal.SIGTERM, 143)):
        with Search(tested, front, WORDS) as search:
            search.begun()
            search.send(signal.SIGUSR1)

            def has_ended(search=search, number=number):
                search.send(number)
                return search.process.poll() is not None

            until(f"{front.name}: goes on after {number.name}", has_ended, 0.05)
            ended = search.end()
        tested.expect(f"{front.name}: {number.name} again", (status, "", ""),
                      (ended.status, ended.out, ended.err), "again")  # fmt: skip


def failing(tested, front):
    """A case: a program whose run-time check fails."""
    with Search(tested, front, WORDS) as search:
        ended = search.end()
    said = ended.status, ended.out, "fault of ours" in ended.err
    tested.expect(f"{front.name}: a check that fails: {ended.err}", (132, "", True), said)


def as_the_program(tested, front):
    """Cases: words that a front hands on."""
    text = places.text_of("examples", "c17.v").encode()
    wrong = text.replace(b"endmodule", b"")
    for words, given in (
        (["worst", "-", "--cert", "c"], text),
        (["worst", "-", "--required", "2"], text),
        (["worst", "-"], wrong),
        (["worst", "-", "--budget", "none"], text),
        (["info", "-"], text),
        (["sim", "-", "--stop"], text),
    ):
        with open(running.write(tested.folder, "given.v", given), "rb") as file:
            with Search(tested, front, words, stdin=file) as search:
                ended = search.end()
        wanted = tested.run(*words, stdin=open(os.path.join(tested.folder, "given.v"), "rb"))
        tested.expect(f"{front.name}: {words}: {ended.err}", (wanted.status, wanted.out),
                      (ended.status, ended.out), "as the program")  # fmt: skip
    for own in (["--stop", "mine"], ["--stop=mine"]):
        with Search(tested, front, [*WORDS, *own]) as search:
            time.sleep(0.2 * tested.random.random())
            tested.expect(f"{front.name}: {own}: folders", [], os.listdir(search.rooms))
            running.write(search.room, "mine", "")
            ended = search.end()
            os.remove(os.path.join(search.room, "mine"))
            search.kept(f"{front.name}: {own}", ended)


def at_terminal(tested, front):
    """Cases: ^C at a terminal."""
    ours, theirs = os.openpty()

    def take():
        take_signals()
        fcntl.ioctl(theirs, termios.TIOCSCTTY, 0)

    streams = {"stdin": theirs, "stderr": theirs, "preexec_fn": take}
    with Search(tested, front, WORDS, **streams) as search:
        os.close(theirs)
        search.begun(False)
        os.write(ours, b"\x03")
        said = b""
        while True:
            try:
                part = os.read(ours, 65536)
            except OSError:
                break
            said += part
        ended = search.end()
        lines = said.decode().splitlines()
        counted = sum(line.endswith(LINE) for line in lines)
        tested.expect(f"{front.name}: the line at ^C, {lines}", 1, counted, "a terminal")
        search.kept(f"{front.name}: ^C", ended)
    os.close(ours)


def work(tested):
    fronts = [
        installed(tested),
        launcher(tested, "proved", "crates/tdelay/out/tdelay"),
        launcher(tested, "not proved", "out/unproved/tdelay"),
    ]
    stopped(tested, fronts[0], *SENT[0])
    for front in fronts:
        at_terminal(tested, front)
        with another_program(front, "#!/bin/sh\nexec sleep 1000\n"):
            ended_at_once(tested, front)
        with another_program(front, "#!/bin/sh\nkill -ILL $$\n"):
            failing(tested, front)
    as_the_program(tested, tested.random.choice(fronts))
    pairs = []
    while tested.goes_on():
        pairs = pairs or [(front, *sent) for front in fronts for sent in SENT]
        stopped(tested, *pairs.pop(tested.random.randrange(len(pairs))))
        early(tested, fronts[0])


def shares(tested, _cut):
    tested.require("report", 0.05)
    tested.require("certificate", 0.05)
    tested.require("again", 0.01)


if __name__ == "__main__":
    sys.exit(check.main(work, __doc__, CASES, shares))
