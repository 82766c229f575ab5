"""Runs of a program within a time and a memory. A run that takes too long is ended with all that it
started.
"""

import os
import resource
import signal
import subprocess
import tempfile
from collections import namedtuple

# The seconds that a run may take where nothing else is said. A check is over, and failed, when one
# takes longer.
LONGEST = 30
# Neither a check nor what it runs leaves a core file.
resource.setrlimit(resource.RLIMIT_CORE, (0, 0))

# How a run ended. A status below 0 is the number of the signal that ended it.
Ended = namedtuple("Ended", "status out err")


class Hangs(Exception):
    """A run took too long: what was run, and after how many seconds it was ended."""

    def __init__(self, words, seconds):
        super().__init__(f"{' '.join(map(str, words))[:300]}: still running after {seconds} s")


def beginning(megabytes, before):
    """What a process does before it begins: it limits its address space, and does what `before`
    says. None where there is neither.
    """
    if megabytes is None:
        return before

    def begin():
        size = int(megabytes * 2**20)
        resource.setrlimit(resource.RLIMIT_AS, (size, size))
        if before:
            before()

    return begin


def end_all(process):
    """Ends a process that leads a session of its own, and all that it started there."""
    try:
        os.killpg(process.pid, signal.SIGKILL)
    except ProcessLookupError:
        pass
    process.kill()


def run_bytes(words, folder=None, seconds=LONGEST, megabytes=None, before=None, **how):
    """Runs these words in a folder, with nothing on standard input, and gives how it ended, in
    bytes.

    `before` is called in the process before it begins; other words go to `Popen`. Where `how` sends
    an output elsewhere it is empty here.
    """
    words = [word if isinstance(word, bytes) else str(word) for word in words]
    how = {"stdin": subprocess.DEVNULL, "stdout": subprocess.PIPE, "stderr": subprocess.PIPE, **how}
    begin = beginning(megabytes, before)
    with subprocess.Popen(
        words, cwd=folder, start_new_session=True, preexec_fn=begin, **how
    ) as process:
        try:
            out, err = process.communicate(timeout=seconds)
        except subprocess.TimeoutExpired:
            end_all(process)
            raise Hangs(words, seconds) from None
        except BaseException:
            end_all(process)
            raise
    return Ended(process.returncode, out or b"", err or b"")


def run(words, folder=None, **how):
    """As `run_bytes`, with the outputs as texts."""
    ended = run_bytes(words, folder, **how)
    return Ended(
        ended.status,
        ended.out.decode(errors="backslashreplace"),
        ended.err.decode(errors="backslashreplace"),
    )


def folder():
    """A temporary folder, to be used by `with`."""
    return tempfile.TemporaryDirectory(prefix="tdelay-check-")


def write(place, name, text):
    """Writes a text or bytes to a file in a folder, and gives its path."""
    path = os.path.join(place, name)
    with open(path, "wb") as file:
        file.write(text if isinstance(text, bytes) else text.encode("latin-1"))
    return path


def read(place, name):
    """The bytes of a file in a folder, None where there is none."""
    path = os.path.join(place, name)
    if not os.path.exists(path):
        return None
    with open(path, "rb") as file:
        return file.read()


def remove(place, *names):
    """Removes these files of a folder, where they are there."""
    for name in names:
        path = os.path.join(place, name)
        if os.path.lexists(path):
            os.remove(path)
