"""The toolchain's folder, found by its command `rt`, and how the build scripts report."""

import os
import shutil
import subprocess
import sys


class OtherKit(Exception):
    """The toolchain isn't laid out as these scripts expect. What its guides say still serves."""


def say(text):
    sys.stderr.write(f"tdelay: {text}\n")
    sys.stderr.flush()


def fail(status, why):
    """Reports why the program can't be built, and ends with this exit status."""
    say(why)
    sys.exit(status)


def find_kit():
    """The toolchain's folder. Ends the script where there is none."""
    command = shutil.which("rt")
    if not command:
        fail(5, "no toolchain: `rt` isn't on PATH; install the Rattle kit, or add its bin to PATH")
    return os.path.dirname(os.path.dirname(os.path.realpath(command)))


def keeps_proofs():
    """Whether the toolchain's gate keeps what it proved: then it has a word to prove that anew."""
    said = subprocess.run(["rt", "help"], capture_output=True, text=True, errors="replace")
    return "--anew" in said.stdout + said.stderr


def need_files(kit, names):
    """Raises OtherKit where the toolchain lacks one of these files."""
    for name in names:
        if not os.path.isfile(os.path.join(kit, name)):
            raise OtherKit(f"{kit} has no {name}")


def need_disk(folder, megabytes, what):
    """Ends the script where a folder's disk has less than this free."""
    free = shutil.disk_usage(folder).free // 1_000_000
    if free < megabytes:
        fail(5, f"no room on disk: {what} takes {megabytes} MB in {folder}, where {free} are free")
