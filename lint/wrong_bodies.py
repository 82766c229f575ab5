#!/usr/bin/env python3
"""wrong_bodies.py [--record FILE] [CRATE ..]: whether the prover refuses the wrong bodies below
lint/wrong_bodies/CRATE, each an edit as those in crates/CRATE/must-fail. Without a name: all.

`rt ci` tries the edits in must-fail/ each time, and proves a crate once more for them. These here
are tried on demand: in a copy of the repository, where `rt must-fail` begins with what `rt check`
kept of the crate, and with the libraries that stand built, so that they aren't proved again. Run
`rt check` in the crate first; without it the first edit of a crate takes as long as its proof and
those of all crates below it.

A record has a line for each edit: the checksum of what was tried, crate/edit, and what it came to.
An edit whose checksum stands in the record as refused isn't tried again. The checksum is of the
edit and of the crate's src/, specs/ and proofs/ and of those of all crates below it.

The last line is `N refused, N failed`, and the exit status 0 where none failed.
"""

import argparse
import hashlib
import os
import re
import shutil
import subprocess
import sys
import tempfile

TOP = os.path.dirname(os.path.dirname(os.path.abspath(__file__)))
sys.path.insert(0, os.path.join(TOP, "build"))
from crates import lower_first, uses_of  # noqa: E402

EDITS = os.path.join(TOP, "lint", "wrong_bodies")
PARTS = ("src", "specs", "proofs")
SAID = re.compile(r"rt: must-fail (\w+)/(\S+): (.*)")


def files_below(folder):
    for at, below, names in os.walk(folder):
        below.sort()
        yield from (os.path.join(at, name) for name in sorted(names))


def sum_of_crate(crate, uses):
    """A checksum of what a proof of the crate reads in the repository."""
    total = hashlib.sha256()
    for low in lower_first(uses, [crate]):
        for part in PARTS:
            for path in files_below(os.path.join(TOP, "crates", low, part)):
                with open(path, "rb") as it:
                    total.update(f"{os.path.relpath(path, TOP)}\n".encode() + it.read())
    return total.hexdigest()


def edits_of(crate, uses):
    """The crate's edits, each with the checksum of what is tried."""
    whole, folder = sum_of_crate(crate, uses), os.path.join(EDITS, crate)
    for name in sorted(os.listdir(folder)):
        with open(os.path.join(folder, name), "rb") as it:
            text = it.read()
        yield name, hashlib.sha256(whole.encode() + text).hexdigest()


def read_record(path):
    """What each checksum of a record came to."""
    try:
        with open(path) as it:
            return dict(line.rstrip("\n").split(" ", 1) for line in it if " " in line)
    except OSError:
        return {}


def link_file(one, other):
    """A second name for a file that a check replaces and never writes into."""
    try:
        os.link(one, other)
    except OSError:
        shutil.copy2(one, other)


def copy_library(one, other):
    """Hands on what stands built of a library, if it does: the toolchain builds it anew where its
    sources are others."""
    built, to = os.path.join(one, "rlib"), os.path.join(other, "rlib")
    if not os.path.isdir(built):
        return
    os.makedirs(to)
    for name in os.listdir(built):
        path = os.path.join(built, name)
        if os.path.isdir(path):
            shutil.copytree(path, os.path.join(to, name), copy_function=link_file)
        else:
            shutil.copy2(path, to)


def copy_repository(room, crate, names):
    """Makes a copy of the repository in which the crate has these edits alone."""
    for name in ("HANDLES", "crates.txt"):
        shutil.copy(os.path.join(TOP, name), room)
    for each in os.listdir(os.path.join(TOP, "crates")):
        folder = os.path.join("crates", each)
        unread = shutil.ignore_patterns("out", "must-fail")
        shutil.copytree(os.path.join(TOP, folder), os.path.join(room, folder), ignore=unread)
        if each != crate:
            copy_library(os.path.join(TOP, folder, "out"), os.path.join(room, folder, "out"))
    to = os.path.join(room, "crates", crate, "must-fail")
    os.makedirs(to)
    for name in names:
        shutil.copy(os.path.join(EDITS, crate, name), to)


def kept_work(crate):
    """What `rt check` kept of this crate in the checkout."""
    return os.path.join(TOP, "crates", crate, "out", "incremental")


def try_edits(crate, names):
    """What the prover says of these edits, by their names."""
    with tempfile.TemporaryDirectory(prefix="tdelay-wrong-bodies-") as room:
        copy_repository(room, crate, names)
        if os.path.isdir(kept_work(crate)):
            to = os.path.join(room, "crates", crate, "out", "incremental")
            shutil.copytree(kept_work(crate), to, copy_function=link_file)
        ran = subprocess.run(
            ["rt", "must-fail", crate], cwd=room, stdin=subprocess.DEVNULL,
            stdout=subprocess.PIPE, stderr=subprocess.STDOUT, text=True, errors="replace",
        )  # fmt: skip
    said = {found[2]: found[3] for found in SAID.finditer(ran.stdout) if found[1] == crate}
    for name in names:
        if name not in said:
            said[name] = "NOT TRIED: " + (ran.stdout.strip().split("\n") or [""])[-1][:200]
    return said


def is_refused(said):
    """Whether the prover refused the wrong body for what it does, and not for a lost name."""
    return said.startswith("refused") and "only because a proof file names" not in said


def check_crate(crate, uses, record):
    """Tries the edits of a crate that the record lacks. Answers how many were refused, or not."""
    sums = dict(edits_of(crate, uses))
    known = {it: record[total] for it, total in sums.items() if total in record}
    left = [it for it in sums if not is_refused(known.get(it, "").partition(" ")[2])]
    said = try_edits(crate, left) if left else {}
    for name in sums:
        if name in said:
            record[sums[name]] = f"{crate}/{name} {said[name]}"
            print(f"{crate}/{name}: {said[name]}", flush=True)
    refused = sum(is_refused(record[total].partition(" ")[2]) for total in sums.values())
    return refused, len(sums) - refused


def main():
    words = argparse.ArgumentParser(description=__doc__.split("\n\n")[0])
    words.add_argument("--record", default=os.path.join(TOP, "out", "wrong_bodies.txt"))
    words.add_argument("crates", nargs="*", metavar="CRATE")
    asked = words.parse_args()
    uses, have = uses_of(TOP), sorted(os.listdir(EDITS))
    strange = [it for it in asked.crates if it not in have]
    if strange:
        sys.exit(f"wrong_bodies.py: no folder lint/wrong_bodies/{strange[0]}")
    record, refused, failed = read_record(asked.record), 0, 0
    os.makedirs(os.path.dirname(os.path.abspath(asked.record)), exist_ok=True)
    for crate in asked.crates or have:
        good, bad = check_crate(crate, uses, record)
        refused, failed = refused + good, failed + bad
        with open(asked.record, "w") as it:
            it.writelines(f"{total} {said}\n" for total, said in sorted(record.items()))
    print(f"{refused} refused, {failed} failed")
    sys.exit(1 if failed or not refused else 0)


if __name__ == "__main__":
    main()
