#!/usr/bin/env python3
"""keeping.py [--store FOLDER] [CRATE ..]: runs the gate, with what it proved before from a store.

With a kit that keeps nothing, `rt ci` proves every crate each time. This runs the kit's own gate
over a copy of the checkout as it is, with the named crates and those below them (all, where none is
named), and keeps each proof, the tests of a crate, and what its wrong bodies came to, by checksums
of all files that they stand on. The rest of the gate runs as ever: layouts, handles, tests and the
program. It is for work between two gates: the verdict is that of `rt ci`.

The last line is the gate's, and the exit status too. 5 where the kit is laid out otherwise, as one
that keeps proofs itself.
"""

import argparse
import hashlib
import importlib.machinery
import importlib.util
import json
import os
import shutil
import sys
import tempfile

import sources
from crates import lower_first, uses_of
from kit import fail, find_kit, need_disk, say

ROOM_MEGABYTES = 5000
# What a crate's own proof and its tests are made of.
PARTS = ("src", "specs", "proofs", "data")
FILES = ("stdin", "stdout", "args", "status")
PATCHED = ("ci", "Crate", "BACKENDS", "must_fail_all", "edits_of")


def load_gate(kit):
    """The kit's command `rt` as a module."""
    loader = importlib.machinery.SourceFileLoader("kit_rt", os.path.join(kit, "bin", "rt"))
    made = importlib.util.module_from_spec(importlib.util.spec_from_loader("kit_rt", loader))
    loader.exec_module(made)
    if not all(hasattr(made, name) for name in PATCHED) or not hasattr(made.Crate, "ci"):
        fail(5, f"{kit}/bin/rt is laid out otherwise: run `rt ci`")
    return made


def copy_checkout(crates, room):
    """Makes a repository of these crates, with their wrong bodies, as they are in the checkout."""
    shutil.copy(os.path.join(sources.TOP, "HANDLES"), room)
    with open(os.path.join(room, "crates.txt"), "w") as text:
        text.write(sources.lines_of_crates(crates))
    for crate in crates:
        folder = os.path.join("crates", crate)
        built = shutil.ignore_patterns("out")
        shutil.copytree(os.path.join(sources.TOP, folder), os.path.join(room, folder), ignore=built)


class Sums:
    """The checksums of crates: of their own files, the toolchain, and all crates below."""

    def __init__(self, kit):
        self.kit = hashlib.sha256()
        sources.add_files(self.kit, kit, [it for it in sources.KIT_FILES])
        self.known = {}

    def of(self, crate):
        if crate.name not in self.known:
            total = self.kit.copy()
            sources.add_text(total, crate.name, " ".join(crate.of_kit).encode())
            for low in sorted(crate.below(), key=lambda it: it.name):
                sources.add_text(total, low.name, self.of(low).encode())
            parts = [f"{crate.folder}/{part}" for part in PARTS]
            for at, name in walked(parts):
                sources.add_files(total, at, [name])
            sources.add_files(
                total, crate.folder, [it for it in FILES if os.path.isfile(f"{crate.folder}/{it}")]
            )
            sources.add_files(total, os.path.dirname(os.path.dirname(crate.folder)), ["HANDLES"])
            self.known[crate.name] = total.hexdigest()
        return self.known[crate.name]


def walked(folders):
    """All files in folders, each with the folder in which it stands, in order."""
    for folder in folders:
        for at, below, names in os.walk(folder):
            below.sort()
            yield from ((at, name) for name in sorted(names))


def copy(path, folder):
    """Copies a file or a folder into another folder."""
    if os.path.isdir(path):
        shutil.copytree(path, os.path.join(folder, os.path.basename(path)))
    else:
        shutil.copy2(path, folder)


class Store:
    """What was proved, by checksums."""

    def __init__(self, folder):
        self.folder = folder
        os.makedirs(folder, exist_ok=True)

    def place(self, what, crate, total):
        return os.path.join(self.folder, f"{crate}-{what}-{total[:32]}")

    def give(self, place, out):
        """Puts what is kept at a place into a crate's out/. Answers whether there is any."""
        if not os.path.isdir(place):
            return False
        os.makedirs(out, exist_ok=True)
        for name in os.listdir(place):
            shutil.rmtree(os.path.join(out, name), ignore_errors=True)
            copy(os.path.join(place, name), out)
        return True

    def take(self, place, out, names):
        """Keeps these of a crate's out/ at a place, whole or not at all."""
        room = tempfile.mkdtemp(dir=self.folder)
        for path in (os.path.join(out, name) for name in names):
            if os.path.exists(path):
                copy(path, room)
        shutil.rmtree(place, ignore_errors=True)
        os.rename(room, place)


def remember(gate):
    """Has each crate find those below it once, and make its stamp once: nothing is edited in the
    copy. The kit's way to both doubles from layer to layer, which takes minutes for the highest.
    """
    find, sign, known, signed = gate.Crate.below, gate.Crate.stamp, {}, {}

    def below(crate):
        if crate.folder not in known:
            known[crate.folder] = find(crate)
        return list(known[crate.folder])

    def stamp(crate):
        if crate.folder not in signed:
            signed[crate.folder] = sign(crate)
        return signed[crate.folder]

    gate.Crate.below, gate.Crate.stamp = below, stamp


def keep_proofs(gate, store, sums):
    """Has the gate take from the store what it proved before, and put there what it proves."""
    prove, tried = gate.Crate.ci, gate.must_fail_all

    def ci(crate, flags, tests):
        place = store.place("tests" if tests else "proof", crate.name, sums.of(crate))
        out = f"{crate.folder}/out"
        if store.give(place, out):
            gate.say(f"{crate.name}{' (tests)' if tests else ''} is kept: {place}", crate.out)
            return 0
        status = prove(crate, flags, tests)
        if status == 0:
            programs = [crate.name + end for end in gate.BACKENDS.values()]
            store.take(place, out, [f"{crate.name}_tests"] if tests else ["rlib", *programs])
        return status

    def must_fail_all(crate, edits, flags):
        if not edits:
            return tried(crate, edits, flags)
        total = hashlib.sha256(sums.of(crate).encode())
        for edit in edits:
            sources.add_files(total, os.path.dirname(edit), [os.path.basename(edit)])
        place = store.place("edits", crate.name, total.hexdigest())
        if os.path.isfile(f"{place}/said.json"):
            with open(f"{place}/said.json") as it:
                return [tuple(each) for each in json.load(it)]
        said = tried(crate, edits, flags)
        if all(refused for refused, _ in said):
            with tempfile.TemporaryDirectory() as room:
                with open(f"{room}/said.json", "w") as it:
                    json.dump(said, it)
                store.take(place, room, ["said.json"])
        return said

    gate.Crate.ci, gate.must_fail_all = ci, must_fail_all


def main():
    words = argparse.ArgumentParser(description=__doc__.split("\n\n")[0])
    cache = os.environ.get("XDG_CACHE_HOME") or os.path.expanduser("~/.cache")
    words.add_argument("--store", default=os.path.join(cache, "tdelay", "proofs"))
    words.add_argument("--no-edits", action="store_true", help="leaves the wrong bodies out")
    words.add_argument("crates", nargs="*", metavar="CRATE")
    asked = words.parse_args()
    uses = uses_of(sources.TOP)
    strange = [it for it in asked.crates if it not in uses]
    if strange:
        fail(2, f"crates.txt names no crate {strange[0]}")
    kit = find_kit()
    gate = load_gate(kit)
    need_disk(tempfile.gettempdir(), ROOM_MEGABYTES, "proving")
    os.makedirs(asked.store, exist_ok=True)
    need_disk(asked.store, ROOM_MEGABYTES, "keeping proofs")
    with tempfile.TemporaryDirectory(prefix="tdelay-keeping-") as room:
        copy_checkout(lower_first(uses, asked.crates or list(uses)), room)
        remember(gate)
        keep_proofs(gate, Store(asked.store), Sums(kit))
        if asked.no_edits:
            gate.edits_of = lambda crate: ([], [])
        os.chdir(room)
        status = gate.main(["ci"])
    say("kept proofs are no verdict: `rt ci` is")
    return status


if __name__ == "__main__":
    sys.exit(main())
