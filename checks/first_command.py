#!/usr/bin/env python3
"""first_command.py [PROGRAM]: whether `./tdelay` answers in a checkout where nothing is built.

In a copy of the checkout without anything built: two first commands at once compile the program
without proofs, say so, and answer as PROGRAM does; a later one answers at once, also after a
checkout that changes nothing but times; a changed source is never answered by an older program;
a proved program is taken first, and one that isn't of the sources is not; a failed run-time check
is explained; a read-only checkout uses the user's cache; no toolchain, an interrupted build and a
full disk each end with a sentence, and leave nothing half-made.
"""

import argparse
import os
import shutil
import signal
import subprocess
import sys
import tempfile
import time

TOP = os.path.dirname(os.path.dirname(os.path.abspath(__file__)))
WORDS = ["sim", "examples/c17.v", "01010", "01110"]
COMPILED = "compiled without proofs"
SECONDS = 900
LATER_SECONDS = 2.0


class Check:
    """What was looked at, and what was wrong."""

    def __init__(self):
        self.passed, self.failed = 0, 0

    def that(self, holds, what, said=""):
        if holds:
            self.passed += 1
        else:
            self.failed += 1
            print(f"first_command: not so: {what}", said, sep="\n", flush=True)


def copy_checkout(room):
    """A checkout with the files that git knows or would add, and nothing built."""
    listed = subprocess.run(
        ["git", "ls-files", "-co", "--exclude-standard"], cwd=TOP, capture_output=True, check=True
    )
    for name in listed.stdout.decode().splitlines():
        if os.path.isfile(os.path.join(TOP, name)):
            os.makedirs(os.path.join(room, os.path.dirname(name)), exist_ok=True)
            shutil.copy2(os.path.join(TOP, name), os.path.join(room, name))


def environment_in(room, **others):
    """An environment whose temporary folder and cache are in this folder."""
    for name in ("tmp", "cache"):
        os.makedirs(os.path.join(room, name), exist_ok=True)
    own = {"TMPDIR": os.path.join(room, "tmp"), "XDG_CACHE_HOME": os.path.join(room, "cache")}
    return {**os.environ, **own, **others}


def begin(top, environment, words=WORDS):
    return subprocess.Popen(
        [os.path.join(top, "tdelay"), *words], cwd=top, env=environment, text=True,
        stdin=subprocess.DEVNULL, stdout=subprocess.PIPE, stderr=subprocess.PIPE,
    )  # fmt: skip


def run(top, environment, words=WORDS):
    """The status, standard output and standard error of a command."""
    process = begin(top, environment, words)
    out, err = process.communicate(timeout=SECONDS)
    return process.returncode, out, err


def without_toolchain(environment, room):
    """The same environment with a PATH that has no `rt`."""
    folder = os.path.join(room, "bin")
    os.makedirs(folder, exist_ok=True)
    for name in "bash python3 find dirname cksum cut rm mkdir touch".split():
        if not os.path.lexists(os.path.join(folder, name)):
            os.symlink(os.path.realpath(shutil.which(name)), os.path.join(folder, name))
    return {**environment, "PATH": folder}


def built_in(top):
    return os.path.join(top, "out", "unproved", "tdelay")


def check_no_toolchain(check, top, room, environment):
    status, out, err = run(top, without_toolchain(environment, room))
    check.that(status == 5 and "no toolchain" in err and not out, "no toolchain is reported", err)
    check.that(not os.path.exists(built_in(top)), "nothing is built without a toolchain")


def check_interrupted(check, top, room, environment):
    process = begin(top, environment)
    time.sleep(6)
    # The build is the launcher's child, and treats this as an interrupt from a terminal.
    subprocess.run(["pkill", "-TERM", "-P", str(process.pid)], check=False)
    _, err = process.communicate(timeout=60)
    check.that(process.returncode == 5 and "interrupted" in err, "an interrupt is reported", err)
    check.that(not os.path.exists(built_in(top)), "an interrupted build leaves no program")
    check.that(not os.listdir(os.path.join(room, "tmp")), "an interrupted build leaves no scratch")


def check_two_first(check, top, environment, wanted):
    began = time.monotonic()
    two = [begin(top, environment), begin(top, environment)]
    said = [process.communicate(timeout=SECONDS) for process in two]
    seconds = time.monotonic() - began
    for process, (out, err) in zip(two, said):
        check.that(process.returncode == 0 and out == wanted, "a first command answers", out + err)
        check.that(COMPILED in err, "a first command says that nothing is proved", err)
    for parts, status in (("code", 0), ("all", 1)):
        words = [sys.executable, os.path.join(top, "build", "sources.py"), "is", built_in(top), parts]
        ended = subprocess.run(words, env=environment, check=False).returncode
        check.that(ended == status, f"a program without proofs, by its stamp: {parts}", f"{ended}")
    waits = sum("waiting" in err for _, err in said)
    check.that(waits == 1, "the second of two first commands waits for the first")
    print(f"first_command: the first answer after {seconds:.0f} s", flush=True)


def check_later(check, top, environment, wanted):
    seconds = []
    for _ in range(5):
        began = time.monotonic()
        status, out, err = run(top, environment)
        seconds.append(time.monotonic() - began)
        check.that(status == 0 and out == wanted and not err, "a later command answers", err)
    check.that(min(seconds) < LATER_SECONDS, f"a later command takes {min(seconds):.3f} s")
    print(f"first_command: a later answer after {1000 * min(seconds):.0f} ms", flush=True)


def source_of(top):
    return os.path.join(top, "crates", "td_gates", "src", "lib.rt")


def check_changes(check, top, room, environment, wanted):
    """Times alone make nothing stale; a changed text does, also where nothing can be built."""
    future = time.time() + 100
    os.utime(source_of(top), (future, future))
    status, out, err = run(top, environment)
    check.that(status == 0 and out == wanted and not err, "changed times make nothing stale", err)
    with open(source_of(top), "a") as it:
        it.write("// another text\n")
    status, out, err = run(top, without_toolchain(environment, room))
    check.that(status == 5 and not out, "a changed source isn't answered by an old program", err)
    shutil.copy2(os.path.join(TOP, os.path.relpath(source_of(top), top)), source_of(top))


def write_program(path, text):
    os.makedirs(os.path.dirname(path), exist_ok=True)
    with open(path, "w") as it:
        it.write(f"#!/bin/bash\n{text}\n")
    os.chmod(path, 0o755)


def stamp(top, environment, program):
    words = [sys.executable, os.path.join(top, "build", "sources.py"), "stamp", program]
    subprocess.run(words, env=environment, check=True)


def check_failed_check(check, top, environment):
    """A program that ends as one does whose run-time check failed."""
    shutil.copy2(built_in(top), f"{built_in(top)}.kept")
    write_program(built_in(top), "kill -ILL $$")
    status, _, err = run(top, environment)
    check.that(status == 132 and "fault of ours" in err, "a failed check is explained", err)
    os.replace(f"{built_in(top)}.kept", built_in(top))


def check_proved(check, top, environment):
    """A program that stands where the gate puts the proved one."""
    proved = os.path.join(top, "crates", "tdelay", "out", "tdelay")
    write_program(proved, "echo proved")
    stamp(top, environment, proved)
    check.that(run(top, environment)[1] == "proved\n", "a proved program is taken first")
    future = time.time() + 100
    os.utime(source_of(top), (future, future))
    check.that(run(top, environment)[1] == "proved\n", "and after times alone changed")
    spec = os.path.join(top, "crates", "td_gates", "specs", "Lib.antt")
    with open(spec, "a") as it:
        it.write("-- another text\n")
    os.utime(spec, (future + 100, future + 100))
    check.that(run(top, environment)[1] != "proved\n", "one of other specifications is not taken")
    shutil.copy2(os.path.join(TOP, os.path.relpath(spec, top)), spec)
    shutil.rmtree(os.path.dirname(proved))


def check_read_only(check, top, room, environment, wanted):
    """As a user who may not write there, with a program in the user's cache."""
    if os.geteuid() or not shutil.which("setpriv"):
        print("first_command: skipped: a read-only checkout (needs root and setpriv)")
        return
    key = subprocess.run("printf %s \"$here\" | cksum | cut -d' ' -f1", shell=True, text=True,
                         env={**environment, "here": top}, capture_output=True).stdout.strip()  # fmt: skip
    cached = os.path.join(room, "cache", "tdelay", key, "unproved")
    shutil.copytree(os.path.dirname(built_in(top)), cached)
    shutil.move(os.path.join(top, "out"), os.path.join(room, "out"))
    os.utime(os.path.join(cached, "tdelay"), (time.time() + 300,) * 2)
    nobody = ["setpriv", "--reuid=65534", "--regid=65534", "--clear-groups"]
    words = [*nobody, os.path.join(top, "tdelay"), *WORDS]
    ran = subprocess.run(words, cwd=top, env=environment, capture_output=True, text=True)
    check.that(ran.stdout == wanted, "a read-only checkout uses the user's cache", ran.stderr)
    shutil.move(os.path.join(room, "out"), os.path.join(top, "out"))


def check_full_disk(check, top, room, environment):
    """With a temporary folder that holds 8 MB."""
    small = os.path.join(room, "small")
    os.makedirs(small)
    mounted = subprocess.run(["mount", "-t", "tmpfs", "-o", "size=8m", "none", small])
    if mounted.returncode:
        print("first_command: skipped: a full disk (needs leave to mount)")
        return
    try:
        shutil.move(os.path.join(top, "out"), os.path.join(room, "out"))
        status, out, err = run(top, {**environment, "TMPDIR": small})
        check.that(status == 5 and "no room on disk" in err, "a full disk is reported", err)
        check.that(not os.path.exists(built_in(top)), "a full disk leaves no program")
        shutil.rmtree(os.path.join(top, "out"), ignore_errors=True)
        shutil.move(os.path.join(room, "out"), os.path.join(top, "out"))
    finally:
        subprocess.run(["umount", small], check=True)


def check_all(check, program):
    ran = subprocess.run([program, *WORDS], cwd=TOP, capture_output=True, text=True, timeout=30)
    check.that(ran.returncode == 0 and "time 3" in ran.stdout, "the program answers", ran.stderr)
    if check.failed:
        return
    with tempfile.TemporaryDirectory(prefix="tdelay-first-") as room:
        os.chmod(room, 0o755)
        top = os.path.join(room, "checkout")
        copy_checkout(top)
        environment = environment_in(room)
        check_no_toolchain(check, top, room, environment)
        check_interrupted(check, top, room, environment)
        check_two_first(check, top, environment, ran.stdout)
        if check.failed:
            return
        check_later(check, top, environment, ran.stdout)
        check_changes(check, top, room, environment, ran.stdout)
        check_failed_check(check, top, environment)
        check_proved(check, top, environment)
        check_read_only(check, top, room, environment, ran.stdout)
        check_full_disk(check, top, room, environment)


def main():
    words = argparse.ArgumentParser(description=__doc__.split("\n\n")[0])
    built = os.path.join(TOP, "crates", "tdelay", "out", "tdelay")
    words.add_argument("program", nargs="?", default=built)
    words.add_argument("--seed", type=int, default=0, help="not used: nothing here is random")
    words.add_argument("--cases", type=int, default=1, help="not used: there is one of each case")
    check = Check()
    check_all(check, os.path.abspath(words.parse_args().program))
    print(f"first_command: {check.passed} passed, {check.failed} failed")
    sys.exit(1 if check.failed or not check.passed else 0)


if __name__ == "__main__":
    main()
