#!/usr/bin/env python3
"""Runs the transcripts that stand in checks/transcripts, or those that `--file` names, and says
which lines differ.

A transcript is text as cram (https://bitheap.org/cram/) reads it: a line that begins with two
spaces and `$ ` is a command, one with two spaces and `> ` goes on with it, and the lines with two
spaces after it are what it prints, standard error after standard output, then its exit status in
brackets where that isn't 0. Every other line is a comment. Each file runs in an empty folder of its
own, in which `tdelay` is the program and NETLISTS names the folder examples/. Each command is a
case, and there are 400 at least, half of which print something.

A command that is one call of `tdelay`, and prints a report, is called once more with `--json`: it
prints one JSON object then, and what Python reads is what the lines say (lib/reports.py), by the
table of docs/MANUAL.md. Each of these is a case too, and there are 90 at least. Each is also held
against docs/report.schema.json, and so is each report in JSON that a transcript shows, if Python
has the module jsonschema. And it is called with `--quiet`, prints nothing on standard output then,
and ends as without it: another case.
"""

import glob
import os
import re
import shlex
import sys

from lib import check, places, reports, running, schema

# The longest that a command may take, in seconds.
LONGEST = 40
# A call of `tdelay` alone, and one of those that print no report or not the same one each time.
ALONE = re.compile(r"tdelay (sim|path|bound|worst|parts|join|check|info) [^|;&<>`()\n]*")
OTHER = re.compile(r" -- | --json| --help| -h| -q|(--cert|--vcd|-o)[ =]?-( |$)|(--workers|-j)")


def cases(text):
    """Gives (line, command, expected lines) for each command of a transcript."""
    found = []
    for number, line in enumerate(text.splitlines(), 1):
        if line.startswith("  $ "):
            found.append((number, [line[4:]], []))
        elif line.startswith("  > ") and found and not found[-1][2]:
            found[-1][1].append(line[4:])
        elif line.startswith("  ") and found:
            found[-1][2].append(line[2:])
    return [(number, "\n".join(command), expected) for number, command, expected in found]


def printed(command, folder, environment):
    """Runs a command, and gives how it ended and the lines that a transcript has for it. They are
    those of a proved program, whatever this one says of itself, in any checkout."""
    ran = running.run_bytes(["bash", "-c", command], folder, seconds=LONGEST, env=environment)
    text = (ran.out + ran.err).decode(errors="backslashreplace")
    lines = reports.as_proved(text).replace(places.EXAMPLES, "$NETLISTS").splitlines()
    return ran, lines + [f"[{ran.status}]"] * (ran.status != 0)


def try_json(tested, command, ran, folder, environment):
    """A case: the report of a command that ran, as JSON, which says as much as --verbose."""
    if command.startswith("tdelay worst ") and "--verbose" not in command:
        ran, _ = printed(f"{command} --verbose", folder, environment)
    again, _ = printed(f"{command} --json", folder, environment)
    wanted = (ran.status, ran.err, reports.as_json(ran.out.decode()))
    said = reports.lines_of_json(again.out.decode(errors="replace"))
    got = (again.status, again.err, said)
    tested.expect(f"{command} --json", wanted, got, "as JSON")
    if said is not None:
        words = shlex.split(command.replace("$NETLISTS", places.EXAMPLES))
        asked = reports.asked_in(words[1:])
        named = reports.asked_of_json(again.out)
        if named != asked:
            tested.fault(f"{command} --json: asked {named!r}, not {asked!r}")
        for fault in schema.faults(again.out):
            tested.fault(f"{command} --json: {fault}")


def try_quiet(tested, command, ran, folder, environment):
    """A case: a command that ran, without its report."""
    again, _ = printed(f"{command} --quiet", folder, environment)
    wanted = (ran.status, ran.err, b"")
    tested.expect(f"{command} --quiet", wanted, (again.status, again.err, again.out), "quiet")


def try_transcript(tested, path):
    """The cases of one transcript."""
    with open(path, encoding="utf-8") as file:
        found = cases(file.read())
    if not found:
        tested.fault(f"{path}: no command")
    with running.folder() as folder:
        binaries = os.path.join(folder, ".bin")
        os.mkdir(binaries)
        os.symlink(tested.program, os.path.join(binaries, "tdelay"))
        environment = {
            **os.environ,
            "PATH": f"{binaries}:{os.environ['PATH']}",
            "NETLISTS": places.EXAMPLES,
            "LC_ALL": "C",
        }
        for number, command, expected in found:
            ran, lines = printed(command, folder, environment)
            if lines != expected:
                differing = [f"  - {it}" for it in expected] + [f"  + {it}" for it in lines]
                tested.fault(
                    "\n".join([f"{os.path.basename(path)}:{number}: {command}", *differing])
                )
            tested.case(*["with an output"] * bool(lines))
            for report in [line for line in lines if line.startswith('{"proved":')]:
                for fault in schema.faults(report):
                    tested.fault(f"{os.path.basename(path)}:{number}: {command}: {fault}")
            if ran.out and ALONE.fullmatch(command) and not OTHER.search(command):
                try_json(tested, command, ran, folder, environment)
                try_quiet(tested, command, ran, folder, environment)


def work(tested):
    if not schema.is_looked_at():
        print("docs/report.schema.json isn't looked at: python3-jsonschema isn't there")
    for path in tested.asked.file or sorted(
        glob.glob(os.path.join(places.CHECKS, "transcripts", "*.t"))
    ):
        try_transcript(tested, path)


def shares(tested, cut):
    commands = tested.cases - tested.kinds["as JSON"] - tested.kinds["quiet"]
    tested.require("with an output", 0.4)
    if not cut and not tested.asked.file and (commands < 400 or tested.kinds["as JSON"] < 90):
        tested.fault(f"{commands} commands, where there have to be 400, and 90 as JSON")


if __name__ == "__main__":
    option = {
        "--file": {
            "nargs": "+",
            "metavar": "FILE",
            "help": "transcripts in place of those of checks/transcripts",
        }
    }
    sys.exit(check.main(work, __doc__, shares=shares, options=option))
