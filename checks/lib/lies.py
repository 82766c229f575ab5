"""Programs that lie in one thing each, made of one that is right. A check that is about this thing
has to fail them.
"""

import os
import subprocess

from . import places, running

# `$R` is the program that is right. What a lie changes is its output, its status or its files.
FIVE = '$R "$@"; status=$?; [ $status = 5 ] && exit'
MORE = """$R "$@" | awk '$1 == "{key}" && $2 > 0 {{ $2 += {by} }} 1'; exit ${{PIPESTATUS[0]}}"""


def where(words, lie):
    """A lie where the words have these among them."""
    return f'if [[ "$*" == *"{words}"* ]]; then {lie}; else exec $R "$@"; fi'


def edited(script):
    """The output after an edit by `sed`."""
    return f"""$R "$@" | sed '{script}'; exit ${{PIPESTATUS[0]}}"""


ACCEPTS = """$R "$@"; status=$?; [ $status = 4 ] && echo accepted 3 && exit 0; exit $status"""
NEVER = (
    r"""printf 'unit 1 ns\ndefaulted 0\nbetween 0 1000\ncause budget\nfrom 0\nto 0\nnodes 1\n'"""
)
SLOW = """count=$(grep -Ec 'BOzJL94H9NC|jlND7_n.2xC' t.v)
[ "$count" -gt 5000 ] && timeout 8 sh -c 'while :; do :; done'
exec $R "$@" """

# The place of the pinned input is that of one reading of the file, the answer that of another.
PLACED_BEFORE = """[ "$3 $4" = "--pin b=1" ] || exec $R "$@"
place=$($R info "$2" | awk '$1 == "input" && $3 == "b" { print $2 }')
sleep 0.002
if [ "$place" = 0 ]; then set -- 1.; else set -- .1; fi
exec $R worst t.v --first "$1" --second "$1" """

# Of each check the lies that it has to find, by what they are: a script, or the number of a lie of
# lying.c.
LIES = {
    "bridges": {
        "a last change at another moment": where(
            "sim", edited(r"s/^last \(.*\) \([0-9]*\)$/last \1 1\2/")
        ),
        "no output can glitch": where("--hazards", edited(r"s/ can [01]* [01]*$/ never/")),
    },
    "slurm": {"a joined time that is one more": where("join", MORE.format(key="unchecked", by=1))},
    "budgets": {"a time that is one less": where("worst", MORE.format(key="exact", by=-1))},
    "collisions": {"colliding names take long": SLOW},
    "devices": {"a device that fails is a bad text": FIVE + " 1; exit $status"},
    "doubling": {"the time is one more": MORE.format(key="time", by=1)},
    "each": {
        "a bound by edges that is one more": where(
            "--each", """$R "$@" | awk '$1 == "each" { $NF += 1 } 1'; exit ${PIPESTATUS[0]}"""
        ),
        "the last output is left out": where("--each", edited("$d")),
        "a search that was cut short is exact": where(
            "--each", edited(r"s/ between \([0-9]*\) [0-9]*/ exact \1/")
        ),
        "a search that was cut short ends well": where("--each", '$R "$@"; exit 0'),
    },
    "failing_files": {"a file is left where one fails": 2},
    "fronts": {
        "a search that was stopped has no report": where("worst --stop", '$R "$@" >/dev/null'),
        "a certificate that is cut off": where(
            "worst --stop", '$R "$@"; status=$?; [ -f c ] && truncate -s -2 c; exit $status'
        ),
        "a search that was stopped ends well": where("worst --stop", '$R "$@"; exit 0'),
        "no netlist on standard input": where("worst --stop", '$R "$@" </dev/null'),
        "its own file goes unheeded": where("--stop mine", 'exec $R worst none'),
    },
    "install": {
        "a time that is one more": where("worst", MORE.format(key="exact", by=1)),
        "help without one of the values": where("--help", edited("s/least, //")),
    },
    "kept_pairs": {
        "a latest rise that is one more": where("--changes", edited(r"s/ rise \([0-9]\)/ rise 1\1/")),
        "a fall that never comes": where("--changes", edited(r"s/ fall [0-9]*/ fall never/")),
        "a hazard without a pair": where("--hazards", edited(r"s/ never$/ none/")),
        "a row's question that stays open": where(
            "--required 0", edited(r"s/^required 0 met/required 0 open/")
        ),
    },
    "limits": {"too many is bad syntax": '$R "$@" 2> >(sed s/TooMany/Syntax/ >&2); exit $?'},
    "memory_limits": {"out of memory is well": FIVE + " 0; exit $status"},
    "mutations": {
        "another status": '$R "$@"; status=$?; [ $status = 4 ] && exit 7; exit $status',
        "a word on standard error": '[ "$1" = info ] && echo hello >&2; exec $R "$@"',
        "refused certificates are accepted, too": where("check t.v c", ACCEPTS),
    },
    "opinions": {
        "a change at another moment": where("path", edited("0,/ input$/s/change 0/change 1/")),
        "a bound by edges that is one more": where("--edges", MORE.format(key="e", by=1)),
        "refused certificates are accepted, too": where("check", ACCEPTS),
    },
    "pages": {"the time is one more": MORE.format(key="time", by=1)},
    "parts": {
        "a part is left out": where("parts", edited("$d")),
        "a part comes twice": where("parts", edited("$p")),
        "a whole that stays open ends well": where(
            "join", '$R "$@"; status=$?; [ $status = 3 ] && exit 0; exit $status'
        ),
        "a required moment that a whole leaves open is met": where(
            "--required", edited(r"s/^\(required .*\) open$/\1 met/")
        ),
    },
    "refutations": {
        "refused certificates are accepted, too": where("check", ACCEPTS),
        "a bad step on the next line": '$R "$@" | awk \'/BadStep/ { $NF += 1 } 1\'; '
        "exit ${PIPESTATUS[0]}",
        "a bound that is none is a bad step": edited("s/refused 3 LeafBound/refused 10 BadStep/"),
    },
    "refused_growths": {
        "a search after its root is out of memory": 1,
        "a figure below the worst delay before a pair is found": 3,
    },
    "real": {"a time that is one less": where("worst", MORE.format(key="exact", by=-1))},
    "required": {
        "a violated moment is met": where("--required", edited("s/ violated$/ met/")),
        "a violated moment ends well": where(
            "--required", '$R "$@"; status=$?; [ $status = 6 ] && exit 0; exit $status'
        ),
        "a slack without its sign": where("--each", edited(r"s/ slack -/ slack /")),
        "a bound that is one greater meets": where(
            "bound", edited(r"s/^required \([0-9]*\) open$/required \1 met/")
        ),
        "an upper figure that is one less": where(
            "--cert-between",
            """$R "$@" | awk '$1 == "between" && $3 > 1 { $3 -= 1 } 1'; exit ${PIPESTATUS[0]}""",
        ),
    },
    "stops": {
        "it goes on": where(
            "doubling_26.v --budget", 'ulimit -t 6; exec $R "${@/#stop/gone}"'
        ),
        "no certificate of what was found": where(
            "--stop stop", '$R "$@"; status=$?; rm -f cert; exit $status'
        ),
    },
    "strategies": {"a time that is one less": where("lead", MORE.format(key="exact", by=-1))},
    "swaps": {"a place of another reading": PLACED_BEFORE},
    "tables": {
        "a time that is one more": where("worst", MORE.format(key="exact", by=1)),
        "a run that ends one later": where("sim", MORE.format(key="time", by=1)),
    },
    "terminals": {
        "all lines stay at a terminal": where("--progress", '$R "$@" 2>&1 >/dev/null | cat >&2'),
        "no hints at a terminal": where("sim", '$R "$@" 2>&1 >/dev/null | cat >&2'),
    },
    "tools": {"the time is one more": MORE.format(key="time", by=1)},
    "transcripts": {
        "a change at another moment": where("path", edited("s/change 0/change 1/")),
        "a number that is a text": where("--json", edited(r's/"time":\([0-9]*\)/"time":"\1"/')),
        "a report that wasn't asked for": where("--quiet", 'echo time 0; $R "$@"'),
    },
    "vcd": {"a change at another moment": '$R "$@"; s=$?; sed -i "s/^#5$/#6/" our.vcd; exit $s'},
    "workers": {
        "four workers find one more": where("--workers 4", MORE.format(key="exact", by=1)),
        "no certificate": where("--workers 64", '$R "$@"; status=$?; rm -f c; exit $status'),
        "nothing is exact": where("worst", f"rm -f c; {NEVER}; exit 3"),
    },
}


def make(folder, right, number, lie):
    """Makes a program that lies in a folder, of one that is right. Gives its path."""
    if isinstance(lie, int):
        path = os.path.join(folder, f"lies{number}")
        source = os.path.join(places.CHECKS, "lib", "lying.c")
        macros = [f'-DREAL="{right}"', f"-DLIE={lie}"]
        subprocess.run(["cc", "-O1", *macros, "-o", path, source], check=True)
    else:
        text = f"#!/bin/bash\nR='{right}'\n{lie}\n"
        path = running.write(folder, f"lies{number}", text)
        os.chmod(path, 0o755)
    return path


def all_of(names):
    """The lies of these checks: the check, what the lie is, and the lie."""
    return [(name, what, lie) for name in names for what, lie in LIES.get(name, {}).items()]
