"""Small designs, and the libraries on which they are tried."""

import os
import re
from typing import NamedTuple

from .tools import LIBRARY, script, write



def blocks_of(name):
    """The designs of a file of this folder, by the name in the line above each."""
    with open(os.path.join(os.path.dirname(__file__), name), encoding="utf-8") as file:
        return dict(re.findall(r"^// block (\w+)\n((?:(?!// block).*\n)*)", file.read(), re.M))


BLOCKS = blocks_of("blocks.v")
TECHNOLOGIES = "/usr/share/qflow/tech"


class Library(NamedTuple):
    """A library: its name, its Liberty file, and its Verilog models, where it has some."""

    name: str
    liberty: str
    models: str = ""


TINY = Library("tiny", LIBRARY)
REAL = [
    Library(name, f"{TECHNOLOGIES}/{name}/{cells}.lib", f"{TECHNOLOGIES}/{name}/{cells}.v")
    for name, cells in (
        ("osu018", "osu018_stdcells"),
        ("osu035", "osu035_stdcells"),
        ("osu050", "osu05_stdcells"),
    )
    if os.path.exists(f"{TECHNOLOGIES}/{name}/{cells}.lib")
]


def first_run(run, name, library):
    """The three commands from a block to gates that are proved, each by `run`. Answers what they
    say, or None where one fails.
    """
    out, said = f"{name}.{library.name}", ""
    clock = ("--clock", "clk") if "input clk" in BLOCKS[name] else ()
    for words in (
        ("synth.sh", f"{name}.v", name, library.liberty, out),
        ("from_liberty.sh", f"{out}.mapped.v", name, library.liberty, out, *clock),
        ("equivalent.sh", f"{name}.v", name, library.liberty, out),
    ):
        ended = run(*words)
        said += ended.out + ended.err
        if ended.status:
            return None
    return said


def work(tested):
    """Cases: two blocks on each library come through, or are refused with a remedy."""
    for library in [TINY, *REAL]:
        for name in tested.random.sample(sorted(BLOCKS), 2):
            first_case(tested, name, library)


def first_case(tested, name, library):
    """A case: a block on a library."""
    write(tested.folder, f"{name}.v", BLOCKS[name])
    failed = []

    def run(*words):
        ended = script(tested.folder, *words)
        if ended.status:
            failed.append(f"{' '.join(words)}: {ended}")
        return ended

    said = first_run(run, name, library)
    if said is None or "equal by yosys" not in said or "equal by Icarus" not in said:
        tested.fault(f"{name} on {library.name}: {failed or said}"[:900])
    tested.case("block")
