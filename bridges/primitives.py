#!/usr/bin/env python3
"""Writes the combinational part of a mapped netlist as a module of Verilog gate primitives, for
tdelay.

The netlist is what `yosys write_json` wrote: one flat module of yosys' gates (`$_AND_`, `$_MUX_`,
`$lut`, ..), or of cells of a Liberty library that was read by `read_liberty -setattr
keep_hierarchy`, so that the file has their functions. Delays come from an SDF file (--sdf), from a
table of kinds of cells (--delays), or are tdelay's default. Flip-flops and latches are cut out: the
output of one is an input NAME.q, what it takes an output NAME.d. The netlist goes to standard
output. docs/FROM-RTL.md says what a cell becomes, and what that changes.
"""

import argparse
import json
import os
import sys
from typing import List

from convert import Asked, Conversion
from delays import ROUNDINGS, DefaultDelays, Reading, SdfDelays, TableDelays
from liberty import cells_of_files
from netlist import MOST_GATES, Port
from refusal import Refusal, ending_by_name, refuse_same
from sdf import CORNERS, read_sdf, span_of
from yosys_json import Design

MODELS = {
    "each": "Each pin of a cell has its own delays. A pulse on a slow pin meets two gates in turn.",
    "worst": "Each pin of a cell has the delays of its slowest one (--pins worst).",
}


def words_of_the_line() -> argparse.Namespace:
    words = argparse.ArgumentParser(
        description=__doc__, formatter_class=argparse.RawDescriptionHelpFormatter
    )
    words.add_argument("netlist", help="what yosys write_json wrote")
    words.add_argument("top", help="the module")
    delays = words.add_mutually_exclusive_group()
    delays.add_argument(
        "--sdf", metavar="FILE", help="delays of the cells' arcs, as a timing tool writes them"
    )
    delays.add_argument(
        "--delays", metavar="FILE", help="lines KIND RISE FALL, in steps, for each kind of cell"
    )
    words.add_argument(
        "--corner",
        choices=CORNERS,
        default="max",
        help="which of three values of the SDF file (max)",
    )
    words.add_argument(
        "--pins",
        choices=("each", "worst"),
        default="each",
        help="each pin of a cell with its own delays (each), or all with the greatest",
    )
    words.add_argument(
        "--step",
        default="1ps",
        help="1, 10 or 100 of s ms us ns ps fs, to which delays are rounded (1ps)",
    )
    words.add_argument(
        "--round",
        choices=sorted(ROUNDINGS),
        default="nearest",
        help="to which whole step a delay is rounded (nearest)",
    )
    words.add_argument(
        "--short",
        choices=("raise", "refuse"),
        default="raise",
        help="a delay that is shorter than a cell's gates, or negative, is made as long (raise)",
    )
    words.add_argument(
        "--latch",
        choices=("auto", "open", "cut"),
        default="auto",
        help="time latches from D to Q, or cut them as flip-flops; auto: open where their enable "
        "is an input that nothing else reads",
    )
    words.add_argument(
        "--library", metavar="FILES", default="", help="the Liberty files, for cells with states"
    )
    words.add_argument(
        "--map", metavar="FILE", help="write to this file which cell and pin each net is, in JSON"
    )
    words.add_argument("--cuts", metavar="WORDS", default="", help=argparse.SUPPRESS)
    words.add_argument("--kept", metavar="NETS", default="", help=argparse.SUPPRESS)
    words.add_argument("--words-only", action="store_true", help=argparse.SUPPRESS)
    words.add_argument(
        "--outputs", metavar="NAME,..", help="keep these outputs alone, a vector by its name"
    )
    words.add_argument(
        "--shell",
        metavar="FILE",
        help="write a module TOP_shell to this file: the registers around the gates",
    )
    return words.parse_args()


def delays_of(asked: argparse.Namespace) -> DefaultDelays:
    """Where the delays come from."""
    step = span_of(asked.step)
    if step is None:
        raise Refusal(
            "BadStep", f"{asked.step} is no step", "take 1, 10 or 100 of s ms us ns ps fs, as 100fs"
        )
    if asked.sdf:
        reading = Reading(step, asked.round, asked.short == "raise")
        return SdfDelays(read_sdf(text_of(asked.sdf), asked.corner, step), reading)
    return TableDelays(text_of(asked.delays)) if asked.delays else DefaultDelays()


def text_of(path: str) -> str:
    with open(path, encoding="utf-8", errors="surrogateescape") as file:
        return file.read()


def comments(conversion: Conversion, asked: argparse.Namespace) -> List[str]:
    """The head of what is written: where from, which model, what was lost, how large it is."""
    registers, gates = len(conversion.registers), len(conversion.netlist.gates)
    delays = "no delays: each gate takes the default"
    if asked.sdf:
        corner = f"{asked.corner}, in steps of {asked.step}"
        delays = f"delays of {os.path.basename(asked.sdf)}, {corner}"
    elif asked.delays:
        delays = f"delays of {os.path.basename(asked.delays)}, in steps of {asked.step}"
    cells = f"{len(conversion.combinational):,} cells"
    if registers:
        cells += f" and {registers:,} flip-flops or latches"
    lines = [f"{asked.top}: {cells} of {os.path.basename(asked.netlist)}, {delays}."]
    if asked.sdf:
        lines.append(MODELS[asked.pins])
    steps = conversion.writer.deepest
    if steps:
        lines.append(f"A pulse may pass that is up to {steps} steps shorter than its cell's delay.")
    if registers:
        lines.append("Flip-flops and latches are cut out: moment 0 is the clock's edge,")
        lines.append("NAME.q is a state, and NAME.d the next one.")
    lines += [f"Note: {note}." for note in conversion.notes]
    lines += [f"Clock: {name}" for name in conversion.clocks]
    lines += [f"Open: {net}={level}" for net, level in conversion.held.items()]
    lines += ["Open: latches"] * bool(conversion.opened)
    lines += [f"Cut: {asked.cuts}"] * bool(asked.cuts)
    lines += [f"Kept: {' '.join(net.name for net in conversion.kept)}"] * bool(conversion.kept)
    share = 100 * gates / MOST_GATES
    return lines + [f"{gates:,} gates, {share:.1f} % of the {MOST_GATES:,} that tdelay reads."]


def keep_outputs(conversion: Conversion, asked: argparse.Namespace):
    """Leaves out the outputs that aren't asked about."""
    if asked.shell:
        raise Refusal("ShellOfAll", "a shell has all outputs", "leave out --shell or --outputs")
    wanted = set(asked.outputs.split(","))
    known = {port.name for port in conversion.netlist.outputs}
    for name in sorted(wanted - known):
        raise Refusal(
            "NoOutput", f"there is no output {name}", f"take some of {', '.join(sorted(known))}"
        )
    conversion.netlist.keep_outputs(wanted, [Port(it.name, it.bounds) for it in conversion.kept])
    conversion.notes.append(
        f"the outputs are {', '.join(sorted(wanted))} alone, and the gates on which these depend"
    )


def write(path: str, lines):
    """Writes a file, whole or not at all."""
    part = f"{path}.part"
    with open(part, "w", encoding="utf-8", errors="surrogateescape") as file:
        file.writelines(f"{line}\n" for line in lines)
    os.replace(part, path)


def converted(asked: argparse.Namespace) -> Conversion:
    """The module as gates."""
    delays = delays_of(asked)
    states = {cell.name: cell.state for cell in cells_of_files(asked.library.split()) if cell.state}
    how = Asked(asked.pins == "each", asked.latch, states, asked.kept.split())
    conversion = Conversion(Design(text_of(asked.netlist)), asked.top, delays, how)
    conversion.run()
    named = delays.annotation.design if asked.sdf else ""
    if named and named != asked.top:
        conversion.notes.append(f"the SDF file is of the design {named}, not {asked.top}")
    return conversion


def main():
    asked = words_of_the_line()
    if asked.words_only:
        return
    read = [asked.netlist, asked.sdf, asked.delays, *asked.library.split()]
    refuse_same([asked.shell, asked.map], read)
    conversion = converted(asked)
    if asked.outputs:
        keep_outputs(conversion, asked)
    conversion.refuse_too_large()
    told = comments(conversion, asked)
    step = asked.step if asked.sdf or asked.delays else None
    sys.stdout.writelines(f"{line}\n" for line in conversion.netlist.lines(told, step))
    if asked.shell:
        write(asked.shell, conversion.shell())
    if asked.map:
        write(asked.map, [json.dumps(conversion.writer.places)])
    for line in [*(f"note: {note}" for note in conversion.notes), told[-1]]:
        print(f"primitives.py: {line}", file=sys.stderr)


if __name__ == "__main__":
    ending_by_name("primitives.py", main)
