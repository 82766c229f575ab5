#!/usr/bin/env python3
"""sdc.py CONSTRAINTS.sdc GATES.v --step S --unit T > OUT.options: the options of tdelay that ask
what constraints ask, from what `write_sdc` of OpenSTA wrote.

`set_input_delay` becomes --at, `set_case_analysis` becomes --pin. Commands that OpenSTA has
computed delays by, and those that say when an output is wanted, are passed over. Any other would
change the figure, and is refused by name.
"""

import argparse
import re
import shlex
import sys
from collections import defaultdict
from decimal import Decimal
from typing import Dict, List

from refusal import Refusal, ending_by_name
from sdf import span_of

# What is in the delays that OpenSTA wrote.
IN_DELAYS = {
    "set_load", "set_input_transition", "set_wire_load_model",
    "set_wire_load_mode", "set_wire_load_selection_group", "set_operating_conditions",
    "set_propagated_clock", "set_fanout_load", "set_port_fanout_number",
}  # fmt: skip
# What says when an output is wanted, or a rule of the design.
WANTED = {
    "current_design", "create_clock", "set_output_delay", "set_clock_uncertainty", "set_max_delay",
    "set_multicycle_path", "set_max_fanout", "set_max_transition", "set_max_capacitance",
    "set_max_area", "set_units", "set_clock_groups", "set_min_delay", "set_clock_transition",
}  # fmt: skip
PORTS = re.compile(r"\[get_ports \{([^}]*)\}\]")


def commands(text: str) -> List[str]:
    """The commands of a file, each on one line."""
    lines = text.replace("\\\n", " ").splitlines()
    return [line.strip() for line in lines if line.strip() and not line.strip().startswith("#")]


class Options:
    """The moments and the levels of inputs that constraints name."""

    def __init__(self, step: int, unit: int):
        self.step, self.unit = step, unit
        self.moments: Dict[str, Dict[str, Decimal]] = defaultdict(dict)
        self.levels: Dict[str, int] = {}

    def read(self, command: str):
        """One command."""
        name = command.split()[0]
        late = name == "create_clock" and not re.search(r"-waveform \{0\.0*\s", command)
        if name in IN_DELAYS | WANTED and not (late and "-waveform" in command):
            return
        port = PORTS.search(command)
        if name == "set_input_delay" and port:
            self.input_delay(command, port[1])
        elif name == "set_case_analysis" and port and command.split()[1] in "01":
            self.levels[port[1]] = int(command.split()[1])
        elif name in ("set_driving_cell", "set_drive"):
            raise Refusal(
                "SdcCommand",
                f"`{command}` delays an input by what no SDF file has",
                "say the transition by set_input_transition in its place",
            )
        else:
            raise Refusal(
                "SdcCommand",
                f"`{command}` would change the figure, and no option of tdelay says it",
                f"leave {name} out of the constraints",
            )

    def input_delay(self, command: str, port: str):
        """The moment at which an input changes."""
        if "-clock_fall" in command:
            raise Refusal(
                "SdcCommand",
                f"`{command}`: moments are those after the rising edge",
                "add half a period to the delay, and leave -clock_fall out",
            )
        kinds = re.findall(r" (-min|-max|-rise|-fall)\b", command)
        number = next(it for it in command.split()[1:] if re.fullmatch(r"-?[0-9.e-]+", it))
        self.moments[port][" ".join(kinds)] = Decimal(number)

    def moment(self, port: str) -> int:
        """An input's moment in steps, which has to be one."""
        given = set(self.moments[port].values())
        if len(given) > 1:
            raise Refusal(
                "SdcWindow",
                f"{port} arrives at several moments: {', '.join(sorted(map(str, given)))}",
                "give it one set_input_delay",
            )
        steps = given.pop() * self.unit / self.step
        if steps < 0:
            raise Refusal(
                "SdcMoment", f"{port} arrives before moment 0", "add one time to all input delays"
            )
        return int(steps.to_integral_value())

    def words(self, ports: Dict[str, List[str]]) -> List[str]:
        """The options, for a vector as a whole where its bits have one moment."""
        found = []
        moments = {port: self.moment(port) for port in self.moments}
        known = {bit for bits in ports.values() for bit in bits}
        for name, bits in ports.items():
            given = {moments.get(bit, 0) for bit in bits}
            if len(given) == 1:
                moment = given.pop()
                found += [f"--at {quoted(f'{name}={moment}')}"] * bool(moment)
            else:
                found += [
                    f"--at {quoted(f'{bit}={moments[bit]}')}" for bit in bits if moments.get(bit)
                ]
        for port, level in self.levels.items():
            if port in known:
                found.append(f"--pin {quoted(f'{port}={level}')}")
        return found


def quoted(word: str) -> str:
    """A word as a shell needs it; those of plain names and bits stand as they are."""
    return word if re.fullmatch(r"[\w\[\].=]+", word) else shlex.quote(word)


def inputs_of(gates: str) -> Dict[str, List[str]]:
    """The inputs of a netlist of gates with their bits."""
    found = {}
    for left, right, name in re.findall(r"^input (?:\[(\d+):(\d+)\] )?\\?(\S+?) ?;$", gates, re.M):
        low, high = sorted((int(left), int(right))) if left else (0, 0)
        found[name] = [f"{name}[{it}]" for it in range(low, high + 1)] if left else [name]
    return found


def main():
    words = argparse.ArgumentParser(
        description=__doc__, formatter_class=argparse.RawDescriptionHelpFormatter
    )
    words.add_argument("constraints")
    words.add_argument("gates")
    words.add_argument("--step", default="1ps")
    words.add_argument("--unit", default="1ns", help="that of the library's times")
    asked = words.parse_args()
    options = Options(span_of(asked.step), span_of(asked.unit))
    with open(asked.constraints, encoding="utf-8") as file:
        for command in commands(file.read()):
            options.read(command)
    with open(asked.gates, encoding="utf-8", errors="surrogateescape") as file:
        inputs = inputs_of(file.read())
    print(" ".join(options.words(inputs)))


if __name__ == "__main__":
    ending_by_name("sdc.py", main)
