#!/usr/bin/env python3
"""Compares the waves that `sim --vcd` and `worst --vcd` write with those of Icarus Verilog.

Each case is a random circuit with a pair of vectors, for `sim` a random one, for `worst` the one
that it finds. A test bench for `iverilog` sets the first vector, waits until the circuit is
settled, sets the second and dumps all nets of the circuit by `$dumpvars`. Each net has to have the
same levels at the same moments in both, where time 0 of the pair is the moment of the second vector
there. In at least half of the cases something changes. It needs `iverilog` and `vvp`, or what
IVERILOG and VVP say in their place.
"""

import os
import sys

from lib import check, reports, running
from lib.netlists import random_netlist

CASES = 400
# The words by which Icarus Verilog is called.
ICARUS = os.environ.get("IVERILOG", "iverilog").split()
VVP = os.environ.get("VVP", "vvp").split()
# When the second vector comes.
SETTLED = 1000


def bench(inputs, outputs, first, second):
    """A test bench that dumps the circuit's nets from before the second vector on."""

    def sets(vector):
        return " ".join(f"a{k} = 1'b{level};" for k, level in enumerate(vector))

    names = [f"a{k}" for k in range(inputs)] + [f"y{k}" for k in range(outputs)]
    wires = ", ".join(f"y{k}" for k in range(outputs))
    return f"""module bench;
reg {', '.join(f'a{k}' for k in range(inputs))};
wire {wires};
t dut ({', '.join(names)});
initial begin
  $dumpfile("icarus.vcd");
  {sets(first)}
  #{SETTLED - 1} $dumpvars(1, dut);
  #1 {sets(second)}
  #{SETTLED} $finish;
end
endmodule
"""


def read_dump(text, offset):
    """Of each net in a dump the level before the offset, and the later ones by their moments."""
    names, levels, changes, time = {}, {}, {}, 0
    for line in text.splitlines():
        words = line.split()
        if line.startswith("$var"):
            names[words[3]] = words[4]
        elif line.startswith("#"):
            time = int(line[1:])
        elif line[:1] in tuple("01xz"):
            name, level = names[line[1:].strip()], line[0]
            if time < offset:
                levels[name] = level
            else:
                changes.setdefault(name, {})[time - offset] = level
    return {name: (levels[name], changes.get(name, {})) for name in names.values()}


def waves(text, offset):
    """The level before the offset and the true changes from then on of each net in a dump."""
    found = {}
    for name, (before, written) in read_dump(text, offset).items():
        level, kept = before, []
        for moment, new in sorted(written.items()):
            if new != level:
                kept.append((moment, new))
                level = new
        found[name] = before, kept
    return found


def compared(tested, words, vectors, sizes):
    """A case: whether the program's dump and that of Icarus say the same."""
    tested.remove("our.vcd", "icarus.vcd")
    done = tested.run(*words)
    dump = tested.read("our.vcd")
    if done.status not in (0, 3) or dump is None:
        tested.fault(
            f"{words}: status {done.status}, {'no dump' if dump is None else 'a dump'}: {done.err}"
        )
        return tested.case()
    if words[0] == "worst":
        values = reports.values_of(done.out)
        vectors = values["from"], values["to"]
    tested.write("bench.v", bench(*sizes, *vectors))
    for command in ([*ICARUS, "-o", "bench", "t.v", "bench.v"], [*VVP, "bench"]):
        running.run(command, tested.folder)
    ours, theirs = waves(dump.decode(), 1), waves(tested.read("icarus.vcd").decode(), SETTLED)
    if ours != theirs:
        tested.fault(
            f"{words} {vectors}\nours   {ours}\ntheirs {theirs}\n{tested.read('t.v').decode()}"
        )
    return tested.case(*["with changes"] * any(changes for _, changes in ours.values()))


def work(tested):
    rng = tested.random
    while True:
        text, inputs, outputs = random_netlist(rng)
        tested.write("t.v", text)
        vectors = ["".join(rng.choice("0011x") for _ in range(inputs)) for _ in range(2)]
        compared(tested, ["sim", "t.v", *vectors, "--vcd", "our.vcd"], vectors, (inputs, outputs))
        compared(
            tested,
            ["worst", "t.v", "--budget", "50", "--vcd", "our.vcd"],
            vectors,
            (inputs, outputs),
        )


def shares(tested, _cut):
    tested.require("with changes", 0.5)


if __name__ == "__main__":
    sys.exit(check.main(work, __doc__, CASES, shares, needs=[ICARUS[0], VVP[0]]))
