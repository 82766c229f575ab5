"""The table of docs/BESIDE.md: the designs of examples/from_rtl by a static timer, by Icarus with
random pairs of vectors, and by `tdelay`.

Run as `python3 checks/bridging/beside.py PROGRAM [--write]` with yosys, OpenSTA and Icarus there.
`--write` puts the table into the page.
"""

import os
import re
import resource
import sys
import time

if __name__ == "__main__":
    sys.path.insert(0, os.path.dirname(os.path.dirname(os.path.abspath(__file__))))

from bridging.icarus import IVERILOG, VVP, Module, bits_of, connections
from bridging.tools import LIBRARY, TOP, read, script, tool, write

sys.path.append(os.path.join(TOP, "build"))
import written  # noqa: E402

DESIGNS = ("alu_8", "bcd_adder", "carry_skip")
PAIRS, SETTLED, SEED = 10_000, 100_000, 1
PAGE = os.path.join(TOP, "docs", "BESIDE.md")


def bench(module):
    """A test bench that prints the greatest last change of random pairs."""
    inputs, outputs = bits_of(module.inputs), bits_of(module.outputs)
    words = ", ".join(["$urandom"] * (len(inputs) // 32 + 1))
    return f"""`timescale {module.step}/{module.step}
module bench; reg [0:{len(inputs) - 1}] v; wire [0:{len(outputs) - 1}] o;
integer k, last, all, dropped; time start;
{module.name} dut ({connections(module)});
always @(o) last = $time - start;
initial begin all = 0; k = {SEED}; dropped = $urandom(k);
for (k = 0; k < {PAIRS}; k = k + 1) begin
v = {{{words}}}; #{SETTLED}; start = $time; last = 0; v = {{{words}}}; #{SETTLED};
if (last > all) all = last; end
$display("all %0d", all); $finish; end endmodule
"""


def timed(action):
    """What an action gives, and the processor seconds of what it ran."""
    before = resource.getrusage(resource.RUSAGE_CHILDREN)
    found = action()
    after = resource.getrusage(resource.RUSAGE_CHILDREN)
    return found, after.ru_utime + after.ru_stime - before.ru_utime - before.ru_stime


def number(text, pattern, what):
    """The number that a tool printed."""
    found = re.search(pattern, text, re.M)
    if not found:
        raise RuntimeError(f"{what}: {text[-500:]}")
    return found[1]


def row(program, folder, name):
    """A row of the table: what the three say of a design, and their seconds."""
    design = os.path.join(TOP, "examples", "from_rtl", f"{name}.v")
    for words in (
        ("synth.sh", design, name, LIBRARY, name),
        ("from_liberty.sh", f"{name}.mapped.v", name, LIBRARY, name),
    ):
        ended = script(folder, *words)
        if ended.status:
            raise RuntimeError(f"{words}: {ended.err}")
    timer, timer_seconds = timed(lambda: tool(["sta", "-exit", f"{name}.tcl"], folder))
    arrival = number(timer.out, r"([\d.]+) +data arrival time", "OpenSTA")
    equal, solver_seconds = timed(lambda: script(folder, "equivalent.sh", design, name, LIBRARY, name))
    if equal.status:
        raise RuntimeError(f"equivalent.sh: {equal.err}")
    gates = read(folder, f"{name}.v")
    write(folder, "bench.v", bench(Module(gates)))
    made = tool([*IVERILOG, "-s", "bench", "-o", "bench.vvp", f"{name}.v", "bench.v"], folder)
    ran, simulator_seconds = timed(lambda: tool([*VVP, "-n", "bench.vvp"], folder, seconds=3000))
    greatest = number(made.err + ran.out, r"^all (\d+)$", "Icarus")
    bound = number(tool([program, "bound", f"{name}.v", "--edges"], folder).out, r"^e (\d+)$", "e")
    found, own_seconds = timed(lambda: tool([program, "worst", f"{name}.v"], folder))
    exact = number(found.out, r"^exact (\d+)$", "tdelay")
    if not int(greatest) <= int(exact) <= int(bound):
        raise RuntimeError(f"{name}: {greatest}, {exact} and {bound} contradict each other")
    cells = [f"`{name}`", len(bits_of(Module(gates).inputs)), f"{float(arrival) * 1000:.1f}"]
    cells += [f"{timer_seconds:.1f}", greatest, f"{simulator_seconds:.1f}", bound, exact]
    cells += [f"{own_seconds:.1f}", f"{solver_seconds:.1f}"]
    return "| " + " | ".join(str(it) for it in cells) + " |"


def main(words):
    if not words or words[1:] not in ([], ["--write"]):
        sys.exit(__doc__)
    heads = ["Design", "Inputs", "OpenSTA, ps", "seconds", "Icarus, ps", "seconds"]
    heads += ["`bound --edges`, ps", "`worst`, ps", "seconds", "ABC, seconds"]
    lines = [f"| {' | '.join(heads)} |", f"| {' | '.join(['---'] * len(heads))} |"]
    with folder_of() as own:
        lines += [row(os.path.abspath(words[0]), own, name) for name in DESIGNS]
    date = time.strftime("%d %B %Y", time.gmtime()).lstrip("0")
    lines += ["", f"Measured on {date}: processor seconds; Icarus with {PAIRS:,} random pairs; ABC"]
    lines += ["proves, and Icarus tries, that the gates do what the RTL does (`bridges/equivalent.sh`)."]
    text = "\n".join(lines) + "\n"
    print(text, end="")
    if words[1:]:
        written.put(PAGE, "checks/bridging/beside.py", "designs", text)
    return 0


if __name__ == "__main__":
    from lib.running import folder as folder_of

    sys.exit(main(sys.argv[1:]))
