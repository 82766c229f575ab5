"""Runs pairs of vectors on Icarus Verilog."""

import os
import re

from .tools import tool, write

# The words by which Icarus Verilog is called.
IVERILOG = os.environ.get("IVERILOG", "iverilog").split()
VVP = os.environ.get("VVP", "vvp").split()
# Longer than any circuit here takes to settle, in steps.
SETTLED = 1_000_000_000


class Module:
    """A module's name, its step, and its input and output bits as terminals, in order."""

    def __init__(self, text):
        self.name = re.search(r"^module (\S+) ", text, re.M)[1]
        self.step = re.search(r"`timescale (\S+)/", text)[1]
        self.inputs, self.outputs = (list(ports_of(text, way)) for way in ("input", "output"))


def ports_of(text, way):
    """Each port's name and its bits' numbers, None of a scalar."""
    for left, right, name in re.findall(rf"^{way} (?:\[(\d+):(\d+)\] )?(\S+) ?;$", text, re.M):
        if not left:
            yield f"{name} ", [None]
        else:
            left, right = int(left), int(right)
            yield f"{name} ", list(
                range(left, right - 1, -1) if left >= right else range(left, right + 1)
            )


def bits_of(ports):
    return [(name, number) for name, numbers in ports for number in numbers]


def connections(module):
    """The ports of an instance, by name, with the inputs in a vector `v` and the outputs in `o`."""
    ports = []
    for side, place in ((module.inputs, "v"), (module.outputs, "o")):
        first = 0
        for name, numbers in side:
            ports.append(f".{name}({place}[{first}:{first + len(numbers) - 1}])")
            first += len(numbers)
    return ", ".join(ports)


def bench(module, pairs):
    """A test bench that writes for each pair when each output changes last after the second vector,
    -1 where it never does.
    """
    inputs, outputs = bits_of(module.inputs), bits_of(module.outputs)
    places = {bit: f"v[{len(inputs) - 1 - place}]" for place, bit in enumerate(inputs)}
    places.update({bit: f"o[{place}]" for place, bit in enumerate(outputs)})
    ports = [
        f".{name}({{{', '.join(places[name, number] for number in numbers)}}})"
        for name, numbers in module.inputs + module.outputs
    ]
    count = len(outputs)
    each = f"for (k = 0; k < {count}; k = k + 1)"
    yield f"`timescale {module.step}/{module.step}"
    yield f"module bench; reg [{len(inputs) - 1}:0] v; wire [{count - 1}:0] o;"
    yield f"time start; time last [0:{count - 1}]; integer k;"
    yield f"{module.name} dut ({', '.join(ports)});"
    yield from (f"always @(o[{place}]) last[{place}] = $time;" for place in range(count))
    yield "initial begin #1;"
    for first, second in pairs:
        yield f"v = {len(inputs)}'b{first}; #{SETTLED}; {each} last[k] = 0;"
        yield f"#1 v = {len(inputs)}'b{second}; start = $time; #{SETTLED};"
        yield f'{each} $write("%0d ", last[k] == 0 ? -1 : $signed(last[k] - start));'
        yield '$write("\\n");'
    yield "$finish; end endmodule"


def last_changes(folder, text, pairs):
    """For each pair when each output bit of a module changes last, -1 where it never does."""
    module = Module(text)
    for name, lines in (("dut.v", text), ("bench.v", "\n".join(bench(module, pairs)) + "\n")):
        write(folder, name, lines)
    made = tool([*IVERILOG, "-g2005", "-s", "bench", "-o", "bench.vvp", "dut.v", "bench.v"], folder)
    ran = tool([*VVP, "bench.vvp"], folder) if not made.status else made
    found = [
        [int(word) for word in line.split()]
        for line in ran.out.splitlines()
        if re.fullmatch(r"[-\d ]+", line)
    ]
    if ran.status or len(found) != len(pairs):
        raise RuntimeError(f"Icarus Verilog says {(ran.err or ran.out)[-500:]}")
    return found
