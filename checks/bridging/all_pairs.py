"""All pairs of small blocks on the cells of a real library, by Icarus with the library's models and
the SDF file, beside the figure: free, and with each input pinned to each level.

Run as `python3 checks/bridging/all_pairs.py PROGRAM [NAME..]` it prints a line for each block.
"""

import os
import re
import sys
from typing import NamedTuple

if __name__ == "__main__":
    sys.path.insert(0, os.path.dirname(os.path.dirname(os.path.abspath(__file__))))

from bridging.blocks import BLOCKS, REAL
from bridging.icarus import IVERILOG, VVP, Module, bits_of, connections
from bridging.tools import read, script, tool, write

SMALL = (
    "mul4", "satadd4", "ones8", "bcd4", "rot4", "sbox4", "prio8", "gray6", "absdiff4", "alu3",
    "mod3", "sqrt8",
)  # fmt: skip
SETTLED = 1_000_000
LONGEST = 3000


class Beside(NamedTuple):
    """The greatest last change over all pairs: on cells, on gates, and the exact figure; free, and
    for each pinned input.
    """

    pairs: int
    free: tuple
    pinned: dict


def bench(module, top, count, sdf):
    """A test bench that runs all pairs, and prints the greatest last change: of all, and of those
    in which an input keeps a level.
    """
    inputs, outputs = bits_of(module.inputs), bits_of(module.outputs)
    text = f"""`timescale 1ps/1ps
module bench; reg [0:{count - 1}] v; wire [0:{len(outputs) - 1}] o; integer a, b, k, all, last;
integer high [0:{count - 1}], low [0:{count - 1}]; time start; reg [0:{count - 1}] f, s;
{top} dut ({connections(module)});
always @(o) last = $time - start;
initial begin {f'$sdf_annotate("{sdf}", dut);' if sdf else ""}
all = -1; for (k = 0; k < {count}; k = k + 1) begin high[k] = -1; low[k] = -1; end
for (a = 0; a < {2**count}; a = a + 1) for (b = 0; b < {2**count}; b = b + 1) begin
f = a; s = b; v = f; #{SETTLED}; start = $time; last = -1; v = s; #{SETTLED};
if (last > all) all = last;
for (k = 0; k < {count}; k = k + 1) if (f[k] == s[k]) begin
if (s[k] && last > high[k]) high[k] = last; if (!s[k] && last > low[k]) low[k] = last; end end
$display("all %0d", all);
for (k = 0; k < {count}; k = k + 1) $display("pin %0d %0d %0d", k, low[k], high[k]);
$finish; end endmodule
"""
    return text, [f"{name.strip()}" + ("" if it is None else f"[{it}]") for name, it in inputs]


def greatest(folder, gates, top, files, sdf):
    """The greatest last changes of some Verilog files: all, and by input and level."""
    module = Module(gates)
    text, names = bench(module, top, len(bits_of(module.inputs)), sdf)
    write(folder, "all.v", text)
    words = [*IVERILOG, "-g2012", "-gspecify", "-Tmax", "-s", "bench", "-o", "all.vvp"]
    made = tool([*words, *files, "all.v"], folder)
    ran = tool([*VVP, "-n", "all.vvp"], folder, seconds=LONGEST)
    found = re.search(r"^all (-?\d+)$", ran.out, re.M)
    if made.status or not found:
        raise RuntimeError(f"Icarus: {made.err[-300:]} {ran.out[-300:]} {ran.err[-300:]}")
    pins = {}
    for place, low, high in re.findall(r"^pin (\d+) (-?\d+) (-?\d+)$", ran.out, re.M):
        pins[f"{names[int(place)]}=0"], pins[f"{names[int(place)]}=1"] = int(low), int(high)
    return int(found[1]), pins


def beside(program, folder, name, library):
    """A block on the cells of a library, by all three."""
    write(folder, f"{name}.v", BLOCKS[name])
    for words in (
        ("synth.sh", f"{name}.v", name, library.liberty, f"o_{name}"),
        ("from_liberty.sh", f"o_{name}.mapped.v", name, library.liberty, f"o_{name}"),
    ):
        ended = script(folder, *words)
        if ended.status:
            raise RuntimeError(f"{words}: {ended.err}")
    gates = read(folder, f"o_{name}.v")
    with open(library.models, encoding="utf-8") as file:
        models = re.sub(r"(`timescale\s+\S+/)\S+", r"\g<1>1ps", file.read())
    write(folder, "models.v", models)
    cells = greatest(folder, gates, name, [f"o_{name}.mapped.v", "models.v"], f"o_{name}.sdf")
    alone = greatest(folder, gates, name, [f"o_{name}.v"], "")
    pinned = {
        pin: (cells[1][pin], alone[1][pin], worst(program, folder, name, "--pin", pin))
        for pin in cells[1]
    }
    count = 4 ** len(bits_of(Module(gates).inputs))
    return Beside(count, (cells[0], alone[0], worst(program, folder, name)), pinned)


def worst(program, folder, name, *words):
    """The exact figure."""
    ended = tool([program, "worst", f"o_{name}.v", *words], folder)
    found = re.search(r"^exact (\d+)$", ended.out, re.M)
    return int(found[1]) if found else None


def line(name, found):
    """A block in words: pairs, figures, how many pinned questions differ on the gates and on the
    cells, and the greatest difference on the cells.
    """
    gates = sum(1 for _, gate, exact in found.pinned.values() if max(gate, 0) != exact)
    later = {pin: it for pin, it in found.pinned.items() if max(it[0], 0) > it[2]}
    earlier = sum(1 for it in found.pinned.values() if max(it[0], 0) < it[2])
    most = max(later, key=lambda pin: later[pin][0] - later[pin][2], default=None)
    shown = f"; most {most}: cells {later[most][0]}, exact {later[most][2]}" if most else ""
    return (
        f"{name}: {found.pairs} pairs, cells {found.free[0]}, gates {found.free[1]}, exact "
        f"{found.free[2]}; {len(found.pinned)} pinned, {gates} differ on gates, cells later "
        f"{len(later)}, earlier {earlier}{shown}"
    )


if __name__ == "__main__":
    from lib.running import folder as folder_of

    with folder_of() as own:
        for chosen in sys.argv[2:] or SMALL:
            print(line(chosen, beside(sys.argv[1], own, chosen, REAL[0])), flush=True)
