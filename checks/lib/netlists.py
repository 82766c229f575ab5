"""Netlists: small ones by their names, random ones, and large ones."""

import random

INVERTER = "module t(a, y);\ninput a;\noutput y;\nnot #(2,3) g(y,a);\nendmodule\n"
# A pulse that is lost: the search has to split.
LOST = "module t(a, y);\ninput a;\noutput y;\nnot #1 n(b,a);\nand #2 g(y,a,b);\nendmodule\n"
# Two ways with one delay to one gate, which cancel each other.
MET = (
    "module t(a, b, y);\ninput a, b;\noutput y;\n"
    "buf #1 p1(p,b);\nbuf #1 p2(q,b);\nxor #3 g(y,a,p,q);\nendmodule\n"
)
# An or gate with a slow arm.
SLOW = "module t(a, b, y);\ninput a, b;\noutput y;\nbuf #4 s(t,a);\nor #1 g(y,b,t);\nendmodule\n"

KINDS = ["and", "nand", "or", "nor", "xor", "xnor", "buf", "not"]


def module(inputs, outputs, *gates):
    """A netlist of these gate statements."""
    return (
        f"module t({inputs}, {outputs});\ninput {inputs};\noutput {outputs};\n"
        + "".join(f"{gate};\n" for gate in gates)
        + "endmodule\n"
    )


def buffers(count):
    """Buffers side by side."""
    return module(
        "a", "y", "buf #1 (y,a)", *(f"buf #1 (w{number},a)" for number in range(count - 1))
    )


def chain(count):
    """Buffers one after the other, each with a delay of 1."""
    return module(
        "w0", f"w{count}", *(f"buf #1 (w{number + 1},w{number})" for number in range(count))
    )


def terminals(count):
    """A gate of this many terminals."""
    return module("a", "y", "and #1 (y" + ",a" * (count - 1) + ")")


def random_netlist(rng, most_inputs=4, most_gates=12):
    """The text of a random netlist, and its numbers of inputs and outputs."""
    inputs = [f"i{k}" for k in range(rng.randint(1, most_inputs))]
    nets, gates = list(inputs), []
    for k in range(rng.randint(1, most_gates)):
        kind = rng.choice(KINDS)
        count = 1 if kind in ("buf", "not") else rng.randint(1, 4)
        reads = [
            rng.choice(nets) if rng.random() < 0.95 else rng.choice(["1'b0", "1'b1"])
            for _ in range(count)
        ]
        delay = f"#({rng.randint(1, 6)},{rng.randint(1, 6)})"
        gates.append((f"n{k}", f"{kind} {delay} (n{k},{','.join(reads)})"))
        nets.append(f"n{k}")
    outputs = rng.sample([net for net, _ in gates], rng.randint(1, min(3, len(gates))))
    rng.shuffle(gates)
    return (
        module(",".join(inputs), ",".join(outputs), *(text for _, text in gates)),
        len(inputs),
        len(outputs),
    )


def wide_netlist(rng):
    """The text of a netlist of four inputs with a wide gate."""
    kind, count = rng.choice(["xor", "xnor", "and", "nor"]), rng.randint(9, 14)
    inputs = [f"i{k}" for k in range(4)]
    gates = []
    for k in range(count):
        delay = f"#({rng.randint(1, 4)},{rng.randint(1, 4)})"
        two = rng.choice(["and", "or", "nand", "xor"])
        gates.append(f"{two} {delay} (n{k},{rng.choice(inputs)},{rng.choice(inputs)})")
    gates.append(f"{kind} #(2,3) (y,{','.join(f'n{k}' for k in range(count))})")
    return module(",".join(inputs), "y", *gates)


def layered(gates, inputs, layer, seed=1):
    """The text of a netlist in layers, each gate with two random inputs from the layer before; the
    last layer is the output.
    """
    rng = random.Random(seed)
    lines = [f"module great (input [{inputs - 1}:0] a, output [{layer - 1}:0] y);"]
    before, made = [f"a[{place}]" for place in range(inputs)], []
    for gate in range(gates):
        reads = rng.sample(before, 2)
        name = f"y[{gate - gates + layer}]" if gate >= gates - layer else f"w{gate}"
        kind = rng.choice(["and", "nand", "or", "nor", "xor", "xnor"])
        lines.append(
            f"{kind} #({rng.randint(1, 9)},{rng.randint(1, 9)}) ({name},{reads[0]},{reads[1]});"
        )
        made.append(name)
        if len(made) == layer:
            before, made = made, []
    return "\n".join(lines) + "\nendmodule\n"
