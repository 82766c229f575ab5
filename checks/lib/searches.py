"""Tables of searches: their seconds and memory, by workers, by strategies, and of a collection."""

import os
from concurrent.futures import ThreadPoolExecutor

from . import running
from .table import folded, number, ratio, seconds_of, words_of

import help_text

# Netlist, strategy, budget (None where it is left out).
SPEED = [("adder_4", "least", None), ("mult_4", "least", None)]
SPEED += [("adder_8", "least", 20_000), ("mult_8", "least", 20_000)]
SPEED += [("random_20000", "least", 300)]
SPEED += [(name, "lead", None) for name in ("adder_128", "mult_8", "parity_32", "sifrag")]
WORKERS = [("adder_8", "least", 1_000_000), ("mult_8", "least", 1_000_000)]
REAL = "sifrag grayptr c432x rrarb16 c1908x c880x mul8 booth8".split()
STRATEGIES = ["adder_8", "adder_64", "mult_4", "mult_6", "mult_8", "parity_32", *REAL]
# Circuits by families, each in the order of size: how cost grows with it.
GROWTH = {
    "adders": [f"adder_{bits}" for bits in (8, 16, 32, 64, 128, 256, 512)],
    "multipliers": [f"mult_{bits}" for bits in (4, 6, 8, 10, 12, 16)],
    "random gates": [f"random_{count}" for count in (100, 300, 1000)],
    "a real library": REAL,
}
COUNTS = (1, 2, 4)


def speed(table):
    """Seconds, memory and instructions of the searches of SPEED."""
    two = len(table.asked.programs) == 2
    ends = ["Times as fast"] if two else []
    count = ["Instructions, millions", *(["Times fewer"] if two else [])]
    count = count if table.asked.instructions else []
    table.head("Netlist", "Strategy", "Answer", "Nodes", "Seconds", *ends, *count, "Memory, MB")
    for name, strategy, budget in SPEED:
        path = table.path(name)
        if path is None:
            continue
        words = ["worst", path, *words_of(strategy, budget)]
        commands = [[program, *words] for program in table.asked.programs]
        runs = table.least_of(commands)
        table.agree(name, runs)
        seconds = [run.cost.processor if run.ended else None for run in runs]
        cells = [", ".join(number(it, 3) for it in seconds)] + [ratio(seconds)] * two
        if table.asked.instructions:
            counted = [table.counted(command) for command in commands]
            cells.append(", ".join(number(it, 0, 1e-6) for it in counted))
            cells += [ratio(counted)] * two
        answers = dict.fromkeys(run.answer() for run in runs)
        nodes = dict.fromkeys(number(run.nodes()) for run in runs)
        memory = ", ".join(number(run.cost.memory) for run in runs)
        heads = f"`{name}`", f"`{strategy}`", ", ".join(answers), ", ".join(nodes)
        table.add(*heads, *cells, memory)


def strategies_of(program):
    """The strategies that help lists."""
    listed = help_text.parse(running.run([program, "worst", "--help"]).out).options
    return [choice for option in listed if option.name == "--strategy" for choice in option.choices]


def strategies(table):
    """Each netlist of STRATEGIES by each strategy."""
    program = table.asked.programs[0]
    asked = table.asked.strategies or strategies_of(program)
    table.head("Netlist", *(f"`{it}`{what}" for it in asked for what in ("", ", seconds")))
    for name in STRATEGIES:
        path = table.path(name)
        if path is None:
            continue
        runs = [table.search(name, program, path, words_of(it, table.asked.budget)) for it in asked]
        table.agree(name, runs)
        cells = [(run.answer(), number(run.cost.processor, 2)) for run in runs]
        table.add(f"`{name}`", *(cell for pair in cells for cell in pair))


def growth(table):
    """The circuits of GROWTH by `auto`: gates, seconds, certificates, and the seconds of `check`."""
    program = table.asked.programs[0]
    table.head(
        "Netlist", "Family", "Gates", "Answer", "Seconds of `auto`", "Seconds of `check`",
        "Certificate, bytes", "Memory, MB",
    )  # fmt: skip
    for family, names in GROWTH.items():
        for name in names:
            path = table.path(name)
            if path is None:
                continue
            certificate = table.certificate(path)
            words = ["--strategy", "auto", "--cert", certificate]
            (run,) = table.least_of([[program, "worst", path, *words]])
            table.agree(name, [run])
            cells = ["-"] * 2
            if run.exact is not None:
                (done,) = table.least_of([[program, "check", path, certificate]])
                table.answer(f"check of {name}", done, [f"accepted {run.exact}"])
                cells = [seconds_of(done), number(os.path.getsize(certificate))]
            info = running.run([program, "info", path]).out
            gates = next(int(it[6:]) for it in info.splitlines() if it.startswith("gates "))
            table.add(
                f"`{name}`", family, number(gates), run.answer(), seconds_of(run), *cells,
                number(run.cost.memory),
            )  # fmt: skip


def workers(table):
    """Searches by 1, 2 and 4 workers: seconds by the clock."""
    table.head(
        "Netlist", "Strategy", "Answer", "1 worker", *(f"{it} workers" for it in COUNTS[1:]),
        "Times as fast", "Memory, MB",
    )  # fmt: skip
    for name, strategy, budget in WORKERS:
        path = table.path(name)
        if path is None:
            continue
        runs = []
        for count in COUNTS:
            words = [*words_of(strategy, budget), "--workers", str(count)]
            runs += table.least_of([[table.asked.programs[0], "worst", path, *words]], "clock")
        table.agree(name, runs)
        clock = [run.cost.clock if run.ended else None for run in runs]
        table.add(
            f"`{name}`", f"`{strategy}`", runs[0].answer(),
            *(seconds_of(run, "clock") for run in runs),
            ratio([clock[0], clock[-1]]), ", ".join(number(run.cost.memory) for run in runs),
        )  # fmt: skip


def collection(table):
    """How many netlists of the folder are exact, by each strategy; those that aren't by name."""
    program, asked = table.asked.programs[0], table.asked.strategies or ["auto"]
    names = table.names()
    table.head(
        "Strategy", "Netlists", "Exact, accepted", "Between", "Did not end",
        "Seconds in all, the most",
    )  # fmt: skip
    left = []
    for strategy in asked:
        words = words_of(strategy, table.asked.budget)

        def search(name, words=words):
            path = os.path.join(table.asked.netlists, f"{name}.v")
            return table.search(name, program, path, words)

        with ThreadPoolExecutor(table.asked.jobs) as pool:
            runs = list(pool.map(search, names))
        for name, run in zip(names, runs):
            table.agree(name, [run])
            if run.exact is None:
                left.append(f"`{name}` by `{strategy}`: {run.answer()}")
        exact = sum(run.exact is not None for run in runs)
        ended = sum(run.ended for run in runs)
        used = [run.cost.processor for run in runs]
        times = f"{number(sum(used), 1)}, {number(max(used, default=0), 1)}"
        table.add(f"`{strategy}`", len(runs), exact, ended - exact, len(runs) - ended, times)
    table.lines += ["", folded(f"Not exact: {'; '.join(left)}.")] if left else []
