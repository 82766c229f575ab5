"""Tables of questions with conditions: circuits with what their environment promises, and the
changes and hazards of each output.
"""

import re
from collections import Counter

from . import measuring, running
from .table import number, seconds_of



class Codes:
    """Gates of one step that say something of a netlist's nets."""

    def __init__(self):
        self.lines, self.made = [], 0

    def gate(self, kind, inputs, out=None):
        self.made += out is None
        out = out or f"code{self.made}_"
        self.lines.append(f"{kind} #(1,1) ({out}, {', '.join(inputs)});")
        return out

    def tree(self, kind, nets):
        """A tree of gates with two inputs."""
        while len(nets) > 1:
            halves = [nets[at : at + 2] for at in range(0, len(nets), 2)]
            nets = [self.gate(kind, it) if len(it) == 2 else it[0] for it in halves]
        return nets[0]

    def counted(self, nets):
        """Nets that say whether one at least and two at least are 1."""
        if len(nets) == 1:
            return nets[0], None
        half = len(nets) // 2
        (one, two), (other, more) = self.counted(nets[:half]), self.counted(nets[half:])
        twos = [it for it in (two, more, self.gate("and", [one, other])) if it]
        return self.gate("or", [one, other]), self.tree("or", twos)

    def one_hot(self, out, nets):
        one, two = self.counted(nets)
        self.gate("and", [one, self.gate("not", [two])], out)

    def at_most_one(self, out, groups):
        twos = [self.counted(nets)[1] for nets in groups]
        self.gate("not", [self.tree("or", twos)], out)

    def rails(self, valid, spacer, pairs):
        """One rail of each pair is 1; all are 0."""
        self.gate("buf", [self.tree("and", [self.gate("xor", it) for it in pairs])], valid)
        self.gate("not", [self.tree("or", [net for it in pairs for net in it])], spacer)


def bits(name, count):
    return [f"{name}[{place}]" for place in range(count)]


def codes_of(name):
    """The lines of the gates that a circuit's questions read."""
    codes = Codes()
    if name == "rrarb16":
        codes.one_hot("base_ok", bits("base", 16))
        codes.one_hot("req_ok", bits("req", 16))
    elif name == "prio64":
        codes.one_hot("ok", bits("r", 64))
    elif name == "drcd32":
        codes.rails("valid", "spacer", list(zip(bits("t", 32), bits("f", 32))))
    elif name == "c432x":
        codes.at_most_one("ok", list(zip(bits("A", 9), bits("B", 9), bits("C", 9))))
    return codes.lines


CHANNEL = [word for bit in bits("Chan", 4) for word in ("--output", bit)]
# Each with its circuit, its options, and its line.
QUESTIONS = [
    ("rrarb16", [], "exact 2876"),
    ("rrarb16", ["--keep", "base_ok=11"], "exact 2425"),
    ("rrarb16", ["--keep", "req_ok=11"], "exact 2868"),
    ("rrarb16", ["--keep", "base_ok=11", "--keep", "req_ok=11"], "exact 2410"),
    ("rrarb16", ["--keep", "base_ok=.1", "--keep", "gnt[3]=.1", "--keep", "gnt[7]=.1"], "none"),
    ("prio64", [], "exact 2300"),
    ("prio64", ["--keep", "ok=11"], "exact 2040"),
    ("prio64", ["--keep", "g[5]=.1", "--keep", "g[40]=.1"], "none"),
    ("drcd32", [], "exact 547"),
    ("drcd32", ["--keep", "valid=11"], "exact 0"),
    ("drcd32", ["--keep", "spacer=1.", "--keep", "valid=.1"], "exact 430"),
    ("drcd32", ["--keep", "valid=1.", "--keep", "spacer=.1"], "exact 451"),
    ("c432x", [], "exact 2774"),
    ("c432x", ["--keep", "ok=11"], "exact 2462"),
    ("c432x", [*CHANNEL, "--keep", "PA=00"], "exact 2074"),
    ("c432x", [*CHANNEL, "--keep", "PA=="], "exact 2074"),
]
# Circuits of which each output's changes have figures, with further words, and of which it is asked
# for hazards. One question of c880x stays open, however long it is searched.
CHANGES = [
    ("c432x", []), ("add32", []), ("alu32_b", []), ("c880x", ["--budget", "150000"]),
    ("sifrag", []), ("c6288x8", []), ("mul8", []), ("booth8", []),
]  # fmt: skip
HAZARDS = [
    ("c432x", []), ("c880x", []), ("add32", []), ("add32", ["--flips", "1"]), ("c1908x", []),
    ("sifrag", []), ("sifrag", ["--flips", "1"]), ("alu32_b", []), ("c6288x8", []), ("mul8", []),
    ("booth8", []), ("rrarb16", []), ("rrarb16", ["--keep", "base_ok=11", "--keep", "req_ok=11"]),
    ("prio64", []), ("prio64", ["--keep", "ok=11"]), ("drcd32", []), ("booth16", []),
    ("c6288x", []),
]  # fmt: skip


def netlist(table, name):
    """The path of a netlist with the gates of its questions; None where it isn't there."""
    path = table.path(name)
    if path is None:
        return None
    with open(path, encoding="utf-8") as file:
        text = file.read()
    at = text.rindex("endmodule")
    return running.write(table.folder, f"{name}.codes.v", text[:at] + "\n".join(
        [*codes_of(name), text[at:]]))  # fmt: skip


def run(table, path, words):
    return measuring.measured([table.asked.programs[0], "worst", path, *words], table.asked.seconds)


def promises(table):
    """Questions with what an environment promises: the answer, and the certificate's verdict."""
    table.head("Netlist", "Conditions", "Answer", "Seconds", "Seconds of `check`", "kB")
    for name, words, line in QUESTIONS:
        path = netlist(table, name)
        if path is None:
            continue
        certificate = table.certificate(path)
        running.remove(table.folder, certificate)
        done = run(table, path, [*words, "--cert", certificate])
        if line not in done.report.splitlines():
            table.faults.append(f"{name} {words}: {done.report} {done.said}, not {line}")
        checked = measuring.measured(
            [table.asked.programs[0], "check", path, certificate], table.asked.seconds)  # fmt: skip
        wanted = f"accepted {line.removeprefix('exact ')}"
        if wanted not in checked.report.splitlines():
            table.faults.append(f"{name} {words}: {checked.report}, not {wanted}")
        size = len(running.read(table.folder, certificate) or b"")
        asked = " ".join(word for word in words if word != "--keep") or "all pairs"
        table.add(f"`{name}`", asked, f"`{line}`", seconds_of(done, places_after=2),
                  seconds_of(checked, places_after=2), number(size / 1024))  # fmt: skip


def changes(table):
    """The latest rise, fall and glitch of each output."""
    table.head("Netlist", "Outputs", "Exact", "Open", "Never", "Seconds")
    for name, words in CHANGES:
        path = netlist(table, name)
        if path is None:
            continue
        done = run(table, path, ["--each", "--changes", "--figures", *words])
        rows = re.findall(r"(?m)^each .* exact (.*)$", done.report)
        columns = [word for row in rows for word in re.findall(r"(?:rise|fall|glitch) (\S+)", row)]
        count = Counter(
            "open" if ".." in it else "never" if it in ("never", "none") else "exact"
            for it in columns
        )
        for row in rows:
            free = int(row.split()[0])
            times = [int(it) for it in re.findall(r"(?:rise|fall|glitch) (\d+)(?!\S)", row)]
            if ".." not in row and max(times, default=0) != free:
                table.faults.append(f"{name}: {row}: the greatest isn't that of all changes")
        shown = f"`{' '.join([name, *words])}`"
        table.add(shown, len(rows), count["exact"], count["open"], count["never"],
                  seconds_of(done, places_after=1))  # fmt: skip


def hazards(table):
    """Whether each output can glitch, at 0 and at 1."""
    table.head("Netlist", "Question", "Outputs", "At 0", "At 1", "Open", "Seconds")
    for name, words in HAZARDS:
        path = netlist(table, name)
        if path is None:
            continue
        done = run(table, path, ["--hazards", *words])
        rows = re.findall(r"(?m)^hazard \S+ ([01]) (can|never|none|open)", done.report)
        if done.ended and not rows:
            table.faults.append(f"{name}: {done.said}")
        count = Counter(rows)
        cells = [
            ", ".join(f"{count[level, it]} {it}" for it in ("can", "never", "none")
                      if count[level, it]) for level in "01"
        ]  # fmt: skip
        asked = " ".join(word for word in words if word != "--keep") or "all pairs"
        left = count["0", "open"] + count["1", "open"]
        table.add(f"`{name}`", asked, len(rows) // 2, *cells, left,
                  seconds_of(done, places_after=2))  # fmt: skip
