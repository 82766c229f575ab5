"""A table of measured runs: its rows, what is wrong with the answers in it, and its cells."""

import os
import sys
import textwrap

from . import circuits, measuring, reports, running


class Table:
    """A table, and what is wrong with the answers in it."""

    def __init__(self, asked, folder):
        self.asked, self.folder = asked, folder
        self.lines, self.faults, self.lacking = [], [], []
        self.unseen = list(asked.only or [])

    def head(self, *cells):
        self.lines += [row(*cells), row(*["---"] * len(cells))]

    def add(self, *cells):
        self.lines.append(row(*cells))
        print(self.lines[-1], file=sys.stderr, flush=True)

    def path(self, name):
        """The path of a netlist that is asked for. None, and noted, where there is none."""
        if not self.is_asked(name):
            return None
        path = circuits.path_of(name, self.folder, self.asked.netlists)
        if path is None and name not in self.lacking:
            self.lacking.append(name)
        return path

    def names(self):
        """The netlists of the folder that are asked for."""
        files = os.listdir(self.asked.netlists)
        names = sorted(it[:-2] for it in files if it.endswith(".v") and not it.endswith(".rtl.v"))
        return [name for name in names if self.is_asked(name)]

    def is_asked(self, name):
        """Whether a netlist is to be measured; it has been seen then."""
        if name in self.unseen:
            self.unseen.remove(name)
        return not self.asked.only or name in self.asked.only

    def agree(self, name, runs):
        """Looks that answers to one question don't contradict each other."""
        figures = [run.figures for run in runs if run.answers]
        if any(not reports.agree(one, other) for one in figures for other in figures):
            self.faults.append(f"{name}: {', '.join(run.answer() for run in runs)}")
        self.faults += [f"{name}: {run.answer()}" for run in runs if run.ended and not run.answers]

    def answer(self, name, run, wanted):
        """The lines that a report has to have, as a table has them; it is noted where a run that
        ended lacks one.
        """
        if not run.ended:
            return "did not end"
        lines = run.report.splitlines()
        if run.status == 0 and all(line in lines for line in wanted):
            return ", ".join(f"`{line}`" for line in wanted)
        said = " ".join([*lines[:8], run.said.strip()])[:200]
        self.faults.append(f"{name}: {said or f'status {run.status}'}")
        return "failed"

    def check(self, name, program, path, certificate, exact):
        """Notes where `check` doesn't accept a certificate with this time."""
        done = measuring.measured([program, "check", path, certificate], self.asked.seconds)
        if reports.accepted_time(done.report) != exact:
            self.faults.append(f"{name}: check: {done.report or done.said or 'did not end'}")

    def certificate(self, path, *mark):
        """Where the certificate of a search stands; a mark tells searches of one netlist apart."""
        parts = [os.path.basename(path), *map(str, mark), "cert"]
        return os.path.join(self.folder, ".".join(parts))

    def search(self, name, program, path, words):
        """Runs a search, and checks its certificate where it is exact."""
        certificate = self.certificate(path, id(words))
        command = [program, "worst", path, *words, "--cert", certificate]
        run = measuring.measured(command, self.asked.seconds)
        if run.exact is not None:
            self.check(name, program, path, certificate, run.exact)
        running.remove(self.folder, os.path.basename(certificate))
        return run

    def least_of(self, commands, by="processor"):
        """Of each of these commands the run that took the least seconds, the commands in turn."""
        runs = [[] for _ in commands]
        for _ in range(self.asked.runs):
            for command, own in zip(commands, runs):
                if not own or own[-1].ended:
                    own.append(measuring.measured(command, self.asked.seconds))
        return [min(own, key=lambda run: (not run.ended, getattr(run.cost, by))) for own in runs]

    def counted(self, command):
        """How many instructions a run executes."""
        return measuring.instructions(command, self.asked.seconds)


def folded(text):
    """A text on lines of at most 100 columns."""
    return textwrap.fill(text, 100, break_long_words=False, break_on_hyphens=False)


def row(*cells):
    return "| " + " | ".join(str(cell) for cell in cells) + " |"


def number(value, places_after=0, factor=1.0):
    """A number as a table has it, a dash where there is none."""
    return "-" if value is None else f"{value * factor:,.{places_after}f}"


def ratio(values):
    """How many times as fast the second of two is."""
    return f"{values[0] / values[-1]:.2f}" if all(values) else "-"


def seconds_of(run, by="processor", places_after=3):
    """The seconds of a run as a table has them, a dash where it didn't end."""
    return number(getattr(run.cost, by) if run.ended else None, places_after)


def words_of(strategy, budget):
    """The words of a search by this strategy, with this budget where there is one."""
    return ["--strategy", strategy, *([] if budget is None else ["--budget", str(budget)])]
