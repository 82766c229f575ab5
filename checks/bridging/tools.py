"""Runs of the scripts of bridges/ and of the tools beside them, and the files that they share."""

import os

from lib.places import TOP
from lib.running import run

BRIDGES = os.path.join(TOP, "bridges")
LIBRARY = os.path.join(BRIDGES, "tiny.lib")
# The seconds that a tool may take on a machine that is busy.
SECONDS = 300


def tool(words, folder, **how):
    """How a run of a tool ended."""
    return run(words, folder, **{"seconds": SECONDS, **how})


def script(folder, name, *words):
    """How a run of a script of bridges/ ended."""
    return tool([os.path.join(BRIDGES, name), *words], folder)


def yosys(folder, steps):
    """How a run of yosys ended."""
    return tool(["yosys", "-q", "-p", steps], folder)


def write(folder, name, text):
    """Writes a file. Answers its text."""
    with open(os.path.join(folder, name), "w", encoding="utf-8") as file:
        file.write(text)
    return text


def read(folder, name):
    """The text of a file."""
    with open(os.path.join(folder, name), encoding="utf-8") as file:
        return file.read()
