"""Where things stand: the top of the repository, its examples, and the program of `rt ci`."""

import os
import sys

TOP = os.path.dirname(os.path.dirname(os.path.dirname(os.path.abspath(__file__))))
CHECKS = os.path.join(TOP, "checks")
EXAMPLES = os.path.join(TOP, "examples")
TOOLS = os.path.join(TOP, "tools")
LINT = os.path.join(TOP, "lint")
PACKAGING = os.path.join(TOP, "packaging")
PROGRAM = os.path.join(TOP, "crates", "tdelay", "out", "tdelay")

# So that a check can say `import second_opinion`.
sys.path.extend([TOOLS, LINT, PACKAGING])


def example(name):
    """The path of a file of examples/."""
    return os.path.join(EXAMPLES, name)


def text_of(*place):
    """The text of a file, by its place below the top of the repository."""
    with open(os.path.join(TOP, *place), encoding="utf-8") as file:
        return file.read()
