"""What the bridges say in place of an answer: a refusal has a name, what is wrong, and what to do
about it.
"""

import os
import sys
from dataclasses import dataclass
from typing import Iterable


@dataclass
class Refusal(Exception):
    """An input that can't be written as gates without a change of what it means."""

    name: str
    wrong: str
    remedy: str

    def __str__(self):
        return f"{self.name}: {self.wrong}\n  what to do: {self.remedy}"


def refuse_same(outputs: Iterable[str], inputs: Iterable[str]):
    """Refuses to write over an input, by whatever name or link."""
    inputs = [path for path in inputs if path and os.path.exists(path)]
    for output in outputs:
        for path in inputs:
            if output and os.path.exists(output) and os.path.samefile(output, path):
                wrong = f"{output} would be written over the input {path}"
                raise Refusal("SameFile", wrong, "take another OUT")


def ending_by_name(script, main):
    """Runs `main`.

    A refusal, or a file that can't be read or written, ends the script with status 1 and a line on
    standard error.
    """
    try:
        main()
    except Refusal as refusal:
        sys.exit(f"{script}: {refusal}")
    except OSError as fault:
        sys.exit(f"{script}: CannotOpen: {fault.filename}: {fault.strerror}")
