"""Conditions of an SDF file's arcs, on the levels of a cell's pins (IEEE 1497, clause 5.3)."""

import re
from typing import Callable, Dict, List, Optional

# Whether a condition holds, where the pins have these levels.
Condition = Callable[[Dict[str, int]], bool]
TOKEN = re.compile(r"\s*(===|!==|==|!=|&&|\|\||[()!~&|^]|[^\s()!~&|^=]+)")
# The operators of two sides, those that bind least first.
OPERATORS = (
    {"||": lambda a, b: int(bool(a or b)), "|": lambda a, b: a | b},
    {"^": lambda a, b: a ^ b},
    {"&&": lambda a, b: int(bool(a and b)), "&": lambda a, b: a & b},
    {
        "==": lambda a, b: int(a == b),
        "===": lambda a, b: int(a == b),
        "!=": lambda a, b: int(a != b),
        "!==": lambda a, b: int(a != b),
    },
)


class Parser:
    """Reads one condition; `read` answers None where it has what isn't known here."""

    def __init__(self, text: str):
        self.left: List[str] = TOKEN.findall(text)[::-1]
        self.whole = "".join(text.split()) == "".join(self.left[::-1])

    def read(self) -> Optional[Condition]:
        """The condition of the whole text."""
        try:
            found = self.side(0)
        except (IndexError, ValueError):
            return None
        return None if self.left or not self.whole else lambda levels: bool(found(levels))

    def side(self, rank: int):
        """A side of an operator of this rank."""
        if rank == len(OPERATORS):
            return self.operand()
        found = self.side(rank + 1)
        while self.left and self.left[-1] in OPERATORS[rank]:
            found = joined(OPERATORS[rank][self.left.pop()], found, self.side(rank + 1))
        return found

    def operand(self):
        """A pin, a level, or one of these inverted or in parentheses."""
        word = self.left.pop()
        if word in "!~":
            inner = self.operand()
            return lambda levels: 1 - inner(levels)
        if word == "(":
            inner = self.side(0)
            if self.left.pop() != ")":
                raise ValueError
            return inner
        level = re.fullmatch(r"(?:1'[bB])?([01])", word)
        if level:
            return lambda levels: int(level[1])
        if not re.match(r"[A-Za-z_\\]", word):
            raise ValueError
        return lambda levels: levels[word]


def joined(operator, left, right):
    """Two sides under an operator."""
    return lambda levels: operator(left(levels), right(levels))


def condition_of(text: str) -> Optional[Condition]:
    """The condition that a text says, or None where it isn't one of levels of pins."""
    return Parser(text).read()
