#!/usr/bin/env python3
"""parameters.py: counts the parameters of each function, in the crates' sources.

A function has at most 7, `self` among them: a longer list is a type that has no name yet. The
exceptions stand below, each with its reason, and one that no longer is one fails. The exit status
is 1 where another function has more, or an exception is stale.
"""

import pathlib
import re
import sys

TOP = pathlib.Path(__file__).resolve().parent.parent
MOST = 7
FUNCTION = re.compile(r"^(?P<indent> *)(?:pub(?:\([a-z]+\))? )?fn (?P<name>\w+)", re.M)
EXCEPTIONS = {
    ("td_pool/src/pool.rt", "worst_by"): "the specification's signature",
    # A type for circuit, question and cube would take these two below the limit.
    ("td_spans/src/named_clauses.rt", "is_by"): "circuit, question and cube go together",
    ("td_spans/src/named_clauses.rt", "is_named"): "circuit, question and cube go together",
}


def closing(text, at):
    """The place after the bracket that closes the one at this place."""
    pairs, depth = {"(": ")", "[": "]", "{": "}"}, 0
    for place in range(at, len(text)):
        if text[place] in pairs:
            depth += 1
        elif text[place] in pairs.values():
            depth -= 1
            if depth == 0:
                return place + 1
    return len(text)


def without_generics(text, at):
    """The place of the parameters' bracket, after the generic parameters of a name before it."""
    if text[at] != "<":
        return at
    depth = 0
    for place in range(at, len(text)):
        if text[place] == "<":
            depth += 1
        elif text[place] == ">" and text[place - 1] != "-":
            depth -= 1
            if depth == 0:
                return place + 1
    return at


def parameters(inside):
    """How many parameters stand between the brackets."""
    depth, count, rest = 0, 0, False
    for place, letter in enumerate(inside):
        if letter in "([{<":
            depth += 1
        elif letter in ")]}" or letter == ">" and inside[place - 1] != "-":
            depth -= 1
        elif letter == "," and depth == 0:
            count, rest = count + rest, False
            continue
        rest = rest or not letter.isspace()
    return count + rest


def functions(text):
    """Each function's name, with the number of its parameters."""
    bare = re.sub(r"//[^\n]*", lambda it: " " * len(it.group()), text)
    for found in FUNCTION.finditer(bare):
        at = without_generics(bare, found.end())
        if bare[at] == "(":
            yield found["name"], parameters(bare[at + 1 : closing(bare, at) - 1])


def main():
    long, seen = [], set()
    count = 0
    for path in sorted(TOP.glob("crates/*/src/**/*.rt")):
        name = str(path.relative_to(TOP / "crates"))
        for function, number in functions(path.read_text(encoding="utf-8")):
            count += 1
            if number <= MOST:
                continue
            seen.add((name, function))
            if (name, function) not in EXCEPTIONS:
                long.append(f"crates/{name}: {function} has {number} parameters")
    stale = [f"crates/{it[0]}: {it[1]} is no exception" for it in EXCEPTIONS if it not in seen]
    print(*long, *stale, sep="\n", end="\n" if long or stale else "")
    print(f"{count} functions, {len(EXCEPTIONS)} exceptions, {len(long) + len(stale)} wrong")
    return 1 if long or stale or not count else 0


if __name__ == "__main__":
    sys.exit(main())
