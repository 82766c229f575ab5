#!/usr/bin/env python3
"""refusals.py --check|--write: the table of refusals in docs/FROM-RTL.md, from the scripts of
bridges/.

A row has the name of a refusal, and what it says to do, as the script that says most of it has it;
what stands for something else in a text is `..`. A refusal without a remedy has what is wrong.
"""

import ast
import glob
import os
import re
import sys

TOP = os.path.join(os.path.dirname(os.path.abspath(__file__)), "..")
PAGE = os.path.join(TOP, "docs", "FROM-RTL.md")
BEGIN, END = "<!-- refusals: lint/refusals.py -->\n", "<!-- end -->\n"
SHELL = re.compile(r'refuse (\w+)\s+(?:\\\s+)?"((?:[^"\\]|\\.)*)"\s*(?:\\\s+)?"((?:[^"\\]|\\.)*)"')
# A command in a text of the shell.
COMMAND = re.compile(r"\$\((?:[^()]|\([^()]*\))*\)")


def text_of(node, known):
    """The texts that an expression may be, with `..` for what isn't known."""
    if isinstance(node, ast.Constant):
        return [str(node.value)]
    if isinstance(node, ast.JoinedStr):
        return ["".join(it.value if isinstance(it, ast.Constant) else ".." for it in node.values)]
    if isinstance(node, ast.IfExp):
        return text_of(node.body, known) + text_of(node.orelse, known)
    if isinstance(node, ast.Name) and node.id in known:
        return known[node.id]
    return [".."]


def assigned(tree):
    """The texts that names are given: line, name, texts."""
    for node in ast.walk(tree):
        if isinstance(node, ast.Assign):
            target, value = node.targets[0], node.value
            pairs = [(target, value)]
            if isinstance(target, ast.Tuple) and isinstance(value, ast.Tuple):
                pairs = zip(target.elts, value.elts)
            for name, given in pairs:
                if isinstance(name, ast.Name):
                    yield node.lineno, name.id, text_of(given, {})


def of_python(path):
    """The refusals of a module: name, what is wrong, what to do."""
    with open(path, encoding="utf-8") as file:
        tree = ast.parse(file.read())
    given = sorted(assigned(tree))
    for node in ast.walk(tree):
        name = getattr(getattr(node, "func", None), "id", "")
        if name in ("Refusal", "Finding") and len(node.args) > 1:
            known = {it: texts for line, it, texts in given if line <= node.lineno}
            texts = [text_of(it, known) for it in node.args]
            for it in texts[0]:
                if re.fullmatch(r"[A-Z]\w+", it):
                    yield it, texts[1][0], texts[2][0] if len(texts) > 2 else ""
        if isinstance(node, ast.Assign) and getattr(node.targets[0], "id", "") == "REMEDIES":
            for it, remedy in zip(node.value.keys, node.value.values):
                yield it.value, "", text_of(remedy, {})[0]


def of_shell(path):
    """The refusals of a script."""
    with open(path, encoding="utf-8") as file:
        text = COMMAND.sub("..", file.read())
    for texts in SHELL.findall(text):
        yield tuple(re.sub(r"\$\{?\w+\}?|\\`", "..", it) for it in texts)


def rows():
    """The rows of the table, by name: of several texts those with most letters."""
    found = {}
    for path in sorted(glob.glob(os.path.join(TOP, "bridges", "*"))):
        kind = {".py": of_python, ".sh": of_shell}.get(os.path.splitext(path)[1])
        for name, wrong, remedy in kind(path) if kind else ():
            before = found.get(name, ("", ""))
            found[name] = tuple(max(pair, key=letters) for pair in zip(before, (wrong, remedy)))
    return [
        f"| `{name}` | {cell(remedy if letters(remedy) else wrong)} |"
        for name, (wrong, remedy) in sorted(found.items())
    ]


def letters(text):
    return sum(map(str.isalpha, text))


def cell(text):
    text = re.sub(r"\.\.(?:\)\"?|\s*\.\.)+", "..", " ".join(text.replace("\\", "").split()))
    return text.replace("|", "or").strip() or ".."


def main():
    if sys.argv[1:] not in (["--check"], ["--write"]):
        sys.exit(__doc__)
    with open(PAGE, encoding="utf-8") as file:
        page = file.read()
    before, begin, rest = page.partition(BEGIN)
    old, end, after = rest.partition(END)
    head = "| Name | What to do |\n| --- | --- |\n"
    new = head + "".join(f"{row}\n" for row in rows())
    if not begin or not end:
        sys.exit("refusals.py: docs/FROM-RTL.md has no place for the table")
    if sys.argv[1] == "--check" and old != new:
        sys.exit("refusals.py: the table of docs/FROM-RTL.md isn't that of the scripts: --write")
    if sys.argv[1] == "--write":
        with open(PAGE, "w", encoding="utf-8") as file:
            file.write(before + begin + new + end + after)


if __name__ == "__main__":
    main()
