#!/usr/bin/env python3
"""words.py [--list] [--check] [FOLDER]: how often words stand in pages and in comments that read
oddly, and how many lines there have more than 100 columns.

Pages are all `.md` files, and of them what stands outside blocks. Comments are those of the crates'
sources (`//`) and specifications (`--`), and of scripts (`#` and docstrings). `--list` prints each
line after its file and number. `--check` ends with status 1 where a page has one of the words, or a
line of it that is no table's has more than 100 columns. FOLDER is the top of the repository, the
one where this script stands where it is left out.
"""

import glob
import os
import re
import sys
from collections import Counter

TOP = os.path.dirname(os.path.dirname(os.path.abspath(__file__)))
COLUMNS = 100
# What is searched for, by what a writer says in its place.
WORDS = {
    "want of memory": ("out of memory", r"\bwant\s+of\s+(?:it|memory)\b"),
    "so many": ("a number, or N", r"\bso\s+many\b"),
    "told": ("says, reports", r"\btold\b"),
    "behind": ("after", r"\bbehind\b"),
}
# Where that word is a place, and not a time.
PLACES = r"\bbehind a (?:lock|trait)\b|\bnothing behind\b|\bnot\s+behind\s+its\b"


def files_of(top, *patterns):
    """The files of these patterns, without what was built."""
    paths = [os.path.join(top, pattern) for pattern in patterns]
    found = {it for path in paths for it in glob.glob(path, recursive=True)}
    names = sorted(os.path.relpath(it, top) for it in found)
    return [it for it in names if "out" not in it.split(os.sep)]


def prose_of_page(text):
    """The lines of a page with their numbers, those of blocks and code in backquotes left empty."""
    block, lines = False, []
    for line in text.splitlines():
        is_fence = line.lstrip().startswith("```")
        block ^= is_fence
        lines.append("" if block or is_fence else line)
    blank = re.sub(r"`[^`]*`", lambda it: re.sub(r"[^\n]", " ", it[0]), "\n".join(lines))
    return lines, blank


def comments_of(text, mark):
    """The comments of a source, line by line, the other lines empty."""
    lines = [re.search(rf"(?:^|\s){mark}.*$", line) for line in text.splitlines()]
    return "\n".join(it[0] if it else "" for it in lines)


def comments_of_script(text):
    """The comments and docstrings of a script, line by line, the other lines empty."""
    kept, inside = [], False
    for line in text.splitlines():
        quotes = line.count('"""')
        kept.append(line if inside or quotes else comments_of(line, "#"))
        inside ^= quotes % 2 == 1
    return "\n".join(kept)


def numbered(text, pattern):
    """The numbers of the lines on which the pattern begins."""
    return [text.count("\n", 0, it.start()) + 1 for it in re.finditer(pattern, text, flags=re.I)]


class Found:
    """What was found, by kind of file: (file, line, word)."""

    def __init__(self, top):
        self.top, self.kinds = top, {}

    def look(self, kind, name, text, lines):
        """Looks for the words in a text, and for wide ones among lines."""
        found = self.kinds.setdefault(kind, [])
        spared = re.sub(PLACES, lambda it: re.sub(r"\S", " ", it[0]), text)
        for word, (_, pattern) in WORDS.items():
            found += [(name, number, word) for number in numbered(spared, pattern)]
        wide = [number for number, line in enumerate(lines, 1) if len(line) > COLUMNS]
        found += [(name, number, f"above {COLUMNS} columns") for number in wide]

    def text(self, name):
        with open(os.path.join(self.top, name), encoding="utf-8") as file:
            return file.read()

    def pages(self):
        for name in files_of(self.top, "**/*.md"):
            lines, blank = prose_of_page(self.text(name))
            # Rows of a table are one line each.
            self.look("pages", name, blank, ["" if it.startswith("|") else it for it in lines])

    def crates(self):
        for name in files_of(self.top, "crates/**/*.rt"):
            comments = comments_of(self.text(name), "//")
            self.look("crates, code", name, comments, comments.splitlines())
        for name in files_of(self.top, "crates/**/*.antt"):
            comments = comments_of(self.text(name), "--")
            self.look("crates, specifications and proofs", name, comments, comments.splitlines())

    def scripts(self):
        for name in files_of(self.top, "*/*.py", "*/lib/*.py"):
            comments = comments_of_script(self.text(name))
            self.look("scripts", name, comments, comments.splitlines())


def main(words):
    options = {it for it in words if it.startswith("--")}
    folders = [it for it in words if not it.startswith("--")]
    if not options <= {"--list", "--check"} or len(folders) > 1:
        sys.exit(__doc__)
    found = Found(folders[0] if folders else TOP)
    found.pages()
    if "--check" not in options:
        found.crates()
        found.scripts()
    for kind, places in found.kinds.items():
        counts = Counter(word for _, _, word in places)
        print(f"{kind}: " + (", ".join(f"{it} {count}" for it, count in counts.items()) or "none"))
        if "--list" in options:
            print(*(f"  {name}:{line}: {word}" for name, line, word in sorted(places)), sep="\n")
    return 1 if "--check" in options and found.kinds["pages"] else 0


if __name__ == "__main__":
    sys.exit(main(sys.argv[1:]))
