#!/usr/bin/env python3
"""Looks that the pages say what is so, where a script can see it.

The pages of PAGES are read from top to bottom, one after the other, and their commands run in one
folder. A block that begins as a module is a netlist, of the last name that ends in `.v` before it.
Each line of a block `sh` that calls `./tdelay`, and each `command FILE.v ..` in backquotes, is run,
and ends well. A block `python` is a script, which is run too, and a block `rust` is code of a file
that the page names. A block without a language is what the last command or script prints, whole or
without the head. A text in backquotes that is a line of a report or a message is a line that some command of
the pages prints, or one of OTHERS, of which they tell in words.

Besides, the table of contracts in docs/CONTRACTS.md is that of lint/contracts.py, the tables of
options in docs/MANUAL.md are those of packaging/options.py, the plots those of lint/plots.py, the
numbers of docs/model those of lint/model.py, and the picture of the crates is that of
lint/picture.py. As many wrong bodies are there as the pages say. Each name of code and each path
in backquotes is in the repository, but for those of NO_NAMES. Each relative link of a page leads to
a file that is there, and to a heading of it. Lines have at most 100 columns, but for tables and
blocks, in README.md also there, which has at most 150 lines and 900 words; and no page has one of
the words of lint/words.py. The numbers of README.md are those of the places in NUMBERS. A page
that isn't read here has no command, or is one of ELSEWHERE, whose check reads it. Each refusal of
docs/NETLIST.md is what its example gives, and each certificate of docs/CERTIFICATE.md is accepted.
Each command, block, text, name, link, page, number and refusal is a case.
"""

import glob
import os
import re
import shutil
import sys

from lib import check, circuits, places, reports, running
from lib.netlists import INVERTER, LOST

import contracts as listing
import help_text
import options as making

COMMANDS = "sim|path|bound|worst|parts|join|info|check"
# The pages with commands, and how many each has at least.
PAGES = {
    "README.md": 2,
    "docs/MANUAL.md": 15,
    "docs/NETLIST.md": 1,
    "docs/TRANSITION-DELAY.md": 5,
    "docs/TUTORIAL.md": 5,
    "docs/LIBRARY.md": 1,
    "docs/QUESTIONS.md": 0,
    "docs/BESIDE.md": 0,
    "examples/README.md": 7,
    "examples/from_rtl/README.md": 7,
}
# The page with the table of contracts, and what is planted there, in place of what.
CONTRACTS = "docs/CONTRACTS.md"
PLANTED = [
    ("`read` (found, only, fault)", "`read` (found, fault)"),
    ("`chain_of` |", "`chains_of` |"),
    ("`means_one`", "`means_two`"),
    ("| `td_gates` |", "| `td_gate` |"),
]
# Names in backquotes that aren't of the repository: those of other programs.
NO_NAMES = {"Console", "Lts", "Ln", "afterok", "backoffLimit", "gzip", "rtlib.py"}
# How many names and paths in backquotes all pages have at least.
NAMED = 500
# Commands that a page tells of in words.
OTHERS = {
    "README.md": ["worst lost.v --budget 1"],
    "docs/TRANSITION-DELAY.md": [],
    "docs/TUTORIAL.md": [],
    "docs/LIBRARY.md": [],
    "docs/QUESTIONS.md": [],
    "docs/BESIDE.md": [],
    "docs/MANUAL.md": [
        "bound inverter.v",
        "sim skew.v 01 10",
        "worst skew.v",
        "check skew.v skew.cert",
        "worst inverter.v --first 0 --second 1 --hold =",
        "worst inverter.v --cert inverter.cert",
        "check inverter.v other_pair.cert",
        "check inverter.v other_leaf.cert",
        "check inverter.v other_bound.cert",
        "sim inverter.v 0 1 --seconds 0",
    ],
    "docs/NETLIST.md": [],
    "examples/README.md": [],
    "examples/from_rtl/README.md": [],
}
# Files that a page tells of in words: netlists, and certificates of a page's commands with one text
# in place of another.
FILES = {"inverter.v": INVERTER, "lost.v": LOST}
CHANGED = {
    "other_pair.cert": ("still.cert", b"to 0", b"to 1"),
    "other_leaf.cert": ("still.cert", b"b a 0", b"none"),
    "other_bound.cert": ("inverter.cert", b"b a 3", b"b a 2"),
}
# Pages with commands that a check reads which has the tools for them.
ELSEWHERE = {"docs/FROM-RTL.md": "bridging/designs.py", "docs/MANY-MACHINES.md": "parts.py"}
# Numbers of README.md, each with the page or script that has it too.
COSTS, BESIDE = "docs/FIGURES.md", "docs/BESIDE.md"
NUMBERS = [
    (r"\((\d+)\s+seconds\s+on\s+four\s+processors", COSTS, r"c17\.v`, the first \| \S+ 3` \| (\d+) \|"),
    (r"(\d+)\s+minutes\s+on\s+two\s+processors", COSTS, r"\| 2 \| (\d+) minutes \|"),
    (r"\| ([\d.]+) ps \(OpenSTA\)", BESIDE, r"`carry_skip` \| 33 \| ([\d.]+) \|"),
    (r"(\d+) ps after 10,000 ", BESIDE, r"`carry_skip` \|(?: [\d.]+ \|){3} (\d+) \|"),
    (r"\*\*(\d+) ps\*\*", BESIDE, r"`carry_skip` \|(?: [\d.]+ \|){6} (\d+) \|"),
    (r"1 to (\d+) workers:", "docs/MANUAL.md", r"threads search, from 1 to (\d+)"),
]
LONGEST_README, README_WORDS = 150, 900
# The longest that a command of a page, or a tool, may take, in seconds.
LONGEST = 180
# How many relative links all pages have at least, and how many refusals docs/NETLIST.md has.
LINKS, REFUSALS = 200, 16
# Where the examples of docs/NETLIST.md stand.
FRAME = "module t(a, y);\ninput a;\noutput y;\n{}\nendmodule\n"
# The gates of which docs/CERTIFICATE.md shows certificates, in its order, with what `check` prints
# first; those of the last one are a block of the page.
CERTIFIED = [
    ("not #(2,3) g(y,a);", "accepted 3"),
    ("not #1 n(b,a); and #2 g(y,a,b);", "accepted 0"),
    ("not #(1,5) n(b,a); not #(1,5) g(y,b);", "accepted 6"),
    (None, "accepted 3"),
]
# The lines of reports, and the messages, that are looked for in backquotes.
LINES = [
    r"(?:exact|accepted|time|nodes|[atmen]) \d+",
    r"t none",
    r"between \d+ \d+",
    r"last (?!NAME)\w+ (?:\d+|never)",
    r"refused \d \w+(?: line \d+)?",
    r"at [\d ]+",
    r"tdelay: [a-z ]+",
]
LINE = re.compile("|".join(LINES))


def renewals(tested):
    """Cases: lint/contracts.py finds what is planted in its table, and a function that is gone."""
    page = places.text_of(CONTRACTS)
    if listing.written(page, []) != page:
        # That the page differs is a case of `tools`.
        return
    for old, new in PLANTED:
        changed = page.replace(old, new)
        tested.expect(f"{CONTRACTS} has {old}", True, changed != page)
        tested.expect(f"{new!r} for {old!r} in {CONTRACTS}", page, listing.written(changed, []))
    missing = []
    listing.MAIN["td_path"].append("chains_of")
    listing.written(page, missing)
    listing.MAIN["td_path"].pop()
    tested.expect("a function that isn't there", ["function td_path::chains_of"], missing)


def tools(tested):
    """Cases: contracts, numbers of the model, pictures, refusals of the bridges."""
    for tool in ("contracts.py", "model.py", "picture.py", "plots.py", "refusals.py"):
        words = [sys.executable, os.path.join(places.LINT, tool), "--check"]
        done = running.run(words, places.TOP, seconds=LONGEST)
        tested.expect(f"{tool}: {done.out}{done.err}", 0, done.status)


def counted(tested):
    """Cases: how many wrong bodies there are, where a page says so."""
    counts = {
        r"`rt ci` tries (\d+) wrong bodies": "crates/*/must-fail/*.edit",
        r"[Oo]ther (\d+) are tried by `lint/wrong_bodies.py`": "lint/wrong_bodies/*/*.edit",
    }
    pages = sorted(glob.glob(os.path.join(places.TOP, "docs", "*.md")))
    texts = [" ".join(places.text_of(page).split()) for page in ["README.md", *pages]]
    for pattern, edits in counts.items():
        count = len(glob.glob(os.path.join(places.TOP, edits)))
        found = [int(number) for text in texts for number in re.findall(pattern, text)]
        tested.expect(f"the pages count {edits}", (True, {count}), (bool(found), set(found)))


def applied(tested):
    """Cases: each wrong body that is tried on demand can be put in, as the sources are."""
    for path in sorted(glob.glob(os.path.join(places.TOP, "lint/wrong_bodies/*/*.edit"))):
        crate, name = path.split(os.sep)[-2:]
        first, *lines = places.text_of(path).splitlines()
        code = places.text_of("crates", crate, first.removeprefix("file: "))
        counts = [code.count(line[5:]) for line in lines if line.startswith("old: ")]
        tested.expect(f"{crate}/{name}: each old text stands once", {1}, set(counts))


def all_pages():
    """The names of all pages of the repository."""
    found = glob.glob(os.path.join(places.TOP, "**", "*.md"), recursive=True)
    names = sorted(os.path.relpath(path, places.TOP) for path in found)
    return [name for name in names if "out" not in name.split(os.sep)]


def names_there():
    """The words of all files but pages and this one, and the names of all files and folders."""
    found = set()
    for root, folders, files in os.walk(places.TOP):
        folders[:] = [it for it in folders if it not in ("out", ".git", "__pycache__")]
        found.update(folders, files, (it.partition(".")[0] for it in files))
        for name in files:
            path = os.path.join(root, name)
            if not name.endswith(".md") and path != os.path.abspath(__file__):
                with open(path, encoding="utf-8", errors="ignore") as file:
                    found.update(re.findall(r"[A-Za-z_]\w*", file.read()))
    return found


def is_there(path):
    """Whether a path of a page leads to a file or a folder, from the top or from crates/."""
    tops = [os.path.join(places.TOP, folder, path) for folder in ("", "crates")]
    return any(glob.glob(top + ending) for top in tops for ending in ("", ".antt", ".rt", ".edit"))


def is_made(name):
    """Whether a name is that of a circuit which lib/circuits.py makes."""
    found = re.fullmatch(r"([a-z]+\d*)_\d+", name)
    return bool(found) and found[1] in circuits.MADE


def names(tested):
    """Cases: each name of code, and each path, in backquotes is one of the repository, or that of a
    circuit which is made.
    """
    known, count = names_there() | NO_NAMES, 0
    folders = r"bridges|build|checks|crates|docs|examples|tools|td_\w+"
    for page in all_pages():
        for span in spans_of(prose_of(page)):
            if re.fullmatch(r"[A-Za-z_]\w*(?:::\w+)*", span) and not span.isupper():
                parts = [it for it in span.split("::") if not it.isupper() and not is_made(it)]
                lacking = [it for it in parts if it not in known]
            elif re.fullmatch(r"[\w-]+\.(?:rt|antt|py|sh|t)", span):
                lacking = [] if span in known else [span]
            elif re.fullmatch(rf"(?:{folders})/[\w./*-]+", span) and "NAME" not in span:
                lacking = [] if is_there(span) or "/out/" in span else [span]
            else:
                continue
            count += 1
            tested.expect(f"{page}: `{span}` is in the repository", [], lacking)
    if count < NAMED:
        tested.fault(f"{count} names in the pages, where there have to be {NAMED}")


def prose_of(name):
    """The text of a page without its blocks."""
    return "".join(piece for language, piece in pieces(places.text_of(name)) if language is None)


def anchors_of(name):
    """The names by which links lead to the headings of a page."""
    headings = re.findall(r"^#+ (.*)$", prose_of(name), flags=re.M)
    return {re.sub(r"[^\w\- ]", "", heading.lower()).replace(" ", "-") for heading in headings}


def leads(page, link):
    """Whether a relative link of a page leads to a file that is there, and to a heading of it."""
    path, _, anchor = link.partition("#")
    name = os.path.normpath(os.path.join(os.path.dirname(page), path)) if path else page
    if not os.path.exists(os.path.join(places.TOP, name)):
        return False
    return not anchor or name.endswith(".md") and anchor in anchors_of(name)


def links(tested):
    """Cases: each relative link of all pages leads somewhere."""
    count = 0
    for page in all_pages():
        for link in re.findall(r"\]\(([^)\s]+)\)", prose_of(page)):
            if not re.match(r"\w+:", link):
                count += 1
                tested.expect(f"{page}: the link {link} leads somewhere", True, leads(page, link))
    if count < LINKS:
        tested.fault(f"{count} links in the pages, where there have to be {LINKS}")


def widths(tested):
    """Cases: no line of a page outside tables and blocks has more than 100 columns."""
    for page in all_pages():
        lines = prose_of(page).splitlines()
        wide = [line for line in lines if len(line) > 100 and not line.startswith("|")]
        tested.expect(f"{page}: the lines above 100 columns", [], wide)

    lines = places.text_of("README.md").splitlines()
    wide = [line for line in lines if len(line) > 100]
    tested.expect("README.md: the lines above 100 columns", [], wide)
    tested.expect("README.md: it isn't too long", True, len(lines) <= LONGEST_README)
    count = len(places.text_of("README.md").split())
    tested.expect(f"README.md: {count} words", True, count <= README_WORDS)


def words(tested):
    """A case: no page has a word of lint/words.py."""
    script = os.path.join(places.LINT, "words.py")
    done = running.run([sys.executable, script, "--check", "--list"], places.TOP)
    tested.expect(f"the words of pages: {done.out}{done.err}", 0, done.status)
    for text, status in (
        ("It is reported after `told` and `want of memory`.\n", 0),
        ("```\ntold, behind\n```\n\n| told |\n", 1),
        ("For want\nof memory.\n", 1),
        ("So many.\n", 1),
        ("x" * 101 + "\n", 1),
    ):
        with running.folder() as folder:
            running.write(folder, "page.md", text)
            done = running.run([sys.executable, script, "--check", folder])
            tested.expect(f"a page with {text!r}: {done.out}", status, done.status)


def numbers(tested):
    """Cases: the numbers of README.md are those of other pages, and its toolchain is that here."""
    readme = places.text_of("README.md")
    for pattern, page, other in NUMBERS:
        said, wanted = re.findall(pattern, readme), re.findall(other, places.text_of(page))
        tested.expect(f"README.md: {pattern}, as {page}", (1, wanted), (len(said), said))
    if shutil.which("rt"):
        version = running.run(["rt", "version"]).out.strip()
        said = re.findall(r"`rt version` prints\s+`([^`]*)`, or `(\w+)` for `(\w+)`", readme)
        known = {line.replace(own, kit) for line, other, own in said for kit in (own, other)}
        tested.expect(f"README.md: what `rt version` prints, {known}", True, version in known)


def all_are_read(tested):
    """Cases: a page with commands is read here, or by a check that names it."""
    for page in all_pages():
        blocks = [body for language, body in pieces(places.text_of(page)) if language == "sh"]
        if page in PAGES or not any(re.search(r"^\./tdelay ", it, flags=re.M) for it in blocks):
            continue
        reader = places.text_of("checks", ELSEWHERE[page]) if page in ELSEWHERE else ""
        name = os.path.basename(page)
        tested.expect(f"{page}: a check reads it", True, f'"{name}"' in reader)


def options(tested):
    """Cases: the manual's commands are those of `--help`, and its tables of options those that
    packaging/options.py makes of it.
    """
    manual = places.text_of("docs/MANUAL.md")
    try:
        _, helps = help_text.read(os.path.abspath(tested.program))
    except SystemExit as why:
        tested.expect("the program has help", "", str(why))
        return
    tested.expect("the commands", sorted(COMMANDS.split("|")), sorted(helps))
    headings = re.findall(r"^## `(\w+)`", manual, flags=re.M)
    tested.expect("docs/MANUAL.md: the commands", sorted(helps), sorted(headings))
    for command, table in making.tables(helps).items():
        tested.expect(f"docs/MANUAL.md has the options of {command}", True, table in manual)
    tested.expect("docs/MANUAL.md: its tables of options", manual, making.written(manual, helps))


def refusals(tested):
    """Cases: the example of each refusal of docs/NETLIST.md is refused with its number and name."""
    rows = re.findall(
        r"^\| (\d+) \| (\w+) \| [^|]* \| `([^|]*)` \|",
        places.text_of("docs/NETLIST.md"),
        flags=re.M,
    )
    for number, name, text in rows:
        tested.write("t.v", FRAME.format(text))
        said = tested.run("info", "t.v").err
        wanted = rf"tdelay: (netlist|circuit) fault {number} {name} (at line|on) "
        tested.expect(f"docs/NETLIST.md: {text}: {said}", True, bool(re.match(wanted, said)))
    if len(rows) < REFUSALS:
        tested.fault(f"{len(rows)} refusals in docs/NETLIST.md, where there are {REFUSALS}")


def certificates(tested):
    """Cases: each certificate that docs/CERTIFICATE.md shows is accepted."""
    blocks = [it for language, it in pieces(places.text_of("docs/CERTIFICATE.md")) if not language]
    shown = [it for it in blocks if it and it.startswith("tdelay-cert ")]
    modules = [it for it in blocks if it and it.startswith("module ")]
    tested.expect("docs/CERTIFICATE.md: certificates", len(CERTIFIED), len(shown))
    for (gates, wanted), text in zip(CERTIFIED, shown):
        tested.write("t.v", FRAME.format(gates) if gates else modules[-1])
        tested.write("t.cert", text)
        said = tested.run("check", "t.v", "t.cert")
        first = said.out.partition("\n")[0]
        tested.expect(f"docs/CERTIFICATE.md: {text}: {said.err}", wanted, first)


def pieces(text):
    """The pieces of a page in order: prose with None, and blocks with their language."""
    for number, piece in enumerate(re.split(r"^```", text, flags=re.M)):
        if number % 2 == 0:
            yield None, piece
        else:
            language, _, body = piece.partition("\n")
            yield language.strip(), body


def spans_of(prose):
    """The texts in backquotes, each on one line."""
    return [" ".join(span.split()) for span in re.findall(r"(?<!`)`([^`]+)`(?!`)", prose)]


def own_part(line):
    """The commands of a line that call `./tdelay`, without those of viewers."""
    return " && ".join(part for part in line.split(" && ") if part.startswith("./tdelay "))


class Pages:
    """The pages as they are read, with the folder in which their commands run, and what they
    printed so far.
    """

    def __init__(self, tested, folder):
        self.tested, self.folder, self.name = tested, folder, None
        self.commands, self.lines, self.spans = 0, set(), []
        self.last = ""
        os.symlink(places.EXAMPLES, os.path.join(folder, "examples"))
        os.symlink(tested.program, os.path.join(folder, "tdelay"))
        for name, text in FILES.items():
            running.write(folder, name, text)

    def run_python(self, body):
        """A case: a script of the page ends well."""
        done = running.run([sys.executable, "-c", body], self.folder)
        self.commands += 1
        self.last = done.out
        self.tested.expect(f"{self.name}: a script: {done.err}: the status", 0, done.status)

    def find_source(self, body):
        """A case: code that the page shows is that of the file that it names."""
        code = [places.text_of(it) for span_of, it in self.spans if span_of == self.name
                and re.fullmatch(r"crates/[\w/]+\.rt", it)]  # fmt: skip
        self.tested.expect(f"{self.name}: the code {body[:40]!r} is in its file", True,
                           any(body in text for text in code))  # fmt: skip

    def run(self, line, statuses=(0,)):
        """A case: a command of the page ends well."""
        words = ["bash", "-c", f"set -o pipefail; {line}"]
        done = running.run(words, self.folder, seconds=LONGEST)
        self.commands += 1
        self.last = done.out
        self.lines.update((done.out + done.err).splitlines())
        self.tested.expect(
            f"{self.name}: {line}: {done.out}{done.err}: the status", True, done.status in statuses
        )

    def read(self, name, least):
        """The commands of a page, of which there is a least number, and those that it has in
        words.
        """
        self.name, self.commands, netlist = name, 0, None
        for language, body in pieces(places.text_of(name)):
            if language is None:
                netlist = self.read_prose(body) or netlist
            elif language == "sh":
                for line in re.findall(r"^\./tdelay .*$", body, flags=re.M):
                    # A required time may be violated.
                    self.run(own_part(line), (0, 6) if " --required " in line else (0,))
            elif language == "python":
                self.run_python(body)
            elif language == "rust":
                self.find_source(body)
            elif language == "" and re.match(r"module \w+ ?\(", body):
                running.write(self.folder, netlist, body)
            elif language == "" and not re.match(r" +\d+  ", body):
                self.compare(body)
        if self.commands < least:
            self.tested.fault(f"{name}: {self.commands} commands, where there have to be {least}")
        self.others(OTHERS[name])

    def read_prose(self, prose):
        """Runs the commands in backquotes, and keeps the other texts. Gives the last name of a
        netlist.
        """
        names = []
        for span in spans_of(prose):
            self.spans.append((self.name, span))
            names += re.findall(r"^\w+\.v$", span)
            command = re.fullmatch(rf"(?:\./tdelay )?((?:{COMMANDS}) \w+\.v( .*)?)", span)
            if command and os.path.exists(os.path.join(self.folder, command[1].split()[1])):
                self.run(f"./tdelay {command[1]}")
        return names[-1] if names else None

    def compare(self, block):
        """A case: a block is what the last command prints, or one that the page puts in words."""
        shown = block.splitlines()
        if shown[0].startswith("between "):
            self.others([command for command in OTHERS[self.name] if "--budget" in command])
        prints = reports.as_proved(self.last).splitlines()
        body = prints[2:] if prints[:1] and prints[0].startswith("unit ") else prints
        self.tested.expect(
            f"{self.name}: {shown} is what is printed, {prints}", True, shown in (prints, body)
        )

    def others(self, commands):
        """Runs commands that the page tells of in words."""
        for command in commands:
            for name, (old, one, other) in CHANGED.items():
                text = running.read(self.folder, old)
                if name in command and text is not None:
                    running.write(self.folder, name, text.replace(one, other, 1))
            self.run(f"./tdelay {command}", (0, 1, 3, 4))

    def compare_spans(self):
        """Cases: each text in backquotes that is a line of a report is one that was printed."""
        for name, span in self.spans:
            if LINE.fullmatch(span):
                self.tested.expect(
                    f"{name}: some command prints `{span}`", True, span in self.lines
                )


def work(tested):
    certificates(tested)
    if tested.wrong:
        # A program that can't do this takes long to fail the others.
        return
    options(tested)
    renewals(tested)
    tools(tested)
    counted(tested)
    applied(tested)
    names(tested)
    links(tested)
    widths(tested)
    words(tested)
    numbers(tested)
    all_are_read(tested)
    refusals(tested)
    with running.folder() as folder:
        pages = Pages(tested, folder)
        for name, least in PAGES.items():
            pages.read(name, least)
        pages.compare_spans()


if __name__ == "__main__":
    sys.exit(check.main(work, __doc__))
