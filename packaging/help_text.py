"""What `tdelay --help` and `tdelay COMMAND --help` say, taken apart: for the man page (manual.py)
and the completions of shells (completions.py). Nothing here knows a command or an option of its
own.

A text of help has an introduction, a line `Usage:`, lists (`Commands:`, `Arguments:`, `Options:`,
and options under the headings of HEADINGS), and notes. An entry of a list may go on on lines that are further in, as where help is wrapped.
"""

import re
import subprocess
import sys
from dataclasses import dataclass, field

HEADINGS = ("Question", "Search", "Output")
LISTS = {it: it for it in ("Commands", "Arguments", "Options")} | dict.fromkeys(HEADINGS, "Options")
HEAD = {
    "Commands": re.compile(r" {2}(?P<name>[a-z][\w-]*)(?: {2,}(?P<text>.*))?$"),
    "Arguments": re.compile(
        r" {2}(?P<value>[<\[][A-Z]\w*[>\]])(?P<many>\.\.\.)?(?: {2,}(?P<text>.*))?$"
    ),
    "Options": re.compile(
        r" {2,6}(?:(?P<short>-\w)(?:, )?)?(?P<name>--[a-z][\w-]*)?"
        r"(?:[ =]?(?P<value>[<\[][^ ]+[>\]]))?(?P<many>\.\.\.)?(?: {2,}(?P<text>.*))?$"
    ),
}


@dataclass
class Entry:
    """An entry of a list: a command, an argument, or an option.

    `name` is that of a command or of an option, with its dashes, `short` an option's other name,
    and `value` the word for an argument or for what an option takes, without brackets; each is
    empty where there is none. `choices` are the possible values, where help lists them.
    """

    name: str = ""
    short: str = ""
    value: str = ""
    many: bool = False
    text: str = ""
    default: str = ""
    choices: list = field(default_factory=list)

    def finish(self):
        """Takes the default and the possible values out of the text."""
        found = re.search(r" ?\[default: ([^\]]*)\]", self.text)
        if found:
            self.default, self.text = found[1], self.text.replace(found[0], "")
        found = re.search(r" ?\[possible values: ([^\]]*)\]", self.text)
        if found:
            self.choices, self.text = found[1].split(", "), self.text.replace(found[0], "")
        intro, listed, values = self.text.partition("Possible values:")
        if listed:
            self.choices, self.text = re.findall(r"(?:^| )- ([\w-]+)", values), intro
        self.text = self.text.strip()


@dataclass
class Help:
    """The help of the program, or of one command."""

    about: str = ""
    usage: str = ""
    commands: list = field(default_factory=list)
    arguments: list = field(default_factory=list)
    options: list = field(default_factory=list)
    notes: str = ""

    def sections(self):
        """The notes by their headings, in order: a heading stands alone on its line and ends with a
        colon. What stands before the first has the heading "", and what follows a section at the
        left margin has it, too.
        """
        found = {"": []}
        heading = ""
        for line in self.notes.splitlines():
            if re.fullmatch(r"[A-Z][a-z ]*:", line):
                heading = line[:-1]
                found.setdefault(heading, [])
                continue
            if line and not line.startswith(" "):
                heading = ""
            found[heading].append(line)
        return {it: "\n".join(lines).strip("\n") for it, lines in found.items()}


def entry_of(list_name, line):
    """The entry that begins on a line of a list, None where it goes on with the one before."""
    found = HEAD[list_name].match(line)
    if not found or not any(found.groupdict().values()):
        return None
    parts = found.groupdict()
    if list_name == "Options" and not (parts["short"] or parts["name"]):
        return None
    value = (parts.get("value") or "").strip("<>[]")
    return Entry(
        name=parts.get("name") or "",
        short=parts.get("short") or "",
        value=value,
        many=bool(parts.get("many")),
        text=(parts["text"] or "").strip(),
    )


def parse(text):
    """The parts of a text of help."""
    result, place, notes = Help(), "About", []
    intro = []
    for line in text.splitlines():
        heading = re.fullmatch(r"(\w+):", line)
        if line.startswith("Usage:") and place == "About":
            result.usage, place = line.removeprefix("Usage:").strip(), "Usage"
        elif place != "Notes" and heading and heading[1] in LISTS:
            place = LISTS[heading[1]]
        elif place in LISTS and line and not line.startswith(" "):
            place = "Notes"
            notes.append(line)
        elif place == "Notes":
            notes.append(line)
        elif place == "About":
            intro.append(line)
        elif place == "Usage" and line.strip():
            result.usage += " " + line.strip()
        elif place in LISTS and line.strip():
            entries = getattr(result, place.lower())
            entry = entry_of(place, line)
            if entry:
                entries.append(entry)
            elif entries:
                entries[-1].text = f"{entries[-1].text} {line.strip()}".strip()
    for entry in [*result.commands, *result.arguments, *result.options]:
        entry.finish()
    result.about, result.notes = " ".join(" ".join(intro).split()), "\n".join(notes)
    return result


def ask(program, *words):
    """What the program prints to these words. Ends the script where it fails."""
    try:
        done = subprocess.run([program, *words], capture_output=True, text=True, timeout=60)
    except (OSError, subprocess.TimeoutExpired) as why:
        sys.exit(f"{program} {' '.join(words)}: {why}")
    if done.returncode or not done.stdout.strip():
        sys.exit(f"{program} {' '.join(words)}: status {done.returncode}: {done.stderr.strip()}")
    return done.stdout


def read(program):
    """The help of the program, and that of each of its commands but `help`, by name and in order.
    Ends the script where the program has no help with a command.
    """
    whole = parse(ask(program, "--help"))
    names = [entry.name for entry in whole.commands if entry.name != "help"]
    if not names or not whole.usage:
        sys.exit(f"{program} --help: no help of a program with commands")
    return whole, {name: parse(ask(program, name, "--help")) for name in names}
