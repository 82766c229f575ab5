#!/usr/bin/env python3
"""manual.py [--date YYYY-MM-DD] [-o FILE] PROGRAM: writes the man page of `tdelay`, made of what
`PROGRAM --help`, `PROGRAM COMMAND --help` and `PROGRAM --version` say.

The page is roff with the macros of man(7). It goes to FILE, to standard output where none is given.
Its date is that of SOURCE_DATE_EPOCH where the environment has it, else today's. The exit status is
1, with a sentence, where the program doesn't print help.
"""

import argparse
import os
import re
import sys
import textwrap
import time

import help_text

SEE = """\
.BR gtkwave (1),
.BR iverilog (1),
.BR yosys (1)
.PP
Pages of the repository of tdelay:
README.md,
docs/MANUAL.md (all options and all lines of output),
docs/NETLIST.md (what is read, and what to do about a refusal),
docs/CERTIFICATE.md (the text of a certificate),
docs/FROM\\-RTL.md (from a design to a figure).
"""


def plain(text):
    """A text as roff that prints just that text."""
    text = text.replace("\\", "\\e").replace("-", "\\-")
    return text.replace("~", "\\(ti").replace("^", "\\(ha").replace("'", "\\(aq")


def prose(text):
    """A paragraph as roff: what stands in backquotes, and each option, is bold."""
    pieces = re.split(r"`([^`]+)`|(?<![\w-])(--[a-z][\w-]*)", " ".join(text.split()))
    out = ""
    for number, piece in enumerate(pieces):
        if piece:
            out += plain(piece) if number % 3 == 0 else f"\\fB{plain(piece)}\\fR"
    return folded(out)


def folded(text):
    """A text on lines that roff's own tools find short enough, a new one for each sentence."""
    lines = []
    for sentence in re.split(r"(?<=[.?!:]) (?=[A-Z`])", text):
        lines += textwrap.wrap(sentence, 78, break_long_words=False, break_on_hyphens=False)
    return "\n".join(guarded(line) for line in lines)


def guarded(line):
    """A line that roff doesn't take for a request."""
    return "\\&" + line if line[:1] in (".", "'") else line


def usage(help_):
    """A line of usage with its words for values in italics. It begins with `tdelay`, whatever the
    program's file is called.
    """
    pieces = re.split(r"<(\w+)>", re.sub(r"^\S+", "tdelay", help_.usage))
    return "".join(plain(it) if at % 2 == 0 else f"\\fI{it}\\fR" for at, it in enumerate(pieces))


def paragraphs(text):
    """The paragraphs of a text, each as roff."""
    return "\n.PP\n".join(prose(piece) for piece in re.split(r"\n\s*\n", text) if piece.strip())


def shown(text):
    """Lines as they stand, as for an example."""
    lines = [guarded(plain(line.strip())) for line in text.splitlines() if line.strip()]
    return "\n".join([".RS 4", ".nf", *lines, ".fi", ".RE"])


def facts(entry):
    """What an entry's text says, with its default and its possible values."""
    text = entry.text.rstrip(".")
    if entry.choices:
        text += f"; one of {', '.join(f'`{it}`' for it in entry.choices)}"
    if entry.default:
        text += f"; {entry.default} if left out"
    return prose(text + ".")


def tag_of(entry):
    """An entry's names and what it takes, as the head of a paragraph."""
    names = ", ".join(f"\\fB{plain(it)}\\fR" for it in (entry.short, entry.name) if it)
    value = f"\\fI{entry.value}\\fR" if entry.value else ""
    return f"{names} {value}".strip() + (" ..." if entry.many else "")


def entries(found):
    """The paragraphs of entries."""
    return "\n".join(f".TP\n{guarded(tag_of(entry))}\n{facts(entry)}" for entry in found)


def command_part(name, help_):
    """What the page says of one command: its usage, its arguments and options, and its notes."""
    own = [entry for entry in help_.options if entry.name not in ("--help", "--version")]
    notes = help_.sections()[""]
    parts = [f".SS tdelay {name}", usage(help_), entries(help_.arguments + own)]
    parts += [".PP", paragraphs(notes)] if notes.strip() else []
    return "\n".join(part for part in parts if part)


def examples(whole, commands):
    """All examples: those of the program, then those of the commands that it lacks."""
    lines = []
    for help_ in (whole, *commands.values()):
        for heading, text in help_.sections().items():
            if heading.startswith("Example"):
                lines += [it.strip() for it in text.splitlines() if it.strip()]
    return shown("\n".join(dict.fromkeys(lines)))


def statuses(text):
    """The table of exit statuses."""
    rows = re.findall(r"(?m)^ +(\d+) +(.*(?:\n {5,}\S.*)*)", text)
    return "\n".join(f".TP\n.B {number}\n{prose(meaning)}" for number, meaning in rows)


def page(program, date):
    """The man page of a program."""
    whole, commands = help_text.read(program)
    version = help_text.ask(program, "--version").strip()
    sections = whole.sections()
    about = whole.about[:1].lower() + whole.about[1:]
    usages = "\n.br\n".join(usage(it) for it in commands.values())
    named = [entry for entry in whole.commands if entry.name in commands]
    parts = [
        f'.TH TDELAY 1 {date} "{plain(" ".join(version.split()[:2]))}" "User Commands"',
        f".SH NAME\ntdelay \\- {plain(about)}",
        f".SH SYNOPSIS\n.nh\n{usages}\n.hy",
        f".SH DESCRIPTION\n{prose(whole.about + '.')}\n.PP\n{paragraphs(sections[''])}",
        f".SH COMMANDS\n{entries(named)}",
        ".SH OPTIONS\nEach command takes these options, and prints its own with\n.BR \\-\\-help .",
        *[command_part(name, it) for name, it in commands.items()],
        f".SS tdelay\n{entries(whole.options)}",
        f".SH EXIT STATUS\n{statuses(sections.get('Exit status', ''))}",
        f".SH EXAMPLES\n{examples(whole, commands)}",
        f".SH SEE ALSO\n{SEE.strip()}",
    ]
    return "\n".join(parts) + "\n"


def today():
    seconds = int(os.environ.get("SOURCE_DATE_EPOCH") or time.time())
    return time.strftime("%Y-%m-%d", time.gmtime(seconds))


def main():
    words = argparse.ArgumentParser(
        description=__doc__, formatter_class=argparse.RawDescriptionHelpFormatter
    )
    words.add_argument("program", metavar="PROGRAM")
    words.add_argument("--date", default=today(), metavar="YYYY-MM-DD")
    words.add_argument("-o", "--out", metavar="FILE")
    asked = words.parse_args()
    text = page(os.path.abspath(asked.program), asked.date)
    if asked.out:
        with open(asked.out, "w", encoding="utf-8") as file:
            file.write(text)
    else:
        sys.stdout.write(text)


if __name__ == "__main__":
    main()
