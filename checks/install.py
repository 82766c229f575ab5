#!/usr/bin/env python3
"""Looks that packaging/install.sh installs the program, its man page and its completions, and removes
them again, in a PREFIX of its own.

The installed program answers. The man page has each command and each option of `--help`, and the
tools of roff that are there find nothing wrong with it. In bash, and in zsh and fish where they are
there, each command's options are completed, the values that help lists, and file names. What isn't
known to be proved is refused, and then, as after a failed install, nothing stays. After `--remove`
nothing stays either, but for files of others.
"""

import os
import re
import shutil
import stat
import sys
import textwrap

from lib import check, places, running, shells

import help_text

INSTALL = os.path.join(places.PACKAGING, "install.sh")
SOURCES = os.path.join(places.TOP, "build", "sources.py")
COMMANDS = ["sim", "path", "bound", "worst", "parts", "join", "check", "info"]
# The options of every command, which the man page lists once.
EVERYWHERE = {"--help", "-h", "--version", "-V"}
WANTED = "unit 1 ns\ndefaulted 6\nexact 3\nfrom 00000\nto 11111\nnodes 1\n"
BRIDGES = os.path.join(places.TOP, "bridges")
FILES = {
    "bin/tdelay",
    "bin/tdelay-figure",
    "lib/tdelay/tdelay",
    "share/bash-completion/completions/tdelay",
    "share/fish/vendor_completions.d/tdelay.fish",
    "share/man/man1/tdelay.1",
    "share/tdelay/front.sh",
    "share/tdelay/installed",
    "share/tdelay/version",
    "share/zsh/site-functions/_tdelay",
    *(
        f"share/tdelay/bridges/{name}"
        for name in os.listdir(BRIDGES)
        if os.path.isfile(os.path.join(BRIDGES, name))
    ),
}
# Tools that look for faults in roff: they print nothing where there is none.
LINTS = {"mandoc": ["-Tlint"], "groff": ["-man", "-ww", "-z"]}
# Of a line its end that bash completes, and what it offers there.
OFFERS = [
    (["wor"], ["worst"]),
    (["worst", "--strat"], ["--strategy"]),
    (["worst", "c1"], ["c17.cert", "c17.v"]),
    (["worst", "--cert", "c17.c"], ["c17.cert"]),
    (["worst", "c17.v", "--cert", "=", "c17.c"], ["c17.cert"]),
    (["worst", "--budget", "c"], []),
    (["worst", "--budget", "5", "c17.v"], ["c17.v"]),
    (["check", "c17.v", "c17.c"], ["c17.cert"]),
    (["sim", "c17.v", "c"], []),
    (["join", "c17.v", "1", "2", "c17.c"], ["c17.cert"]),
    (["--vers"], ["--version"]),
    (["nothing", "c"], []),
]


class Place:
    """A PREFIX, and what is done there."""

    def __init__(self, tested, name):
        self.tested, self.path = tested, os.path.join(tested.folder, name)

    def install(self, *words):
        """How the installer ends. The program is named, and taken though it isn't proved, where
        nothing else is said.
        """
        asked = words or ("--unproved", "--program", self.tested.program)
        return running.run([INSTALL, *asked, self.path])

    def files(self):
        """All files and empty folders below the PREFIX."""
        found = set()
        for at, below, names in os.walk(self.path):
            names += [] if below or names else [""]
            found.update(os.path.relpath(os.path.join(at, it), self.path) for it in names)
        return found

    def inside(self, name):
        return os.path.join(self.path, name)


def options_of(text):
    """The options that a text of help lists, the short ones too."""
    found = re.findall(r"(?m)^ {2,6}(?:(-\w), )?(--[a-z][a-z-]*)", text)
    return sorted(name for names in found for name in names if name)


def commit():
    """The line of the commit of the checkout, by git itself; none where this is no checkout."""
    if not os.path.exists(os.path.join(places.TOP, ".git")):
        return []
    git = ["git", "-C", places.TOP]
    name = running.run([*git, "log", "-1", "--format=%H"]).out.strip()[:12]
    changed = running.run([*git, "status", "-s", "--", "crates", "crates.txt", "HANDLES"]).out
    return [f"commit {name}" + ", changed" * bool(changed)]


def installed(tested, place):
    """Cases: what is installed, and that it answers."""
    done = place.install()
    tested.expect(f"an install: {done.out}{done.err}", 0, done.status)
    tested.expect("the installed files", FILES, place.files())
    said = [running.run([tested.program, "--version"]).out.strip(), *commit()]
    version = places.text_of(place.inside("share/tdelay/version")).splitlines()
    tested.expect("the version and the commit", said, version)
    tested.expect("what an install says", True, f"installed {', '.join(said)} in" in done.out)
    for name in ("bin/tdelay", "lib/tdelay/tdelay"):
        mode = stat.S_IMODE(os.stat(place.inside(name)).st_mode)
        tested.expect(f"the permissions of {name}", 0o755, mode)
    answer = running.run([place.inside("bin/tdelay"), "worst", places.example("c17.v")])
    tested.expect("what the installed program answers", (0, WANTED, ""), tuple(answer))
    figure = running.run([place.inside("bin/tdelay-figure"), "--help"])
    tested.expect("tdelay-figure --help", (0, True), (figure.status, "TOP" in figure.out.upper()))
    words = ["none.v", "t", "none.lib", "out", "--strategi", "x"]
    figure = running.run([place.inside("bin/tdelay-figure"), *words])
    tested.expect(f"tdelay-figure --strategi: {figure.err}", 2, figure.status)


def man_page(tested, path):
    """Cases: the man page is right, and complete."""
    with open(path, encoding="utf-8") as file:
        text = file.read().replace("\\-", "-")
    sections = re.findall(r"(?m)^\.SH (.*)$", text)
    wanted = "NAME, SYNOPSIS, DESCRIPTION, COMMANDS, OPTIONS, EXIT STATUS, EXAMPLES, SEE ALSO"
    tested.expect("the sections of the man page", wanted, ", ".join(sections))
    for command in COMMANDS:
        part = re.search(rf"(?ms)^\.SS tdelay {command}$(.*?)^\.S[SH] ", text)
        heads = " ".join(re.findall(r"(?m)^\.TP\n(.*)$", part[1] if part else ""))
        listed = options_of(tested.run(command, "--help").out)
        options = sorted(set(re.findall(r"\\fB(--?[a-z][a-z-]*)\\fR", heads)) | EVERYWHERE)
        tested.expect(f"the man page's options of {command}", listed, options)
    synopsis = re.search(r"(?ms)^\.SH SYNOPSIS$(.*?)^\.SH ", text)[1]
    used = re.findall(r"(?m)^tdelay (\w+) ", synopsis)
    tested.expect("the synopsis of the man page", COMMANDS, used)
    statuses = re.findall(r"(?m)^\.B (\d)$", text)
    tested.expect("the exit statuses of the man page", list("0123456"), statuses)
    for tool, words in LINTS.items():
        if shutil.which(tool):
            done = running.run([tool, *words, path])
            tested.expect(f"faults by {tool}", (0, "", ""), tuple(done), "looked at by a tool")


def strategies(tested):
    """The strategies that help lists."""
    listed = re.findall(r"possible\s+values:([a-z,\s]+)\]", tested.run("worst", "--help").out)
    return sorted(word for words in listed if "lead" in words for word in re.findall(r"\w+", words))


def completed_by_bash(tested, script):
    """Cases: what bash offers."""

    def offered(*words):
        return shells.bash(script, ["tdelay", *words], tested.folder)

    for command in COMMANDS:
        listed = options_of(tested.run(command, "--help").out)
        tested.expect(f"bash: {command} -", listed, offered(command, "-"), "bash")
    listed = strategies(tested)
    tested.expect("lead is a strategy", True, {"least", "lead"} <= set(listed))
    tested.expect("bash: the strategies", listed, offered("worst", "--strategy", ""), "bash")
    for words, wanted in OFFERS:
        tested.expect(f"bash: {words}", wanted, offered(*words), "bash")


def completed_by_fish(tested, script):
    """Cases: what fish offers."""
    for line, wanted in (
        ("wor", ["worst"]),
        ("worst --strat", ["--strategy"]),
        ("worst --strategy ", strategies(tested)),
        ("worst c1", ["c17.cert", "c17.v"]),
        ("join c17.v --ch", ["--check"]),
        ("--vers", ["--version"]),
    ):
        got = shells.fish(script, f"tdelay {line}", tested.folder)
        tested.expect(f"fish: {line}", wanted, got, "fish")


def completed_by_zsh(tested, script):
    """Cases: what zsh makes of a line."""
    for line, wanted in (
        ("wor", "worst "),
        ("worst --strat", "worst --strategy="),
        ("worst --strategy lea", "worst --strategy lea"),
        ("worst --strategy leas", "worst --strategy least "),
        ("check c17.v c17.c", "check c17.v c17.cert "),
        ("--vers", "--version "),
    ):
        got = shells.zsh(script, f"tdelay {line}", tested.folder, is_read=line == "wor")
        tested.expect(f"zsh: {line}", f"tdelay {wanted}".rstrip(), (got or "").rstrip(), "zsh")


def completions(tested, place):
    """Cases: the completions of each shell that is there."""
    tested.write("c17.v", places.text_of("examples", "c17.v"))
    tested.write("c17.cert", "")
    completed_by_bash(tested, place.inside("share/bash-completion/completions/tdelay"))
    for shell, complete, name in (
        ("fish", completed_by_fish, "share/fish/vendor_completions.d/tdelay.fish"),
        ("zsh", completed_by_zsh, "share/zsh/site-functions/_tdelay"),
    ):
        if shutil.which(shell):
            complete(tested, place.inside(name))
        else:
            print(f"skipped: completions of {shell}, which isn't there")


def wrapped(text, under):
    """A text of help with each entry of its lists wrapped at 60 columns: in its column, or under
    its head.
    """
    lines = []
    for line in text.splitlines():
        entry = re.match(r"( {2,6}[-<]\S.*?  +)(\S.*)$", line)
        if not entry:
            lines.append(line)
            continue
        indent = " " * (10 if under else len(entry[1]))
        body = textwrap.wrap(entry[2], 60 - len(indent))
        lines += [entry[1].rstrip(), indent + body[0]] if under else [entry[1] + body[0]]
        lines += [indent + it for it in body[1:]]
    return "\n".join(lines) + "\n"


def wrapping(tested):
    """Cases: help that is wrapped is read as help that isn't."""
    for command in COMMANDS:
        text = tested.run(command, "--help").out
        read = help_text.parse(text)
        lists = bool(read.options), bool(read.arguments)
        tested.expect(f"{command} has options and arguments", (True, True), lists)
        for under in (False, True):
            other = wrapped(text, under)
            tested.expect(f"{command} --help, wrapped", True, other != text)
            tested.expect(f"{command} --help, wrapped: what is read", read, help_text.parse(other))


def removed(tested, place):
    """Cases: what stays after an install over another, and after a removal."""
    tested.expect("a second install", 0, place.install().status)
    tested.expect("the files after it", FILES, place.files())
    done = running.run([INSTALL, "--remove", place.path])
    tested.expect(f"a removal: {done.out}{done.err}", 0, done.status)
    tested.expect("after it nothing stays", False, os.path.exists(place.path))
    done = running.run([INSTALL, "--remove", place.path])
    told = (done.status, "nothing is installed" in done.err)
    tested.expect("a second removal", (1, True), told)
    os.makedirs(place.inside("bin"))
    running.write(place.path, "bin/other", "")
    place.install()
    running.run([INSTALL, "--remove", place.path])
    tested.expect("files of others stay", {"bin/other"}, place.files())


def refused(tested, place, what, words, status, reason):
    """A case: an install that is refused with a reason, and leaves nothing."""
    done = place.install(*words)
    told = (done.status, reason in done.err, os.path.exists(place.path))
    tested.expect(f"{what}: {done.out}{done.err}", (status, True, False), told, "refused")


def refusals(tested):
    """Cases: what isn't installed, and what is where the stamp says that it is proved."""
    place = Place(tested, "refused")
    copy = os.path.join(tested.folder, "copy")
    shutil.copy(tested.program, copy)
    asked = ("--program", copy)
    refused(tested, place, "no stamp", asked, 5, "isn't known to be proved")
    tested.write("copy.stamp", '{"code": "0", "proofs": "0"}')
    refused(tested, place, "a stamp of other sources", asked, 5, "isn't known to be proved")
    refused(tested, place, "no program", ("--program", "absent"), 5, "is no program")
    refused(tested, place, "an unknown option", ("--other",), 2, "is no option")
    refused(tested, place, "no word after --program", ("one", "--program"), 5, "is no program")
    refused(tested, place, "two places", ("one",), 2, "one PREFIX only")
    refused(tested, place, "a removal of a program", ("--remove", *asked), 2, "PREFIX alone")
    if not shutil.which("rt"):
        print("skipped: stamps of the present sources, which need the toolchain")
        return
    running.run([sys.executable, SOURCES, "stamp", copy])
    done = place.install(*asked)
    tested.expect(f"a program with its stamp: {done.err}", 0, done.status)
    running.run([INSTALL, "--remove", place.path])
    tested.write("copy.stamp", re.sub(rb', "proofs": "\w+"', b"", tested.read("copy.stamp")))
    refused(tested, place, "a stamp of the code alone", asked, 5, "isn't known to be proved")


def failed(tested):
    """A case: an install that can't write one of its files leaves nothing of its own."""
    place = Place(tested, "failed")
    os.makedirs(place.inside("share"))
    running.write(place.path, "share/man", "")
    done = place.install()
    tested.expect(
        f"a failed install: {done.err}",
        (1, {"share/man"}),
        (done.status, place.files()),
    )


def work(tested):
    place = Place(tested, "prefix")
    installed(tested, place)
    man_page(tested, place.inside("share/man/man1/tdelay.1"))
    completions(tested, place)
    wrapping(tested)
    removed(tested, place)
    refusals(tested)
    failed(tested)


def shares(tested, _cut):
    tested.require("bash", 0.1)
    tested.require("refused", 0.05)


if __name__ == "__main__":
    sys.exit(check.main(work, __doc__, shares=shares))
