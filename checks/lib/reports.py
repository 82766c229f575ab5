"""How a report of the program is read, and what `--json` makes of it."""

import json
import re
from collections import namedtuple

# What a program that was compiled without proofs says, and what a proved one says there.
UNPROVED = {'{"proved":false,': '{"proved":true,', ", compiled without proofs": ""}
# The first keys of a report in JSON.
HEAD = ["proved", "command", "file", "question"]
# The options that say what is asked, by their keys there; those by name; others that have a word.
NAMED = ("--pin", "--hold-input", "--keep")
ASKED = {
    f"--{key.replace('_', '-')}": key
    for key in "first second hold at keep_file flips required output".split()
    + "default_rise default_fall".split()
} | dict.fromkeys(NAMED, "named")
OTHERS_WITH_WORDS = (
    "--workers -j --strategy --budget --seconds --memory --stop --cert -o --vcd --net --count"
).split()
# The lower and the upper figure of a search.
Figures = namedtuple("Figures", "low high")


def values_of(report):
    """What stands after the first word of each line; of lines that begin alike the last one."""
    return {line.split(" ", 1)[0]: line.partition(" ")[2] for line in report.splitlines()}


def figures_of(report):
    """The figures of a search, or of parts that are joined, be it unchecked, None where there are
    none: both are the time of an exact answer.
    """
    values = values_of(report)
    exact, _, unchecked = values.get("unchecked", "").partition("between ")
    exact = values.get("exact") or exact
    words = exact.split() * 2 or (values.get("between") or unchecked).split()
    if len(words) != 2 or not all(word.isdigit() for word in words):
        return None
    return Figures(*map(int, words))


def bound_without_pair(report):
    """The upper figure of a search with conditions that found no pair yet; None of any other."""
    low, _, high = values_of(report).get("between", "").partition(" ")
    return int(high) if low == "none" else None


def rows_of(report):
    """The rows of a table of outputs: the name, its figures, and the bound by edges as a text."""
    return [
        (name, Figures(int(time or low), int(time or high)), edges)
        for name, time, low, high, edges, _, _ in re.findall(ROW, report)
    ]


def slacks_of(report):
    """How a required moment stands in each row of a table of outputs, and the slack as a text."""
    return [fields[5:] for fields in re.findall(ROW, report)]


def is_exact(report):
    """Whether a search, or parts that are joined unchecked, answered exactly."""
    values = values_of(report)
    return "exact" in values or values.get("unchecked", "between").split()[0] != "between"


def finds_no_pair(done):
    """Whether a run ended since no pair is admitted."""
    return tuple(done) == (1, "", "tdelay: no admitted pair\n")


def agree(one, other):
    """Whether the figures of two searches of one question can both be right."""
    return one.low <= other.high and other.low <= one.high


def accepted_time(report):
    """The time that `check` accepts, None where it accepts none."""
    words = report.splitlines()[:1] and report.splitlines()[0].split(" ")
    return (
        int(words[1])
        if words and words[0] == "accepted" and len(words) == 2 and words[1].isdigit()
        else None
    )


# What the lines of a report are by their keys: one number, a claim, two numbers, or a row of fields
# with keys, of which those of COUNTS are numbers. Those of LISTED come several times; all others
# are texts.
NUMBER = "time a t m e n earliest exact nodes units flips inputs outputs gates defaulted depth".split()
CLAIMS = "accepted unchecked".split()
ROWS = {
    "last": "output time",
    "change": "time net old new by delay",
    "input": "index name",
    "output": "index name",
    "refused": "number verdict - line",
    "hazard": "output level answer from to",
    "required": "time standing",
    "delay": "least greatest",
    "default": "rise fall",
}
COUNTS = "time delay index number line least greatest rise fall".split()
LISTED = "last change input output each hazard".split()
# A row of outputs: its name, its figures, its bound by edges, and how a required moment stands.
ROW = (
    r"(?m)^each (.*) (?:exact (\d+)|between (\d+) (\d+)) edges (\d+|none)"
    r"(?: from \S+ to \S+)?"
    r"(?: required (met|violated|open) slack (\S+))?$"
)


def number_in(word):
    """A number, None for a word in its place."""
    return int(word) if word.isdigit() else None


def figure_in(words, read=number_in):
    """What words say of a figure, as a member: how far it is known, and it or both of it."""
    if words == ["none"]:
        return ("none", True)
    figures = [read(word) for word in words]
    return ("exact", figures[0]) if len(figures) == 1 else ("between", figures)


def column_in(word):
    """The value in JSON of a column of changes."""
    return [figure_in(["0"] if word == "never" else word.split(".."))]


def slack_in(word):
    """The value in JSON of a slack, or of two."""
    return [figure_in(word.split(".."), lambda slack: None if slack == "none" else int(slack))]


def each_in(name, *rest):
    """The value of a row of outputs in JSON."""
    place = rest.index("edges")
    found = rest[:place] if rest[0] == "none" else rest[1:place]
    row = [("output", name), figure_in(list(found)), ("edges", number_in(rest[place + 1]))]
    for key, word in zip(rest[place + 2 :: 2], rest[place + 3 :: 2]):
        if key in ("from", "to"):
            row.append((key, word))
        elif key == "required":
            row.append(("standing", word))
        else:
            row.append((key, slack_in(word) if key == "slack" else column_in(word)))
    return row


def row_in(key, fields):
    """The value in JSON of a row of fields with keys."""
    named = zip(ROWS[key].split(), fields)
    return [(name, number_in(it) if name in COUNTS else it) for name, it in named if name != "-"]


def value_in(key, text):
    """The value of a line in JSON."""
    fields = re.split(r" (?!\[)", text)
    if key in NUMBER:
        return number_in(text)
    if key in CLAIMS:
        return [figure_in([word for word in fields if word != "between"])]
    if key == "none":
        return True
    if key == "delay" and text == "none":
        return None
    if key in ("between", "at"):
        return [number_in(word) for word in fields if key == "between" or word != "none"]
    if key == "output" and not text[:1].isdigit():
        return [("name", text)]  # a name alone: the output that changes last
    if key == "each":
        return each_in(*fields)
    return row_in(key, fields) if key in ROWS else text


def as_json(report):
    """A report as the pairs of its JSON object, in order."""
    found = {}
    for line in report.splitlines():
        key, _, text = line.partition(" ")
        if line.startswith("--"):
            found.setdefault("parts", []).append([("options", line.split(" "))])
        elif key == "output" and all(word.isdigit() for word in text.split(" ")):
            found[key] = [[("index", int(word))] for word in text.split(" ")]  # of a certificate
        elif key in LISTED:
            found.setdefault(key, []).append(value_in(key, text))
        else:
            found[key] = value_in(key, text)
    return list(found.items())


def lines_of_json(text):
    """The pairs of a JSON report on one line but for the first ones, which say whether the program
    is proved and what was asked. None where the text is no such report."""
    try:
        pairs = json.loads(text, object_pairs_hook=list)
    except ValueError:
        return None
    is_line = text.count("\n") == 1 and text.endswith("\n")
    keys = [pair[0] for pair in pairs[:4]] if isinstance(pairs, list) else []
    return pairs[4:] if is_line and keys == HEAD else None


def asked_of_json(text):
    """The command, the file and the question that a JSON report names."""
    found = json.loads(text)
    return tuple(found.get(key) for key in HEAD[1:])


def asked_in(words):
    """The same, as the words of a command line say it, read here by themselves."""
    values, left, words = {}, [], list(words)
    while words:
        word = words.pop(0)
        option, _, value = word.partition("=")
        if option not in ASKED:
            skipped = option in OTHERS_WITH_WORDS and "=" not in word
            left += [word] * (not word.startswith("-") or word == "-")
            del words[: int(skipped)]
            continue
        value = value if "=" in word else words.pop(0)
        is_named = option in NAMED or (option == "--at" and "=" in value)
        key = "named" if is_named else ASKED[option]
        named = {"option": option, "word": value}
        values.setdefault(key, []).append(named if is_named else value)
    command, file = left[:2]
    question = {
        "default": {
            edge: int(values.get(f"default_{edge}", ["1"])[-1]) for edge in ("rise", "fall")
        },
        "output": values.get("output", []),
    }
    if command in ("sim", "path"):
        question |= {"from": left[2], "to": left[3]}
    if command == "path" and question["output"]:
        question |= {"net": question["output"][-1], "output": []}
    if command == "check":
        told = {"default": "default_rise" in values or "default_fall" in values, "output": "output" in values}
        question = {key: value for key, value in question.items() if told[key]}
        question["certificate"] = left[2]
    elif command != "info":
        question["named"] = values.get("named", [])
    for key in ("first", "second", "hold", "at", "keep_file"):
        question |= {key: values[key][-1]} if key in values else {}
    for key in ("flips", "required"):
        question |= {key: int(values[key][-1])} if key in values else {}
    return command, file, question


def as_proved(text):
    """What a proved program prints, where one that may be compiled without proofs prints this."""
    for here, there in UNPROVED.items():
        text = text.replace(here, there)
    return text
