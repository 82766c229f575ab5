#!/usr/bin/env python3
"""contracts.py [--check | --write]: the tables of docs/CONTRACTS.md, from the sources.
contracts.py CRATE::FUNCTION ..: prints the contracts of these functions, as the sources have them.

The table of contracts has a row for each crate of crates.txt: what it is (the first sentence of its
module's comment), its main functions (MAIN), each with the names of the clauses that it ensures,
and its laws. The other has the public functions that ensure nothing, and why (WHY): a crate that
isn't there may have none. Without a word, or with `--check`, the exit status is 1 where the page
has other tables, a function of MAIN isn't there, or a crate has no reason. `--write` puts the
tables into the page. Run it from any folder.
"""

import functools
import glob
import os
import re
import sys
from dataclasses import dataclass, field

TOP = os.path.dirname(os.path.dirname(os.path.abspath(__file__)))
PAGE = os.path.join(TOP, "docs", "CONTRACTS.md")
START = "<!-- Written by lint/contracts.py table, to the next comment. -->\n"
END = "<!-- The end of table. -->\n"
FREE_START = "<!-- Written by lint/contracts.py free, to the next comment. -->\n"
FREE_END = "<!-- The end of free. -->\n"
CLAUSE = re.compile(r"^ *(requires|ensures)(?: (\w+))? \{")
# What each crate is used for.
MAIN = {
    "td_gates": ["eval", "eval_counts", "to"],
    "td_nets": ["print"],
    "td_syntax": ["parse"],
    "td_netlist": ["read"],
    "td_command": ["asked"],
    "td_inputs": ["merged"],
    "td_circuit": ["build", "set_moments", "gates"],
    "td_source": ["circuit_of", "source_of"],
    "td_info": ["depth", "range_of"],
    "td_run": ["settle", "waves"],
    "td_path": ["chain_of"],
    "td_vcd": ["write"],
    "td_domain": ["bound", "any", "narrow", "widen", "bound_together"],
    "td_stop": ["new", "never", "is_set"],
    "td_event_sim": ["new", "delay_of"],
    "td_lead": ["position"],
    "td_climb": ["new", "go_on", "into_pair"],
    "td_spans": ["bound", "has_no_pair"],
    "td_refutation": ["new", "step", "bound", "refuted"],
    "td_refute": ["refute"],
    "td_certificate": ["read", "write"],
    "td_checker": ["check", "check_told", "check_told_until"],
    "td_join": ["join_in", "join"],
    "td_incumbent": ["look", "raise", "close"],
    "td_book": ["claim", "claim_id", "split", "close", "graft"],
    "td_search": ["alone", "alone_by", "find", "finish"],
    "td_pool": ["worst", "worst_by", "search"],
    "td_parts": ["cut"],
    "td_worst": ["worst", "worst_kept"],
    "td_cli": ["program", "run", "run_plain"],
    "td_hints": ["flaw_sentence", "taken_net"],
    "td_terminal": ["new"],
    "td_question": ["question_of"],
    "td_answer": ["answer", "answer_plain"],
}
# Why public functions of a crate ensure nothing. Of a search none does: they are counted.
SEARCH = "a search: its pairs are measured, its steps judged"
WHY = {
    "td_cdcl": SEARCH,
    "td_climb": SEARCH,
    "td_span_search": SEARCH,
    "td_refute": "as these, between it and the judge",
    "td_ternary": "room for signals, which the bound's contract speaks of",
    "td_stop": "what another thread sees, and time",
    "td_pool": "a book under a lock",
    "td_hints": "a hint's sentence",
    "td_cli": "a hint's sentence",
}


@dataclass
class Contract:
    """The head of a function, and its clauses by word and name, each as it is laid out."""

    name: str
    head: str
    clauses: dict = field(default_factory=dict)

    def ensured(self):
        """The names of what it ensures, without those of clauses that have none."""
        return [name for word, name in self.clauses if word == "ensures" and name]

    def text(self):
        return "\n".join([self.head, *self.clauses.values()])


def contracts_of(lines):
    """The contracts in lines of heads and clauses, in order."""
    found, depth, open_clause = [], 0, None
    for line in lines:
        begins = re.match(r"^ *pub fn (\w+)", line)
        clause = CLAUSE.match(line) if depth == 0 else None
        if begins and depth == 0:
            found.append(Contract(begins[1], line))
            open_clause = None
        elif found and clause:
            open_clause = (clause[1], clause[2] or "")
            found[-1].clauses[open_clause] = line
        elif found and depth > 0 and open_clause:
            found[-1].clauses[open_clause] += "\n" + line
        elif found and open_clause is None and not is_body(found[-1].head):
            found[-1].head += "\n" + line
        if open_clause:
            depth += line.count("{") - line.count("}")
            if depth == 0 and not clause and line.strip() == "{":
                open_clause = None
    for contract in found:
        contract.head = re.sub(r"\s*[{;]?\s*$", "", contract.head)
    return found


def is_body(head):
    """Whether a head has come to its end: a body begins, or a method of a trait ends."""
    return head.rstrip().endswith(("{", ";"))


def heads_and_clauses(text):
    """Source text as lines of heads and clauses alone: comments and bodies are left out."""
    kept, inside, indent = [], False, ""
    for line in text.splitlines():
        begins = re.match(r"^( *)pub fn \w+", line)
        if begins:
            inside, indent = True, begins[1]
        if not inside or line.lstrip().startswith("//"):
            continue
        if line == indent + "{":
            inside = False
            continue
        kept.append(line)
        if not CLAUSE.match(line) and ends_head(line):
            inside = False
    return kept


def ends_head(line):
    """Whether a body begins at the end of a line, or a method of a trait ends there."""
    return re.search(r";$|(\)|>|\w) \{$", line.rstrip()) is not None


def text_of(*parts):
    with open(os.path.join(TOP, *parts), encoding="utf-8") as file:
        return file.read()


@functools.cache
def sources(crate, files="*.rt"):
    """The contracts of a crate's public functions that ensure something, by name."""
    by_name = {}
    for path in sorted(glob.glob(os.path.join(TOP, "crates", crate, "src", files))):
        for contract in contracts_of(heads_and_clauses(text_of(path))):
            if any(word == "ensures" for word, _ in contract.clauses):
                by_name.setdefault(contract.name, []).append(contract)
    return by_name


def free(crate):
    """The names of a crate's public functions that ensure nothing."""
    found = set()
    for path in glob.glob(os.path.join(TOP, "crates", crate, "src", "*.rt")):
        for contract in contracts_of(heads_and_clauses(text_of(path))):
            if not any(word == "ensures" for word, _ in contract.clauses):
                found.add(contract.name)
    return sorted(found)


def free_table(missing):
    rows = ["| Crate | Public functions that ensure nothing | Why |", "| --- | --- | --- |"]
    for crate in crates():
        names = free(crate)
        if names and crate not in WHY:
            missing.append(f"reason why {', '.join(names)} of {crate} ensure nothing")
        elif names:
            shown = ", ".join(f"`{name}`" for name in names)
            cell = str(len(names)) if WHY[crate] == SEARCH else shown
            rows.append(f"| `{crate}` | {cell} | {WHY[crate]} |")
    return "\n".join(rows) + "\n"


@functools.cache
def first_sentence(crate):
    """The first sentence of the comment of a crate's module."""
    name = next(it for it in ("lib.rt", "main.rt") if it in os.listdir(f"{TOP}/crates/{crate}/src"))
    lines = re.match(r"(?://! .*\n)+", text_of("crates", crate, "src", name))[0]
    text = " ".join(line.removeprefix("//! ") for line in lines.splitlines())
    return re.split(r"(?<=[.:]) (?=[A-Z])", text)[0].rstrip(".:")


def crates():
    """The crates of crates.txt, lower first, without those of tests."""
    names = re.findall(r"^(td\w*)", text_of("crates.txt"), flags=re.M)
    return [name for name in names if not name.endswith("_rows")]


def functions(crate, missing):
    """A crate's main functions with the names of their clauses, as a cell."""
    found, cells = sources(crate), []
    for name in MAIN.get(crate, []):
        if name not in found:
            missing.append(f"function {crate}::{name}")
            continue
        clauses = max((it.ensured() for it in found[name]), key=len)
        cells.append(f"`{name}`" + (f" ({', '.join(clauses)})" if clauses else ""))
    return ", ".join(cells)


def table(missing):
    rows = ["| Crate | What it is | Functions, with their clauses | Laws |"]
    rows.append("| --- | --- | --- | --- |")
    for crate in crates():
        laws = ", ".join(f"`{name}`" for name in sources(crate, "laws.rt"))
        cells = [f"`{crate}`", first_sentence(crate), functions(crate, missing), laws]
        rows.append("| " + " | ".join(cells) + " |")
    return "\n".join(rows) + "\n"


def put(page, start, end, made):
    """The page with this text between the two comments."""
    head, _, rest = page.partition(start)
    _, found, tail = rest.partition(end)
    if not found:
        sys.exit(f"contracts.py: docs/CONTRACTS.md lacks {start}")
    return head + start + made + end + tail


def written(page, missing):
    """The page with the tables as the sources have them."""
    page = put(page, START, END, table(missing))
    return put(page, FREE_START, FREE_END, free_table(missing))


def shown(words):
    """Prints the contracts of functions; gives the exit status."""
    status = 0
    for word in words:
        crate, _, name = word.partition("::")
        found = sources(crate).get(name, [])
        print("\n\n".join(it.text() for it in found) or f"contracts.py: no function {word}")
        status = status or int(not found)
    return status


def main(words):
    if words and all("::" in word for word in words):
        return shown(words)
    if words not in ([], ["--check"], ["--write"]):
        sys.exit(__doc__)
    missing, page = [], text_of("docs", "CONTRACTS.md")
    new = written(page, missing)
    print(*(f"no {it}" for it in missing), sep="\n", end="\n" if missing else "")
    if words == ["--write"]:
        with open(PAGE, "w", encoding="utf-8") as file:
            file.write(new)
    elif new != page:
        print("docs/CONTRACTS.md has other tables: run lint/contracts.py --write")
    return 1 if missing or (words != ["--write"] and new != page) else 0


if __name__ == "__main__":
    sys.exit(main(sys.argv[1:]))
