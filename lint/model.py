#!/usr/bin/env python3
"""model.py [ROOT ..] [--without NAME ..] [--count]: the model of a contract, as one text.

A ROOT is a public function, as `td_search::alone`, whose clauses are taken, or a definition of a
file of specs/, as `td_netlist::Means::Means` (crate, file, name). The definitions that it cites,
and those that they cite, are printed in reading order, lower first, each under the name of its
file, without imports. `--without Means` leaves a definition out, and what it alone reaches.
`--count` prints the number of lines alone: definitions and their comments, without blank lines and
the names of files.

`model.py --check` compares the numbers of docs/model/README.md with the sources (exit status 1
where one differs). Run it at the top of the repository.
"""

import functools
import glob
import os
import re
import sys

TOP = os.path.dirname(os.path.dirname(os.path.abspath(__file__)))
sys.path.append(os.path.join(TOP, "build"))
from crates import lower_first, uses_of  # noqa: E402

# The page with figures.
FIGURES_IN = "docs/model/README.md"
# The figures that the first page gives: what it calls them, and what they are of.
FIGURES = {
    "the sentence at the top": (["td_answer::Sentences::IsTrueWorst"], []),
    "the sentence of `check`": (["td_answer::Verdicts::IsTrueCheck"], []),
    "the worst delay of admitted pairs": (["td_domain::Worst::IsWorst"], []),
    "an answer of a search, without the meaning of a text": (["td_search::alone"], ["Means"]),
    "the meaning of a text": (["td_netlist::Means::Means"], []),
    "an accepted certificate": (["td_certificate::Accepts::Accepts"], []),
    "what the checker tells, faults included": (["td_checker::check"], []),
    "what the program prints, refusals included": (["td_cli::run"], []),
}

TOKEN = re.compile(r"[^\s(){}\[\],;λ]+")
SPEC = re.compile(r"^use (Rattle\.\S+?)(?:\.\{(.*)\}|( as (\S+)))?$")


class Definition:
    """A definition with its comment: where it stands, its lines, the names that it makes and those
    that it cites.
    """

    def __init__(self, path, line, lines, names, header=()):
        self.path = path
        self.line = line
        self.lines = lines
        self.names = names
        self.header = header  # the head of the module around it

    def text(self):
        """The definition without comments and without field names after a point."""
        lines = self.lines + list(self.header)
        # A text in quotes may have two dashes that begin no comment.
        return "\n".join(re.sub(r'("[^"]*")|--.*', r"\1", line) for line in lines)


def imports_of(lines, mark="use "):
    """The names that a file takes from others: what each stands for, as a path, and the aliases of
    whole files.
    """
    names, aliases = {}, {}
    for line in lines:
        line = line.strip().removesuffix(";").removeprefix("ghost ").removeprefix("pub ")
        if not line.startswith(mark):
            continue
        found = SPEC.match(line)
        if not found or found[1].startswith("Rattle.std"):
            continue
        path, listed, alias = found[1], found[2], found[4]
        if alias:
            aliases[alias] = path
        elif listed is None:
            names[path.rsplit(".", 1)[1]] = path
        else:
            for item in listed.split(","):
                name, _, other = item.strip().partition(" as ")
                if name:
                    names[other or name] = path + "." + name
    return names, aliases


HEAD = re.compile(
    r"^(?:(?:abbrev|unfoldable|opaque) )*(?:pub )?(?:(record|data) )?(\S+)(?= *[:({]| )"
)


def definitions_of(path):
    """The definitions of a file of specs/."""
    found, comment, current = [], [], None
    broken = None  # the definition that a comment stands in, or before
    header, inside = (), False
    for number, line in enumerate(open(path).read().split("\n"), 1):
        body = line.strip()
        if not body:
            comment, current, broken = [], None, None
            continue
        if line.startswith("use "):
            comment, current = [], None
            continue
        if line.startswith("module _"):
            header, inside, comment, current = (line,), True, [], None
            continue
        if (
            inside
            and line.startswith("    ")
            and not found_in(found, header)
            and current is None
            and not body.startswith("--")
        ):
            header = header + (line,)  # the head of a module goes on
            continue
        if inside and not line.startswith("  "):
            header, inside = (), False
        indent = 2 if inside else 0
        depth = len(line) - len(line.lstrip())
        if body.startswith("--") and depth == indent:
            if current is not None:
                comment, broken = [], current
            comment, current = comment + [line], None
            continue
        if current is None and broken is not None and body.split()[0] in broken.names:
            current = broken  # a clause after a comment
            current.lines += comment
            comment = []
        is_head = depth == indent and (
            re.match(r"(abbrev|unfoldable|opaque|pub|record|data) ", body)
            or re.match(r"[^\s=]+ : ", body)
        )
        if is_head and not (current and re.match(r"pub \S+ :", body) and depth > indent):
            name = HEAD.match(body)
            name = name[2] if name else body.split()[0]
            current = Definition(path, number - len(comment), comment + [line], {name}, header)
            found.append(current)
            comment = []
        elif current is not None:
            current.lines.append(line)
            if re.match(r"\S+ :", body) and any(" data " in " " + row for row in current.lines):
                current.names.add(body.split()[0])  # a constructor
    return found


def found_in(found, header):
    return any(definition.header == header for definition in found)


RUST = re.compile(r"^pub (?:enum|struct|trait) (\w+)")


def rust_types(path):
    """The types that a file of src/ declares, each with its comment, without derives, and how
    contracts see it.
    """
    found, lines = [], open(path).read().split("\n")
    for at, line in enumerate(lines):
        head = RUST.match(line)
        if not head:
            continue
        first = at
        while first and (lines[first - 1].startswith("///") or lines[first - 1].startswith("#[")):
            first -= 1
        last = at
        if not line.rstrip().endswith((";", "}")):
            while last + 1 < len(lines) and lines[last] != "}":
                last += 1
        body = [row for row in lines[first : last + 1] if not row.strip().startswith("#[")]
        found.append(Definition(path, first + 1, body, {head[1]}))
        for place, row in enumerate(lines):
            if re.match(r"impl(?:<.*>)? Model for %s\b" % head[1], row):
                end = next(i for i in range(place, len(lines)) if lines[i] == "}")
                model = [row for row in lines[place : end + 1]]
                found[-1].model = model
    return found


class Model:
    def __init__(self):
        uses = uses_of()
        self.crates = lower_first(uses, uses)
        self.specs = {}
        self.by_name = {}
        for path in sorted(glob.glob("crates/*/specs/*.antt")):
            if os.path.basename(path) == "Lib.antt":
                continue
            definitions = definitions_of(path)
            self.specs[path] = definitions
            for definition in definitions:
                for name in definition.names:
                    self.by_name[path, name] = definition
        self.types = {}

    @functools.cache
    def imports(self, path):
        return imports_of(open(path).read().split("\n"))

    def types_of(self, path):
        if path not in self.types:
            self.types[path] = {name: one for one in rust_types(path) for name in one.names}
        return self.types[path]

    def at(self, path):
        """The definitions that a path of an import names."""
        parts = path.split(".")
        if parts[0] != "Rattle" or parts[2] not in ("specs",):
            return []
        crate, rest = parts[1], parts[3:]
        if rest and rest[0] == "declared":
            rest = [part for part in rest[1:] if part != "TheVariants"]
            for cut in range(len(rest), 0, -1):
                file = f"crates/{crate}/src/" + "/".join(rest[:cut]) + ".rt"
                if os.path.exists(file):
                    return [
                        one for name in rest[cut:] for one in [self.types_of(file).get(name)] if one
                    ]
            return []
        file = f"crates/{crate}/specs/{rest[0]}.antt"
        return [self.by_name[file, name] for name in rest[1:2] if (file, name) in self.by_name]

    def cited(self, path, text, known=None):
        """What the names in a text of this file stand for."""
        names, aliases = known or self.imports(path)
        for token in TOKEN.findall(text):
            head, _, rest = token.partition(".")
            if head in aliases and rest:
                whole = aliases[head]
                yield from self.at(whole + "." + rest.split(".")[0]) or self.at(whole)
            elif (path, head) in self.by_name:
                yield self.by_name[path, head]
            elif (path, f"◌{head}◌") in self.by_name:
                yield self.by_name[path, f"◌{head}◌"]
            elif f"◌{head}◌" in names:
                yield from self.at(names[f"◌{head}◌"])
            elif head in names:
                yield from self.at(names[head])

    def below(self, definition):
        """What a definition cites."""
        if definition.path.endswith(".antt"):
            yield from self.cited(definition.path, definition.text())
            return
        source = open(definition.path).read()
        for word in set(
            re.findall(
                r"\b[A-Z]\w+", "\n".join(row for row in definition.lines if "///" not in row)
            )
        ):
            if word in definition.names:
                continue
            if word in self.types_of(definition.path):
                yield self.types_of(definition.path)[word]
                continue
            used = re.search(
                r"^use (crate|\w+)::(?:(\w+)::)?(?:\{[^}]*\b%s\b[^}]*\}|%s);" % (word, word),
                source,
                flags=re.M,
            )
            if used:
                crate = definition.path.split("/")[1] if used[1] == "crate" else used[1]
                for file in sorted(glob.glob(f"crates/{crate}/src/**/*.rt", recursive=True)):
                    if word in self.types_of(file):
                        yield self.types_of(file)[word]
        model = getattr(definition, "model", [])
        if model:
            yield from self.cited(
                definition.path,
                "\n".join(row for row in model if "ghost use" not in row),
                imports_of(model),
            )

    def root(self, name):
        """The definitions that a root cites."""
        parts = name.split("::")
        if len(parts) == 3:
            file = f"crates/{parts[0]}/specs/{parts[1]}.antt"
            return [self.by_name[file, parts[2]]]
        for file in sorted(glob.glob(f"crates/{parts[0]}/src/**/*.rt", recursive=True)):
            lines = open(file).read().split("\n")
            for at, line in enumerate(lines):
                if re.match(r"\s*pub fn %s\b" % parts[1], line):
                    end = next(i for i in range(at, len(lines)) if lines[i].strip() == "{")
                    return list(self.cited(file, "\n".join(lines[at:end])))
        sys.exit(f"model.py: no function or definition {name}")

    def closure(self, roots, without):
        """What the roots reach, in reading order."""
        todo = [one for root in roots for one in self.root(root)]
        reached = {}
        while todo:
            one = todo.pop()
            if one is None or id(one) in reached or one.names & set(without):
                continue
            reached[id(one)] = one
            todo.extend(self.below(one))
        return self.ordered(list(reached.values()))

    def ordered(self, definitions):
        files = {}
        for one in definitions:
            files.setdefault(one.path, []).append(one)
        order = []

        def visit(path):
            if path in order or path in open_files:
                return
            open_files.add(path)
            for one in files[path]:
                for low in self.below(one):
                    if low.path in files and low.path != path:
                        visit(low.path)
            order.append(path)

        open_files = set()
        for path in sorted(files, key=lambda path: (self.crates.index(path.split("/")[1]), path)):
            visit(path)
        return [(path, sorted(files[path], key=lambda one: one.line)) for path in order]


def printed(closure):
    """The text of a closure, and its number of lines."""
    rows, count = [], 0
    for path, definitions in closure:
        rows.append(f"\n==== {path}\n")
        header = ()
        for one in definitions:
            if one.header and one.header != header:
                rows.extend(one.header)
                count += len(one.header)
            header = one.header
            rows.extend(one.lines)
            rows.append("")
            count += len(one.lines)
    return "\n".join(rows), count


def check():
    model, wrong = Model(), 0
    text = open(FIGURES_IN).read()
    for what, (roots, without) in FIGURES.items():
        count = printed(model.closure(roots, without))[1]
        stated = re.search(r"\| %s \|.*?\| (\d[\d,]*) \|" % re.escape(what), text)
        right = stated is not None and int(stated[1].replace(",", "")) == count
        print(
            f"{what}: {count} lines"
            + ("" if right else f", {FIGURES_IN} says {stated[1] if stated else 'nothing'}")
        )
        wrong += not right
    return wrong


def main():
    words, without, roots = sys.argv[1:], [], []
    if not words or "--help" in words:
        sys.exit(__doc__)
    if words == ["--check"]:
        sys.exit(1 if check() else 0)
    only_count = "--count" in words
    words = [word for word in words if word != "--count"]
    while words:
        word = words.pop(0)
        if word == "--without":
            without.append(words.pop(0))
        else:
            roots.append(word)
    text, count = printed(Model().closure(roots, without))
    print(count if only_count else f"{text}\n{count} lines")


if __name__ == "__main__":
    main()
