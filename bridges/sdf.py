"""The delays that a Standard Delay Format file gives (IEEE 1497): those of cells' arcs, and those
of wires.

Read are IOPATH (also below COND and CONDELSE), INTERCONNECT and PORT of ABSOLUTE delays. Of the
values of an entry the first two count, rise and fall; those to and from z have no meaning for
gates. A later CELL replaces what an earlier one says of the same arc; in one CELL the greatest of
several counts. Timing checks are passed over, and anything else that would change a delay is
refused.
"""

import re
from dataclasses import dataclass, field
from decimal import Decimal
from typing import Dict, Iterator, List, NamedTuple, Optional, Tuple

from refusal import Refusal

# A unit of time in femtoseconds.
UNITS = {"s": 10**15, "ms": 10**12, "us": 10**9, "ns": 10**6, "ps": 10**3, "fs": 1}
CORNERS = ("min", "typ", "max")
# The entries that are read, with how many names each has.
NAMES = {"IOPATH": 2, "INTERCONNECT": 2, "PORT": 1}
NUMBER = re.compile(r"[+-]?[0-9]+(\.[0-9]*)?([eE][+-]?[0-9]+)?")
ESCAPED = re.compile(r"\\(.)")
NEWLINE = "\n"
ZERO = Decimal(0)
TOKEN = re.compile(
    r"""\s*(?: (?P<mark>[()])
        | (?P<word>"[^"]*" | (?:[^\s()"\\/] | \\. | /(?![/*]))+)
        | (?P<skip>//[^\n]* | /\*.*?\*/ | $)
        | (?P<wrong>.))""",
    re.S | re.X,
)


def span_of(text: str) -> Optional[int]:
    """1, 10 or 100 of a unit of time in femtoseconds, or None where the text isn't that."""
    found = re.fullmatch(r"(100|10|1)(?:\.0*)?\s*(s|ms|us|ns|ps|fs)", text)
    return int(found[1]) * UNITS[found[2]] if found else None


def place_of(name: str) -> str:
    """An instance's or a pin's name with points between the parts of a hierarchy, which tools part
    by `/` or `.`.
    """
    return name.replace("/", ".")


class Place(NamedTuple):
    """Where an arc is: from which pin, where that has one edge alone by `posedge` or `negedge`, to
    which output, under which condition; `else` is that of a CONDELSE.
    """

    pin: str
    edge: str
    output: str
    condition: str


class Arc(NamedTuple):
    """The delays of an arc until the output rises, and until it falls, in steps; None where the
    file says none.
    """

    place: Place
    rise: Optional[Decimal]
    fall: Optional[Decimal]

    @property
    def pin(self) -> str:
        return self.place.pin

    @property
    def plain(self) -> bool:
        """Whether the arc is that of both edges, under any condition."""
        return not self.place.edge and not self.place.condition

    def slower(self, other: "Arc") -> "Arc":
        """The greater delays of both."""
        rises = [it for it in (self.rise, other.rise) if it is not None]
        falls = [it for it in (self.fall, other.fall) if it is not None]
        return Arc(self.place, max(rises, default=None), max(falls, default=None))


class Wire(NamedTuple):
    """The delays of a wire until its end rises, and until it falls, in steps."""

    rise: Decimal
    fall: Decimal


NO_WIRE = Wire(ZERO, ZERO)


@dataclass
class Entry:
    """What one CELL of the file says of arcs, by their places, and how many came before it."""

    number: int
    kind: str
    arcs: Dict[Place, Arc] = field(default_factory=dict)


@dataclass
class Annotation:
    """What a file says: the design that it is of, the entries of instances by their names and of
    all instances of a kind by that, and wires by the pin (`INSTANCE.PIN`) or the port to which they
    lead and by what drives them.
    """

    design: str = ""
    entries: Dict[str, List[Entry]] = field(default_factory=dict)
    of_kinds: Dict[str, List[Entry]] = field(default_factory=dict)
    ends: Dict[str, Dict[str, Wire]] = field(default_factory=dict)

    def arcs(self, instance: str, kind: str) -> Iterator[Arc]:
        """The arcs of an instance, as the last entries that say them have them."""
        entries = self.entries.get(instance, []) + self.of_kinds.get(kind, [])
        found: Dict[Place, Arc] = {}
        for entry in sorted(entries, key=lambda it: it.number):
            for place, arc in entry.arcs.items():
                if arc.plain:
                    ways = [it for it in found if (it.pin, it.output) == (place.pin, place.output)]
                    for other in ways:
                        if other not in entry.arcs:
                            del found[other]
                found[place] = arc
        yield from found.values()

    def wire(self, end: str) -> "Wire":
        """The slowest wire to an end."""
        ways = self.ends.get(end)
        if not ways:
            return NO_WIRE
        return Wire(max(it.rise for it in ways.values()), max(it.fall for it in ways.values()))


class Tree(list):
    """What stands in a pair of parentheses, and where it begins."""

    at = 0

    @property
    def keyword(self) -> str:
        """The first word, in capitals, as keywords are spelled either way."""
        return self[0].upper() if self and isinstance(self[0], str) else ""

    @property
    def trees(self) -> List["Tree"]:
        """The parts in parentheses of their own."""
        return [part for part in self if isinstance(part, Tree)]


class Reader:
    """Reads one file. Delays are of the given corner, in steps of some number of femtoseconds."""

    def __init__(self, text: str, corner: str, step: int):
        self.text, self.corner, self.step = text, CORNERS.index(corner), step
        self.unit = UNITS["ns"]
        self.found, self.count = Annotation(), 0
        self.values = {}

    def tree(self) -> Tree:
        """The whole file as a tree."""
        inner = top = Tree()
        around = []
        for match in TOKEN.finditer(self.text):
            what = match.lastgroup
            if what == "word":
                inner.append(match["word"])
            elif what == "mark" and match["mark"] == "(":
                around.append(inner)
                inner = Tree()
                inner.at = match.start("mark")
                around[-1].append(inner)
            elif what == "mark" and around:
                inner = around.pop()
            elif what != "skip":
                inner.at = match.start(what)
                self.bad(inner, "this doesn't belong here")
        if around or len(top) != 1 or getattr(top[0], "keyword", "") != "DELAYFILE":
            self.bad(inner, "this isn't (DELAYFILE ..) with its parentheses in pairs")
        return top[0]

    def read(self) -> Annotation:
        """What the file says."""
        whole = self.tree()
        for item in whole.trees:
            if item.keyword == "DESIGN" and len(item) > 1:
                self.found.design = str(item[1]).strip('"')
            if item.keyword == "TIMESCALE":
                self.unit = span_of("".join(map(str, item[1:])))
                if self.unit is None:
                    self.bad(item, "no time scale of 1, 10 or 100 of s ms us ns ps fs")
        for item in whole.trees:
            if item.keyword == "CELL":
                self.cell(item)
        return self.found

    def cell(self, item: Tree):
        """One CELL entry."""
        instance, kind = "", ""
        self.count += 1
        for part in item.trees:
            if part.keyword == "CELLTYPE" and len(part) > 1:
                kind = str(part[1]).strip('"')
            elif part.keyword == "INSTANCE" and len(part) > 1:
                instance = self.name(part[1], part)
            elif part.keyword == "DELAY":
                into = Entry(self.count, kind)
                known = self.found.of_kinds if instance == "*" else self.found.entries
                known.setdefault(kind if instance == "*" else instance, []).append(into)
                for block in part.trees:
                    if block.keyword != "ABSOLUTE" or len(block.trees) < len(block) - 1:
                        self.not_read(block)
                    for entry in block.trees:
                        self.entry(entry, instance, into)

    def entry(self, item: Tree, instance: str, into: Entry):
        """One delay: of an arc, or of a wire."""
        condition = ""
        while item.keyword in ("COND", "CONDELSE") and item.trees:
            condition = "else"
            if item.keyword == "COND":
                condition = " ".join(words_of(item[1:-1]))
            item = item.trees[-1]
        count = NAMES.get(item.keyword, len(item))
        names, values = item[1 : count + 1], item[count + 1 :]
        if not values or len(values) > len(item.trees) or "RETAIN" in item.trees[-len(values)][:1]:
            self.not_read(item)
        rise = self.steps(values[0])
        fall = self.steps(values[1]) if len(values) > 1 else rise
        edge = names[0][0] if isinstance(names[0], Tree) and len(names[0]) == 2 else ""
        names = [self.name(name, item) for name in names]
        if item.keyword == "IOPATH":
            place = Place(names[0], edge.lower(), names[1], condition)
            arc = Arc(place, rise, fall)
            known = into.arcs.get(place)
            into.arcs[place] = known.slower(arc) if known else arc
            return
        end, source = names[-1], names[0]
        if item.keyword == "PORT":
            end, source = f"{instance}.{end}" if instance else end, ""
        self.found.ends.setdefault(end, {})[source] = Wire(rise or ZERO, fall or ZERO)

    def name(self, given, item: Tree) -> str:
        """A name without what escapes it; of a pin with an edge, as (posedge CK), the pin's."""
        if isinstance(given, Tree) and len(given) == 2:
            given = given[1]
        if not isinstance(given, str):
            self.bad(item, "a name is missing")
        return place_of(ESCAPED.sub(r"\1", given) if "\\" in given else given)

    def steps(self, value: Tree) -> Optional[Decimal]:
        """The number of a value, which is one or those of three corners, or None where it is left
        empty.
        """
        spelled = "".join(map(str, value))
        if spelled not in self.values:
            self.values[spelled] = self.number(spelled, value)
        return self.values[spelled]

    def number(self, spelled: str, value: Tree) -> Optional[Decimal]:
        """A value's number at the corner."""
        numbers = spelled.split(":")
        number = numbers[self.corner] if len(numbers) == 3 else spelled
        if not number and len(numbers) == 3:
            wrong = f"no {CORNERS[self.corner]} value in ({spelled})"
            given = " or ".join(name for name, it in zip(CORNERS, numbers) if it)
            raise Refusal("NoCorner", f"{self.line(value.at)}: {wrong}", f"take --corner {given}")
        if number and not NUMBER.fullmatch(number):
            self.bad(value, f"({spelled}) is no delay")
        return Decimal(number) * self.unit / self.step if number else None

    # What is refused.

    def line(self, at: int) -> str:
        return f"line {self.text.count(NEWLINE, 0, at) + 1} of the SDF file"

    def bad(self, item: Tree, wrong: str):
        remedy = "write the file anew by the timing tool"
        raise Refusal("SdfSyntax", f"{self.line(item.at)}: {wrong}", remedy)

    def not_read(self, item: Tree):
        remedy = "write absolute delays of arcs and wires, without pulse limits and retain times"
        wrong = f"{item[0] if item else '()'} isn't read here"
        raise Refusal("SdfConstruct", f"{self.line(item.at)}: {wrong}", remedy)


def words_of(items) -> Iterator[str]:
    """The words of a condition, with its parentheses, without the name that may stand before it."""
    for item in items:
        if isinstance(item, Tree):
            yield from ("(", *words_of(item), ")")
        elif not item.startswith('"'):
            yield item


def read_sdf(text: str, corner: str, step: int) -> Annotation:
    """The delays of a file at a corner (min, typ or max), in steps of this many femtoseconds."""
    return Reader(text, corner, step).read()
