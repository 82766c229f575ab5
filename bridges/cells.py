"""Functions of cells as tables, and the levels of gate primitives that compute them.

A level is 0 or 1. A table has the output's level for each vector of the pins, in counting order
with the first pin as the highest bit.
"""

import itertools
from dataclasses import dataclass
from functools import lru_cache
from typing import Callable, Dict, Hashable, NamedTuple, Optional, Tuple

# The name of a pin, or the place of one that has no name.
Pin = Hashable


def vectors(count):
    """All vectors of this many levels, in counting order."""
    return itertools.product((0, 1), repeat=count)


@dataclass(frozen=True)
class Function:
    """What an output computes: the pins on which it depends, and its table."""

    pins: Tuple[Pin, ...]
    table: Tuple[int, ...]

    @staticmethod
    def of(pins: Tuple[Pin, ...], compute: Callable[..., int]) -> "Function":
        """The function of these pins without those on which it doesn't depend."""
        table = tuple(compute(*levels) for levels in vectors(len(pins)))
        place = 0
        while place < len(pins):
            bit = 1 << (len(pins) - 1 - place)
            low = tuple(level for number, level in enumerate(table) if not number & bit)
            high = tuple(level for number, level in enumerate(table) if number & bit)
            if low == high:
                pins, table = pins[:place] + pins[place + 1 :], low
            else:
                place += 1
        return Function(tuple(pins), table)

    def level(self, levels: Dict[Pin, int]) -> int:
        """The output's level where the pins have these."""
        number = 0
        for pin in self.pins:
            number = 2 * number + levels[pin]
        return self.table[number]

    def where(self, known: Dict[Pin, int]) -> "Function":
        """The function of the other pins, where these have known levels."""
        free = tuple(pin for pin in self.pins if pin not in known)
        if len(free) == len(self.pins):
            return self
        return Function.of(free, lambda *levels: self.level({**known, **dict(zip(free, levels))}))

    def sense(self, pin: Pin) -> int:
        """1 where the output can only rise when the pin does, -1 where it can only fall, 0 where
        both happen.
        """
        bit = 1 << (len(self.pins) - 1 - self.pins.index(pin))
        rises = {
            self.table[number | bit] - self.table[number]
            for number in range(len(self.table))
            if not number & bit
        }
        return 1 if -1 not in rises else -1 if 1 not in rises else 0


def primitive_of(table: Tuple[int, ...]) -> Optional[str]:
    """The gate primitive that has this table, if one has."""
    count = len(table).bit_length() - 1
    if count == 1:
        return {(0, 1): "buf", (1, 0): "not"}.get(table)
    last = len(table) - 1
    wanted = {
        "and": tuple(int(number == last) for number in range(len(table))),
        "or": tuple(int(number > 0) for number in range(len(table))),
        "xor": tuple(bin(number).count("1") % 2 for number in range(len(table))),
    }
    inverse = {"and": "nand", "or": "nor", "xor": "xnor"}
    for kind, levels in wanted.items():
        if table == levels:
            return kind
        if table == tuple(1 - level for level in levels):
            return inverse[kind]
    return None


class Literal(NamedTuple):
    """A pin by its place, as it is (level 1) or inverted (level 0)."""

    place: int
    level: int


# Literals that are and-ed.
Product = Tuple[Literal, ...]


def prime_products(table: Tuple[int, ...]) -> Dict[Product, frozenset]:
    """The products that imply the function and from which no literal can be left out, each with the
    numbers of its vectors.

    By the method of Quine and McCluskey: two cubes that differ at one known bit alone are one of
    twice the size, and a cube is prime where it is part of none. A cube is the least number in it,
    and the bits that are free in it."""
    count = len(table).bit_length() - 1
    bits = [1 << (count - 1 - place) for place in range(count)]
    cubes, primes = {(number, 0) for number, level in enumerate(table) if level}, []
    while cubes:
        halves, doubled = set(), set()
        for least, free in cubes:
            for bit in bits:
                if not bit & (least | free) and (least | bit, free) in cubes:
                    halves |= {(least, free), (least | bit, free)}
                    doubled.add((least, free | bit))
        primes += sorted(cubes - halves)
        cubes = doubled
    return {
        product_of(least, free, bits): frozenset(numbers_in(least, free)) for least, free in primes
    }


def product_of(least: int, free: int, bits) -> Product:
    """The product that is 1 in this cube."""
    return tuple(
        Literal(place, int(bool(least & bit))) for place, bit in enumerate(bits) if not free & bit
    )


def numbers_in(least: int, free: int):
    """The numbers of a cube."""
    part = free
    while True:
        yield least | part
        if not part:
            return
        part = (part - 1) & free


def products_of(table: Tuple[int, ...], every: bool) -> Tuple[Product, ...]:
    """Products whose sum is the function: all prime ones, so that the sum has no hazard of its own,
    or few of them, chosen greedily.
    """
    primes = prime_products(table)
    if every:
        return tuple(primes)
    left, chosen = {number for number, level in enumerate(table) if level}, []
    while left:
        chosen.append(max(primes, key=lambda product: len(primes[product] & left)))
        left -= primes[chosen[-1]]
    return tuple(chosen)


class Term(NamedTuple):
    """A gate of the level before the last one."""

    kind: str
    literals: Product


@dataclass(frozen=True)
class Levels:
    """A function as levels of gates, in which every way from a pin to the output goes through
    equally many.

    `literals` are the buf and not gates after the pins, and `terms` the gates after these; each is
    empty where there is no such level."""

    literals: Product
    terms: Tuple[Term, ...]
    last: str

    @property
    def depth(self) -> int:
        """How many gates come before the last one."""
        return bool(self.literals) + bool(self.terms)

    @property
    def inverts(self) -> bool:
        """Whether the last gate falls when what comes before it rises."""
        return self.last in ("nand", "nor", "not")


@lru_cache(maxsize=None)
def levels_of(table: Tuple[int, ...], gate_at_each_pin: bool, one_direction: bool) -> Levels:
    """Levels for a function that depends on all its pins.

    `gate_at_each_pin` asks for the level of literals, at which a pin can be made later than the
    others. `one_direction` asks that each literal makes the output change in one direction alone,
    as no pin of an xor does."""
    kind = primitive_of(table)
    if kind and not (one_direction and kind in ("xor", "xnor")):
        pins = tuple(Literal(place, 1) for place in range(len(table).bit_length() - 1))
        return Levels(pins if gate_at_each_pin else (), (), kind)
    last, products = shortest_sum(table, every=one_direction)
    if len(products) == 1:
        return Levels(products[0], (), {"or": "and", "nor": "nand"}[last])
    if not gate_at_each_pin and all(
        len({literal.level for literal in product}) == 1 for product in products
    ):
        kinds = {(1, True): "buf", (0, True): "not", (1, False): "and", (0, False): "nor"}
        return Levels(
            (),
            tuple(
                Term(kinds[product[0].level, len(product) == 1], product) for product in products
            ),
            last,
        )
    literals = tuple(sorted({literal for product in products for literal in product}))
    return Levels(
        literals,
        tuple(Term("buf" if len(product) == 1 else "and", product) for product in products),
        last,
    )


def shortest_sum(table: Tuple[int, ...], every: bool) -> Tuple[str, Tuple[Product, ...]]:
    """The last gate and the products of a sum for the function, or of one for its complement where
    that has fewer literals.
    """
    complement = tuple(1 - level for level in table)
    sums = [("or", products_of(table, every)), ("nor", products_of(complement, every))]
    return min(sums, key=lambda it: sum(map(len, it[1])))
