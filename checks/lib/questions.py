"""Questions: which pairs of vectors are asked about, and when the inputs change."""

import itertools

# What `worst` may be asked of examples/c17.v: each option that says it, by itself and with others.
ASKED = ["--output N22", "--pin N1=1", "--hold-input N2", "--at N3=4", "--at 1,0,2,0,0", "--flips 1"]
ASKED += ["--default-rise 2", "--default-fall 3", "--first 1....", "--second .0...", "--hold =...."]
ASKED += ["--output N23 --pin N2=0 --default-rise 3 --strategy lead", "--flips=2 --output=N22"]

def random_question(rng, inputs, with_second=True):
    """Random words of `worst`, `parts` and others that say what is asked."""
    words = []
    for name in ("--first", "--second") if with_second else ("--first",):
        if rng.random() < 0.3:
            words += [name, "".join(rng.choice("01....") for _ in range(inputs))]
    if rng.random() < 0.3:
        words += ["--hold", "".join(rng.choice("=..") for _ in range(inputs))]
    if rng.random() < 0.3:
        words += ["--flips", str(rng.randint(0, inputs))]
    if rng.random() < 0.3:
        words += ["--at", ",".join(str(rng.randint(0, 5)) for _ in range(inputs))]
    return words


def word(words, name, default):
    """The word after an option, or what stands for it where it is left out."""
    return words[words.index(name) + 1] if name in words else default


def moments_of(words, inputs):
    """The moments at which the inputs change."""
    return [int(moment) for moment in word(words, "--at", ",".join("0" * inputs)).split(",")]


def fits(trits, bits):
    """Whether trits allow bits."""
    return all(trit in (".", bit) for trit, bit in zip(trits, bits))


def admitted(words, inputs):
    """All admitted pairs, as two texts of bits."""
    first, second = (word(words, name, "." * inputs) for name in ("--first", "--second"))
    vectors = ["".join(bits) for bits in itertools.product("01", repeat=inputs)]
    for before in (vector for vector in vectors if fits(first, vector)):
        for after in (vector for vector in vectors if fits(second, vector)):
            if keeps(words, before, after):
                yield before, after


def keeps(words, before, after):
    """Whether a pair differs at no held input, and at no more than the flips."""
    hold, flips = word(words, "--hold", "." * len(before)), int(
        word(words, "--flips", str(len(before)))
    )
    differ = [one != other for one, other in zip(before, after)]
    return sum(differ) <= flips and not any(it and held == "=" for it, held in zip(differ, hold))
