"""Conditions on the settled levels of nets, as a certificate has them: each a net's number with a
form. Random ones, their text, and changed ones; and which pairs keep them, by an event queue
(event_queue.py).
"""

from . import event_queue

from second_spans import nets_of

# Forms, in the order of their bytes.
FORMS = (".0", ".1", "0.", "00", "01", "1.", "10", "11", "==")


def text_of(keep):
    """The words of conditions."""
    return " ".join(f"{number} {form}" for number, form in keep) or "none"


def kept(circuit, pairs, question):
    """The pairs that keep the question's conditions."""
    if not question.keep:
        return pairs
    run, nets = event_queue.run_of(circuit, pairs, question.moments), nets_of(circuit)
    found = run.everyone
    for number, form in question.keep:
        ends = [run.waves[nets[number]][place][1] for place in (0, -1)]
        if form == "==":
            found &= ~(ends[0] ^ ends[1])
        for wanted, bits in zip(form, ends):
            if wanted in "01":
                found &= bits if wanted == "1" else ~bits
    return [pair for which, pair in enumerate(pairs) if found >> which & 1]


def form_of(rng, before, after):
    """A form that these levels of a net keep."""
    forms = [f"{before}.", f".{after}", f"{before}{after}"]
    return rng.choice(forms + ["=="] * 3 * (before == after))


def random_conditions(rng, circuit, pairs, moments):
    """Some conditions that one of the pairs keeps, or now and then others; none without pairs."""
    if not pairs:
        return []
    waves, nets = event_queue.run_of(circuit, [rng.choice(pairs)], moments).waves, nets_of(circuit)
    found = set()
    for _ in range(rng.choice([1, 1, 2, 3])):
        number = rng.randrange(2, len(nets))
        wave = waves[nets[number]]
        form = form_of(rng, wave[0][1], wave[-1][1])
        found.add((number, form if rng.random() < 0.9 else rng.choice(FORMS)))
    return sorted(found)


def excluding(rng, circuit, pairs, question):
    """Some conditions that none of the pairs keeps; None where no try gives such."""
    for _ in range(20):
        count = rng.choice([1, 2, 2, 3] if pairs else [0, 0, 1])
        most = 2 + circuit.inputs + len(circuit.gates)
        keep = sorted({(rng.randrange(2, most), rng.choice(FORMS)) for _ in range(count)})
        if not kept(circuit, pairs, question._replace(keep=keep)):
            return keep
    return None


def changed(rng, line):
    """The line `keep` of a text with another net or form, or another order, or one condition more
    or less.
    """
    words = line.split(" ")[1:]
    keep = [list(it) for it in zip(words[::2], words[1::2])]
    way, place = rng.random(), rng.randrange(len(keep)) if keep else 0
    if way < 0.4 and keep:
        keep[place][1] = rng.choice([*FORMS, *FORMS, "..", "=", "=0", "x1"])
    elif way < 0.6 and keep and keep[place][0].isdigit():
        near = [int(keep[place][0]) + by for by in (1, -1, 2)]
        keep[place][0] = str(max(0, rng.choice([*near, *near, 0, 1, 99, 10**18, 10**18 + 1])))
    elif way < 0.7 and keep:
        del keep[place]
    elif way < 0.8:
        rng.shuffle(keep)
    else:
        keep.append([str(rng.randint(0, 12)), rng.choice(FORMS)])
        if rng.random() < 0.7:
            keep.sort(key=lambda it: (int(it[0]) if it[0].isdigit() else 0, it[1]))
    return "keep " + (" ".join(" ".join(it) for it in keep) or rng.choice(["none", "none", ""]))
