"""Changed lines of leaves by spans. `tampered` changes a few lines of a tree, and `sooner` makes
all that is late in it earlier by some steps.
"""

from second_spans import STEPS, VARIABLES

# Lines that stand where they don't belong, or are good or bad by what stands before them.
LINES = ["u", "u 0 1", "l 0 0", "l 0 1 2 3 4 5 6", "l 1 0 1", "l 0", "l", "r", "r 4", "r 0"]
LINES += ["e 5 1 3 1 0 1", "e 4 0 0 0 1", "c 0 0", "c 1 1", "i 2", "f 2", "f 0", "w 4 0 0"]
LINES += ["w 4 1 3 1", "w 1 1 0", "g 0", "g", "g 2 1", "t", "t 0 3", "n 0 1", "n 1 0"]
LINES += ["k", "k 0", "k 0 3", "r 5 1"]
# Lines of a tree.
LEAVES = ["x", "q 0", "none", "p 0", "b e 0", "b a 5", "s 0", "s 1", "b n 3", "q none", "x 0"]
# Which words of a line are places or moments.
LATE = {"time": (1,), "q": (1,), "b": (2,), "p": (1,), "w": (3, 4), "e": (3,)}


def inside(lines):
    """The places of the lines of leaves by spans, from each `x` to its `q`."""
    found, is_inside = [], False
    for place, line in enumerate(lines):
        is_inside = is_inside or line == "x"
        if is_inside:
            found.append(place)
        is_inside = is_inside and not line.startswith("q")
    return found


def changed_words(rng, words):
    """A line with one number off, two exchanged, one left out, one more, or another letter."""
    words = list(words)
    way, places = rng.random(), range(1, len(words))
    if way < 0.15:
        words[0] = rng.choice(VARIABLES + STEPS)
    elif way < 0.25 or not places:
        words.insert(rng.randrange(len(words)) + 1, str(rng.choice([0, 1, 2, rng.randint(0, 40)])))
    elif way < 0.35:
        del words[rng.choice(places)]
    elif way < 0.45:
        one, other = rng.choice(places), rng.choice(places)
        words[one], words[other] = words[other], words[one]
    else:
        place = rng.choice(places)
        if words[place].isdigit():
            number = int(words[place])
            near = [number ^ 1] * 3 + [number + by for by in (1, 1, -1, -1, 2, -2, 7, -20, 20)]
            far = [0, rng.randint(0, 40), 10**18, 10**18 + 1]
            words[place] = str(max(0, rng.choice([*near, *near, *far])))
    return words


def changed_end(rng, lines, place):
    """Another number after `q`, mostly a lesser one, or `none`."""
    number = lines[place].partition(" ")[2]
    if number == "none":
        lines[place] = f"q {rng.choice([0, 5, 40])}"
    elif number.isdigit() and rng.random() < 0.1:
        lines[place] = "q none"
    elif number.isdigit():
        less = max(0, int(number) - rng.choice([0, 1, 1, 2, int(number)]))
        lines[place] = f"q {rng.choice([less, less, int(number) + 1])}"


def changed_once(rng, lines):
    """Changes one line from an `x` to its `q`, takes it away, doubles it, puts it elsewhere, or
    puts one in.
    """
    places = inside(lines)
    if not places:
        return
    place, way = rng.choice(places), rng.random()
    near = max(0, min(len(lines) - 1, place + rng.randint(-6, 6)))
    other = rng.choice([near, rng.choice(places)])
    if way < 0.1:
        place = rng.choice([it for it in places if lines[it].startswith("q")] or [place])
    if lines[place].startswith("q"):
        changed_end(rng, lines, place)
    elif lines[place] == "x":
        end = next((it for it in places if it > place and lines[it].startswith("q")), place)
        if way < 0.4:
            lines[place : end + 1] = [rng.choice(["none", "b e 9", "p 0", "x\nu\nq 0", "s 0"])]
        else:
            lines.insert(place + 1, rng.choice(LINES))
    elif way < 0.6:
        lines[place] = " ".join(changed_words(rng, lines[place].split(" ")))
    elif way < 0.7:
        del lines[place]
    elif way < 0.77:
        lines.insert(other, lines[place])
    elif way < 0.87:
        lines[place], lines[other] = lines[other], lines[place]
    else:
        lines.insert(place, rng.choice(LINES if way < 0.97 else LEAVES))


def tampered(rng, lines):
    """The lines of a tree with a few changes in its leaves by spans."""
    lines = list(lines)
    for _ in range(rng.choice([1, 1, 1, 2, 3])):
        changed_once(rng, lines)
    return lines


def sooner(rng, lines, by, most):
    """The lines of a tree with all moments and places from one on earlier by some steps, and no
    leaf's number above `most`.
    """
    begin, some, found = rng.randint(0, most + by), rng.random() < 0.7, []
    for line in lines:
        words = line.split(" ")
        for place in LATE.get(words[0], ()):
            if place < len(words) and words[place].isdigit():
                number, is_leaf = int(words[place]), words[0] in "qbp"
                if number >= max(begin, by) and (is_leaf or some or rng.random() < 0.3):
                    number -= by
                words[place] = str(min(number, most) if is_leaf else number)
        found.append(" ".join(words))
    return found
