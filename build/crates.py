"""What crates.txt says: which crates there are, and on which each one stands."""

import os


def uses_of(top="."):
    """The crates that each crate uses."""
    uses = {}
    for line in open(os.path.join(top, "crates.txt")):
        head, colon, rest = line.partition("#")[0].partition(":")
        if colon:
            uses[head.split()[0]] = rest.split()
    return uses


def lower_first(uses, roots):
    """These crates and all below them, each after those that it stands on."""
    order = []

    def visit(crate):
        if crate in uses and crate not in order:
            for low in uses[crate]:
                visit(low)
            order.append(crate)

    for crate in roots:
        visit(crate)
    return order
