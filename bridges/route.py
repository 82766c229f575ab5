"""The path of a last change by instances, cells, pins and edges, from the nets of the gates."""

from typing import Dict, List

EDGES = {"0": "falls", "1": "rises", "x": "x"}


class Cells:
    """Which cell and pin each net of the gates is, as primitives.py wrote it (--map)."""

    def __init__(self, places: Dict[str, dict]):
        self.places = {plain(net): place for net, place in places.items()}

    def inside(self, net: str) -> bool:
        """Whether a net is one inside a cell."""
        return "inside" in self.places.get(net, {})

    def step(self, net: str, before: str) -> str:
        """How a net comes of the one before it: `INSTANCE CELL PIN -> PIN`, or as a copy."""
        place = self.places.get(net)
        if place is None or "copy" in place:
            return "the same net" if place else "input"
        reads = {plain(read): pin for read, pin in place["reads"].items()}
        pin = reads.get(before, "its clock" if set(reads.values()) == {"q"} else "?")
        return f"{place['instance']} {place['cell']} {pin} -> {place['pin']}"


def plain(net: str) -> str:
    """A net without what escapes its name."""
    return net.replace("\\", "").replace(" ", "")


def path_lines(cells: Cells, changes: List[dict]) -> List[str]:
    """A line for each change of a report that isn't inside a cell."""
    lines, before = [], ""
    for change in changes:
        name = plain(change["net"])
        if cells.inside(name):
            continue
        how = cells.step(name, before) if before else "input"
        lines.append(f"{change['time']} {name} {EDGES[change['new']]} {how}")
        before = name
    return lines
