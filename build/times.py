"""How long builds usually take, in seconds by the clock: what progress is shown beside.

The figures stand in times.json, which `proved.py --record` writes.
"""

import json
import os

FILE = os.path.join(os.path.dirname(os.path.abspath(__file__)), "times.json")


def read_times():
    with open(FILE) as it:
        return json.load(it)


def write_times(times):
    """Puts new figures in place of the old ones, whole or not at all."""
    part = f"{FILE}.{os.getpid()}"
    with open(part, "w") as it:
        json.dump(times, it, indent=1, sort_keys=True)
        it.write("\n")
    os.replace(part, FILE)
