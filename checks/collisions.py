#!/usr/bin/env python3
"""Looks that names which collide in a hash table of a fixed seed take no longer than others.

Each colliding name is made of eighteen blocks, and each block is one of two, which lead the hasher
of the tables (indexmap's default one, which takes a name byte by byte) from one state of 64 bits to
one state. So all 2^18 names have one hash, whatever stands after a name. Each case is a size of
text, 1, 4, 16 and 64 MiB, of which two are tried where nothing is said: a text of gates and wires
with such names, and one with as many random names of that length, `sim` of both. The colliding
names may take ten times the processor's seconds of the others at most; under a fixed seed they take
more than twenty times.
"""

import os
import resource
import sys

from lib import check, running

CASES = 2
SIZES = [1, 4, 16, 64]
MAX_BYTES = 67_108_864
MAX_GATES = 200_000
# The ratio above which the names take too long.
TOO_LONG = 10
# The most seconds that other names may take.
LONGEST = 40
REPORT = b"unit 1 ns\ndefaulted 0\nlast y 1\ntime 1\n"
# Of each pair, both blocks lead to one state of the hasher: found by a search for collisions with
# distinguished points, some 2^32 steps a pair.
BLOCKS = """
BOzJL94H9NC jlND7_n$2xC t0wh1xnS9BP bJeJffBbc2H vnpxiIsqQnA sg0gGcycZgO FG9B_ZBbBOL PXCNfMPYSII
YZcycILBNhJ YJXA0s2ZbSA q9zNYZHSZPF JN1HE9UQ0fP GyY6lzhhtzK 1s51Ko6pwJK lPP$oVMvLjM ShaQQnqiEuO
WfIW_G3unKP _gTwfWYk0vO W7bMXIRTMBF seB3xYouB1A BQFvvUeAOKI c_pekU$zfVM 4zLxY2JqsaM ftomNrT0tqB
kNEuiQsZPiO 2iZzaBCWNeK TFkY$a4cxKN aAzmoZLxk1D 4wJxTwkPuBF MSkU$BSDiSD aIP_wgeYseD rB2QWAfmn9M
DlhcmkaxfdF UkgNMdUOKzI OnlY9KsfCjN Eyzhu3q4iMB
""".split()
PAIRS = list(zip(BLOCKS[::2], BLOCKS[1::2]))
LENGTH = sum(len(first) for first, _ in PAIRS)
INITIAL, MULTIPLIER = 0x243F6A8885A308D3, 0x9E3779B97F4A7C15


def mixed(state, word, length):
    """The hasher's state after a write of at most eight bytes, which it takes as one number."""
    product = (state ^ word) * (MULTIPLIER ^ 2 * length)
    return product % 2**64 ^ product >> 64


def hash_of(name):
    """The hash of a name: its length is written, and then each byte, which stands in the number
    thrice.
    """
    state = mixed(INITIAL, len(name), 8)
    for byte in name.encode():
        state = mixed(state, byte * 0x010101, 1)
    return state


def colliding(number):
    """The colliding name of that number: a bit for each block."""
    return "".join(pair[number >> place & 1] for place, pair in enumerate(PAIRS))


def write_netlist(path, names):
    """A netlist in which these names, as many as may be, are outputs of gates, and the others
    wires.
    """
    driven, wires = names[: MAX_GATES - 1], names[MAX_GATES - 1 :]
    with open(path, "w", encoding="ascii") as file:
        file.write("module t(a,y);\ninput a;\noutput y;\n")
        if wires:
            file.write("wire " + ",".join(f"\\{name} " for name in wires) + ";\n")
        file.write(
            "buf #1 (y,a)" + "".join(f",\n(\\{name} ,a)" for name in driven) + ";\nendmodule\n"
        )
    assert os.path.getsize(path) <= MAX_BYTES


def seconds_so_far():
    """The processor's seconds that the runs took."""
    used = resource.getrusage(resource.RUSAGE_CHILDREN)
    return used.ru_utime + used.ru_stime


def seconds_of(tested, longest):
    """The processor's seconds of a run, None where it takes longer than the seconds given."""
    start = seconds_so_far()
    try:
        done = tested.run_bytes("sim", "t.v", "0", "1", seconds=longest)
    except running.Hangs:
        if longest == LONGEST:
            raise
        return None
    if tuple(done) != (0, REPORT, b""):
        tested.fault(f"{done}")
    return seconds_so_far() - start


def compared(tested, size):
    """A case: how long texts of this many MiB take."""
    rng, letters, path = tested.random, "".join(BLOCKS), os.path.join(tested.folder, "t.v")
    count = min(2 ** len(PAIRS), (size * 2**20 - 100) // (LENGTH + 7))
    write_netlist(path, ["".join(rng.choices(letters, k=LENGTH)) for _ in range(count)])
    other = max(0.01, min(seconds_of(tested, LONGEST) for _ in range(3)))
    write_netlist(path, [colliding(number) for number in range(count)])
    # By the clock a run takes longer than by the processor where others are at work.
    longest = 4 * TOO_LONG * other + 10
    took = seconds_of(tested, longest)
    print(
        f"{size} MiB, {count} names of {LENGTH} bytes: other names {other:.2f} s, "
        f"colliding ones {took and round(took, 2)} s"
    )
    if took is None or took > TOO_LONG * other:
        tested.fault(
            f"{size} MiB of colliding names take {took or f'more than {longest}'} s, "
            f"where other names take {other:.2f} s"
        )
    tested.case()


def work(tested):
    names = [colliding(tested.random.randrange(2 ** len(PAIRS))) for _ in range(100)]
    if len({hash_of(name) for name in names}) != 1:
        tested.fault("the names don't collide")
    for size in SIZES:
        compared(tested, size)


if __name__ == "__main__":
    sys.exit(check.main(work, __doc__, CASES))
