"""How a check is called, what it counts, and how it ends.

A check is called as `CHECK [PROGRAM] [--seed S] [--cases N]`. PROGRAM is a built `tdelay`, that of
`rt ci` where it is left out. The seed is that of all random choices, and N the most cases that are
tried: a check whose cases are made up has a number of its own, one whose cases stand in a list
tries them all.

A check counts its cases, and for each case of what kinds it was: an exact answer, a refused growth,
a written file. Its last line is `N cases, N wrong`, and after it the kinds. Its exit status is 0
where no case was wrong, where there was one at least, and where of each kind that the check is
about there was the share that it states: a program that answers nothing passes no check. A run that
takes too long ends the check, and fails it. Where a check needs another program that isn't there,
it says so and ends with status 77.
"""

import argparse
import os
import random
import shutil
import signal
import sys
import traceback
from collections import Counter

from . import places, running

# The exit status where a program isn't there that the check needs beside `tdelay`.
SKIPPED = 77
# This many wrong cases end a check.
MOST_WRONG = 20


class Terminated(BaseException):
    """The check is ended before it tried all cases: its last line says what it has found."""


class Enough(Exception):
    """As many cases were tried as were asked for, or enough wrong ones that more say nothing."""


class Check:
    """A check at work: the program, a source of random choices, a folder of its own, and what was
    counted so far.
    """

    def __init__(self, program, seed, cases, folder):
        self.program, self.seed, self.most, self.folder = program, seed, cases, folder
        self.random = random.Random(seed)
        self.cases, self.wrong, self.kinds = 0, 0, Counter()

    def case(self, *kinds):
        """Counts a case and of what kinds it was; ends the check where it was the last one."""
        self.cases += 1
        self.kinds.update(kinds)
        if self.most is not None and self.cases >= self.most or self.wrong >= MOST_WRONG:
            raise Enough

    def goes_on(self):
        """Whether more cases are to be tried."""
        return self.most is None or self.cases < self.most

    def has_kind(self, *kinds):
        """Counts something without a case of its own."""
        self.kinds.update(kinds)

    def fault(self, what):
        """Counts that something is wrong, and says what."""
        self.wrong += 1
        print(f"wrong: {what}", flush=True)

    def expect(self, what, wanted, got, *kinds):
        """A case: what a run has to give, and what it gave."""
        if got != wanted:
            self.fault(f"{what}: {got!r}, not {wanted!r}"[:2000])
        self.case(*kinds)

    def run(self, *words, **how):
        """How a run of the program in the folder of the check ended, in texts."""
        return running.run([self.program, *words], **{"folder": self.folder, **how})

    def run_bytes(self, *words, **how):
        """How a run of the program ended, in bytes."""
        return running.run_bytes([self.program, *words], **{"folder": self.folder, **how})

    def write(self, name, text):
        return running.write(self.folder, name, text)

    def read(self, name):
        return running.read(self.folder, name)

    def remove(self, *names):
        running.remove(self.folder, *names)

    def require(self, kind, share, of=None):
        """Wants that this share of the cases at least, or of another kind's, were of a kind."""
        all_of, whose = (self.cases, "cases") if of is None else (self.kinds[of], of)
        if not self.kinds[kind] or self.kinds[kind] < share * all_of:
            self.fault(
                f"{kind}: {self.kinds[kind]} of {all_of} {whose}, which is less than {share:.1%}"
            )


def last_line(check):
    kinds = "".join(f"; {kind} {count}" for kind, count in sorted(check.kinds.items()))
    return f"{check.cases} cases, {check.wrong} wrong{kinds}"


def tried(check, work, shares):
    """Does the work of a check, and wants its shares of kinds."""
    cut = False
    try:
        work(check)
    except Enough:
        cut = check.most is not None and check.cases >= check.most
    except running.Hangs as hangs:
        check.wrong += 1
        print(f"wrong: {hangs}", flush=True)
    except Terminated:
        print("ended early, by SIGTERM", flush=True)
        return 1
    except Exception:  # pylint: disable=broad-except
        check.wrong += 1
        print(f"wrong: the check can't go on\n{traceback.format_exc()}", flush=True)
    if check.cases == 0 and not check.wrong:
        check.wrong += 1
        print("wrong: no case was tried", flush=True)
    if not check.wrong:
        shares(check, cut)
    return 1 if check.wrong else 0


def terminated(_signal, _frame):
    """What the first SIGTERM does."""
    signal.signal(signal.SIGTERM, signal.SIG_IGN)
    raise Terminated


def call(doc, cases, options):
    """What is asked by the words of the command line."""
    parser = argparse.ArgumentParser(
        description=doc, formatter_class=argparse.RawDescriptionHelpFormatter
    )
    parser.add_argument(
        "program", nargs="?", default=places.PROGRAM, metavar="PROGRAM", help="a built tdelay"
    )
    parser.add_argument(
        "--seed", type=int, default=1, metavar="S", help="of all random choices (1 if left out)"
    )
    parser.add_argument(
        "--cases",
        type=int,
        default=cases,
        metavar="N",
        help=f"the most cases that are tried ({cases or 'all'} if left out)",
    )
    for name, how in options.items():
        parser.add_argument(name, **how)
    asked = parser.parse_args()
    if asked.cases is not None and asked.cases < 1:
        parser.error("--cases: at least one case has to be tried")
    return asked


def nothing_more(check, cut):
    """The shares of a check that compares each case with a stated answer."""


def main(work, doc, cases=None, shares=nothing_more, options=None, needs=()):
    """Runs a check and gives its exit status.

    `work` tries the cases of a `Check`, `cases` at most where the command line says nothing;
    `shares` gets the check, and whether it was cut short by its number of cases, and wants its
    kinds; `options` are words of this check alone; `needs` are programs that it runs besides.
    """
    asked = call(doc, cases, options or {})
    program = os.path.abspath(asked.program)
    if not os.access(program, os.X_OK) or os.path.isdir(program):
        print(f"wrong: {program} is no program; `rt ci` builds one, ./prove another one")
        return 1
    signal.signal(signal.SIGTERM, terminated)
    lacking = [name for name in needs if not shutil.which(name)]
    if lacking:
        print(f"skipped: {' and '.join(lacking)} must be there for this check")
        return SKIPPED
    with running.folder() as folder:
        check = Check(program, asked.seed, asked.cases, folder)
        check.asked = asked
        status = tried(check, work, shares)
        print(last_line(check))
    sys.stdout.flush()
    return status
