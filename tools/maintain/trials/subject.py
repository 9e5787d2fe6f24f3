"""A subject of `tools/dev try`, and how its inputs are tried one after another."""

import argparse
import collections
import enum
import os
import sys
import time
from collections.abc import Callable
from dataclasses import dataclass

from julampok.errors import CannotError
from julampok.program import BUILT

EVERY = 60.0  # Seconds between two lines on how far a long trial is.
MOST_SHOWN = 20_000  # Letters that are shown of what differs.


class By(enum.Enum):
    """Who gives what is compared with the expected."""

    PROGRAM = "the proved program"
    SECOND = "the second writing in Python"
    PROVER = "the prover, by `rt check` in a clone of the repository"


@dataclass(frozen=True)
class Subject:
    """A row of the table of what can be tried.

    Each function takes the words of the command as its last argument. `input` gives the inputs; `expected` and `actual` what
    is compared, of one of them; `show` the text or bytes that show it where it fails. `label` says what is counted of it: a
    word, or several with how many of each, of which the first is how many inputs it stands for.
    """

    says: str
    by: By
    unit: str  # What --count counts.
    count: int  # How many, where --count is not given.
    tried: str  # What the inputs are.
    input: Callable
    expected: Callable
    actual: Callable
    show: Callable
    label: Callable
    add_arguments: Callable = lambda parser: None


def add_arguments(subject, parser):
    """The words that a subject takes."""
    parser.add_argument("--seed", type=int, default=1, help="where the random numbers begin (default: %(default)s)")
    parser.add_argument("--count", type=whole, default=subject.count, help=f"how many {subject.unit} (default: %(default)s)")
    if subject.by is By.PROGRAM:
        add_program(parser)
    if subject.by is By.PROVER:
        clone = "a clone of this repository for the trial alone, made where it is not there"
        parser.add_argument("--folder", required=True, help=clone)
    subject.add_arguments(parser)


def add_program(parser):
    """The word that names the program."""
    built = "the program (default: the one that is built in this clone)"
    parser.add_argument("--program", metavar="FILE", default=str(BUILT), help=built)


def whole(text):
    """A number from 1."""
    if not text.isascii() or not text.isdigit() or int(text) < 1:
        raise argparse.ArgumentTypeError(f"{text!r} is no whole number from 1")
    return int(text)


def find_program(given):
    """Makes the program's path whole; raises CannotError where no program is there."""
    if not os.path.isfile(given.program) or not os.access(given.program, os.X_OK):
        how = "`rt run` in crates/sleep_main builds it, --program names another"
        raise CannotError(f"no program that can be run; {how}", given.program)
    given.program = os.path.abspath(given.program)


def shown(value):
    """A text, bytes or any value, cut where it is long."""
    text = value.decode("utf-8", "backslashreplace") if isinstance(value, bytes) else value
    text = text if isinstance(text, str) else repr(text)
    return text if len(text) <= MOST_SHOWN else text[:MOST_SHOWN] + f".. ({len(text)} letters)"


def tell_difference(subject, case, wanted, found, given):
    """Writes the input, what was expected and what came, on standard error."""
    for head, value in (("input", subject.show(case, given)), ("expected", wanted), ("actual", found)):
        print(f"{head}: {shown(value)}", file=sys.stderr)


def count(subject, counts, label):
    """Counts what an input stands for."""
    counts.update({subject.tried: 1, label: 1} if isinstance(label, str) else label)


def counted(subject, counts):
    """A line on what was tried."""
    parts = ", ".join(f"{number} {label}" for label, number in sorted(counts.items()) if label != subject.tried)
    return f"{counts[subject.tried]} {subject.tried} agree: {parts}"


def try_subject(subject, given):
    """Tries each input, up to the first that differs, and returns the command's status."""
    if subject.by is By.PROGRAM:
        find_program(given)
    counts, next_line = collections.Counter(), time.monotonic() + EVERY
    for case in subject.input(given):
        wanted, found = subject.expected(case, given), subject.actual(case, given)
        if found != wanted:
            tell_difference(subject, case, wanted, found, given)
            return 1
        count(subject, counts, subject.label(case, wanted, given))
        if time.monotonic() >= next_line:
            next_line = time.monotonic() + EVERY
            print(f"so far {counted(subject, counts)}", file=sys.stderr, flush=True)
    if not counts:
        raise CannotError("there was nothing to try")
    print(counted(subject, counts))
    return 0
