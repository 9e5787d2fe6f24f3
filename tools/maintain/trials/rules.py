"""The rules of a log, each by itself, held beside the second writing of a run.

Of each log, and of each copy in which one line is dropped, doubled, moved or changed, the first line that breaks a rule has
to be the first that its actor does not make next. A line that was changed in one field first breaks the rule that speaks of
that field.
"""

import random
from dataclasses import dataclass

from julampok.second.copies import broken_copies, entries_of
from julampok.second.maker import Maker
from julampok.second.merged import Interleaved
from julampok.second.run import Run
from julampok.second.trial import first_broken, first_illegal, may_break

LEAST, MOST = 4, 400  # How many lines a log has.


@dataclass(frozen=True)
class Copy:
    """A log of a machine: whole, or broken in one way at a line (from 0)."""

    tree: dict
    lines: list
    how: str
    at: int
    fields: set  # The rules that speak of the field that was changed; None where it is not one field.


def copies(given):
    """Random logs, and broken copies of each."""
    maker, dice = Maker(given.seed), random.Random(given.seed)
    for number in range(given.count):
        tree = maker.machine()
        run = Interleaved(tree, number) if number % 2 else Run(tree)
        lines = entries_of(run.run()[0])
        if not LEAST <= len(lines) <= MOST:
            continue
        for how, at, copy in [("whole", 0, lines), *broken_copies(dice, tree, lines)]:
            yield Copy(tree, copy, how, at, may_break(lines[at], copy[at]) if how == "change" else None)


def first_of_run(copy, given):
    """The first line that its actor does not make next, and that the rule which it breaks is one that speaks of its field."""
    return first_illegal(copy.tree, copy.lines), True


def first_of_rules(copy, given):
    """The first line that breaks a rule, and whether the least of these rules speaks of the field that was changed."""
    line, broken = first_broken(copy.tree, copy.lines)
    return line, copy.fields is None or line != copy.at or broken[0] in copy.fields


def show(copy, given):
    """What was done to the log, and its lines."""
    return "\n".join([f"{copy.how} at line {copy.at + 1}", *copy.lines])


def label(copy, wanted, given):
    """Whether a log keeps the rules."""
    return "keep the rules" if wanted[0] is None else "break one"
