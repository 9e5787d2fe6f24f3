"""Judges a log as the checker does: legal and finished, else the first bad line and the least rule that it breaks.

The second writing of a run follows the log, a line at a time; the rules, each by itself, name what a line breaks that it
does not follow.
"""

from .follow import Follower
from .grammar import Grammar
from .place import Entry
from .rules_kept import STEPS, Kept

GRAMMAR, SOURCE, END = 23, 22, 20


class Judge:
    """A log of a machine under judgement. The machine is one that is accepted."""

    def __init__(self, tree, text):
        self.tree = tree
        self.entries, self.tail, self.unread = Grammar(tree).split(text)

    def verdict(self, progress=None):
        """The first bad line, from 1, and the number of the rule; None for a legal log that is finished."""
        if self.unread is not None:
            return self.unread, GRAMMAR
        run = Follower(self.tree)
        for at, line in enumerate(self.entries):
            if not run.allows(line):
                return at + 1, self.rule_at(at)
            if progress is not None and at % 4096 == 0:
                progress.at(at, len(self.entries))
        return self.ending(run)

    def rule_at(self, at):
        """The least rule that an entry breaks, behind those before it."""
        place = Kept(self.tree)
        for line in self.entries[:at]:
            place.step(Entry(line))
        broken = place.breaks(Entry(self.entries[at]))
        return broken[0] if broken else STEPS

    def ending(self, run):
        """What is wrong behind legal entries."""
        count = len(self.entries)
        stats = [source.line(run.time) for source in run.sources]
        for at, wanted in enumerate(stats):
            if self.tail[at] != wanted:
                return count + at + 1, SOURCE
        if run.is_idle() and run.is_over() and self.tail[len(stats):] == ["finished"]:
            return None
        return count + len(stats) + 1, END


def judged(tree, text, progress=None):
    """The first bad line of a log's text, from 1, and the number of the rule; None for a legal log that is finished."""
    return Judge(tree, text).verdict(progress)
