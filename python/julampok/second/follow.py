"""A log followed by the second writing of a run: whether each line is what its actor makes next.

The jobs of the run are the judge. At each line the job of its actor takes a turn, a step of a call stands by itself,
and what it writes has to be that line. After a line that is none of theirs nothing more is asked.
"""

from .machine import STEPS
from .steps import Stepwise


class Follower(Stepwise):
    """A machine under way, whose turns a log gives."""

    def __init__(self, tree):
        super().__init__(tree)
        self.said = []
        self.why = None  # Why a whole log is none of this machine's.
        self.labelled = dict(zip(self.labels, self.jobs))

    def put(self, who, body):
        self.said.append(self.entry(who, body))

    def call(self, who, given):
        """The note of a call: none where another call is under way on the source."""
        source = self.named[given["source"]]
        if self.owner(source) is None:
            self.make_call(who, given, source)

    # ---- a line

    def is_idle(self):
        return not self.owed and not self.round()

    def jump(self, line):
        time = int(line.split(" ")[0])
        if not self.is_idle() or self.is_over() or min(self.times(), default=None) != time:
            return False
        self.time = time
        self.put("time", "jump")
        return self.said == [line]

    def allows(self, line):
        """Whether the line is what its actor makes next; if so it is made."""
        self.said = []
        _, _, who, verb, *rest = line.split(" ")
        if (who, verb) == ("time", "jump"):
            return self.jump(line)
        if verb in STEPS:
            held, _ = self.owed.get(who, (None, []))
            if held is None or held.name != rest[0]:
                return False
            self.step(who)
        elif who in self.owed or who not in self.labelled:
            return False
        else:
            next(self.labelled[who])
        return self.said == [line]

    # ---- a whole log

    def accepts(self, log):
        """Whether the text is a whole log of this machine, by any number of workers; else `why` says why not."""
        entries = [line for line in log.splitlines() if line[:1].isdigit()]
        for at, line in enumerate(entries, 1):
            if not self.allows(line):
                self.why = f"line {at} is not what its actor makes next, which is {self.said}"
                return False
        if not self.is_idle():
            self.why = "at the end somebody can go on"
        elif not self.is_over() and list(self.times()):
            self.why = "at the end a time is pending"
        self.lines = entries
        if self.why is None and log != self.end()[0]:
            self.why = "the statistics or the end are not those of the lines"
        return self.why is None

    def is_stuck(self):
        """Whether the log that was accepted says that somebody is stuck."""
        return self.end()[1]
