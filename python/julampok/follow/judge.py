"""Judges a followed log by the second writing of the rules in Python, fast enough for logs of hundreds of thousands of lines.

It is the second writing's own judge. What differs is how it finds things: who hangs below a device stands in tables, and the
head of an entry is written anew only where time or the word of events have changed.
"""

from __future__ import annotations

from ..second.follow import Follower
from ..second.machine import STEPS

NO_ANSWER = "0", ()
NOTHING = {"devices": [], "sources": [], "notifiers": [], "actors": []}


class Judge(Follower):
    """A machine under way, whose turns a log gives."""

    def __init__(self, tree):
        self.line, self.is_right, self.head, self.last = "", False, "", ""
        super().__init__(NOTHING | tree)
        self.turns = {who: job.__next__ for who, job in self.labelled.items()}
        self.given = {}  # What a thing answers, by the attempt; None: in all others.
        for (what, name, phase, attempt), answer in self.answers.items():
            self.given.setdefault((what, name, phase), {})[attempt] = str(answer.get("ret", 0)), answer.get("reports", [])
        self.set_head()

    def answer(self, what, name, phase=None):
        """What the callback of a thing returns and reports in this attempt."""
        found = self.given.get((what, name, phase))
        if found is None:
            return NO_ANSWER
        return found.get(self.attempts) or found.get(None) or NO_ANSWER

    # ---- entries

    def set_head(self):
        """Time and word have changed."""
        self.head = f"{self.time} {self.inpr}/{self.count}/{self.hard} "

    def put(self, who, body):
        """An entry is made: it has to be the line that is judged, which nobody else has made."""
        self.last = said = f"{self.head}{who} {body}"
        self.is_right = said == self.line
        self.line = None

    def allows(self, line):
        """Whether the line is what its actor makes next; if so it is made."""
        self.line, self.is_right = line, False
        parts = line.split(" ", 4)
        if len(parts) < 4:
            return False
        who, verb = parts[2], parts[3]
        if verb in STEPS:
            held, _ = self.owed.get(who, (None, []))
            if held is None or held.name != parts[-1]:
                return False
            self.step(who)
            self.set_head()
        elif who == "time" and verb == "jump":
            return self.leap(line)
        elif who in self.turns and not (self.owed and who in self.owed):
            self.turns[who]()
        return self.is_right

    def leap(self, line):
        """Time passes, where nobody can go on and it goes to the least time that somebody waits for."""
        time = int(line.split(" ", 1)[0])
        if not self.is_idle() or self.is_over() or min(self.times(), default=None) != time:
            return False
        self.time, self.line = time, line
        self.set_head()
        self.put("time", "jump")
        return self.is_right

    def accepts(self, log):
        """Whether the text is a whole log of this machine; else `why` says why not."""
        lines = log.splitlines()
        ends = len(lines)
        while ends and not lines[ends - 1][:1].isdigit():
            ends -= 1
        turns, owed, rare = self.turns, self.owed, (*STEPS, "jump")
        for at in range(ends):
            line = self.line = lines[at]
            self.is_right = False
            parts = line.split(" ", 4)
            if len(parts) < 4 or parts[3] in rare or parts[2] not in turns:
                self.is_right = self.allows(line)
            elif not owed or parts[2] not in owed:
                turns[parts[2]]()
            if not self.is_right:
                self.why = f"line {at + 1} is not what its actor makes next, which is {self.last!r}"
                return False
        return self.accepts_end(log, lines[:ends])

    def accepts_end(self, log, lines):
        """Whether the log ends as it has to, whose entries were accepted."""
        self.lines, self.line = lines, None
        if not self.is_idle():
            self.why = "at the end somebody can go on"
        elif not self.is_over() and list(self.times()):
            self.why = "at the end a time is pending"
        elif log != self.end()[0]:
            self.why = "the statistics or the end are not those of the lines"
        return self.why is None
