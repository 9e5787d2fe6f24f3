"""A machine file run as several workers may, and the merged log.

Any job may be next, and each step on the event word stands by itself: other jobs may come between it and the call that
makes it. Each actor, each source and the journal know only the ticks that they saw. The log is all entries by position,
steps on the word after the others, then by tick, then by actor.
"""

import random

from .machine import NOTES, STEPS
from .steps import Stepwise


class Interleaved(Stepwise):
    """A machine under way, whose jobs take turns in a random order."""

    def __init__(self, tree, seed):
        super().__init__(tree)
        self.dice = random.Random(seed)
        self.events = []  # Position, whether it is a step, tick, the actor's number, and the line.
        self.seen = {}  # The last tick that an actor knows.
        self.ticks = {}  # The last tick of the journal and of each source.
        tasks, timers = [task.label for task in self.tasks], [f"timer:{source.name}" for source in self.sources]
        everyone = [*tasks, "auto", *(f"dev:{d}" for d in self.names), *timers, "time"]
        self.numbers = {who: number for number, who in enumerate(everyone)}

    def put(self, who, body):
        first, *rest = body.split(" ")
        is_step = first in STEPS
        keeper = rest[0] if is_step or first in NOTES else "journal"
        tick = 1 + max(self.seen.get(who, 0), self.ticks.get(keeper, 0))
        self.seen[who] = self.ticks[keeper] = tick
        self.events.append((self.position(), is_step, tick, self.numbers[who], self.entry(who, body)))

    def call(self, who, given):
        """The note of a call. A call that is under way on the source ends first."""
        source = self.named[given["source"]]
        while self.owner(source) is not None:
            self.step(self.owner(source))
        self.make_call(who, given, source)

    # ---- any order

    def jump(self, to):
        """Time passes; the jump comes after all that anybody knows, and then all know it."""
        self.time = to
        self.seen["time"] = max([0, *self.seen.values(), *self.ticks.values()])
        self.put("time", "jump")
        tick = self.seen["time"]
        self.seen = dict.fromkeys(self.numbers, tick)
        self.ticks = dict.fromkeys(["journal", *self.named], tick)

    def until_quiet(self):
        """Turns and steps until no job has anything to do."""
        left = set(range(len(self.jobs)))
        while left:
            at = self.dice.choice(sorted(left))
            who = self.labels[at]
            if who in self.owed:
                self.step(who)
            elif not next(self.jobs[at]):
                left.remove(at)
                continue
            left = set(range(len(self.jobs)))

    def run(self):
        """The merged log's text, and whether it is stuck."""
        while True:
            self.until_quiet()
            pending = list(self.times())
            if self.is_over() or not pending:
                break
            self.jump(min(pending))
        self.lines = [event[-1] for event in sorted(self.events, key=lambda event: event[:-1])]
        return self.end()
