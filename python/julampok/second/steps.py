"""A run in which each step on the event word stands by itself, as with several workers.

A call on a source is a note, which changes the source's expiry, and the steps that it then owes. Nobody makes a call on a
source whose last call still owes one. An event with a length sets the expiry, `awake` cancels it; `relax` and `expire`
leave it to the finish that they owe.
"""

from .run import Run


class Stepwise(Run):
    """A machine under way, whose actors owe steps of their calls."""

    def __init__(self, tree):
        super().__init__(tree)
        self.owed = {}  # The source of the call that an actor is in, and the steps that it still owes.
        beside = [f"dev:{d}" for d in self.names if self.is_async(d)]
        timers = [f"timer:{source.name}" for source in self.sources]
        self.labels = [*(task.label for task in self.tasks), "auto", *beside, *timers]  # Whose each job is.

    def owner(self, source):
        """Who owes steps of a call on a source."""
        return next((who for who, (held, _) in self.owed.items() if held is source), None)

    def step(self, who):
        """The next step that an actor owes."""
        _, steps = self.owed[who]
        steps.pop(0)()
        if not steps:
            del self.owed[who]

    def hard_step(self, who, source):
        self.put(who, f"hard {source.name}")
        self.hard += 1

    def make_call(self, who, given, source):
        """The note of a call, which then owes its steps."""
        made, length, hard = given.get("call") or given["op"], given.get("ms", 0), given.get("hard", False)
        active = source.since is not None
        source.events += made in ("awake", "event")
        source.expiries += made == "expire"
        steps = [lambda: self.begin_event(who, source)] if made in ("awake", "event") and not active else []
        if made == "event":
            self.put(who, f"event {source.name} {length} {'hard' if hard else 'soft'}")
            steps += [lambda: self.hard_step(who, source)] if hard else []
        else:
            self.put(who, f"{made} {source.name}")
        if made == "event" and length > 0:
            source.expiry = max(source.expiry or 0, self.time + length)
        elif made == "awake":
            source.expiry = None
        if (made == "event" and length == 0) or (made in ("relax", "expire") and active):
            steps.append(lambda: self.end_event(who, source))
        if steps:
            self.owed[who] = (source, steps)

    def timer(self, source):
        turns = super().timer(source)
        while True:
            yield self.owner(source) is None and next(turns)
