"""What a run keeps: sources, tasks and open phases."""

import heapq


class SourceFull(Exception):
    """A source has no room for a call."""


class Source:
    """A wakeup source and its statistics."""

    def __init__(self, name):
        self.name = name
        self.entries = 0
        self.since = None  # When its event in progress began.
        self.expiry = None
        self.events = self.actives = self.expiries = self.total = self.longest = self.last = 0

    def line(self, now):
        active = 0 if self.since is None else now - self.since
        total, longest = self.total + active, max(self.longest, active)
        numbers = (self.actives, self.events, self.expiries, active, total, longest, self.last)
        return f"source {self.name} " + " ".join(map(str, numbers))


class Task:
    """A script: who it is, and what others know of it."""

    def __init__(self, given):
        self.name, self.kind = given["name"], given["kind"]
        self.label = ("irq:" if self.kind == "irq" else "task:") + self.name
        self.repeat, self.steps = given.get("repeat", 1), given.get("script", [])
        self.asked = self.frozen = self.exited = False
        self.last_read, self.saved = 0, False
        self.until = None  # The end of the sleep that it is in.
        self.waits_for = None  # What a stuck run says of it.


class Phase:
    """A phase of devices that is open.

    Asynchronous devices that are scheduled are known by their places among all devices. `ready` are those that are not
    known to wait for another device, `todo` those whose turn comes in this round, behind the place `now`.
    """

    def __init__(self, name):
        self.name = name
        self.scheduled, self.over, self.direct, self.members = set(), set(), set(), set()
        self.error = self.own_error = "0"
        self.going, self.ready, self.todo, self.now = 0, set(), [], -1

    def schedule(self, d, place):
        """An asynchronous device has its turn from here on."""
        self.scheduled.add(d)
        self.going += 1
        self.wake(place)

    def wake(self, place):
        """The asynchronous device at that place may go on."""
        if place not in self.ready:
            self.ready.add(place)
            if place > self.now:
                heapq.heappush(self.todo, place)

    def end(self, d, place):
        """The device is over."""
        self.over.add(d)
        if d in self.scheduled:
            self.going -= 1
            self.ready.discard(place)
