"""Who made another wait, and which event a test found: what joins one entry of a log with another."""

import bisect
import collections

from ..limits import VISIBLE

from . import reading

DOWN = ("suspend", "late", "noirq")
NOTES = ("awake", "relax", "event", "expire")
STEPS = ("start", "finish", "hard")
FOUND = ("cpu_busy", "enter_busy")  # Kinds that always say that a wakeup was found.
ATTEMPT = ("attempt", "")
LINKS = {"link": "link", "link_active": "link", "link_dormant": "dormant"}  # What joins the devices of a link.

# What joins the entry `tail` in the lane `source` with the entry `head` in the lane `target`.
Join = collections.namedtuple("Join", "what tail source head target text")


def lane_of(entry):
    """The lane in which an entry stands: its sort, and its name."""
    kind = entry.kind
    if kind in NOTES or kind in STEPS:
        return "source", entry["source"]
    if kind in ("prepare", "complete", "schedule", "begin", "end", "skip"):
        return "device", entry["device"]
    if kind in ("notify_prepare", "notify_post"):
        return "notifier", entry["notifier"]
    if kind in ("cpu_off", "cpu_busy", "cpu_on"):
        return "processors", ""
    if kind in ("core_suspend", "core_resume"):
        return "core", entry["core"]
    if kind == "jump":
        return "time", ""
    return ATTEMPT if kind in reading.ATTEMPT_STEPS else ("actor", entry.actor)


def is_walk(entry):
    """Whether the attempt's maker says it, and no asynchronous device."""
    return not entry.actor.startswith("dev:")


class Callers:
    """From where sources and devices are called, and which call each step of the event word belongs to."""

    def __init__(self):
        self.callbacks, self.calls, self.joins = {}, {}, []
        self.notes = {}  # The call of each step.
        self.within = {}  # In whose callback a call is made, in words, and the device.
        self.callback_of = {}

    def see(self, place, entry):
        actor, kind = entry.actor, entry.kind
        if kind == "begin":
            self.callbacks[actor] = entry["device"]
        elif kind == "end":
            self.callbacks.pop(actor, None)
        elif kind == "runtime":
            self.join(place, ("actor", actor), ("device", entry["device"]), f"{actor} asks")
        elif kind in LINKS:
            self.link(place, entry)
        elif kind in NOTES:
            self.calls[actor, entry["source"]] = place
            if kind != "expire":
                device = self.callbacks.get(actor)
                lane = ("actor", actor)
                if device is not None:
                    lane = "device", device
                    self.within[place] = f"the callback of {device}"
                    self.callback_of[place] = device
                self.join(place, lane, ("source", entry["source"]), f"{lane[1]} reports")
        elif kind in STEPS:
            self.notes[place] = self.calls.get((actor, entry["source"]), place)

    def link(self, place, entry):
        """Joins the supplier of a link with its consumer."""
        supplier, consumer, answer = entry["supplier"], entry["consumer"], entry["answer"]
        what, told = LINKS[entry.kind], f"supplier {supplier}, consumer {consumer}"
        what, told = (what, told) if answer == "0" else ("refused", f"{told}, {answer}")
        self.joins.append(Join(what, place, ("device", supplier), place, ("device", consumer), told))

    def join(self, place, source, target, text):
        self.joins.append(Join("calls", place, source, place, target, text))


class Tests:
    """Which event each test found that found one: the first that came after what the test compares with."""

    def __init__(self, callers, entries):
        self.callers, self.entries = callers, entries
        self.starts, self.hards, self.steps = [], [], []
        self.check = self.count = None  # Where the count in force was saved, and what it is.
        self.freeze = self.entered = -1
        self.reads = {}
        self.found, self.joins = {}, []

    def see(self, place, entry):
        kind = entry.kind
        if kind in STEPS:
            self.steps.append(place)
            if kind != "finish":
                (self.starts if kind == "start" else self.hards).append(place)
        elif kind in ("read", "auto_read"):
            self.reads[entry.actor] = place
        elif kind in ("save_ok", "auto_saved"):
            self.check, self.count = place, int(entry["count"])
        elif kind == "auto_unsaved" or kind == "save_error" and entry["error"] == "EINVAL":
            self.check = None
            self.put("stale", place, self.first(self.starts, self.reads.get(entry.actor), place))
        elif kind == "clear":
            self.check = None
        elif kind == "freeze" and entry["group"] == "user":
            self.freeze = place
        elif kind == "enter":
            self.entered = place
        elif kind == "wake" and entry["by"] == "event":
            self.put("woke", place, self.first(self.steps, self.entered, place))
        elif self.says_found(entry):
            self.test(place, entry)

    @staticmethod
    def says_found(entry):
        kind = entry.kind
        return kind in FOUND or entry["why"] == "wakeup" or entry["cause"] == "pending" or (
            kind == "core_check" and entry["answer"] != "0")

    @staticmethod
    def first(steps, after, before):
        """The first of the steps that lies between two places."""
        if after is None:
            return None
        at = bisect.bisect(steps, after)
        return steps[at] if at < len(steps) and steps[at] < before else None

    def test(self, place, entry):
        """A test that found something: events since the save, or a hard one since user tasks were asked to freeze."""
        causes = [self.first(self.hards, self.freeze, place)]
        if self.check is not None:
            if entry.in_progress > 0 or entry.registered % VISIBLE != self.count:
                causes.append(self.first(self.starts, self.check, place))
                self.check = None
        self.put("found", place, min((cause for cause in causes if cause is not None), default=None))

    def put(self, what, place, step):
        if step is not None:
            cause = self.found[place] = self.callers.notes.get(step, step)
            lane = "source", self.entries[cause]["source"]
            self.joins.append(Join(what, cause, lane, place, lane_of(self.entries[place]), self.name(cause)))

    def name(self, cause):
        """An event, and who reported it."""
        event = self.entries[cause]
        return f"{event.kind} {event['source']} from {self.callers.within.get(cause, event.actor)}"


class Walks:
    """Which device another one waited for, or the walk at its end.

    A wait is seen where that device ended after the other was given out, or after the walk's last entry: of
    several the one that ended last. Whether the walk would have come sooner, a log does not tell.
    """

    def __init__(self, devices):
        self.devices, self.joins = devices, []
        self.open(None)

    def open(self, place):
        self.walk, self.given, self.over, self.begun = place, {}, {}, {}

    def see(self, place, entry):
        kind = entry.kind
        if kind not in ("schedule", "begin", "end", "skip", "done"):
            return
        if self.walk is None:
            self.walk = place - 1
        if kind == "done":
            self.close(place, entry)
            return
        device = entry["device"]
        if kind == "schedule":
            self.given[device] = place
        elif kind in ("begin", "skip"):
            self.wait(place, entry)
        if kind == "begin":
            if device in self.begun:
                raise reading.Refused(entry.line, f"a begin before the end of another: {entry.text}")
            self.begun[device] = place
        elif kind in ("end", "skip"):
            if kind == "end" and self.begun.pop(device, None) is None:
                raise reading.Refused(entry.line, f"an end without its begin: {entry.text}")
            self.over[device] = place
        if is_walk(entry):
            self.walk = place

    def wait(self, place, entry):
        device = entry["device"]
        near = self.devices.below if entry["phase"] in DOWN else self.devices.above
        since = self.given.get(device, self.walk)
        last = max(((self.over[d], d) for d in near.get(device, []) if d in self.over), default=(-1, ""))
        if last[0] > since:
            self.join(last, place, ("device", device), f"{device} waited for {last[1]}")

    def close(self, place, entry):
        if self.begun:
            raise reading.Refused(entry.line, f"{min(self.begun)} has no end: {entry.text}")
        last = max(((over, d) for d, over in self.over.items()), default=(-1, ""))
        if last[0] > self.walk:
            self.join(last, place, ATTEMPT, f"{entry['phase']} waited for {last[1]}")
        self.open(None)

    def join(self, last, place, target, text):
        self.joins.append(Join("waits", last[0], ("device", last[1]), place, target, text))
