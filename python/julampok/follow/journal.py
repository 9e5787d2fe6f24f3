"""The log that is being written: time, the word of events, wakeup sources, the saved count, and the scripts that act.

Each entry keeps the line of the trace that it was made for, so that whatever a checker says of the log names a line.
"""

from __future__ import annotations

from dataclasses import dataclass, field

from ..limits import LONGEST_MS, VISIBLE

AUTOSLEEP = "autosleep"


@dataclass(slots=True)
class Source:
    """A wakeup source of the machine file, with its statistics and the places that its calls need."""

    name: str
    since: int | None = None  # The time since which it is active.
    actives: int = 0
    events: int = 0
    total: int = 0
    longest: int = 0
    last: int = 0
    places: int = 0

    def line(self, now: int) -> str:
        """The line of the source at the end of a log."""
        active = 0 if self.since is None else now - self.since
        numbers = (self.actives, self.events, 0, active, self.total + active, max(self.longest, active), self.last)
        return f"source {self.name} " + " ".join(map(str, numbers))


@dataclass(slots=True, eq=False)
class Script:
    """An actor of the machine file: what it has done so far, and how many works it has left before it exits."""

    name: str
    kind: str
    left: int = 0
    steps: list[dict] = field(default_factory=list)
    is_gone: bool = False
    is_frozen: bool = False
    is_inside: bool = False  # In a call that is not whole, so at no point where it may freeze.
    nap: tuple | None = None  # The sleep that it is in: the place of its entry, its step, the time of its begin.

    @property
    def label(self) -> str:
        """The actor as entries name it."""
        return ("irq:" if self.kind == "irq" else "task:") + self.name


class Journal:
    """The entries of a log, and what a machine keeps while it makes them."""

    def __init__(self):
        self.lines: list[str] = []
        self.origins: list[int] = []  # The line of the trace for which each entry stands.
        self.line = 0
        self.time = self.inpr = self.count = self.hard = 0
        self.is_checking, self.saved_count, self.seen_hard = False, 0, 0
        self.sources: dict[str, Source] = {}
        self.scripts: list[Script] = []
        self.maker: Script | None = None
        self.is_asleep = False
        self.set_head()

    def set_head(self) -> None:
        """Sets the time and the word that entries begin with."""
        self.head = f"{self.time} {self.inpr}/{self.count}/{self.hard} "

    def put(self, who: str, body: str) -> None:
        """Makes an entry."""
        self.lines.append(f"{self.head}{who} {body}")
        self.origins.append(self.line)

    def add(self, text: str) -> None:
        """Makes an entry of which actor and body are one text."""
        self.lines.append(self.head + text)
        self.origins.append(self.line)

    # ---- the word and the saved count

    @property
    def position(self) -> int:
        """How many steps were made on the word."""
        return self.inpr + 2 * self.count + self.hard

    @property
    def visible(self) -> int:
        """The count that tasks see."""
        return self.count % VISIBLE

    def may_save(self) -> bool:
        """Whether no event is in progress."""
        return self.inpr == 0

    def save(self) -> int:
        """Saves the visible count, which is then in force; gives it."""
        self.is_checking, self.saved_count = True, self.visible
        return self.saved_count

    def is_pending(self) -> bool:
        """What a test would find now."""
        return self.has_moved() or self.hard > self.seen_hard

    def has_moved(self) -> bool:
        """Whether a saved count is in force and an event came since."""
        return self.is_checking and (self.visible != self.saved_count or self.inpr > 0)

    def find(self) -> None:
        """A test has found an event: a saved count that moved is no longer in force."""
        self.is_checking = self.is_checking and not self.has_moved()

    # ---- calls on sources

    def start(self, who: str, source: Source) -> None:
        """The step that makes a source active, where it is not."""
        if source.since is None:
            self.put(who, f"start {source.name}")
            self.inpr += 1
            self.set_head()
            source.since = source.last = self.time
            source.actives += 1

    def finish(self, who: str, source: Source) -> None:
        """The step that ends a source's activity, where it is active."""
        if source.since is not None:
            self.put(who, f"finish {source.name}")
            self.inpr, self.count = self.inpr - 1, self.count + 1
            self.set_head()
            length = self.time - source.since
            source.total, source.longest = source.total + length, max(source.longest, length)
            source.since, source.last = None, self.time

    def awake(self, who: str, source: Source) -> dict:
        """The call `awake`; gives its members in a machine file."""
        self.put(who, f"awake {source.name}")
        source.events += 1
        source.places += 2
        self.start(who, source)
        return {"source": source.name}

    def relax(self, who: str, source: Source) -> dict:
        """The call `relax`."""
        self.put(who, f"relax {source.name}")
        source.places += 2
        self.finish(who, source)
        return {"source": source.name}

    def event(self, who: str, source: Source, is_long: bool, is_hard: bool) -> dict:
        """The call `event`: over at once, or with a length that ends by a later `relax`."""
        length = LONGEST_MS if is_long else 0
        self.put(who, f"event {source.name} {length} {'hard' if is_hard else 'soft'}")
        source.events += 1
        source.places += 5
        self.start(who, source)
        if is_hard:
            self.put(who, f"hard {source.name}")
            self.hard += 1
            self.set_head()
        if not is_long:
            self.finish(who, source)
        return {"source": source.name} | ({"ms": length} if length else {}) | ({"hard": True} if is_hard else {})

    # ---- scripts

    def act(self, script: Script) -> None:
        """Lets a script act: its sleep ends first."""
        if script.nap is not None:
            place, step, begun = script.nap
            script.nap = None
            step["ms"] = self.time - begun
            self.lines[place] += str(self.time)
            self.put(script.label, "slept")

    def has_acted(self, script: Script, works: int = 1) -> None:
        """A script has done so many of its works; after the last one it exits."""
        script.left -= works
        if script.left <= 0 and not script.is_gone:
            script.is_gone = True
            self.put(script.label, "exit")

    def sleep(self, script: Script) -> None:
        """A script sleeps until the time at which it acts next, which is filled in then."""
        step = {"op": "sleep", "ms": 0}
        script.steps.append(step)
        self.put(script.label, "sleep ")
        script.nap = len(self.lines) - 1, step, self.time

    def jump(self, to: int) -> None:
        """Time passes where nobody can go on, so whoever has work left sleeps meanwhile."""
        for script in self.scripts:
            is_held = script.is_gone or script.is_frozen or script.is_inside or script.nap is not None or script is self.maker
            if not is_held and not (self.is_asleep and script.kind != "irq"):
                self.sleep(script)
        self.time = to
        self.set_head()
        self.put("time", "jump")

    def end(self) -> str:
        """The text of the log."""
        stats = [source.line(self.time) for source in self.sources.values()]
        return "\n".join([*self.lines, *stats, "finished"]) + "\n"
