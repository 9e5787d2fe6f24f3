"""What a page shows of a recording or of a log: attempts with their stages, rows, marks and ties, in one form for both.

A time is a whole number of microseconds since the first event, where the clock tells them. Otherwise it is a number of
lines: what stands in line 5 begins at 5 and ends at 6. A line is the number of a line of `Page.lines`, from 1 on.
"""

import dataclasses
import enum


class Unit(enum.Enum):
    """What goes across."""

    TIME = "ms"
    LINES = "lines"


class Tone(enum.Enum):
    """How a verdict sounds. OPEN is a question that could not be answered."""

    GOOD = "good"
    BAD = "bad"
    OPEN = "open"
    PLAIN = "plain"


class Sort(enum.Enum):
    """What a row stands for."""

    DEVICE = "device"
    SOURCE = "wakeup source"
    TASK = "task"
    NOTIFIER = "notifier"
    PROCESSOR = "processor"
    CORE = "syscore step"
    ATTEMPT = "attempt"


# Phases of devices, in the kernel's order. In the first and the last the kernel traces each device, callback or not.
PHASES = ("prepare", "suspend", "late", "noirq", "resume_noirq", "early", "resume", "complete")
DOWN = ("suspend", "late", "noirq")
UP = ("resume_noirq", "early", "resume")


@dataclasses.dataclass(slots=True)
class Row:
    """A device or another thing with a row of its own. A parent is the number of a row."""

    sort: Sort
    name: str
    about: str = ""  # The driver of a device, or its bus.
    parent: int | None = None
    notes: list[str] = dataclasses.field(default_factory=list)  # Such as 'asynchronous'.


@dataclasses.dataclass(slots=True)
class Mark:
    """Something in a row that lasts from `begin` to `end`: a callback, an event, or another entry."""

    row: int
    kind: str  # A callback's phase, or the kind of an entry or span.
    begin: int
    end: int
    first: int  # The line of its begin, and that of its end.
    last: int
    words: str = ""  # What it is, if its kind does not say so.
    answer: str = ""  # An error such as EBUSY; nothing for a success.
    who: str = ""  # The task that ran it, if it is told.
    is_callback: bool = False
    is_open: bool = False  # Its end is in no line.
    is_span: bool = False  # It is a state that lasts, behind other marks.


@dataclasses.dataclass(slots=True)
class Stage:
    """A stage of an attempt by the kernel's name, such as `dpm_suspend`."""

    name: str
    kind: str  # The phase of devices, or '' for another stage.
    begin: int
    end: int
    first: int
    last: int
    answer: str = ""


@dataclasses.dataclass(slots=True)
class Tie:
    """A line from one row to another: who waited for whom, which event a test found, or an order that was broken."""

    kind: str  # waits, found, woke, stale, left, calls, link, dormant, refused or broken.
    source: int  # The row that was waited for, or that reported.
    source_at: int
    target: int  # The row that waited, or that found.
    target_at: int
    words: str
    first: int  # The line in which it begins, and that in which it ends.
    last: int


@dataclasses.dataclass(slots=True)
class Step:
    """A part of the longest path: a row in a phase, and what it waited for before it began."""

    row: int | None
    phase: str
    words: str
    mark: int | None = None  # The number of its mark, if it has one.


@dataclasses.dataclass(slots=True)
class Gap:
    """A stretch that is drawn narrower than it is, since nothing happens in it."""

    begin: int
    end: int
    words: str


@dataclasses.dataclass(slots=True)
class Attempt:
    """An attempt to sleep, or what stands outside of attempts (`number` is None then)."""

    number: str | None
    tone: Tone
    answer: str  # In words, such as 'slept' or 'stopped: EBUSY'.
    begin: int
    end: int
    first: int
    last: int
    causes: list[str] = dataclasses.field(default_factory=list)  # What stopped it, a sentence each.
    stages: list[Stage] = dataclasses.field(default_factory=list)
    marks: list[Mark] = dataclasses.field(default_factory=list)
    ties: list[Tie] = dataclasses.field(default_factory=list)
    path: list[Step] = dataclasses.field(default_factory=list)
    gaps: list[Gap] = dataclasses.field(default_factory=list)
    culprits: list[int] = dataclasses.field(default_factory=list)  # Rows that stopped it.
    notes: list[str] = dataclasses.field(default_factory=list)
    helps: list[str] = dataclasses.field(default_factory=list)  # What would make it faster.
    phases: list[list[str]] = dataclasses.field(default_factory=list)  # A phase, as measured, by the rules, and the difference.
    phases_note: str = ""
    no_waits: str = "It waited for nobody, and nobody waited for it."  # What is said of a row without a wait.


@dataclasses.dataclass(slots=True)
class Page:
    """All that a page shows. The headline is the verdict in a line; `details` say more, a sentence each.

    `tone` is that of the headline. `stop` says in a line what stopped an attempt, if one was stopped.
    """

    title: str
    about: list[str]  # Machine, kernel, date and file.
    unit: Unit
    tone: Tone
    headline: str
    details: list[str]
    rows: list[Row]
    attempts: list[Attempt]
    lines: list[str]  # The trace or the log.
    lines_of: str = "trace"
    stop: str = ""
    judged: list[str] = dataclasses.field(default_factory=list)  # The log that a checker judged, if another.
    dmesg: list[str] = dataclasses.field(default_factory=list)  # The kernel's messages, each at its line.
    moments: list[int] = dataclasses.field(default_factory=list)  # Of a log: the microsecond of each line.
    notes: list[str] = dataclasses.field(default_factory=list)
    more: list["Table"] = dataclasses.field(default_factory=list)


@dataclasses.dataclass(slots=True)
class Table:
    """A table at the end of a page."""

    title: str
    heads: list[str]
    rows: list[list[str]]


def parents_of(rows, number):
    """A row's parents, the nearest first. A circle ends where it closes."""
    found = []
    while (number := rows[number].parent) is not None and number not in found:
        found.append(number)
    return found


def depths_of(rows):
    """How many parents each row has."""
    depths = {}
    for number in range(len(rows)):
        way = []
        while number is not None and number not in depths and number not in way:
            way.append(number)
            number = rows[number].parent
        above = depths.get(number, -1)
        for place, below in enumerate(reversed(way), 1):
            depths[below] = above + place
    return [depths[number] for number in range(len(rows))]
