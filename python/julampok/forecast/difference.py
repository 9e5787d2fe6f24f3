"""Two recordings beside each other: the way that each attempt took, what its callbacks answered, and how long it took.

The way of an attempt is what repeats from run to run: its steps, the list of devices, the callbacks that the walk makes
itself, in their order, and in each phase who had a callback in another task, and with what answer. In which order callbacks
of other tasks come is a race, and no part of it; but a device that does not wait for what it has to wait for is.
"""

from __future__ import annotations

from dataclasses import dataclass, field
from typing import Iterator, Mapping, NamedTuple

from julampok.kernel.errnos import error_text
from julampok.kernel.recording import PHASES, Attempt, CallbackBegin, Device, Phase, Recording, SuspendResume

from .forecast import Forecast
from .measured import TIMED, Listed, Measured, NoTimesError, last_needed, list_devices, measure

STEPS = {*PHASES, "suspend_enter", "sync_filesystems", "freeze_processes", "CPU_OFF", "CPU_ON", "syscore_suspend", "syscore_resume",
         "machine_suspend", "resume_console", "thaw_processes"}
MOST_NAMED = 8  # The most devices that a note names.
LEAST_TOLD = 1_000_000  # Callbacks whose length changed less, in nanoseconds, are not told.

Key = tuple[str, ...]


class Item(NamedTuple):
    """A place of an attempt's way: what happens, and the line."""

    what: tuple
    line: int


@dataclass(slots=True)
class Parting:
    """Where two ways part: in words, and the lines (None: that recording does not come to it)."""

    words: str
    line_a: int | None
    line_b: int | None

    @property
    def place(self) -> int:
        """A number by which the first of several is found."""
        return min(line for line in (self.line_a, self.line_b) if line is not None)


@dataclass(slots=True)
class PhaseTimes:
    """How long a phase took in both recordings, in nanoseconds."""

    attempt: int
    phase: Phase
    a: int
    b: int
    path_a: list[str]  # The devices on its longest path whose callbacks took a millisecond or more.
    path_b: list[str]


@dataclass(slots=True)
class Difference:
    """All that two recordings differ in."""

    partings: list[Parting] = field(default_factory=list)  # The first of all first.
    phases: list[PhaseTimes] = field(default_factory=list)
    callbacks: list[tuple[int, Phase, str, int, int]] = field(default_factory=list)  # Attempt, phase, device, both lengths.
    notes: list[str] = field(default_factory=list)

    def slower(self, by: int) -> list[PhaseTimes]:
        """The phases that took longer in the second recording, by more than so many nanoseconds."""
        return [times for times in self.phases if times.b - times.a > by]


def compare(a: Recording, b: Recording) -> Difference:
    """What two recordings differ in. Attempts are compared in their order."""
    found = Difference()
    for one, other in zip(a.attempts, b.attempts):
        compare_attempts(a, b, one, other, found)
    counts = len(a.attempts), len(b.attempts)
    if counts[0] != counts[1]:
        longer, at = (a.attempts, 0) if counts[0] > counts[1] else (b.attempts, 1)
        line = longer[min(counts)].line
        found.partings.append(Parting(f"A has {counts[0]} attempts, B {counts[1]}", line if at == 0 else None, line if at == 1 else None))
    return found


def compare_attempts(a: Recording, b: Recording, one: Attempt, other: Attempt, found: Difference) -> None:
    """Adds what two attempts differ in."""
    sides = Side(a, one), Side(b, other)
    partings = [*walk_partings(*sides), *apart_partings(*sides), *wait_partings(*sides)]
    found.partings += sorted(partings, key=lambda parting: parting.place)
    tell_devices(one.number, *sides, found)
    if None in (sides[0].measured, sides[1].measured):
        found.notes += [f"attempt {one.number}: {name} has no times" for name, side in zip("AB", sides) if side.measured is None and side.listed is not None]
        return
    compare_times(one.number, *sides, found)


class Side:
    """An attempt of one of the recordings, with the keys by which its devices are found in the other."""

    def __init__(self, recording: Recording, attempt: Attempt):
        self.attempt = attempt
        self.listed: Listed | None = None
        self.measured: Measured | None = None
        try:
            self.listed = list_devices(recording, attempt)
            self.measured = measure(recording, attempt)
        except NoTimesError:
            pass
        self.maker = next((event.pid for event in attempt.events if isinstance(event, SuspendResume)), None)
        self.keys: dict[Device, Key] = {}
        self.taken: dict[Key, int] = {}
        self.walk = list(self.walk_items())
        self.apart = self.apart_answers()

    def key(self, device: Device) -> Key:
        """What a device is called in both recordings: its parent and its name, and a number where that is not enough."""
        if device not in self.keys:
            plain = (device.parent.name if device.parent else "", device.name)
            number = self.taken[plain] = self.taken.get(plain, 0) + 1
            self.keys[device] = plain if number == 1 else (*plain, str(number))
        return self.keys[device]

    def walk_items(self) -> Iterator[Item]:
        """What the attempt's own task does, in its order."""
        last = None
        for event in self.attempt.events:
            item = None
            if event.pid != self.maker:
                continue
            if isinstance(event, SuspendResume) and event.action in STEPS:
                value = event.value if event.action.startswith("CPU") else None
                item = Item(("step", event.action, value, event.is_begin), event.line)
            elif isinstance(event, CallbackBegin):
                error = None if event.end is None else event.end.error
                item = Item(("callback", event.phase, self.key(event.device), error), event.line)
            if item is not None and not (last is not None and item.what == last.what):
                yield item
                last = item

    def apart_answers(self) -> dict[tuple[Phase, Key], CallbackBegin]:
        """The callbacks of other tasks."""
        return {(event.phase, self.key(event.device)): event for event in self.attempt.events
                if isinstance(event, CallbackBegin) and event.pid != self.maker}

    def in_walk(self) -> Mapping[tuple[Phase, Key], Item]:
        """The callbacks of the attempt's own task."""
        return {item.what[1:3]: item for item in self.walk if item.what[0] == "callback"}


# ---- the way


def walk_partings(a: Side, b: Side) -> Iterator[Parting]:
    """The first place where the attempts' own tasks do something else."""
    for one, other in zip(a.walk, b.walk):
        if one.what != other.what:
            yield Parting(other_words(one, other, a, b), one.line, other.line)
            return
    if len(a.walk) != len(b.walk):
        is_a = len(a.walk) > len(b.walk)
        longer, shorter, name = (a.walk, b.walk, "B") if is_a else (b.walk, a.walk, "A")
        item = longer[len(shorter)]
        yield Parting(f"{name} ends where the other has {item_words(item)}", item.line if is_a else None, None if is_a else item.line)


def other_words(one: Item, other: Item, a: Side, b: Side) -> str:
    """Why two ways part at these places."""
    for item, here, there, names in ((one, a, b, "AB"), (other, b, a, "BA")):
        if item.what[0] == "callback" and item.what[1:3] in there.apart:
            return f"{key_words(item.what[2])} is synchronous in {names[0]} and asynchronous in {names[1]} ({item.what[1]})"
    if one.what[:3] == other.what[:3] and one.what[0] == "callback":
        return f"{item_words(one)} answers {answer_words(one.what[3])} in A and {answer_words(other.what[3])} in B"
    return f"A has {item_words(one)} where B has {item_words(other)}"


def item_words(item: Item) -> str:
    kind, *rest = item.what
    if kind == "step":
        action, value, is_begin = rest
        return f"{action}{'' if value is None else f'[{value}]'} {'begin' if is_begin else 'end'}"
    return f"{rest[0]} of {key_words(rest[1])}"


def key_words(key: Key) -> str:
    return key[1] if not key[0] else f"{key[1]} (below {key[0]})"


def answer_words(error: int | None) -> str:
    return "nothing" if error is None else error_text(error) if error else "0"


def apart_partings(a: Side, b: Side) -> Iterator[Parting]:
    """Callbacks of other tasks that one attempt lacks, or that answer something else."""
    for key in dict.fromkeys([*a.apart, *b.apart]):
        one, other = a.apart.get(key), b.apart.get(key)
        what = f"{key[0]} of {key_words(key[1])}"
        if one is not None and other is not None:
            answers = [None if event.end is None else event.end.error for event in (one, other)]
            if answers[0] != answers[1]:
                yield Parting(f"{what} answers {answer_words(answers[0])} in A and {answer_words(answers[1])} in B", one.end and one.end.line, other.end and other.end.line)
        elif key not in (b if one is not None else a).in_walk():
            yield Parting(f"{what} is in {'A' if one is not None else 'B'} alone", one and one.line, other and other.line)


def wait_partings(a: Side, b: Side) -> Iterator[Parting]:
    """Devices that did not wait for what they wait for, in one attempt alone."""
    broken = [dict(broken_waits(side)) for side in (a, b)]
    for at, (mine, others) in enumerate(zip(broken, reversed(broken))):
        for (phase, device, other), lines in mine.items():
            if (phase, device, other) not in others:
                words = f"{phase} of {key_words(device)} begins before that of {key_words(other)} has ended, for which it has to wait, in {'AB'[at]} alone"
                yield Parting(words, lines if at == 0 else None, lines if at == 1 else None)


def broken_waits(side: Side) -> Iterator[tuple[tuple[Phase, Key, Key], int]]:
    """The waits that an attempt did not keep, with the line of the device that did not wait."""
    if side.listed is None:
        return
    for phase, callbacks in side.listed.callbacks.items():
        needed = last_needed(side.listed.plan, callbacks, phase)
        for number, callback in enumerate(callbacks):
            last = needed[number] if callback is not None else None
            if last is not None and last.end.line > callback.line:
                yield (phase, side.key(callback.device), side.key(last.device)), callback.line


# ---- devices and times


def tell_devices(number: int, a: Side, b: Side, found: Difference) -> None:
    """Notes the devices that one attempt lacks, and those that have become asynchronous or synchronous."""
    if a.listed is None or b.listed is None:
        return
    keys = [{side.key(device): place for place, device in enumerate(side.listed.devices)} for side in (a, b)]
    for name, mine, others in (("A", *keys), ("B", *reversed(keys))):
        alone = [key_words(key) for key in mine if key not in others]
        if alone:
            more = " and more" if len(alone) > MOST_NAMED else ""
            found.notes.append(f"attempt {number}: {len(alone)} devices are in {name} alone: {', '.join(alone[:MOST_NAMED])}{more}")
    for key in keys[0]:
        if key in keys[1]:
            flags = [keys[at][key] in side.listed.plan.asynchronous for at, side in enumerate((a, b))]
            if flags[0] != flags[1]:
                was = ["asynchronous" if flag else "synchronous" for flag in flags]
                found.notes.append(f"attempt {number}: {key_words(key)} is {was[0]} in A and {was[1]} in B")


def compare_times(number: int, a: Side, b: Side, found: Difference) -> None:
    """Adds how long each phase took, and the callbacks whose length changed, most first."""
    changed, forecasts = [], [Forecast(side.measured, side.measured.plan) for side in (a, b)]
    for phase in TIMED:
        if phase not in a.measured.phases or phase not in b.measured.phases:
            continue
        paths = [[step.device.name for step in forecast.path(phase) if step.length >= LEAST_TOLD] for forecast in forecasts]
        found.phases.append(PhaseTimes(number, phase, a.measured.phases[phase].total, b.measured.phases[phase].total, *paths))
        lengths = [lengths_of(side, phase) for side in (a, b)]
        for key, length in lengths[0].items():
            if key in lengths[1] and abs(lengths[1][key] - length) >= LEAST_TOLD:
                changed.append((number, phase, key_words(key), length, lengths[1][key]))
    found.callbacks += sorted(changed, key=lambda one: -abs(one[4] - one[3]))


def lengths_of(side: Side, phase: Phase) -> dict[Key, int]:
    """How long each callback of a phase took."""
    found = side.measured.phases[phase]
    return {side.key(callback.device): found.durations[place] for place, callback in enumerate(found.callbacks) if callback is not None}
