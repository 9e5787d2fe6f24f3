"""An event at each place of an attempt: a run a place, in which callbacks take the time that a trace tells.

The machine is run by the second writing of a run. An interrupt line of its own makes the event right after a chosen entry.
Places between which nobody looks at the event word have one outcome, so one run stands for all of them.
"""

from __future__ import annotations

import heapq
import os
from dataclasses import dataclass, field, replace
from typing import Iterable, Iterator, Mapping, Sequence

from julampok.errors import CannotError
from julampok.limits import ERRORS, MOST
from julampok.second.run import Run
from julampok.second.things import SourceFull

NAME = "sweep"  # Of the source and of the interrupt line, with a number where the machine has it.
# Entries that may come out otherwise after an event; of these `begin` and `skip` in two phases alone.
TESTS = {"save", "saved", "unsaved", "read", "cpu", "syscore", "enter", "freeze", "froze", "wake", "run", "after", "attempt"}
TESTED = ("suspend", "late")
# Steps of other tasks and lines that neither look at the event word nor are waited for, but where a freezer or a sleeper waits.
ASIDE = {"post", "got", "pass", "sleep", "sleep_d", "slept", "exit"}
WAITING = {"freeze", "asleep"}
WRITER = {"name": "writer", "kind": "user", "script": [{"op": "read"}, {"op": "save"}, {"op": "state", "text": "mem", "if_saved": True}]}
# The stage that begins behind an entry.
STAGES = {
    "attempt": "notifiers", "freeze": "freeze", "platform begin": "prepare", "done prepare": "suspend", "platform prepare": "late",
    "done late": "noirq", "platform prepare_late": "processors", "irqs off": "core", "enter": "asleep", "wake": "core, on the way up",
    "irqs on": "processors, on the way up", "platform wake": "resume_noirq", "done resume_noirq": "early", "platform finish": "resume",
    "platform recover": "resume", "done resume": "complete", "platform end": "thaw"}
FAILED = {  # The stage behind an entry that tells an error.
    "notify": "thaw", "froze": "thaw", "platform begin": "thaw", "done prepare": "resume", "done suspend": "resume", "platform prepare": "resume",
    "done late": "early", "done noirq": "resume_noirq", "platform prepare_late": "resume_noirq", "cpu EBUSY": "processors, on the way up",
    "syscore check": "core, on the way up", "syscore suspend": "core, on the way up", "enter": "core, on the way up"}
UNDONE = ("resume_noirq", "early", "resume")  # Phases in which devices are undone.


@dataclass(slots=True, frozen=True)
class Event:
    """The event of a sweep: how long it is in progress, in ms, and whether it stops an attempt that saved no count."""

    ms: int = 0
    is_hard: bool = False


@dataclass(slots=True, frozen=True)
class Place:
    """A place of the attempt: behind which entry, in which stage, and when, in nanoseconds of the trace's callbacks."""

    line: int  # Of the run without the event, from 0.
    body: str
    stage: str
    time: int
    moment: int  # In ms of the machine's own time.


@dataclass(slots=True)
class Outcome:
    """What comes of the event at a place.

    `found_by` is the entry that found it, in few words, or "nothing"; `waited` the nanoseconds until then. `undone` are the
    devices of each phase on the way up that came behind it, and `undone_others` the other entries that undo something.
    """

    found_by: str = "nothing"
    time: int | None = None
    result: str = ""
    slept: bool = False
    undone: dict[str, list[str]] = field(default_factory=dict)
    undone_others: list[str] = field(default_factory=list)
    waited: int | None = None


class Timed(Run):
    """A machine under way whose callbacks take time: meanwhile others go on.

    `at` is the line, of those that others make, behind which the interrupt line of the sweep makes the event; None: never.
    """

    def __init__(self, tree: dict, durations: Mapping[tuple[str, str], int], attempt: int, at: int | None = None):
        super().__init__(tree)
        self.durations, self.last, self.at = durations, attempt, at
        self.clock, self.busy, self.stamps = 0, {}, []
        self.is_done, self.others = False, 0
        self.event_line = None  # The line in which the event begins.
        self.line = self.tasks[-1]  # The sweep's own interrupt line is the last task.
        self.line_job = self.ready_jobs.pop(len(self.tasks) - 1)
        self.owners = [task.label for task in self.tasks[:-1]] + ["auto"]
        if at is not None and self.line.steps[0]["op"] == "sleep":
            next(self.line_job)

    def put(self, who: str, body: str) -> None:
        super().put(who, body)
        self.stamps.append(self.clock)
        self.others += who != self.line.label
        words = body.split(" ")
        if words[0] == "begin" and (length := self.durations.get((words[1], words[2]), 0)):
            self.busy[who] = self.clock + length
        self.is_done = self.is_done or words[0] == "over" and int(words[1]) == self.last

    def is_busy(self, who: str) -> bool:
        return self.busy.get(who, 0) > self.clock

    def turn(self, job) -> bool:
        """A turn, behind which the event may have its place."""
        did = next(job)
        if self.at is not None and self.others > self.at:
            self.make_event()
        return did

    def make_event(self) -> None:
        """The interrupt line wakes if it sleeps, and makes the event."""
        self.at = None
        if self.line.until is not None:
            next(self.line_job)
        self.event_line = len(self.lines)
        next(self.line_job)
        self.ready_jobs.append(self.line_job)
        self.owners.append(self.line.label)

    def round(self) -> bool:
        did = [self.turn(job) for who, job in list(zip(self.owners, self.ready_jobs)) if not self.is_busy(who)]
        did.append(self.phase is not None and self.round_beside(self.phase))
        for source, job in self.timers:
            if source.expiry is not None and source.expiry <= self.time:
                did.append(self.turn(job))
        return any(did)

    def round_beside(self, phase) -> bool:
        did, phase.todo = False, sorted(phase.ready)
        while phase.todo:
            phase.now = heapq.heappop(phase.todo)
            name = self.names[phase.now]
            if self.is_busy(f"dev:{name}"):
                continue
            if self.turn(self.beside[name]):
                did = True
            else:
                phase.ready.discard(phase.now)
        phase.now = len(self.names)
        return did

    def to_end(self, is_whole: bool = False) -> bool:
        """Runs until the attempt is over, or to the end; whether the attempt came to be over."""
        while is_whole or not self.is_done:
            if self.round():
                continue
            later = [time for time in self.busy.values() if time > self.clock]
            if later:
                self.clock = min(later)
                self.busy = {who: time for who, time in self.busy.items() if time > self.clock}
                continue
            pending = list(self.times())
            if self.is_over() or not pending:
                break
            self.time = min(pending)
            self.put("time", "jump")
        return self.is_done


class Sweep:
    """A machine and an event, which is tried at each place of one of its attempts."""

    def __init__(self, tree: dict, event: Event, attempt: int = 1, durations: Mapping[tuple[str, str], int] | None = None):
        """Raises CannotError where the machine does not make that attempt, or has no room for the event's source or line."""
        self.tree = with_event(tree, event)
        self.attempt, self.durations = attempt, durations or {}
        self.event = event
        base = Timed(self.tree, self.durations, attempt)
        try:
            is_over = base.to_end()
        except SourceFull as full:
            raise CannotError(f"the source {full} has no room for the events of the machine") from None
        if not is_over:
            raise CannotError(f"the machine does not make attempt {attempt}" if attempt > 1 else "the machine makes no attempt to sleep that ends")
        self.bodies = [line.split(" ", 3)[3] for line in base.lines]
        self.owners = [line.split(" ", 3)[2] for line in base.lines]
        self.begin = self.bodies.index(next(body for body in self.bodies if body.startswith(f"attempt {attempt} ")))
        self.is_guarded = " guarded " in self.bodies[self.begin]
        self.maker = self.owners[self.begin]
        self.places = list(self.all_places(base.stamps, [int(line.split(" ", 1)[0]) for line in base.lines]))

    def all_places(self, stamps: Sequence[int], moments: Sequence[int]) -> Iterator[Place]:
        """The places from the count that the attempt's writer read last, if it did, to the attempt's last entry but `over`."""
        first, stage = self.begin, "before"
        end = self.bodies.index(next(body for body in self.bodies if body.startswith(f"over {self.attempt} ")))
        for line in range(self.begin - 1, -1, -1):
            if self.owners[line] == self.maker and self.bodies[line].startswith(("read ", "over ")):
                first = line if self.bodies[line].startswith("read ") else first
                break
        for line in range(first, end):
            stage = stage_after(self.bodies[line], stage) if line >= self.begin else stage
            yield Place(line, self.bodies[line], stage, stamps[line], moments[line])

    def groups(self) -> list[list[Place]]:
        """The places, those with one outcome together."""
        found: list[list[Place]] = []
        for place in self.places:
            if found and not self.is_looked_at(place):
                found[-1].append(place)
            else:
                found.append([place])
        return found

    def is_looked_at(self, place: Place) -> bool:
        """Whether somebody may look at the event word or at time in the entry before a place."""
        who, words = self.owners[place.line], place.body.split(" ")
        is_test = words[0] in TESTS or words[0] in ("begin", "skip") and words[1] in TESTED
        is_aside = words[0] in ASIDE and place.stage not in WAITING
        return is_test or who != self.maker and not who.startswith("dev:") and not is_aside

    def machine(self, place: Place) -> dict:
        """The machine with the event at a place: its interrupt line sleeps until that moment."""
        if place.moment == 0:
            return self.tree
        *actors, line = self.tree["actors"]
        return self.tree | {"actors": [*actors, line | {"script": [{"op": "sleep", "ms": place.moment}, *line["script"]]}]}

    def ran(self, place: Place, is_whole: bool) -> Timed:
        run = Timed(self.machine(place), self.durations, self.attempt, place.line)
        run.to_end(is_whole)
        return run

    def outcome(self, place: Place) -> Outcome:
        """What comes of the event at a place."""
        run = self.ran(place, is_whole=False)
        return outcome_of([line.split(" ", 3)[3] for line in run.lines], run.stamps, run.event_line, self.attempt)

    def log(self, place: Place) -> str:
        """The whole log of the machine with the event at a place."""
        return self.ran(place, is_whole=True).end()[0]

    def outcomes(self, jobs: int, progress=None) -> list[tuple[Place, Outcome]]:
        """What comes of the event at each place, by so many processes."""
        groups, found = self.groups(), []
        for number, (group, outcome) in enumerate(zip(groups, self.tried([group[0] for group in groups], jobs)), 1):
            for place in group:
                waited = None if outcome.time is None else outcome.time - place.time
                found.append((place, replace(outcome, waited=waited)))
            if progress is not None:
                progress.at(number)
        return found

    def tried(self, places: Sequence[Place], jobs: int) -> Iterable[Outcome]:
        """The outcome at each place, in their order; by this process alone where no others can be had."""
        if jobs < 2 or len(places) < 2 * jobs:
            return map(self.outcome, places)
        try:
            import multiprocessing
            pool = multiprocessing.get_context("fork").Pool(jobs, keep, [self])
        except (ImportError, OSError, ValueError):
            return map(self.outcome, places)
        return pooled(pool, places)


KEPT: list[Sweep] = []  # The sweep of a process that tries places.


def keep(sweep: Sweep) -> None:
    KEPT[:] = [sweep]


def try_one(place: Place) -> Outcome:
    return KEPT[0].outcome(place)


def pooled(pool, places: Sequence[Place]) -> Iterator[Outcome]:
    with pool:
        yield from pool.imap(try_one, places, chunksize=4)


def processors() -> int:
    """How many processors this process may use."""
    return len(os.sched_getaffinity(0)) if hasattr(os, "sched_getaffinity") else os.cpu_count() or 1


def with_event(tree: dict, event: Event) -> dict:
    """The machine with the event's source and interrupt line as its last ones, and with a writer where nobody writes the state."""
    sources, actors = list(tree.get("sources", [])), list(tree.get("actors", []))
    ops = {step["op"] for actor in actors for step in actor.get("script", [])}
    if not ops & {"state", "autosleep"}:
        actors.append(WRITER | {"name": free_name("writer", [actor["name"] for actor in actors])})
    source, actor = free_name(NAME, [*sources, "autosleep"]), free_name(NAME, [actor["name"] for actor in actors])
    step = {"op": "event", "source": source, "ms": event.ms, "hard": event.is_hard}
    actors.append({"name": actor, "kind": "irq", "script": [step]})
    for member, found in (("sources", [*sources, source]), ("actors", actors)):
        if len(found) > MOST[member]:
            raise CannotError(f"the machine has no room for another one in {member}")
    return tree | {"sources": [*sources, source], "actors": actors}


def free_name(name: str, taken: Sequence[str]) -> str:
    """The name, with a number where it is taken."""
    found, number = name, 1
    while found in taken:
        number += 1
        found = f"{name}-{number}"
    return found


# ---- what a log tells of the event


def stage_after(body: str, stage: str) -> str:
    """The stage behind an entry of the attempt."""
    words = body.split(" ")
    head = " ".join(words[:2])
    is_error = words[-1] in ERRORS or words[0] == "froze" and words[2] in ERRORS or head == "cpu EBUSY"
    stages = FAILED if is_error and (words[0] in FAILED or head in FAILED) else STAGES
    return stages.get(words[0], stages.get(head, stage))


def outcome_of(bodies: Sequence[str], stamps: Sequence[int], begin: int, attempt: int) -> Outcome:
    """What came of the event whose own entries begin at that line."""
    found = Outcome()
    for line in range(begin, len(bodies)):
        words = bodies[line].split(" ")
        finder = finder_of(words) if found.found_by == "nothing" else None
        if finder is not None:
            found.found_by, found.time = finder, stamps[line]
        if found.found_by != "nothing" and not found.result:
            take_undone(words, found)
        if words[0] == "over" and int(words[1]) == attempt:
            found.result = words[2]
    found.slept = "enter" in bodies and any(body.startswith("wake ") for body in bodies[last_attempt(bodies, attempt):])
    return found


def last_attempt(bodies: Sequence[str], attempt: int) -> int:
    """The line in which an attempt begins; behind all where it never does."""
    return next((line for line, body in enumerate(bodies) if body.startswith(f"attempt {attempt} ")), len(bodies))


def finder_of(words: Sequence[str]) -> str | None:
    """Which test an entry is that found an event; None where it is none."""
    if words[0] == "skip" and words[3] == "pending":
        return f"{words[1]} {words[2]}"
    if words[0] == "froze" and words[2:4] == ["EBUSY", "wakeup"]:
        return f"freeze {words[1]}"
    plain = {"cpu EBUSY": "cpu", "syscore check EBUSY": "syscore check", "enter EBUSY": "enter", "wake event": "wake"}
    text = " ".join(words)
    if words[:2] == ["cpu", "EBUSY"]:
        return f"cpu {words[2]}"
    if words[0] == "save" and words[2] == "EINVAL" or words[0] == "unsaved":
        return "save"
    return plain.get(text)


def take_undone(words: Sequence[str], found: Outcome) -> None:
    """Adds what an entry undoes."""
    if words[0] == "begin" and words[1] in UNDONE:
        found.undone.setdefault(words[1], []).append(words[2])
    elif words[0] == "complete":
        found.undone.setdefault(words[0], []).append(words[1])
    elif words[:2] in (["syscore", "resume"], ["cpu", "on"]) or words[0] == "thaw" or words[0] == "notify" and words[2] == "post":
        found.undone_others.append(" ".join(words))
    elif words[0] == "platform" and len(words) == 2 or words == ["irqs", "on"]:
        found.undone_others.append(" ".join(words))


# ---- real names


def real_words(words: str, real: Mapping[str, str]) -> str:
    """An entry, or what found an event, with the real name of its device."""
    parts = words.split(" ")
    place = 1 if parts[0] in ("prepare", "complete", *TESTED) else 2 if parts[0] in ("schedule", "begin", "end", "skip") else None
    if place is not None and place < len(parts):
        parts[place] = real.get(parts[place], parts[place])
    return " ".join(parts)


def real_place(place: Place, real: Mapping[str, str]) -> Place:
    """A place with the real name of its device."""
    return replace(place, body=real_words(place.body, real)) if real else place


def real_outcome(outcome: Outcome, real: Mapping[str, str]) -> Outcome:
    """An outcome with the real names of its devices."""
    if not real:
        return outcome
    undone = {phase: [real.get(name, name) for name in names] for phase, names in outcome.undone.items()}
    return replace(outcome, found_by=real_words(outcome.found_by, real), undone=undone)
