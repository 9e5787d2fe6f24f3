"""How an attempt ended, by its trace and by dmesg: where the kernel turned around, what made it, and what no input tells."""

from __future__ import annotations

import enum
from dataclasses import dataclass, field

from ..kernel.recording import (PHASES, Attempt, CallbackBegin, CallbackEnd, Clock, Event, Fact, Message, Phase, SourceActivate,
                                SourceDeactivate, SuspendResume)

EAGAIN = -11
SECOND = 1_000_000_000
SILENT = (Phase.PREPARE, Phase.COMPLETE)
TESTED = (Phase.SUSPEND, Phase.LATE)
STOPPED = (Phase.SUSPEND, Phase.LATE, Phase.NOIRQ)  # Phases in which an error keeps others from beginning.
TURNS = ("thaw_processes", "dpm_resume_noirq", "dpm_resume_early", "dpm_resume", "CPU_ON", "syscore_resume")
ACTIONS = {phase: action for action, phase in PHASES.items()}
MOST_REPORTS = 16


class Where(enum.StrEnum):
    """How far an attempt came."""

    NOTIFIERS = "before tasks were frozen"
    FREEZE = "while tasks were frozen"
    FROZEN = "after tasks were frozen"
    BEGIN = "in the platform's begin"
    PREPARE = "in prepare"
    SUSPEND = "in suspend"
    PLATFORM_PREPARE = "in the platform's prepare"
    LATE = "in late"
    IDLE_PREPARE = "in the platform's prepare for suspend-to-idle"
    NOIRQ = "in noirq"
    PREPARE_LATE = "in the platform's prepare_late"
    CPUS = "as processors went off"
    SYSCORE = "in the steps of the system core"
    LAST = "by the last test before the entry"
    IDLE = "in suspend-to-idle"
    ASLEEP = "asleep"


class Why(enum.StrEnum):
    """What turned an attempt around."""

    NOTHING = "nothing"
    ERROR = "an error"
    EVENT = "an event"
    TIMEOUT = "the time was up"
    NOT_TOLD = "not told"
    PM_TEST = "pm_test"


class Guard(enum.StrEnum):
    """What an attempt's tests could find."""

    PLAIN = "plain"  # Hard events alone.
    SAVED = "saved"  # Any event since a count was saved.


@dataclass(slots=True, eq=False)
class Outcome:
    """How an attempt ended. `turn` is the first event of the way back, None where the trace shows none."""

    where: Where
    why: Why
    turn: Event | None = None
    guard: Guard = Guard.PLAIN
    is_guard_told: bool = False
    event: SourceActivate | None = None  # The event that stopped the attempt; None where none did, or the trace shows none.
    is_hard: bool = False
    save_line: int | None = None  # The count is saved before this line; None: as the attempt begins.
    is_group_told: bool = False  # Whether dmesg tells that users or kernel threads did not freeze.
    is_kernel: bool = False
    tasks: list[Message] = field(default_factory=list)
    message: Message | None = None  # The message of dmesg that tells why.
    or_else: str = ""  # What else it may have been, as far as the inputs tell.


@dataclass(slots=True, eq=False)
class Survey:
    """What one look over an attempt finds."""

    attempt: Attempt
    items: list[Event]  # The attempt's events, without steps of sources behind its last own one.
    first: dict[tuple[str, bool], SuspendResume] = field(default_factory=dict)
    cpus: list[int] = field(default_factory=list)  # Of CPU_OFF, in order.
    on: set[int] = field(default_factory=set)  # Of CPU_ON: the kernel puts on again what went off.
    begins: dict[Phase, dict] = field(default_factory=dict)  # By device.
    errors: dict[Phase, list[CallbackEnd]] = field(default_factory=dict)
    events: list[SourceActivate] = field(default_factory=list)
    reports: dict[Event, CallbackBegin] = field(default_factory=dict)  # Steps of sources that a callback made.
    tests: list[tuple[Event, int]] = field(default_factory=list)  # Passed tests: the event behind it, the task's line before it.
    turn: Event | None = None
    barrier: int = 0  # An event of an earlier line would have been found by a test that found none.

    @property
    def last_line(self) -> int:
        """The line in which the attempt ends."""
        return self.items[-1].line

    def has(self, action: str, is_begin: bool = True) -> bool:
        """Whether the attempt has that step."""
        return (action, is_begin) in self.first

    def line(self, action: str, is_begin: bool = True) -> int | None:
        """The line of a step; None where there is none."""
        found = self.first.get((action, is_begin))
        return found.line if found else None


def survey(attempt: Attempt) -> Survey:
    """Looks over the events of an attempt."""
    count = len(attempt.events)
    while count > 1 and isinstance(attempt.events[count - 1], (SourceActivate, SourceDeactivate)):
        count -= 1
    found = Survey(attempt, attempt.events if count == len(attempt.events) else attempt.events[:count])
    last: dict[int, int] = {}  # The last line of each task.
    inside: dict[int, CallbackBegin] = {}
    counts: dict[CallbackBegin, int] = {}
    begins: dict = {}
    for event in found.items:
        kind, pid = type(event), event.pid
        if kind is CallbackBegin:
            phase = event.phase
            if begins is not found.begins.get(phase):
                begins = found.begins.setdefault(phase, {})
            begins[event.device] = event
            if phase not in SILENT:
                inside[pid] = event
                if phase in TESTED and found.turn is None:
                    found.tests.append((event, max(last.get(pid, 0), found.line(ACTIONS[phase]) or 0)))
        elif kind is CallbackEnd:
            inside.pop(pid, None)
            if event.error and is_error(event):
                found.errors.setdefault(event.phase, []).append(event)
        elif kind is SuspendResume:
            take_step(found, event)
            if found.turn is None and is_behind_test(event):
                found.tests.append((event, last.get(pid, 0)))
        else:
            take_source(found, event, inside, counts)
            continue
        last[pid] = event.line
    found.barrier = max((before for _, before in found.tests), default=0)
    for action, behind in (("dpm_suspend", "dpm_suspend_late"), ("dpm_suspend_late", "dpm_suspend_noirq")):
        if found.has(behind) and found.begins.get(Phase.PREPARE):  # (the phase went well, and each device tested in it)
            found.barrier = max(found.barrier, found.line(action) or 0)
    return found


def is_error(event: CallbackEnd) -> bool:
    """Whether a callback's answer stops its phase. A prepare that answers EAGAIN is made again."""
    if event.phase == Phase.PREPARE:
        return event.error < 0 and event.error != EAGAIN
    return event.error != 0


def take_step(found: Survey, event: SuspendResume) -> None:
    """Takes a step of the attempt."""
    found.first.setdefault((event.action, event.is_begin), event)
    if event.action == "CPU_OFF" and event.is_begin:
        found.cpus.append(event.value)
    elif event.action == "CPU_ON" and event.is_begin:
        found.on.add(event.value)
    if found.turn is None and event.is_begin and event.action in TURNS:
        found.turn = event


def take_source(found: Survey, event: Event, inside: dict, counts: dict) -> None:
    """Takes a step of a wakeup source: whether a callback made it, or somebody else."""
    if isinstance(event, SourceActivate):
        found.events.append(event)
    callback = inside.get(event.pid)
    if callback is not None and not event.is_in_interrupt and event.source != "autosleep" and counts.get(callback, 0) < MOST_REPORTS:
        counts[callback] = counts.get(callback, 0) + 1
        found.reports[event] = callback


def is_behind_test(event: SuspendResume) -> bool:
    """Whether a test for an event, which found none, stands right before this step."""
    if event.is_begin:
        return event.action == "CPU_OFF" or event.action == "machine_suspend" and event.value != 1
    return event.action == "syscore_suspend"


# ---- how it ended


def since_write(earlier: list[tuple[SourceActivate, bool]]) -> list[tuple[SourceActivate, bool]]:
    """The activations behind the last write to autosleep: its work saves the count only after that."""
    last = max((place for place, (event, _) in enumerate(earlier) if event.source == "autosleep"), default=-1)
    return earlier[last + 1:]


class Decider:
    """Decides how one attempt ended.

    `active` says whether a source was active as the attempt began; `earlier` are the activations since the attempt before,
    each with whether no other source was active then; `expected` are the devices that have a suspend callback in some attempt.
    """

    def __init__(self, seen: Survey, clock: Clock, is_auto: bool, active: bool, earlier: list[tuple[SourceActivate, bool]],
                 processors: int | None, expected: set):
        self.seen, self.clock, self.is_auto, self.active = seen, clock, is_auto, active
        self.earlier = since_write(earlier) if is_auto else earlier
        self.processors, self.expected = processors, expected
        self.told = seen.attempt.told
        self.stopper = self.find_stopper()

    def message(self, *facts: Fact) -> Message | None:
        """The first message of dmesg with one of the facts."""
        return self.told.first(*facts) if self.told else None

    def text(self, words: str) -> Message | None:
        """The first message of dmesg with these words."""
        return next((message for message in self.told.messages if words in message.text), None) if self.told else None

    @property
    def is_whole(self) -> bool:
        """Whether dmesg has the whole attempt, so that a message that is always printed is missing only if it was not."""
        return self.told is not None and self.told.is_whole

    def decide(self) -> Outcome:
        """How the attempt ended."""
        seen = self.seen
        if seen.has("machine_suspend"):
            where = Where.IDLE if seen.first["machine_suspend", True].value == 1 else Where.ASLEEP
            return self.plain(where, Why.NOTHING)
        if seen.has("syscore_suspend"):
            return self.in_core()
        if seen.cpus:
            return self.in_processors()
        if seen.has("dpm_suspend_noirq"):
            return self.error(Where.NOIRQ, Phase.NOIRQ) or self.before_processors()
        if seen.has("dpm_suspend_late"):
            return self.error(Where.LATE, Phase.LATE) or self.in_late()
        if seen.has("dpm_suspend"):
            return self.error(Where.SUSPEND, Phase.SUSPEND) or self.in_suspend()
        if seen.has("dpm_prepare"):
            return self.error(Where.PREPARE, Phase.PREPARE) or self.plain(Where.PREPARE, Why.NOT_TOLD)
        return self.before_devices()

    def plain(self, where: Where, why: Why, message: Message | None = None, or_else: str = "") -> Outcome:
        """An outcome that no event made."""
        found = Outcome(where, why, self.seen.turn, message=message, or_else=or_else)
        if self.is_auto:
            found.guard, found.is_guard_told = Guard.SAVED, True
        elif why == Why.ERROR and self.message(Fact.WAKEUP_PENDING) and self.stopper is not None and self.stopper.guard == Guard.SAVED:
            found.guard, found.event, found.save_line, found.is_guard_told = Guard.SAVED, self.stopper.event, self.stopper.save_line, True
        if found.guard == Guard.SAVED and found.save_line is None and self.active:
            found.save_line = self.free_line()
        return found

    def error(self, where: Where, phase: Phase) -> Outcome | None:
        """The outcome of a phase in which a callback answered an error."""
        return self.plain(where, Why.ERROR, self.message(Fact.DEVICE_FAILED, Fact.NOT_PREPARED)) if self.seen.errors.get(phase) else None

    def event(self, where: Where, message: Message | None = None, or_else: str = "") -> Outcome:
        """The outcome of a test that found an event."""
        pending = self.message(Fact.WAKEUP_PENDING)
        found = self.stopper or self.unseen()
        found.where, found.why, found.message, found.or_else = where, Why.EVENT, message or pending, or_else
        return found

    # ---- the event that stopped it

    def unseen(self) -> Outcome:
        """An event of which the trace has no line."""
        pending, irq = self.message(Fact.WAKEUP_PENDING), self.message(Fact.TRIGGERED_IRQ)
        is_told = self.is_auto or pending is not None or irq is not None or self.told is not None and self.told.has_debug_messages
        passed = any(event.line <= self.seen.barrier for event in self.seen.events) or self.active
        is_hard = not self.is_auto and pending is None and (is_told or passed)
        guard = Guard.PLAIN if is_hard else Guard.SAVED
        return Outcome(Where.SUSPEND, Why.EVENT, self.seen.turn, guard, is_told)

    def find_stopper(self) -> Outcome | None:
        """The event that a test may have found, with what made the test find it; None where the trace has none."""
        if self.seen.turn is None or self.message(Fact.TRIGGERED_IRQ) and not self.message(Fact.WAKEUP_PENDING):
            return None
        saved, hard = self.saved(), None if self.is_auto else self.hard()
        pending = self.message(Fact.WAKEUP_PENDING)
        is_told = self.is_auto or pending is not None or self.told is not None and self.told.has_debug_messages
        if is_told and not self.is_auto and pending is None:
            found = hard or saved
        else:
            found = saved or hard
        if found is not None:
            found.is_guard_told = is_told
        return found

    def within(self) -> list[SourceActivate]:
        """Activations that may have come before the kernel turned around; the line of one may stand right behind that."""
        turn = self.seen.turn
        found = [event for event in self.seen.events if event.line < turn.line]
        if found:
            return found
        later = next((event for event in self.seen.events), None)
        if later is None or later.pid == turn.pid and not later.is_in_interrupt:
            return []
        between = [event for event in self.seen.items if turn.line < event.line < later.line and event.pid == turn.pid]
        return [later] if len(between) <= 2 else []

    def outcome(self, guard: Guard, event: SourceActivate, save_line: int | None = None) -> Outcome:
        """An outcome by an event."""
        return Outcome(Where.SUSPEND, Why.EVENT, self.seen.turn, guard, False, event, guard == Guard.PLAIN, save_line)

    def saved(self) -> Outcome | None:
        """The event that a saved count finds: the first one since, behind which no test passed."""
        if self.active:
            line = self.free_line()
            event = next((event for event, _ in self.earlier if event.line == line), None)
            return self.outcome(Guard.SAVED, event, line) if event and self.seen.barrier < self.seen.attempt.line else None
        first = next(iter(self.within()), None)
        if first is not None:
            return self.outcome(Guard.SAVED, first) if first.line > self.seen.barrier else None
        last = next((event for event, is_first in reversed(self.earlier) if is_first), None)
        if last is None or self.seen.tests:
            return None
        return self.outcome(Guard.SAVED, last, last.line)

    def free_line(self) -> int | None:
        """The line of the activation before which no source was active, and one was ever since."""
        return next((event.line for event, is_first in reversed(self.earlier) if is_first), None)

    def hard(self) -> Outcome | None:
        """The event that must have been a hard one."""
        since = max(self.seen.barrier, self.seen.line("freeze_processes") or 0)
        event = next((event for event in self.within() if event.line > since), None)
        return self.outcome(Guard.PLAIN, event) if event else None

    # ---- the places

    def before_devices(self) -> Outcome:
        """An attempt that came to no phase of devices."""
        seen = self.seen
        if not seen.has("freeze_processes"):
            return self.plain(Where.NOTIFIERS, Why.NOT_TOLD)
        ends, thaws = seen.line("freeze_processes", False), seen.line("thaw_processes")
        if ends is not None and (thaws is None or ends < thaws):
            return self.after_freeze()
        return self.in_freeze()

    def after_freeze(self) -> Outcome:
        """Tasks were frozen, and no phase of devices began."""
        entered = self.seen.has("suspend_enter", False)
        debug = self.message(Fact.SUSPEND_DEBUG)
        if debug is not None or not entered and self.seen.has("suspend_enter"):
            return self.plain(Where.FROZEN, Why.PM_TEST, debug)
        return self.plain(Where.BEGIN, Why.NOT_TOLD)

    def in_freeze(self) -> Outcome:
        """Tasks did not freeze."""
        aborted, failed = self.message(Fact.FREEZE_ABORTED), self.message(Fact.FREEZE_FAILED)
        is_event = aborted is not None or failed is None and self.stopper is not None and self.is_soon()
        found = self.event(Where.FREEZE, aborted) if is_event else self.plain(Where.FREEZE, Why.TIMEOUT, failed)
        found.is_group_told = self.message(Fact.FREEZE_USER) is not None
        found.is_kernel = self.message(Fact.FREEZE_KERNEL) is not None
        found.tasks = self.told.all(Fact.TASK) if self.told else []
        return found

    def is_soon(self) -> bool:
        """Whether the freeze ended soon after the event: the freezer looks for events all the time."""
        event, turn = self.stopper.event, self.seen.turn
        if self.clock == Clock.COUNTER or event.time is None or turn.time is None:
            return True
        return turn.time - event.time < 2 * SECOND

    def in_suspend(self) -> Outcome:
        """Suspend without an error of a callback, and no late phase."""
        if (debug := self.message(Fact.SUSPEND_DEBUG)) is not None:
            return self.plain(Where.PLATFORM_PREPARE, Why.PM_TEST, debug)
        failed = self.failed(Phase.SUSPEND) or self.message(Fact.SUSPEND_FAILED)
        if failed is not None:
            return self.event(Where.SUSPEND)
        if self.is_whole or self.completed(Phase.SUSPEND):
            return self.plain(Where.PLATFORM_PREPARE, Why.NOT_TOLD, self.completed(Phase.SUSPEND))
        ends, event = self.seen.line("dpm_suspend", False), self.stopper.event if self.stopper else None
        is_behind = event is not None and ends is not None and event.line > ends and not self.is_cut_short()
        if (self.stopper is not None or self.is_cut_short()) and not is_behind:
            return self.event(Where.SUSPEND, None, "" if self.is_cut_short() else "a failure of the platform's prepare, or pm_test")
        return self.plain(Where.PLATFORM_PREPARE, Why.NOT_TOLD, None, "pm_test, or a test that found an event of which the trace has no line")

    def is_cut_short(self) -> bool:
        """Whether a device was prepared that has a suspend callback in another attempt, and here none and none of resume."""
        here = self.seen.begins.get(Phase.SUSPEND, {}).keys() | self.seen.begins.get(Phase.RESUME, {}).keys()
        return bool((self.expected & self.seen.begins.get(Phase.PREPARE, {}).keys()) - here)

    def failed(self, phase: Phase) -> Message | None:
        """The message that a phase was aborted."""
        return next((message for message in self.told.all(Fact.PHASE_FAILED) if message.phase == phase), None) if self.told else None

    def completed(self, phase: Phase) -> Message | None:
        """The message that a phase is complete."""
        return next((message for message in self.told.all(Fact.PHASE_COMPLETE) if message.phase == phase), None) if self.told else None

    def in_late(self) -> Outcome:
        """Late without an error of a callback, and no noirq phase."""
        early, end = self.seen.line("dpm_resume_early"), self.seen.line("dpm_suspend_late", False)
        if early is not None and end is not None and end < early:
            return self.plain(Where.IDLE_PREPARE, Why.NOT_TOLD)
        return self.event(Where.LATE)

    def before_processors(self) -> Outcome:
        """Noirq went well, and nothing came behind it."""
        if (debug := self.message(Fact.SUSPEND_DEBUG)) is not None:
            where = Where.CPUS if self.text("Disabling non-boot CPUs") else Where.PREPARE_LATE
            return self.plain(where, Why.PM_TEST, debug)
        if self.seen.attempt.state == 1 or self.message(Fact.SUSPEND_TO_IDLE):
            idle = self.message(Fact.SUSPEND_TO_IDLE)
            return self.plain(Where.IDLE, Why.NOTHING, idle, "" if idle else "a failure of the platform, or pm_test")
        if (aborted := self.message(Fact.CPU_ABORTED)) is not None:
            return self.event(Where.CPUS, aborted)
        if self.is_whole:
            return self.plain(Where.PREPARE_LATE, Why.NOT_TOLD)
        if self.stopper is not None and self.processors != 1:
            return self.event(Where.CPUS, None, "a failure of the platform's prepare_late, or pm_test")
        return self.plain(Where.PREPARE_LATE, Why.NOT_TOLD, None, "pm_test, or a test that found an event of which the trace has no line")

    def in_processors(self) -> Outcome:
        """Processors went off, and the system core was not reached."""
        if (debug := self.message(Fact.SUSPEND_DEBUG)) is not None:
            return self.plain(Where.CPUS, Why.PM_TEST, debug)
        if (aborted := self.message(Fact.CPU_ABORTED)) is not None:
            return self.event(Where.CPUS, aborted)
        if (failed := self.message(Fact.CPU_ERROR)) is not None or self.seen.cpus[-1] not in self.seen.on:
            return self.plain(Where.CPUS, Why.ERROR, failed)
        all_went = self.processors is not None and len(self.seen.cpus) >= self.processors - 1
        if self.stopper is not None and not all_went:
            return self.event(Where.CPUS, None, "a processor that did not go off")
        if all_went:
            return self.plain(Where.CPUS, Why.PM_TEST, None, "the last processor, which did not go off")
        return self.plain(Where.CPUS, Why.ERROR, None, "a test that found an event of which the trace has no line, or pm_test")

    def in_core(self) -> Outcome:
        """The system core was reached, and the machine did not sleep."""
        if (debug := self.message(Fact.SUSPEND_DEBUG)) is not None:
            return self.plain(Where.LAST, Why.PM_TEST, debug)
        if self.seen.has("syscore_suspend", False):
            if self.stopper is not None or self.message(Fact.WAKEUP_PENDING):
                return self.event(Where.LAST, None, "" if self.told else "pm_test")
            return self.plain(Where.LAST, Why.PM_TEST, None, "a test that found an event of which the trace has no line")
        if (failed := self.text("System core suspend callback")) is not None:
            return self.plain(Where.SYSCORE, Why.ERROR, failed)
        if self.stopper is not None or self.message(Fact.WAKEUP_PENDING):
            return self.event(Where.SYSCORE, None, "" if self.is_whole else "a step of the system core that failed")
        return self.plain(Where.SYSCORE, Why.ERROR, None, "a test that found an event of which the trace has no line")


# ---- where events go in the log


def arranged(seen: Survey, outcome: Outcome) -> list[Event]:
    """The events of an attempt in the order of a log.

    The word of events moves before its line is written, and a device's test comes before the line of its begin. So a begin
    that stands behind the event that stopped the attempt comes before it, if it is the first line of its task since; and that
    event comes before the end of what it stopped. An error counts only after its line, so it comes behind such begins.
    """
    keys: dict[Event, tuple] = {}
    if outcome.event is not None and outcome.guard == Guard.SAVED or outcome.is_hard:
        move_begins(seen, outcome.event, keys)
    if outcome.why == Why.EVENT and outcome.event is not None and outcome.turn is not None:
        hold_event(seen, outcome, keys)
    for phase, ends in seen.errors.items():
        if phase in STOPPED:
            delay_errors(seen, phase, ends, keys)
    if not keys:
        return seen.items
    return sorted(seen.items, key=lambda event: keys.get(event, (event.line, 0, 0)))


def move_begins(seen: Survey, stop: SourceActivate, keys: dict) -> None:
    """Puts begins whose test came before the event in front of it."""
    for event, before in seen.tests:
        if before < stop.line < event.line and seen.attempt.line <= stop.line:
            keys[event] = (stop.line, -1, event.line)


def hold_event(seen: Survey, outcome: Outcome, keys: dict) -> None:
    """Puts the event that stopped the attempt in front of the end of what it stopped."""
    limit = seen.first.get(("dpm_suspend", False)) if outcome.where == Where.SUSPEND else outcome.turn
    if limit is not None and outcome.event.line > limit.line:
        keys[outcome.event] = (limit.line, -1, outcome.event.line)


def delay_errors(seen: Survey, phase: Phase, ends: list[CallbackEnd], keys: dict) -> None:
    """Puts errors behind begins of other tasks whose look at the error may have come before."""
    last: dict[int, int] = {}
    waiting: list[CallbackEnd] = []
    errors = set(ends)
    for event in seen.items:
        if isinstance(event, (SourceActivate, SourceDeactivate)):
            continue
        if waiting:  # (a task that has gone on has let its error count)
            waiting = [end for end in waiting if end.pid != event.pid]
        if isinstance(event, CallbackBegin) and event.phase == phase:
            for end in waiting:
                if last.get(event.pid, 0) < end.line:
                    keys[end] = (event.line, 1, end.line)
        if event in errors:
            waiting.append(event)
        last[event.pid] = event.line
