"""Tells of one attempt what stopped it, in plain sentences. `line N` is a line of the trace, `dmesg line N` one of dmesg."""

from __future__ import annotations

import re

from ..kernel.errnos import error_name, error_text
from ..kernel.recording import CallbackBegin, CallbackEnd, Fact, Phase, SourceActivate
from .attempt import Following
from .outcome import Guard, Where, Why

MOST_NAMED = 4  # Devices that one sentence names.
PLATFORM = {Where.BEGIN: "begin", Where.PLATFORM_PREPARE: "prepare", Where.PREPARE_LATE: "prepare_late",
            Where.IDLE_PREPARE: "prepare for suspend-to-idle"}
TESTS = {"cpu": "The test before {} went off found it.", "core": "The test before the first step of the system core found it.",
         "last": "The last test before the entry found it."}
LEVELS = {Where.FROZEN: "freezer", Where.PLATFORM_PREPARE: "devices", Where.PREPARE_LATE: "platform", Where.CPUS: "processors",
          Where.LAST: "core"}


def listed(names: list[str]) -> str:
    """Names in a sentence."""
    if len(names) > MOST_NAMED:
        return f"{', '.join(names[:MOST_NAMED])} and {len(names) - MOST_NAMED} more"
    return names[0] if len(names) == 1 else f"{', '.join(names[:-1])} and {names[-1]}" if names else ""


class Teller:
    """Tells of one attempt that was followed."""

    def __init__(self, following: Following):
        self.following = following
        self.attempt, self.outcome = following.seen.attempt, following.outcome
        self.told = self.attempt.told

    # ---- the answer

    def answer(self) -> str | None:
        """What the write to state answered, as far as it is known; None where no input tells."""
        outcome, seen = self.outcome, self.following.seen
        if outcome.why in (Why.NOTHING, Why.PM_TEST):
            return None if outcome.why == Why.NOTHING and outcome.or_else else "0"
        if outcome.why in (Why.EVENT, Why.TIMEOUT):
            return "EBUSY"
        if outcome.why == Why.ERROR and outcome.where in (Where.PREPARE, Where.SUSPEND, Where.LATE, Where.NOIRQ):
            return self.phase_error(seen.errors[self.phase()])
        number = self.processor_error() if outcome.why == Why.ERROR else None
        return error_name(number) if number else None

    def processor_error(self) -> int | None:
        """The error of a processor that did not go off, where dmesg tells it."""
        message = self.outcome.message
        found = re.search(r"down: (-\d+)$", message.text) if message is not None and self.outcome.where == Where.CPUS else None
        return int(found[1]) if found else None

    def phase(self) -> Phase:
        """The phase in which a callback answered an error."""
        return {Where.PREPARE: Phase.PREPARE, Where.SUSPEND: Phase.SUSPEND, Where.LATE: Phase.LATE, Where.NOIRQ: Phase.NOIRQ}[self.outcome.where]

    def phase_error(self, ends: list[CallbackEnd]) -> str:
        """The error that a phase answers: a synchronous device's own, else the last one."""
        own = [end for end in ends if not end.device.is_async]
        number = (own or ends)[-1].error
        return error_name(number)

    # ---- what stopped it

    def sentences(self) -> list[str]:
        """What stopped the attempt, and what was undone; where nothing did, that it slept."""
        outcome = self.outcome
        if outcome.why == Why.NOTHING:
            return self.slept()
        tellers = {Why.EVENT: self.by_event, Why.ERROR: self.by_error, Why.TIMEOUT: self.by_timeout, Why.NOT_TOLD: self.not_told,
                   Why.PM_TEST: self.by_test}
        found = tellers[outcome.why]()
        if outcome.or_else:
            found.append(f"It may also have been {outcome.or_else}: no input tells.")
        return found + self.undone()

    def slept(self) -> list[str]:
        """An attempt that came to the bottom."""
        if self.outcome.where == Where.IDLE:
            line = self.following.seen.line("machine_suspend")
            found = [f"The machine was in suspend-to-idle from line {line}." if line else "The machine came to suspend-to-idle, and an event kept it from idling."]
            found += self.after_sleep(line) if line else []
            if self.outcome.or_else:
                found.append(f"It may also have been {self.outcome.or_else}: no input tells.")
            return found
        found = [f"The machine slept, by line {self.following.seen.line('machine_suspend')}."]
        found += self.after_sleep(self.following.seen.first["machine_suspend", True].line)
        events = [event for event in self.following.seen.events if event.line < self.following.seen.line("machine_suspend")]
        if events:
            found.append(f"{events[0].source} reported an event before, in line {events[0].line}: no saved count was in force, so no test found it.")
        return found

    def after_sleep(self, line: int) -> list[str]:
        """The first event behind the entry."""
        event = next((event for event in self.following.seen.events if event.line > line), None)
        return [f"The first event after it is of {event.source}, line {event.line}, {self.place(event)}."] if event else []

    def by_event(self) -> list[str]:
        """An event stopped it."""
        event, found = self.outcome.event, []
        if event is None:
            pending, irq = (self.told.first(Fact.WAKEUP_PENDING), self.told.first(Fact.TRIGGERED_IRQ)) if self.told else (None, None)
            message = self.told.first(Fact.ACTIVE_SOURCE, Fact.LAST_SOURCE) if pending else None
            if message is None and irq is not None:
                return [f"IRQ {irq.number} stopped it (dmesg line {irq.line}): a hard event without a source, of which the trace has no line.", self.test()]
            who = f"{message.words} (dmesg line {message.line})" if message else "a source that no input names"
            found.append(f"An event of {who} stopped it; no line of the trace shows the event.")
        else:
            found.append(f"{event.source} reported an event in line {event.line}, {self.reporter(event)}.")
        found.append(self.test())
        found.append(self.guard())
        return found

    def reporter(self, event: SourceActivate) -> str:
        """Who reported an event, and what went on meanwhile."""
        callback = self.following.seen.reports.get(event)
        if callback is not None:
            return f"from the {callback.phase} callback of {callback.device.shown}, which began in line {callback.line}"
        who = self.place(event)
        if event.line < self.attempt.line:
            return f"{who}, before the attempt began"
        inside = [f"{begin.device.shown} in its {begin.phase} callback of line {begin.line}" for begin in self.inside(event.line)]
        return f"{who}, with {listed(inside)}" if inside else who

    @staticmethod
    def place(event: SourceActivate) -> str:
        """What the kernel was in as it reported an event."""
        if event.is_in_interrupt:
            return "from a hard interrupt" if event.is_in_hardirq else "from a softirq"
        return f"from the task {event.task}-{event.pid}"

    def inside(self, line: int) -> list[CallbackBegin]:
        """The callbacks that were open at a line."""
        return [begin for begin in self.attempt.callbacks() if begin.line < line and begin.end is not None and begin.end.line > line]

    def test(self) -> str:
        """Which test found the event."""
        kind, what = self.following.found or ("", "")
        if kind == "freeze":
            return f"The freezer found it: {self.tasks()}."
        if kind in TESTS:
            return TESTS[kind].format(self.processor() if kind == "cpu" else what)
        return f"The test before the {kind} callback of {what} found it."

    def processor(self) -> str:
        """The processor whose turn it was to go off, as the kernel numbers it; "the next processor" where no input tells.

        Numbers may have gaps, as where every second thread is off. So another attempt tells, or a line that ran on it, or their
        number, if the numbers that the trace has are below it.
        """
        owner, went = self.following.owner, self.following.seen.cpus
        last = went[-1] if went else 0
        if last in owner.successors:
            return f"processor {owner.successors[last]}"
        number, known = last + 1, owner.recording.processors or 0
        return f"processor {number}" if number in owner.ran_on or max(owner.ran_on) < known and number < known else "the next processor"

    def guard(self) -> str:
        """Whether a saved count or a hard event made the test find it."""
        pending = self.told.first(Fact.WAKEUP_PENDING) if self.told else None
        if self.outcome.guard == Guard.SAVED and pending is not None:
            return f"A saved count was in force (dmesg line {pending.line})."
        freeze = self.following.seen.line("freeze_processes")
        if self.outcome.guard == Guard.SAVED and self.outcome.event is not None and freeze is not None and self.outcome.event.line < freeze \
                and not self.following.plan.maker is None:
            return f"A saved count was in force: what came before line {freeze}, in which the freeze begins, no other test finds."
        if not self.outcome.is_guard_told:
            return "Whether a saved count or a hard event made the test find it is not told."
        if self.outcome.guard == Guard.SAVED:
            return "A saved count was in force, which the autosleep work saves before each attempt."
        return "It was a hard event: of this attempt dmesg has no 'Wakeup pending, aborting suspend', which a saved count writes."

    def tasks(self) -> str:
        """The tasks that did not freeze."""
        names = [f"{message.words} (dmesg line {message.line})" for message in self.outcome.tasks]
        kind = ("a kernel thread" if self.outcome.is_kernel else "a user task") if self.outcome.is_group_told else "user or kernel, not told"
        if names:
            return f"{listed(names)} had not frozen, {kind}" if len(names) == 1 else f"{listed(names)} had not frozen"
        writer = next((event for event in self.following.seen.events if event.source == "autosleep"), None)
        if writer is not None:
            return f"{writer.task}-{writer.pid} had not frozen, which waited in its write to /sys/power/autosleep"
        return f"not all tasks had frozen ({kind})"

    def by_error(self) -> list[str]:
        """An error stopped it."""
        outcome, seen = self.outcome, self.following.seen
        if outcome.where in (Where.PREPARE, Where.SUSPEND, Where.LATE, Where.NOIRQ):
            return [self.callback_error(end) for end in seen.errors[self.phase()]]
        message = f" (dmesg line {outcome.message.line}: {outcome.message.text})" if outcome.message else ""
        if outcome.where == Where.CPUS:
            number = self.processor_error()
            error = f"with {error_text(number)}" if number else "; its error is not told"
            return [f"Processor {seen.cpus[-1]} did not go off{message}{' ' if number else ''}{error}."]
        return [f"A step of the system core failed{message}; its error is not told."]

    def callback_error(self, end: CallbackEnd) -> str:
        """A callback that answered an error."""
        how = ", asynchronously" if end.device.is_async and end.phase != Phase.PREPARE else ""
        return f"{end.device.shown} answered {error_text(end.error)} in {end.phase}{how}, line {end.line}."

    def by_timeout(self) -> list[str]:
        """Tasks did not freeze in time."""
        line = f" (dmesg line {self.outcome.message.line})" if self.outcome.message else ""
        return [f"Tasks did not freeze in time{line}: {self.tasks()}."]

    def not_told(self) -> list[str]:
        """A step failed of which no input tells the error."""
        step = PLATFORM.get(self.outcome.where)
        if step is not None:
            return [f"The platform's {step} failed; its error is not told."]
        if self.outcome.where == Where.NOTIFIERS:
            return ["A notifier refused, or another step before tasks were frozen; which one and its error are not told."]
        return [f"The attempt turned around {self.outcome.where}; why is not told."]

    def by_test(self) -> list[str]:
        """pm_test turned it around."""
        message = f" (dmesg line {self.outcome.message.line})" if self.outcome.message else ""
        return [f"pm_test '{LEVELS[self.outcome.where]}' turned it around{message}."]

    # ---- what was undone

    def undone(self) -> list[str]:
        """What the kernel undid."""
        found = []
        for phase in (Phase.RESUME_NOIRQ, Phase.EARLY, Phase.RESUME, Phase.COMPLETE):
            count = len(self.following.seen.begins.get(phase, ()))
            if self.following.seen.has({Phase.RESUME_NOIRQ: "dpm_resume_noirq", Phase.EARLY: "dpm_resume_early", Phase.RESUME: "dpm_resume", Phase.COMPLETE: "dpm_complete"}[phase]):
                found.append(f"{phase} ({count} {'device' if phase == Phase.COMPLETE else 'callback'}{'s' if count != 1 else ''})")
        cpus = len(self.attempt.steps("CPU_ON", True))
        if cpus:
            found.insert(0, f"{cpus} processor{'s' if cpus != 1 else ''} on again")
        if self.following.seen.has("thaw_processes"):
            found.append("tasks thawed")
        return [f"Undone: {', '.join(found)}."] if found else []
