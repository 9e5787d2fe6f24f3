"""What a recording is made of before it is followed: its attempts, who made them, and how each ended."""

from __future__ import annotations

from dataclasses import dataclass, field

from ..errors import CannotError
from ..kernel.names import Names
from ..kernel.recording import Attempt, Event, Fact, Phase, Recording, SourceActivate, SourceDeactivate
from ..limits import MOST, MOST_CPUS, MOST_ENTRIES, MOST_SEEN
from .family import Kin
from .journal import AUTOSLEEP, Script
from .outcome import SILENT, Decider, Outcome, Survey, Where, Why, arranged, survey

MOST_LINES = 200  # Interrupt lines of their own; further sources share one.
MOST_TASKS = 40  # Tasks of their own; further ones share one.
CALL_PLACES = 5  # The most places of a source that one call needs.
STEPS = (SourceActivate, SourceDeactivate)
NOT_TOLD = "not-told"  # The name of a task or source of which no input tells the name.


@dataclass(slots=True, eq=False)
class Plan:
    """An attempt that is to be followed."""

    number: int  # In the log, from 1.
    seen: Survey
    outcome: Outcome
    items: list[Event]
    before: list[Event]  # Steps of sources between the attempt before and this one.
    maker: Script | None  # None: the autosleep work.
    direct: set[int] = field(default_factory=set)
    refusers: list[Script] = field(default_factory=list)
    stand_ins: list[tuple[str, str]] = field(default_factory=list)  # What answers in place of what is not told: its kind and name.
    is_saved: bool = False

    @property
    def attempt(self) -> Attempt:
        """The attempt of the recording."""
        return self.seen.attempt


def is_auto(attempt: Attempt) -> bool:
    """Whether the autosleep work made the attempt, which runs in a worker of the kernel."""
    return attempt.events[0].task.startswith("kworker/")


def is_step(event: Event) -> bool:
    """Whether an event is a step of a wakeup source."""
    return type(event) in STEPS


def kept_attempts(recording: Recording, devices: int) -> tuple[list[Attempt], str]:
    """The last attempts that fit into a machine file, and why earlier ones are left out ("": none are)."""
    most = MOST_SEEN // (devices + 50) - 1
    attempts, places, sources, why, kept = recording.attempts, {}, set(), "", 0
    before = len(recording.events)
    for place in range(len(attempts) - 1, -1, -1):
        begin = attempts[place - 1].first + len(attempts[place - 1].events) if place else 0
        steps = [event for event in recording.events[begin:before] if is_step(event)]
        found = sources | {event.source for event in steps}
        for event in steps:
            if isinstance(event, SourceActivate):
                places[event.source] = places.get(event.source, 0) + 1
        if kept >= min(most, 1000):
            why = f"a machine file of {devices} devices has at most {min(most, 1000)} attempts"
        elif len(found) >= MOST["sources"]:
            why = f"a machine file has at most {MOST['sources']} wakeup sources"
        elif max(places.values(), default=0) * CALL_PLACES * 2 > MOST_ENTRIES - 10 or sum(places.values()) > 80_000:
            why = f"a machine file has room for fewer events"
        if why:
            break
        sources, before, kept = found, begin, kept + 1
    if kept == 0:
        raise CannotError(f"the last attempt does not fit into a machine file: {why}", recording.trace_file, attempts[-1].line)
    return attempts[-kept:], why


class Planner:
    """Makes the plans of a recording, and the scripts that its machine has.

    `passed` has, by an attempt's number, the line of an event that a test passed which would have found it.
    """

    def __init__(self, recording: Recording, kin: Kin, passed: dict[int, int]):
        self.recording, self.kin = recording, kin
        self.attempts, self.why_cut = kept_attempts(recording, len(kin.devices))
        self.actors = Names()
        self.scripts: dict[tuple[str, str], Script] = {}
        self.sources: dict[str, None] = {}
        self.active: dict[str, SourceActivate | None] = {}
        self.first_active: list[str] = []  # Sources that were active before the first line that names them.
        self.texts: dict[Event, str] = {}  # What each write to autosleep said, by its first step.
        self.surveys = [survey(attempt) for attempt in self.attempts]
        for seen in self.surveys:
            seen.barrier = max(seen.barrier, passed.get(seen.attempt.number, 0))
        self.expected = set().union(*(seen.begins.get(Phase.SUSPEND, {}).keys() for seen in self.surveys))
        self.plans = [self.plan(seen) for seen in self.surveys]
        last = self.surveys[-1]
        self.after = [event for event in recording.events[last.attempt.first + len(last.items):] if is_step(event)]
        self.take_steps(self.after, {})
        self.settle_autosleep()

    # ---- scripts

    def script(self, kind: str, name: str, key: str = "") -> Script:
        """The script of a name; made where there is none."""
        key = (kind, key or name)
        if key not in self.scripts:
            self.scripts[key] = Script(self.actors.give(name), kind)
        return self.scripts[key]

    def line_of(self, source: str) -> Script:
        """The interrupt line that a source's steps come from."""
        known = ("irq", source) in self.scripts
        many = sum(kind == "irq" for kind, _ in self.scripts) if not known else 0
        return self.script("irq", source) if known or many < MOST_LINES else self.script("irq", "other-sources")

    def task_of(self, event: Event) -> Script:
        """The script of the task that made a step."""
        known = ("user", event.task) in self.scripts
        many = sum(kind == "user" for kind, _ in self.scripts) if not known else 0
        return self.script("user", event.task) if known or many < MOST_TASKS else self.script("user", "other-tasks")

    # ---- an attempt

    def plan(self, seen: Survey) -> Plan:
        """The plan of the next attempt."""
        attempt = seen.attempt
        begin = self.end_before(attempt)
        before = [event for event in self.recording.events[begin:attempt.first] if is_step(event)]
        earlier = self.take_steps(before, {})
        is_active = any(found is not None for found in self.active.values())
        outcome = Decider(seen, self.recording.clock, is_auto(attempt), is_active, earlier, self.recording.processors,
                          self.expected).decide()
        self.take_steps([event for event in seen.items if is_step(event)], seen.reports)
        maker = None if is_auto(attempt) else self.task_of(attempt.events[0])
        if maker is not None:
            maker.left += 1
        plan = Plan(self.number_of(attempt), seen, outcome, arranged(seen, outcome), before, maker)
        if outcome.where == Where.FREEZE:
            self.take_refusers(plan)
        if outcome.why == Why.EVENT and outcome.event is None:
            self.stand_in_event(plan)
        return plan

    def number_of(self, attempt: Attempt) -> int:
        """The number of an attempt in the log."""
        return attempt.number - self.attempts[0].number + 1

    def end_before(self, attempt: Attempt) -> int:
        """The place in the recording's events behind the attempt before."""
        at = attempt.number - self.attempts[0].number - 1
        if at >= 0:
            return self.surveys[at].attempt.first + len(self.surveys[at].items)
        if attempt.number == 1:
            return 0
        other = self.recording.attempts[attempt.number - 2]
        return other.first + len(other.events)

    def take_steps(self, events: list[Event], reports: dict) -> list[tuple[SourceActivate, bool]]:
        """Counts the works of scripts; gives the activations, each with whether no other source was active."""
        found = []
        for event in events:
            is_start = isinstance(event, SourceActivate)
            if is_start:
                found.append((event, not any(self.active.values())))
            elif event.source not in self.active and event.source != AUTOSLEEP:
                self.first_active.append(event.source)
                self.line_of(event.source).left += 1
            self.active[event.source] = event if is_start else None
            if event.source == AUTOSLEEP:
                self.take_write(event, is_start)
            else:
                self.sources[event.source] = None
                callback = reports.get(event)
                if callback is None or callback.device not in self.kin.number:
                    self.line_of(event.source).left += 1
        return found

    def take_write(self, event: Event, is_start: bool) -> None:
        """A step of the source autosleep, which a write to /sys/power/autosleep makes."""
        if is_start:
            self.task_of(event).left += 1
            self.texts[event] = "off"

    def take_refusers(self, plan: Plan) -> None:
        """The tasks that did not freeze: those that dmesg names, else one that stands in."""
        outcome = plan.outcome
        kind = "kthread" if outcome.is_kernel else "user"
        inside = {event.task for event in plan.seen.items if is_step(event) and event.source == AUTOSLEEP}
        names = [message.words for message in outcome.tasks if message.words not in inside]
        if not outcome.tasks and not inside:
            names = [NOT_TOLD]
        plan.refusers = [self.script(kind, name, f"refuser {name}") for name in dict.fromkeys(names[:MOST_TASKS])]
        for script in plan.refusers:
            script.left += 1

    def stand_in_event(self, plan: Plan) -> None:
        """An event that stopped an attempt and that no line shows: a source of its own makes it."""
        told = plan.attempt.told
        message = told.first(Fact.ACTIVE_SOURCE, Fact.LAST_SOURCE) if told and told.first(Fact.WAKEUP_PENDING) else None
        irq = told.first(Fact.TRIGGERED_IRQ) if told else None
        name = message.words if message else f"IRQ {irq.number}" if irq else NOT_TOLD
        self.sources[name] = None
        self.line_of(name).left += 1
        plan.stand_ins.append(("event", name))

    # ---- autosleep

    def settle_autosleep(self) -> None:
        """Says of each write to autosleep whether it switched it on: attempts of the autosleep work came behind it."""
        self.autos = [plan for plan in self.plans if plan.maker is None]
        self.keeper = None
        writes = list(self.texts)
        for write, after in zip(writes, [*writes[1:], None]):
            if any(plan.attempt.line > write.line and (after is None or plan.attempt.line < after.line) for plan in self.autos):
                self.texts[write] = "mem"
        if not self.autos:
            return
        self.is_on_before = not any(text == "mem" and write.line < self.autos[0].attempt.line for write, text in self.texts.items())
        self.keeper = self.task_of(writes[0]) if writes else self.script("user", "autosleep-writer")
        self.keeper.left += 1 + self.is_on_before

    # ---- what the machine needs

    def cpus(self) -> int:
        """The number of processors of the machine."""
        found = max(1, self.recording.processors or 1)
        for plan in self.plans:
            went = len(plan.seen.cpus)
            found = max(found, went + (2 if plan.outcome.where == Where.CPUS and plan.outcome.why == Why.EVENT else 1))
        reached = [len(plan.seen.cpus) + 1 for plan in self.plans if plan.seen.has("syscore_suspend")]
        return min(max(reached) if reached and max(reached) >= max(len(plan.seen.cpus) + 1 for plan in self.plans) else found, MOST_CPUS)

    def find_direct(self, order: list[int], plan: Plan) -> set[int]:
        """The devices that an attempt left alone: neither they nor anybody below them have a callback, and they may not wake.

        The kernel leaves those alone on the way down, and on the way up they wait for nobody.
        """
        seen, number = plan.seen, self.kin.number
        busy = {number[device] for phase, begins in seen.begins.items() if phase not in SILENT for device in begins if device in number}
        is_whole = seen.has("dpm_suspend_late") or plan.outcome.where == Where.PLATFORM_PREPARE
        found = set()
        for place in reversed(order):
            device = self.kin.devices[place]
            if place in busy or device.may_wake or device.runtime_status == "active" or not is_whole and device.has_callbacks:
                continue
            if all(below in found for below in self.kin.below[place]):
                found.add(place)
        return found

    def with_callbacks(self) -> dict[Phase, set[int]]:
        """The devices that have a callback in each phase in some attempt."""
        found: dict[Phase, set] = {}
        for seen in self.surveys:
            for phase, begins in seen.begins.items():
                found.setdefault(phase, set()).update(begins.keys())
        number = self.kin.number
        return {phase: {number[device] for device in devices if device in number} for phase, devices in found.items()}
