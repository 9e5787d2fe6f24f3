"""Follows a recording to a whole log: the trace says whose turn is next, and the machine is made of what it shows."""

from __future__ import annotations

import functools
from dataclasses import dataclass

from ..errors import CannotError
from ..kernel.names import Names
from ..kernel.recording import CallbackBegin, CallbackEnd, Device, Event, Note, Phase, Recording, SourceActivate, SourceDeactivate
from ..limits import ANSWERED, ERRORS, FREEZE_MS, MOST_LINKS, NAP_MS
from .attempt import STAND_IN, Following
from .family import Mover, prepared, settle, target
from .journal import AUTOSLEEP, Journal, Script, Source
from .outcome import Guard, Where, Why
from .phases import texts_of
from .plan import Plan, Planner
from .telling import listed

NAMES = {-number: name for name, number in ERRORS.items() if name in ANSWERED}
WRITTEN_AS = "EIO"  # What a machine file has in place of an error that it has no name for.


@dataclass(slots=True, frozen=True)
class Foreign:
    """An error that machine files do not have, and what stands in its place."""

    attempt: int
    phase: Phase
    device: object
    number: int
    line: int


class Follower:
    """A recording under way to a log. `passed` is the planner's."""

    def __init__(self, recording: Recording, as_async: set = frozenset(), passed: dict[int, int] | None = None):
        self.recording, self.file = recording, recording.trace_file
        self.kin, self.notes = settle(recording)
        self.kin.is_async = [device.is_async or device in as_async for device in self.kin.devices]
        given = Names()
        self.names = [given.give(device.name) for device in self.kin.devices]
        self.planner = Planner(recording, self.kin, passed or {})
        self.plans = self.planner.plans
        self.mover = Mover(self.kin)
        self.journal = Journal()
        self.cpus = self.planner.cpus()
        self.answers: dict[tuple, dict] = {}
        self.foreign: list[Foreign] = []
        self.skipped: set[Event] = set()  # Ends of events that were told together with their begins.
        self.has_refuser = any(plan.outcome.where == Where.NOTIFIERS for plan in self.plans)
        self.has_test_step = any(plan.outcome.where == Where.LAST and plan.outcome.why == Why.PM_TEST for plan in self.plans)
        self.done: list[Following] = []
        self.callbacks = self.planner.with_callbacks()
        self.next_of: dict[Event, Event] = {}
        self.writer: tuple[Script, str] | None = None  # Who is inside a write to autosleep, and what it says.
        self.keeps_on = False
        self.is_queued, self.autos_left, self.idle_runs = False, len(self.planner.autos), 0
        self.loose: set[int] = set()  # Devices whose place in the list does not count.
        self.make_sources()
        self.plan_lists()
        self.texts = functools.cache(functools.partial(texts_of, self.kin, self.names))

    @functools.cached_property
    def successors(self) -> dict[int, int]:
        """Which processor goes off after which one, as the attempts show it; the first one goes after processor 0."""
        return {one: other for seen in self.planner.surveys for one, other in zip([0, *seen.cpus], seen.cpus)}

    @functools.cached_property
    def ran_on(self) -> set[int]:
        """The processors that the trace shows."""
        return {event.cpu for event in self.recording.events} | self.successors.keys() | set(self.successors.values())

    def make_sources(self) -> None:
        """Gives the sources their names. The kernel's own one of the name autosleep gets another."""
        given = Names([AUTOSLEEP])
        self.journal.sources = {name: Source(given.give(name)) for name in self.planner.sources}
        self.journal.sources[AUTOSLEEP] = Source(AUTOSLEEP)

    def plan_lists(self) -> None:
        """Finds the links of the file and those that are added between attempts, so that the list is each attempt's.

        Where that takes more links than there may be, devices are left where they stand that have no callback and nothing below.
        """
        self.find_lists()
        if self.mover.has_failed or len(self.links) + sum(map(len, self.changes)) > MOST_LINKS:
            is_async = self.kin.is_async
            self.kin, _ = settle(self.recording)
            self.kin.is_async, self.planner.kin, self.mover = is_async, self.kin, Mover(self.kin)
            self.loose = {number for number, device in enumerate(self.kin.devices) if not device.has_callbacks and not self.kin.below[number]}
            self.find_lists()
            self.note("the list changes too often for a machine file: devices without a callback and with nothing below keep their first place")
        for supplier, consumer in self.mover.cycles:
            ends = self.kin.devices[supplier].shown, self.kin.devices[consumer].shown
            self.note(f"the link from {ends[0]} to {ends[1]} closes a cycle with the parents and the links before it: left out")
        self.note_absent()
        self.lister = None
        works = sum(map(len, self.changes))
        if works:
            self.lister = self.planner.script("nofreeze", "device-list")
            self.lister.left = works
        self.journal.scripts = list(self.planner.scripts.values())

    def note_absent(self) -> None:
        """Notes devices that came or went between attempts: the log's list has them all from the begin."""
        absent: dict[Device, None] = {}
        found = []
        for plan in self.plans:
            shown = plan.seen.begins.get(Phase.PREPARE, {})
            if shown and plan.seen.has("dpm_prepare", False) and Phase.PREPARE not in plan.seen.errors:
                missing = [device for device in self.kin.devices if device not in shown]
                absent |= dict.fromkeys(missing)
                found += [plan] if missing else []
        if not found:
            return
        who = f"attempt {found[0].attempt.number}" + (f" and {len(found) - 1} more do" if len(found) > 1 else " does")
        them = "it stands in the log's list there, and passes" if len(absent) == 1 else "they stand in the log's list there, and pass"
        self.note(f"{listed([device.shown for device in absent])}: {who} not prepare {'it' if len(absent) == 1 else 'all of them'}; {them} without a callback",
                  found[0].seen.line("dpm_prepare"))

    def find_lists(self) -> None:
        """Finds the links of the file and of scripts."""
        shown = [[device for device in prepared(plan.seen.begins.get(Phase.PREPARE, {}), self.kin.number) if device not in self.loose]
                 for plan in self.plans]
        wanted = target(list(range(len(self.kin.devices))), next((one for one in shown if one), []))
        self.links = self.mover.begin(wanted)
        self.changes, self.orders = [], []
        for one in shown:
            wanted = target(self.mover.order, one) if one else self.mover.order
            self.changes.append(self.mover.change(wanted))
            self.orders.append(self.mover.order)
        self.links += self.changes[0]
        self.changes[0] = []

    def note(self, text: str, line: int | None = None) -> None:
        """Notes what a user should know."""
        self.notes.append(Note(text, self.file, line))

    # ---- the whole

    def follow(self) -> str:
        """The text of the log. Raises OutOfOrder and CannotError."""
        self.begin()
        for plan, changes, order in zip(self.plans, self.changes, self.orders):
            self.mover.order = order
            for event in plan.before:
                if event.line == plan.outcome.save_line:
                    self.save(plan)
                self.journal.line = event.line
                self.line_event(event)
            self.journal.line = plan.attempt.line
            self.change_list(changes)
            plan.direct = self.planner.find_direct(order, plan)
            self.take_direct(plan)
            following = Following(self, plan)
            self.done.append(following)
            following.run()
            self.close_attempt(plan)
        for event in self.planner.after:
            self.journal.line = event.line
            self.line_event(event)
        return self.journal.end()

    def begin(self) -> None:
        """What has to stand before the first line of the trace."""
        for source in self.planner.first_active:
            script = self.planner.line_of(source)
            script.steps.append({"op": "awake", **self.journal.awake(script.label, self.journal.sources[source])})
            self.note(f"{source} was active before the first line of the trace that names it: in the log it is from the begin")
            self.journal.has_acted(script)
        keeper = self.planner.keeper
        if keeper is not None and self.planner.is_on_before:
            self.note(f"no line shows who wrote to /sys/power/autosleep: task {keeper.name} of the log stands in for it")
            self.begin_write(keeper, "mem")
            self.end_write(keeper, "mem")
            self.journal.has_acted(keeper)
        for script in self.journal.scripts:
            if script.left == 0:
                self.journal.has_acted(script)

    def change_list(self, changes: list[dict]) -> None:
        """Links that move devices to where the kernel's list has them."""
        for change in changes:
            ends = [self.names[change["supplier"]], self.names[change["consumer"]]]
            self.journal.act(self.lister)
            members = {"supplier": ends[0], "consumer": ends[1]}
            self.lister.steps += [{"op": "link", **members}, {"op": "link_state", **members, "to": "dormant"}]
            self.journal.put(self.lister.label, f"link {ends[0]} {ends[1]} 0")
            self.journal.put(self.lister.label, f"link_state {ends[0]} {ends[1]} dormant 0")
            self.journal.has_acted(self.lister)

    def take_direct(self, plan: Plan) -> None:
        """The devices that are left alone answer 1 to prepare."""
        for device in plan.direct:
            self.answer("device", self.names[device], Phase.PREPARE, plan.number)["ret"] = 1

    def answer(self, what: str, name: str, phase: Phase | None, number: int) -> dict:
        """The answer of a thing in an attempt, which the caller fills in."""
        return self.answers.setdefault((what, name, phase, number), {})

    # ---- attempts

    def save(self, plan: Plan) -> None:
        """Saves the count for an attempt, where no event is in progress."""
        journal = self.journal
        if plan.is_saved or plan.outcome.guard != Guard.SAVED:
            return
        if plan.maker is not None and journal.is_checking and not (journal.has_moved() and plan.seen.tests):
            return  # (the count of an attempt that did not get past the freeze is still in force)
        if not journal.may_save():
            if plan.maker is None:
                raise CannotError("the autosleep work began an attempt while an event was in progress", self.file, plan.attempt.line)
            plan.outcome.guard, plan.outcome.is_hard = Guard.PLAIN, plan.outcome.event is not None
            return
        plan.is_saved = True
        if plan.maker is None:
            self.autos_left -= 1
            self.run_work()
            return
        journal.act(plan.maker)
        plan.maker.steps += [{"op": "read"}, {"op": "save"}]
        journal.put(plan.maker.label, f"read {journal.visible}")
        journal.put(plan.maker.label, f"save {journal.save()} ok")

    def let_count_go(self, plan: Plan) -> None:
        """A count of an earlier attempt is no longer in force, where an event moved it and no test of this attempt found that."""
        journal = self.journal
        is_plain = plan.outcome.guard == Guard.PLAIN and bool(plan.seen.events)
        if not journal.is_checking or not is_plain and (not journal.has_moved() or plan.outcome.why == Why.EVENT):
            return
        count = journal.visible + 1
        plan.maker.steps.append({"op": "save", "count": count})
        journal.put(plan.maker.label, f"save {count} EINVAL")
        journal.is_checking = False
        self.note("the count of an earlier attempt was in force no longer: in the log a save that fails ends that", plan.attempt.line)

    def run_work(self) -> None:
        """The autosleep work runs, and saves the count."""
        self.is_queued = False
        self.journal.put("auto", "run")
        self.journal.put("auto", f"read {self.journal.visible}")
        self.journal.put("auto", f"saved {self.journal.save()}")

    def open_attempt(self, following: Following) -> None:
        """The first entry of an attempt."""
        plan, journal = following.plan, self.journal
        self.save(plan)
        if plan.maker is not None:
            journal.act(plan.maker)
            self.let_count_go(plan)
            plan.maker.steps.append({"op": "state", "text": "mem"})
        journal.maker = plan.maker
        guard = f"guarded {journal.saved_count}" if journal.is_checking else "plain"
        journal.put(following.who, f"attempt {plan.number} {guard}")
        for event, after in zip(plan.items, plan.items[1:]):
            if isinstance(event, SourceActivate) and isinstance(after, SourceDeactivate) and event.source == after.source:
                reports = plan.seen.reports
                if reports.get(event) is reports.get(after):  # (the same callback made both, or none)
                    self.next_of[event] = after

    def close_attempt(self, plan: Plan) -> None:
        """What follows an attempt."""
        journal = self.journal
        journal.maker = None
        if plan.maker is not None:
            journal.has_acted(plan.maker)
            return
        is_last = plan is self.plans[-1]
        journal.put("auto", "after busy" if journal.inpr else f"after {journal.visible}")
        if journal.inpr == 0 and journal.visible == journal.saved_count:
            journal.put("auto", f"sleep_d {journal.time + NAP_MS}")
            if not is_last:
                journal.jump(journal.time + NAP_MS)
                journal.put("auto", "slept")
        if not is_last:
            journal.put("auto", "again")
            self.is_queued = True
        if plan is not self.planner.autos[-1]:
            return
        self.keeps_on = self.planner.keeper.is_inside
        if not self.keeps_on:
            self.let_go()

    def let_go(self) -> None:
        """The task that kept the autosleep work going, which ends with the last script, does its last step."""
        keeper = self.planner.keeper
        self.journal.act(keeper)
        keeper.steps.append({"op": "freeze_point"})
        self.journal.put(keeper.label, "pass")
        self.journal.has_acted(keeper)

    def stand_in(self, what: str, name: str, number: int, plan: Plan) -> None:
        """A thing of the machine answers in place of what no input tells."""
        self.answer(what, name, None, number)["ret"] = STAND_IN
        plan.stand_ins.append((what, name))

    # ---- tasks

    def freeze(self, kind: str, following: Following) -> None:
        """Tasks of a kind freeze, but those that do not."""
        for script in self.journal.scripts:
            is_asked = script.kind == kind and script is not following.plan.maker and not script.is_gone
            if is_asked and not script.is_inside and not script.is_frozen and not self.refuses(script, following.plan):
                if script.nap is None:
                    script.steps.append({"op": "freeze_point"})
                self.journal.put(script.label, "frozen")
                script.is_frozen = True

    def refuses(self, script: Script, plan: Plan) -> bool:
        """Whether a task does not freeze in an attempt."""
        return plan.outcome.where == Where.FREEZE and script in plan.refusers

    def left(self, kind: str, following: Following) -> tuple[int, str]:
        """How many tasks of a kind are not frozen, and the first of them. Raises CannotError where all are."""
        names = [script.name for script in self.journal.scripts
                 if script.kind == kind and script is not following.plan.maker and not script.is_gone and not script.is_frozen]
        if not names:
            raise CannotError("tasks did not freeze, and no task is left that did not", self.file, self.journal.line)
        return len(names), names[0]

    def refuse(self, scripts: list[Script], is_timeout: bool) -> None:
        """Tasks that do not freeze: they sleep through a freeze that takes too long, or take no turn."""
        for script in scripts:
            self.journal.act(script)
            if is_timeout:
                script.steps.append({"op": "sleep_d", "ms": FREEZE_MS})
                self.journal.put(script.label, f"sleep_d {self.journal.time + FREEZE_MS}")
                script.is_inside = True
            else:
                script.steps.append({"op": "freeze_point"})

    def thaw(self) -> None:
        """Tasks go on; those that did not freeze have done their work."""
        plan = self.done[-1].plan
        for script in self.journal.scripts:
            if script.is_frozen:
                script.is_frozen = False
                if script.nap is None:
                    self.journal.put(script.label, "pass")
        if plan.outcome.where != Where.FREEZE:
            return
        for script in plan.refusers:
            script.is_inside = False
            self.journal.put(script.label, "slept" if plan.outcome.why == Why.TIMEOUT else "pass")
            self.journal.has_acted(script)

    # ---- events

    def line_event(self, event: Event, is_hard: bool = False) -> None:
        """A step of a source outside of callbacks: an interrupt line makes it, or a write to autosleep."""
        if event in self.skipped:
            return
        if event.source == AUTOSLEEP:
            self.autosleep_step(event)
            return
        script = self.planner.line_of(event.source)
        self.journal.act(script)
        works = self.call(event, script.label, script.steps, "op", is_hard)
        self.journal.has_acted(script, works)

    def call(self, event: Event, who: str, steps: list[dict], member: str, is_hard: bool) -> int:
        """The call that a step of a source belongs to; gives how many steps it took."""
        source = self.journal.sources[event.source]
        if isinstance(event, SourceDeactivate):
            steps.append({member: "relax", **self.journal.relax(who, source)})
            return 1
        after = self.next_of.get(event)
        if after is not None:
            self.skipped.add(after)
        if after is None and not is_hard:
            steps.append({member: "awake", **self.journal.awake(who, source)})
            return 1
        steps.append({member: "event", **self.journal.event(who, source, after is None, is_hard)})
        return 1 if after is None else 2

    def report(self, event: Event, callback: CallbackBegin, number: int, maker: str) -> None:
        """A step of a source that a callback made."""
        if event in self.skipped:
            return
        device = self.kin.number[callback.device]
        who = f"dev:{self.names[device]}" if self.kin.is_async[device] else maker
        answer = self.answer("device", self.names[device], callback.phase, number)
        is_hard = self.done[-1].outcome.is_hard and event is self.done[-1].outcome.event
        self.call(event, who, answer.setdefault("reports", []), "call", is_hard)

    def stop_event(self, following: Following) -> None:
        """The event that stopped an attempt, where no line shows it."""
        name = next((name for what, name in following.plan.stand_ins if what == "event"), None)
        if name is None:
            return
        script, source = self.planner.line_of(name), self.journal.sources[name]
        self.journal.act(script)
        is_hard = following.outcome.guard != Guard.SAVED
        script.steps.append({"op": "event", **self.journal.event(script.label, source, False, is_hard)})
        self.journal.has_acted(script)

    def autosleep_step(self, event: Event) -> None:
        """A step of the source autosleep: a write begins or ends."""
        is_start = isinstance(event, SourceActivate)
        if is_start:
            self.writer = self.planner.task_of(event), self.planner.texts[event]
            self.begin_write(*self.writer)
        elif self.writer is not None:
            script, text = self.writer
            self.end_write(script, text)
            self.writer = None
            self.journal.has_acted(script)

    def begin_write(self, script: Script, text: str) -> None:
        """A task begins to write to autosleep."""
        self.journal.act(script)
        script.steps.append({"op": AUTOSLEEP, "text": text})
        script.is_inside = True
        self.journal.awake(script.label, self.journal.sources[AUTOSLEEP])

    def end_write(self, script: Script, text: str) -> None:
        """The write goes through, which no open attempt lets it."""
        if self.done and self.done[-1].plan.maker is not None and self.journal.maker is not None:
            raise CannotError("a write to autosleep ends inside an attempt, which holds its lock", self.file, self.journal.line)
        self.journal.put(script.label, f"autosleep set {text}")
        self.journal.relax(script.label, self.journal.sources[AUTOSLEEP])
        self.journal.put(script.label, "autosleep done")
        script.is_inside = False
        if text == "off" and self.is_queued and self.autos_left and self.journal.may_save():
            self.run_work()  # (it was queued, and finds that autosleep is off)
            self.journal.put("auto", "off")
            self.idle_runs += 1
        if self.keeps_on and script is self.planner.keeper:
            self.keeps_on = False
            self.let_go()

    # ---- answers

    def error(self, device: int, phase: Phase, item: CallbackEnd, number: int) -> str:
        """The error of a callback as the log has it."""
        if item.error == 0:
            return "0"
        name = NAMES.get(item.error, WRITTEN_AS)
        if NAMES.get(item.error) != name:
            self.foreign.append(Foreign(number, phase, self.kin.devices[device], item.error, item.line))
        self.answer("device", self.names[device], phase, number)["ret"] = name
        return name

    def with_callback(self, phase: Phase) -> set[int]:
        """The devices that have a callback in a phase in some attempt."""
        return self.callbacks.get(phase, set())
