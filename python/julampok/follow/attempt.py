"""One attempt of a trace as the log has it: the kernel's own path, row by row, with what the trace shows at each.

The steps of the trace say which row comes next. Rows that leave no line, as the platform's, stand between them.
"""

from __future__ import annotations

from ..errors import CannotError
from ..kernel.recording import (CallbackBegin, CallbackEnd, Phase, SourceActivate, SourceDeactivate, SuspendResume)
from ..limits import ALARM_MS, FREEZE_MS
from .family import OutOfOrder, prepared
from .outcome import EAGAIN, Guard, Outcome, Survey, Where, Why
from .phases import Down, Stage, Up

ROWS = {"freeze_processes", "thaw_processes", "CPU_OFF", "CPU_ON", "syscore_suspend", "syscore_resume", "machine_suspend",
        "dpm_prepare", "dpm_suspend", "dpm_suspend_late", "dpm_suspend_noirq", "dpm_resume_noirq", "dpm_resume_early", "dpm_resume",
        "dpm_complete"}
CORE, TEST_STEP, REFUSER = "core", "pm_test", "refuser"  # Steps of the core and the notifier of machine files that stand in.
STAND_IN = "EBUSY"  # What a stand-in answers.
MIRRORS = {"suspend": "resume", "late": "early", "noirq": "resume_noirq"}


class Unexplained(CannotError):
    """A phase stopped, and of the devices as they are taken to be nobody can have made it stop."""


class Mute:
    """A journal that keeps nothing, to find out how far a phase goes."""

    @staticmethod
    def put(who: str, body: str) -> None:
        """Makes no entry."""

    @staticmethod
    def add(text: str) -> None:
        """Makes no entry."""

    @staticmethod
    def is_pending() -> bool:
        """No test finds anything."""
        return False


class Following:
    """Follows one attempt. `owner` is the follower of the whole recording, which has the journal and the machine."""

    def __init__(self, owner, plan):
        self.owner, self.plan, self.journal = owner, plan, owner.journal
        self.seen: Survey = plan.seen
        self.outcome: Outcome = plan.outcome
        self.number = plan.number
        self.items, self.at = plan.items, 0
        self.who = plan.maker.label if plan.maker else "auto"
        self.put = self.journal.put
        self.kin, self.names = owner.kin, owner.names
        self.order = owner.mover.order
        self.ended: dict[str, list[int]] = {}
        self.prepared: list[int] = []
        self.off: list[int] = []
        self.error = "0"
        self.found: tuple[str, str] | None = None  # The test that found an event: its kind, and the device or processor.
        self.undone: list[str] = []

    # ---- the trace's items

    def step(self) -> SuspendResume | None:
        """The next step that is a row of the path, which is not taken yet; what comes before it is followed."""
        while self.at < len(self.items):
            item = self.items[self.at]
            if isinstance(item, SuspendResume):
                if item.action in ROWS:
                    self.journal.line = item.line
                    return item
            elif isinstance(item, (SourceActivate, SourceDeactivate)):
                self.source(item)
            else:
                raise CannotError(f"a callback of {item.device.shown} outside of a phase", self.owner.file, item.line)
            self.at += 1
        return None

    def is_next(self, action: str, is_begin: bool = True) -> bool:
        """Whether the next step is this one."""
        step = self.step()
        return step is not None and step.action == action and step.is_begin == is_begin

    def take(self, action: str, is_begin: bool = True, place: str = "") -> SuspendResume:
        """Takes the next step, which has to be this one. Raises OutOfOrder."""
        step = self.step()
        if step is None or step.action != action or step.is_begin != is_begin:
            line = step.line if step else self.seen.last_line
            did = f"the kernel went on with {step.action}[{step.value}] {'begin' if step.is_begin else 'end'}" if step else "the attempt ended"
            raise OutOfOrder(line, did, f"{action} {'begin' if is_begin else 'end'} had to come first{place}", None, [])
        self.at += 1
        return step

    def source(self, event) -> None:
        """A step of a wakeup source."""
        self.journal.line = event.line
        callback = self.seen.reports.get(event)
        if callback is not None and callback.device in self.kin.number:
            self.owner.report(event, callback, self.number, self.who)
        else:
            self.owner.line_event(event, is_hard=event is self.outcome.event and self.outcome.is_hard)

    # ---- from the begin to the freeze

    def run(self) -> None:
        """Follows the whole attempt."""
        self.journal.line = self.seen.attempt.line
        self.owner.open_attempt(self)
        if self.outcome.where == Where.NOTIFIERS:
            self.step()
            self.owner.stand_in("notifier", REFUSER, self.number, self.plan)
            self.put(self.who, f"notify {REFUSER} prepare {STAND_IN}")
            self.error = STAND_IN
        else:
            if self.owner.has_refuser:
                self.put(self.who, f"notify {REFUSER} prepare 0")
            self.freeze()
            if self.owner.has_refuser:
                self.put(self.who, f"notify {REFUSER} post")
        self.step()
        self.journal.line = self.seen.last_line
        self.put(self.who, f"over {self.number} {self.error}")

    def freeze(self) -> None:
        """Freezes tasks, and goes on where they did."""
        if self.is_next("freeze_processes"):
            self.at += 1
        if self.outcome.where == Where.FREEZE:
            self.fail_freeze()
            return
        self.put(self.who, "freeze user")
        self.journal.seen_hard = self.journal.hard
        if self.is_next("freeze_processes", False):
            self.at += 1
        self.owner.freeze("user", self)
        self.put(self.who, "froze user 0")
        self.put(self.who, "freeze kernel")
        self.owner.freeze("kthread", self)
        self.put(self.who, "froze kernel 0")
        self.devices_and_enter()
        self.thaw()

    def thaw(self) -> None:
        """Thaws all tasks."""
        if self.is_next("thaw_processes"):
            self.at += 1
        self.put(self.who, "thaw all")
        self.owner.thaw()
        while self.is_next("thaw_processes", False) or self.is_next("freeze_processes", False):
            self.at += 1

    def fail_freeze(self) -> None:
        """A freeze that an event stopped, or that took too long."""
        refusers = self.plan.refusers
        is_timeout = self.outcome.why == Why.TIMEOUT
        if not self.outcome.is_kernel:
            self.owner.refuse(refusers, is_timeout)
        self.put(self.who, "freeze user")
        self.journal.seen_hard = self.journal.hard
        group = "user"
        if self.outcome.is_kernel:
            self.owner.freeze("user", self)
            self.put(self.who, "froze user 0")
            self.owner.refuse(refusers, is_timeout)
            self.put(self.who, "freeze kernel")
            group = "kernel"
        self.step()
        self.owner.stop_event(self)
        self.owner.freeze("kthread" if group == "kernel" else "user", self)
        left, first = self.owner.left("kthread" if group == "kernel" else "user", self)
        if is_timeout:
            self.journal.jump(self.journal.time + FREEZE_MS)
        else:
            self.journal.find()
            self.found = "freeze", group
        self.put(self.who, f"froze {group} EBUSY {'timeout' if is_timeout else 'wakeup'} {left} {first}")
        self.error = "EBUSY"
        if group == "kernel":
            self.put(self.who, "thaw kernel")
        self.thaw()

    # ---- devices

    def platform(self, step: str, where: Where) -> bool:
        """A step of the platform on the way to sleep; False where it stops the attempt."""
        fails = self.outcome.where == where or where == Where.BEGIN and self.outcome.where == Where.FROZEN
        fails = fails or where == Where.PREPARE_LATE and self.outcome.where == Where.IDLE
        if fails:
            self.owner.stand_in("platform", step, self.number, self.plan)
            self.error = STAND_IN
        self.put(self.who, f"platform {step} {STAND_IN if fails else 0}")
        return not fails

    def devices_and_enter(self) -> None:
        """From the platform's begin to `clear`."""
        self.step()
        if self.platform("begin", Where.BEGIN):
            if self.prepare() and self.down(Phase.SUSPEND, "dpm_suspend"):
                self.suspend_enter()
            else:
                self.put(self.who, "platform recover")
            self.up(Phase.RESUME, "dpm_resume")
            self.complete()
        self.step()
        self.put(self.who, "platform end")
        self.put(self.who, "clear")
        self.journal.is_checking = False

    def suspend_enter(self) -> None:
        """From the platform's prepare to its finish."""
        self.step()
        if self.platform("prepare", Where.PLATFORM_PREPARE):
            if self.down(Phase.LATE, "dpm_suspend_late"):
                if self.outcome.where == Where.IDLE_PREPARE:
                    self.stop_noirq()
                elif self.down(Phase.NOIRQ, "dpm_suspend_noirq"):
                    self.step()
                    if self.platform("prepare_late", Where.PREPARE_LATE):
                        self.processors()
                    else:
                        self.idle()
                    self.step()
                    self.put(self.who, "platform wake")
                if self.outcome.where != Where.IDLE_PREPARE:
                    self.up(Phase.RESUME_NOIRQ, "dpm_resume_noirq")
            self.up(Phase.EARLY, "dpm_resume_early")
            if self.is_next("dpm_suspend_late", False):
                self.at += 1
        self.step()
        self.put(self.who, "platform finish")

    def stage(self) -> Stage:
        """What the phases share."""
        return Stage(self.journal, self.kin, self.names, self.who, self.order, self.plan.direct, self.owner.texts)

    def prepare(self) -> bool:
        """The prepare phase; False where it failed."""
        self.take("dpm_prepare")
        place, error, number = 0, "0", {device: number for device, number in self.kin.number.items() if number not in self.owner.loose}
        shown = set(prepared(self.seen.begins.get(Phase.PREPARE, {}), number))
        while not self.is_phase_end("dpm_prepare"):
            item = self.items[self.at]
            self.at += 1
            if type(item) is not CallbackEnd or item.error == EAGAIN or item.device not in number:
                continue
            device = number[item.device]
            self.journal.line = item.line
            if place < len(self.order) and self.order[place] == device:
                place += 1
            else:
                place = self.prepare_up_to(device, place, shown, item)
            error = self.owner.error(device, Phase.PREPARE, item, self.number) if item.error < 0 else "0"
            self.prepare_one(device, error)
        if error == "0":
            for device in self.order[place:]:
                self.prepare_one(device, "0")
        self.put(self.who, f"done prepare {error}")
        self.at += 1
        self.error = error
        return error == "0"

    def prepare_up_to(self, device: int, place: int, shown: set[int], item: CallbackEnd) -> int:
        """Prepares the devices of the list before a device that this attempt does not show; gives the place behind it."""
        for at in range(place, len(self.order)):
            other = self.order[at]
            if other == device:
                return at + 1
            if other in shown:
                self.refuse_prepare(device, other, item)
            self.prepare_one(other, "0")
        raise OutOfOrder(item.line, f"{item.device.shown} was prepared", "it was prepared already", None, [])

    def refuse_prepare(self, device: int, other: int, item: CallbackEnd) -> None:
        """Says why a device had to be prepared after another one."""
        begins = self.seen.begins[Phase.PREPARE]
        first, shown = self.kin.devices[other], item.device.shown
        because = [f"{first.shown} stands above {shown}, by its parents or links"]
        entry = self.who, f"prepare {self.names[device]} 0"
        line = begins[first].line if first in begins else None
        raise OutOfOrder(item.begin.line, f"{shown} was prepared", f"{first.shown} had to be prepared first, which it is in line {line}", line, because, entry)

    def prepare_one(self, device: int, error: str) -> None:
        """One device is prepared."""
        answer = "1" if error == "0" and device in self.plan.direct else error
        self.put(self.who, f"prepare {self.names[device]} {answer}")
        if error == "0":
            self.prepared.append(device)

    def is_phase_end(self, action: str, early: str = "") -> bool:
        """Whether the next item ends the phase; steps of sources before it are followed."""
        items = self.items
        for at in range(self.at, len(items)):
            item = items[at]
            kind = type(item)
            if kind is CallbackBegin or kind is CallbackEnd:
                self.at = at
                return False
            if kind is not SuspendResume:
                self.source(item)
            elif item.action == action and not item.is_begin or early and item.action == early and item.is_begin:
                self.at, self.journal.line = at, item.line
                return True
        raise OutOfOrder(self.seen.last_line, "the attempt ended", f"{action} had to end first", None, [])

    def down(self, phase: Phase, action: str) -> bool:
        """A phase on the way to sleep; False where it stopped the attempt."""
        self.take(action)
        where = {Phase.SUSPEND: Where.SUSPEND, Phase.LATE: Where.LATE, Phase.NOIRQ: Where.NOIRQ}[phase]
        fails = self.outcome.where == where
        begins = self.traced(phase)
        reach, keeps = self.reach(phase, begins, fails)
        if fails and self.outcome.why == Why.EVENT and self.is_exhausted(phase, begins, reach, keeps):
            keeps = keeps | self.spare(begins.keys() | self.traced(Phase(MIRRORS[phase.value])).keys(), reach)
        walk = Down(self.stage(), phase.value, begins, reach, keeps)
        self.callbacks(walk, phase, action, "dpm_resume_early" if phase == Phase.LATE else "")
        if fails and self.outcome.why == Why.EVENT:
            self.owner.stop_event(self)
        answer = walk.finish(self.items[self.at].line, not fails)
        if isinstance(self.items[self.at], SuspendResume) and self.items[self.at].action == action:
            self.at += 1
        self.ended[phase.value] = walk.ended
        if phase == Phase.SUSPEND:
            self.plan.direct = walk.left_alone
        self.error = answer
        if walk.found_at is not None:
            self.found = phase.value, self.kin.devices[walk.found_at].shown
        if fails and answer == "0":
            raise Unexplained(f"{action} stopped here, and neither the trace nor dmesg tells why", self.owner.file, self.journal.line)
        return answer == "0"

    def stop_noirq(self) -> None:
        """The platform's prepare for suspend-to-idle, of which no log has a row: the last device of the list stands in for it."""
        self.step()
        device, name = self.order[-1], self.names[self.order[-1]]
        who = self.who
        if self.kin.is_async[device]:
            self.put(self.who, f"schedule noirq {name}")
            who = f"dev:{name}"
        self.put(who, f"begin noirq {name}")
        self.put(who, f"end noirq {name} {STAND_IN}")
        self.owner.answer("device", name, Phase.NOIRQ, self.number)["ret"] = STAND_IN
        self.put(self.who, f"done noirq {STAND_IN}")
        self.put(self.who, "done resume_noirq 0")
        self.error = STAND_IN

    def traced(self, phase: Phase) -> dict[int, CallbackBegin]:
        """The callbacks of a phase that the trace shows, by device."""
        number = self.kin.number
        return {number[device]: begin for device, begin in self.seen.begins.get(phase, {}).items() if device in number}

    def reach(self, phase: Phase, begins: dict, fails: bool) -> tuple[int, set[int]]:
        """How far the walk goes before the phase ends, and which devices without a line here do not pass before."""
        if not fails:
            return 0, set()
        mirror = self.traced(Phase(MIRRORS[phase.value]))
        needed = begins.keys() | mirror.keys()
        reach = next((place for place, device in enumerate(self.order) if device in needed), len(self.order))
        return reach, self.spare(needed, reach) & self.owner.with_callback(phase) & self.traced(Phase.PREPARE).keys()

    def is_exhausted(self, phase: Phase, begins: dict, reach: int, keeps: set[int]) -> bool:
        """Whether nobody would be left to test once all callbacks of the phase are over, if all others came as early as they may."""
        stage = self.stage()
        stage.journal = Mute()
        walk = Down(stage, phase.value, begins, reach, keeps)
        try:
            for item in self.items[self.at:]:
                device = self.kin.number.get(item.device) if isinstance(item, (CallbackBegin, CallbackEnd)) and item.phase == phase else None
                if device is not None and isinstance(item, CallbackBegin):
                    walk.begin(device, item)
                elif device is not None:
                    walk.end(device, "0" if item.error == 0 else STAND_IN)
        except OutOfOrder:
            return False
        walk.go()
        return walk.place < 0 and all(walk.is_over)

    def spare(self, needed: set[int], reach: int) -> set[int]:
        """Asynchronous devices without a line that nobody waits for who came before the event: one of them may have found it."""
        todo = [device for place, device in enumerate(self.order) if device in needed or place >= reach and not self.kin.is_async[device]]
        waited = set(todo)
        while todo:
            fresh = [below for below in self.kin.below[todo.pop()] if below not in waited]
            waited.update(fresh)
            todo += fresh
        return {device for device in self.order if self.kin.is_async[device] and device not in waited}

    def callbacks(self, walk, phase: Phase, action: str, early: str = "") -> None:
        """Follows the callbacks of a phase up to its end."""
        number, journal, error = self.kin.number, self.journal, self.owner.error
        while not self.is_phase_end(action, early):
            for at in range(self.at, len(self.items)):
                item = self.items[at]
                kind = type(item)
                if kind is not CallbackBegin and kind is not CallbackEnd:
                    break
                self.at = at + 1
                device = number.get(item.device)
                if device is None:
                    continue
                journal.line = item.line
                if kind is CallbackBegin:
                    walk.begin(device, item)
                else:
                    walk.end(device, "0" if item.error == 0 else error(device, phase, item, self.number))

    def up(self, phase: Phase, action: str) -> None:
        """A phase on the way back."""
        self.take(action)
        down = {value: key for key, value in MIRRORS.items()}[phase.value]
        walk = Up(self.stage(), phase.value, self.traced(phase), self.ended.get(down, []))
        self.callbacks(walk, phase, action)
        walk.finish(self.journal.line)
        self.at += 1
        self.undone.append(phase.value)

    def complete(self) -> None:
        """The complete phase: backward over the devices that were prepared."""
        self.take("dpm_complete")
        later = {device: begin for device, begin in self.traced(Phase.COMPLETE).items() if device not in self.owner.loose}
        while not self.is_phase_end("dpm_complete"):
            item = self.items[self.at]
            self.at += 1
            device = self.kin.number.get(item.device)
            if device is None or type(item) is not CallbackBegin or device in self.owner.loose:
                continue
            self.journal.line = item.line
            self.complete_down_to(device, later, item)
        while self.prepared:
            self.put(self.who, f"complete {self.names[self.prepared.pop()]}")
        self.put(self.who, "done complete 0")
        self.at += 1

    def complete_down_to(self, device: int, later: dict, item: CallbackBegin) -> None:
        """Completes the devices behind a device in the list that have no line here, then it."""
        while self.prepared:
            other = self.prepared.pop()
            if other != device and other in later:
                shown, first, line = item.device.shown, self.kin.devices[other].shown, later[other].line
                because = [f"{first} was prepared after {shown}, and complete goes the other way"]
                entry = self.who, f"complete {self.names[device]}"
                raise OutOfOrder(item.line, f"{shown} was completed", f"{first} had to be completed first, which it is in line {line}", line, because, entry)
            self.put(self.who, f"complete {self.names[other]}")
            if other == device:
                return
        raise OutOfOrder(item.line, f"{item.device.shown} was completed", "it was not prepared, or was completed already", None, [],
                         (self.who, f"complete {self.names[device]}"))

    # ---- from processors to the entry

    def idle(self) -> None:
        """What the trace has of suspend-to-idle, which the log leaves out."""
        while self.is_next("machine_suspend") or self.is_next("machine_suspend", False):
            self.at += 1

    def processors(self) -> None:
        """Takes processors off, goes through the core, and puts them on again."""
        is_event = self.outcome.where == Where.CPUS and self.outcome.why == Why.EVENT
        most = self.owner.cpus - (2 if is_event else 1)
        went = 0
        while self.is_next("CPU_OFF"):
            went += 1
            self.take_off(went, most)
            self.at += 1
            if self.is_next("CPU_OFF", False):
                self.at += 1
        if is_event:
            self.step()
            self.owner.stop_event(self)
            self.journal.find()
            self.error, self.found = "EBUSY", ("cpu", str(went + 1))
            self.put(self.who, f"cpu EBUSY {len(self.off) + 1}")
        elif went < most and self.journal.is_pending():
            self.find_instead(f"cpu EBUSY {went + 1}")
        else:
            for cpu in range(went + 1, most + 1):
                self.take_off(cpu, most)
            self.core()
        if went != len(self.off) and self.outcome.where != Where.CPUS:
            self.plan.stand_ins.append(("processors", f"{len(self.off)} processors go off; the kernel took {went} off"))
        self.step()
        for cpu in self.off:
            self.put(self.who, f"cpu on {cpu}")
        while self.is_next("CPU_ON") or self.is_next("CPU_ON", False):
            self.at += 1

    def find_instead(self, body: str) -> None:
        """A test finds an event where the kernel turned around before it tested."""
        self.journal.find()
        self.error = "EBUSY"
        self.plan.stand_ins.append(("test", body.split(" ")[0]))
        self.put(self.who, body)

    def take_off(self, number: int, most: int) -> None:
        """A processor goes off, where the machine has that many."""
        if number <= most:
            self.off.append(number)
            self.put(self.who, f"cpu off {number}")

    def core(self) -> None:
        """From interrupts that go off to interrupts that come on."""
        is_reached = self.is_next("syscore_suspend")
        self.put(self.who, "irqs off")
        if is_reached:
            self.at += 1
        is_event = self.outcome.where == Where.SYSCORE and self.outcome.why == Why.EVENT
        if is_event:
            self.step()
            self.owner.stop_event(self)
            self.journal.find()
            self.error, self.found = "EBUSY", ("core", "")
        if not is_event and self.outcome.where in (Where.CPUS, Where.SYSCORE) and self.journal.is_pending():
            self.find_instead("syscore check EBUSY")
        else:
            self.put(self.who, f"syscore check {'EBUSY' if is_event else 0}")
            if not is_event:
                self.core_steps()
        self.put(self.who, "irqs on")

    def core_steps(self) -> None:
        """The steps of the core, and the entry."""
        fails = self.outcome.where == Where.SYSCORE or self.outcome.where == Where.CPUS
        if fails:
            self.owner.stand_in("syscore", CORE, self.number, self.plan)
            self.error = STAND_IN
        self.put(self.who, f"syscore suspend {CORE} {STAND_IN if fails else 0}")
        if fails:
            return
        if self.is_next("syscore_suspend", False):
            self.at += 1
        if self.outcome.where == Where.LAST and self.outcome.why == Why.PM_TEST:
            self.owner.stand_in("syscore", TEST_STEP, self.number, self.plan)
            self.put(self.who, f"syscore suspend {TEST_STEP} {STAND_IN}")
            self.error = STAND_IN
        else:
            if self.owner.has_test_step:
                self.put(self.who, f"syscore suspend {TEST_STEP} 0")
            self.enter()
            if self.owner.has_test_step:
                self.put(self.who, f"syscore resume {TEST_STEP}")
        while self.is_next("syscore_resume") or self.is_next("syscore_resume", False):
            self.at += 1
        self.put(self.who, f"syscore resume {CORE}")

    def enter(self) -> None:
        """The last test, and the sleep."""
        self.step()
        if self.outcome.where == Where.LAST:
            self.owner.stop_event(self)
            self.journal.find()
            self.put(self.who, "enter EBUSY")
            self.error, self.found = "EBUSY", ("last", "")
            return
        if self.is_next("machine_suspend"):
            self.at += 1
        self.put(self.who, "enter")
        journal = self.journal
        journal.is_asleep, position = True, journal.position
        while self.is_next("machine_suspend", False) or self.is_next("machine_suspend"):
            self.at += 1
        if journal.position == position:
            journal.jump(journal.time + ALARM_MS)
        journal.is_asleep = False
        self.put(self.who, f"wake {'event' if journal.position > position else 'alarm'}")


def is_saved(outcome: Outcome) -> bool:
    """Whether a count was saved for the attempt."""
    return outcome.guard == Guard.SAVED
