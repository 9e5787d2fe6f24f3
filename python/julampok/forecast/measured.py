"""What one attempt of a recording measured: its list of devices as a plan, and how long each phase and each callback took."""

from __future__ import annotations

import re
from dataclasses import dataclass, replace

from julampok.kernel.recording import Attempt, CallbackBegin, Clock, Device, Phase, Recording, SuspendResume

from .plan import Plan, PlanLink

WAY_DOWN = (Phase.SUSPEND, Phase.LATE, Phase.NOIRQ)
WAY_UP = (Phase.RESUME_NOIRQ, Phase.EARLY, Phase.RESUME)
TIMED = (*WAY_DOWN, *WAY_UP)
UP_OF = dict(zip(WAY_DOWN, reversed(WAY_UP)))
DEBIAN_SINCE = 18
ONE_PASS_SINCE = (6, 1, 76)  # From this version on the walk on the way up gives out asynchronous devices as it comes to them.


class NoTimesError(Exception):
    """The attempt cannot be timed: why, and the line that shows it."""

    def __init__(self, text, line=None):
        super().__init__(text)
        self.line = line


@dataclass(slots=True)
class MeasuredPhase:
    """A phase as the trace has it. Times are nanoseconds; lists are by device."""

    phase: Phase
    begin: int
    end: int
    callbacks: list[CallbackBegin | None]
    durations: list[int]
    taken: frozenset[int] | None  # The devices that the walk came to; None: all.

    @property
    def total(self) -> int:
        """How long the phase took."""
        return self.end - self.begin


@dataclass(slots=True)
class Listed:
    """An attempt's devices, without any times. `devices` has the device of each number of the plan.

    `callbacks` are by phase and device. `is_any_async` says that somebody ran in another task than the attempt's.
    """

    attempt: Attempt
    devices: list[Device]
    plan: Plan
    callbacks: dict[Phase, list[CallbackBegin | None]]
    slept: bool
    is_any_async: bool


@dataclass(slots=True)
class Measured(Listed):
    """An attempt with its times."""

    phases: dict[Phase, MeasuredPhase]
    is_one_pass: bool


def attempts_with_phases(recording: Recording) -> list[Attempt]:
    """The attempts that came to a phase of devices that has times."""
    return [attempt for attempt in recording.attempts if any(step.phase in TIMED for step in steps_of(attempt))]


def steps_of(attempt: Attempt) -> list[SuspendResume]:
    """The steps of an attempt."""
    return [event for event in attempt.events if isinstance(event, SuspendResume)]


def choose_attempt(recording: Recording, number: int | None = None) -> Attempt:
    """The attempt of that number; without one the first that slept, else the first that came to a phase of devices.

    Raises:
        NoTimesError: there is none.
    """
    if number is not None:
        found = next((attempt for attempt in recording.attempts if attempt.number == number), None)
        if found is None:
            raise NoTimesError(f"there is no attempt {number}: the trace has {len(recording.attempts)}")
        return found
    whole = attempts_with_phases(recording)
    if not whole:
        raise NoTimesError("no attempt of the trace came to a phase of devices, so nothing has been timed")
    return next((attempt for attempt in whole if attempt.steps("machine_suspend", True)), whole[0])


def choose_listed(recording: Recording, number: int | None = None) -> Attempt:
    """The attempt of that number; without one the first that slept, else the first that prepared devices.

    Raises:
        NoTimesError: there is none.
    """
    if number is not None:
        return choose_attempt(recording, number)
    prepared = [attempt for attempt in recording.attempts if attempt.callbacks(Phase.PREPARE)]
    if not prepared:
        raise NoTimesError("no attempt of the trace prepared devices, so their list is not known")
    return next((attempt for attempt in prepared if attempt.steps("machine_suspend", True)), prepared[0])


def list_devices(recording: Recording, attempt: Attempt) -> Listed:
    """The devices of an attempt and who waits for whom.

    Raises:
        NoTimesError: the attempt prepared no device.
    """
    devices = list(dict.fromkeys(callback.device for callback in attempt.callbacks(Phase.PREPARE)))
    if not devices:
        raise NoTimesError(f"attempt {attempt.number} prepared no device, so its list is not known", attempt.line)
    numbers = {device: number for number, device in enumerate(devices)}
    callbacks = {phase: callbacks_of(attempt, phase, numbers) for phase in TIMED}
    ran = {number for found in callbacks.values() for number, callback in enumerate(found) if callback is not None}
    flags, is_any_async = asynchronous(attempt, devices, callbacks, ran)
    slept = bool(attempt.steps("machine_suspend", True))
    plan = make_plan(recording, devices, numbers, flags, ran | not_reached(callbacks, slept))
    if is_any_async:
        unknown = {number for number, device in enumerate(devices) if device.listed_async is None and number not in ran}
        plan = replace(plan, asynchronous=flags | passed_by(plan, callbacks, unknown))
    return Listed(attempt, devices, plan, callbacks, slept, is_any_async)


def not_reached(callbacks: dict[Phase, list[CallbackBegin | None]], slept: bool) -> set[int]:
    """The devices to which a suspend phase that stopped may not have come, so that they may have callbacks."""
    if slept or any(callback is not None for phase in (Phase.LATE, Phase.NOIRQ) for callback in callbacks[phase]):
        return set()
    first = next((number for number, callback in enumerate(callbacks[Phase.SUSPEND]) if callback is not None), len(callbacks[Phase.SUSPEND]))
    return set(range(first))


def callbacks_of(attempt: Attempt, phase: Phase, numbers: dict[Device, int]) -> list[CallbackBegin | None]:
    """The callback of each device in a phase; None where it has none, or none that ended."""
    found: list[CallbackBegin | None] = [None] * len(numbers)
    for callback in attempt.callbacks(phase):
        number = numbers.get(callback.device)
        if number is not None and callback.end is not None:
            found[number] = found[number] or callback
    return found


def measure(recording: Recording, attempt: Attempt) -> Measured:
    """The times of an attempt.

    Raises:
        NoTimesError: the clock of the trace counts and does not time, or the attempt has no list of devices or no phase.
    """
    if recording.clock is Clock.COUNTER:
        raise NoTimesError("the clock of this trace is a counter, which has no times; record with 'echo boot > trace_clock' "
                           "in /sys/kernel/tracing, or with 'trace-cmd record -C boot'", attempt.line)
    listed = list_devices(recording, attempt)
    phases = {phase: found for phase in TIMED if (found := measure_phase(attempt, phase, listed.callbacks[phase])) is not None}
    if not phases:
        raise NoTimesError(f"attempt {attempt.number} came to no phase of devices", attempt.line)
    limit_taken(listed.plan, phases, listed.slept)
    is_one_pass = gives_out_in_passing(recording)
    return Measured(listed.attempt, listed.devices, listed.plan, listed.callbacks, listed.slept, listed.is_any_async, phases, is_one_pass)


def gives_out_in_passing(recording: Recording) -> bool:
    """Whether the walk on the way up gives out asynchronous devices as it comes to them, and not all of them first.

    Debian's kernels name themselves 6.1.0-NUMBER whatever their version is: number 18 was the first that is 6.1.76.
    """
    debian = re.match(r"6\.1\.0-(\d+)-", recording.version_text)
    return int(debian[1]) >= DEBIAN_SINCE if debian else recording.version[:3] >= ONE_PASS_SINCE


def measure_phase(attempt: Attempt, phase: Phase, callbacks: list[CallbackBegin | None]) -> MeasuredPhase | None:
    """The times of a phase; None where the attempt has none, or has its begin or end alone."""
    steps = [step for step in steps_of(attempt) if step.phase is phase]
    begin = next((step for step in steps if step.is_begin), None)
    end = next((step for step in steps if not step.is_begin and begin is not None and step.line > begin.line), None)
    if begin is None or end is None or None in (begin.time, end.time):
        return None
    durations = [0 if callback is None else callback.end.time - callback.time for callback in callbacks]
    return MeasuredPhase(phase, begin.time, end_of(attempt, begin, end), callbacks, durations, None)


def end_of(attempt: Attempt, begin: SuspendResume, end: SuspendResume) -> int:
    """When a phase ended. A late phase that failed has the way up inside it, before its own end."""
    inside = (step for step in steps_of(attempt) if begin.line < step.line < end.line and step.phase in TIMED)
    return next(inside, end).time


def asynchronous(attempt: Attempt, devices: list[Device], callbacks: dict[Phase, list[CallbackBegin | None]],
                 ran: set[int]) -> tuple[frozenset[int], bool]:
    """The devices that were asynchronous in this attempt, and whether any was.

    Asynchronous is who had a callback in another task than the attempt's. A device without callbacks is what /sys says of
    it, if anybody was asynchronous at all; where that tells nothing it is synchronous, as devices are by default.
    """
    maker = steps_of(attempt)[0].pid
    apart = {number for found in callbacks.values() for number, callback in enumerate(found)
             if callback is not None and callback.pid != maker}
    said = {number for number, device in enumerate(devices) if device.listed_async and number not in ran} if apart else set()
    return frozenset(apart | said), bool(apart)


def passed_by(plan: Plan, callbacks: dict[Phase, list[CallbackBegin | None]], unknown: set[int]) -> set[int]:
    """The devices of those unknown ones that were asynchronous: the walk went on while they had to wait for another device."""
    found = set()
    for phase in TIMED:
        needed, soonest = last_needed(plan, callbacks[phase], phase), None
        for number in plan.order if phase in WAY_DOWN else reversed(plan.order):  # From the end of the walk to its begin.
            callback = callbacks[phase][number]
            if callback is not None and number not in plan.asynchronous:
                soonest = callback.line if soonest is None else min(soonest, callback.line)
            elif number in unknown and None not in (needed[number], soonest) and needed[number].end.line > soonest:
                found.add(number)
    return found


def last_needed(plan: Plan, callbacks: list[CallbackBegin | None], phase: Phase) -> list[CallbackBegin | None]:
    """For each device the callback that ended last among those it has to wait for, also by way of devices without one."""
    is_down = phase in WAY_DOWN
    found: list[CallbackBegin | None] = [None] * len(callbacks)
    for number in reversed(plan.order) if is_down else plan.order:
        needs = plan.below[number] if is_down else () if number in plan.direct else plan.above[number]
        waited = [callbacks[other] or found[other] for other, _ in needs]
        found[number] = max((one for one in waited if one is not None), key=lambda one: one.end.line, default=None)
    return found


def make_plan(recording: Recording, devices: list[Device], numbers: dict[Device, int], flags: frozenset[int], loud: set[int]) -> Plan:
    """The plan of an attempt's devices. A parent that is not in the list is none: nobody waits for it."""
    silent = frozenset(number for number, device in enumerate(devices) if number not in loud and may_be_left_alone(device))
    links = dict.fromkeys(PlanLink(numbers[link.supplier], numbers[link.consumer], link.is_dormant) for link in recording.links
                          if link.supplier in numbers and link.consumer in numbers)
    names = tuple(device.name for device in devices)
    parents = tuple(None if device.parent is None else numbers.get(device.parent) for device in devices)
    return Plan(names, parents, tuple(links), tuple(range(len(devices))), flags, silent)


def may_be_left_alone(device: Device) -> bool:
    """Whether nothing that is known of a device without callbacks keeps the kernel from leaving it alone."""
    return not device.may_wake and device.runtime_status != "active"


def limit_taken(plan: Plan, phases: dict[Phase, MeasuredPhase], slept: bool) -> None:
    """Sets which devices the walk came to, in the phase that turned the attempt around and in the one that undoes it."""
    last = next((phase for phase in reversed(WAY_DOWN) if phase in phases), None)
    if last is None or slept:
        return
    walk = list(reversed(plan.order))
    began = [place for place, device in enumerate(walk) if phases[last].callbacks[device] is not None]
    taken = frozenset(walk[: max(began, default=-1) + 1])
    for phase in (last, UP_OF[last]):
        if phase in phases:
            phases[phase].taken = taken
