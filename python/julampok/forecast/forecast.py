"""Forecasts of an attempt's times: its measured callbacks over the rules of the order, without and with a change.

A forecast knows no buses, no locks and no processors: callbacks that wait for these keep the time that they took.
"""

from __future__ import annotations

from dataclasses import dataclass, field
from functools import cached_property

from julampok.kernel.recording import CallbackBegin, Device, Phase

from .measured import TIMED, WAY_DOWN, WAY_UP, Measured
from .plan import Need, Plan
from .simulate import Timing, longest, simulate

OFF_BY = 5_000_000  # A phase that the rules miss by more nanoseconds than this is told.


@dataclass(slots=True, frozen=True)
class Times:
    """A stretch of time in nanoseconds: as it was, by the rules without a change, and by the rules with it."""

    measured: int | None
    rules: int | None
    forecast: int | None

    @property
    def change(self) -> int | None:
        """How much the change adds."""
        return None if None in (self.rules, self.forecast) else self.forecast - self.rules


@dataclass(slots=True, frozen=True, eq=False)
class Wait:
    """Why a callback began no sooner: the callback it waited for, what that is to it, and for how many nanoseconds.

    `through` are devices without a callback between the two, from the one that waited on; `need` is then what the first of
    them is to it. `waited` counts from when the walk came to the device.
    """

    device: Device
    callback: CallbackBegin | None
    other: Device
    other_callback: CallbackBegin | None
    need: Need
    through: list[Device]
    waited: int

    @property
    def words(self) -> str:
        """Why, in words."""
        if self.need is Need.WALK:
            return f"after {self.other.shown}, to which the walk over the list came before"
        first = f"waits for its {self.need}"
        if not self.through:
            return f"{first} {self.other.shown}"
        between = ", ".join(device.name for device in self.through)
        return f"{first}, by way of {between} without a callback: {self.other.shown}"


@dataclass(slots=True, frozen=True, eq=False)
class Step:
    """A callback on the longest path: how long it takes, and what it waited for (None: it began with the phase)."""

    phase: Phase
    device: Device
    callback: CallbackBegin | None
    length: int
    wait: Wait | None


@dataclass
class Forecast:
    """An attempt's phases over the rules, with the plan that was measured (`base`) and with a changed one (`plan`)."""

    measured: Measured
    plan: Plan
    changes: list[str] = field(default_factory=list)  # What was changed, in words.

    @property
    def base(self) -> Plan:
        """The plan without the change."""
        return self.measured.plan

    @cached_property
    def rules(self) -> dict[Phase, Timing]:
        """Each phase over the rules, without the change."""
        return timings(self.measured, self.base)

    @cached_property
    def timings(self) -> dict[Phase, Timing]:
        """Each phase over the rules, with the change."""
        return self.rules if self.plan is self.base else timings(self.measured, self.plan)

    def phase(self, phase: Phase) -> Times:
        """The times of a phase that the attempt has."""
        return Times(self.measured.phases[phase].total, self.rules[phase].total, self.timings[phase].total)

    @property
    def phases(self) -> dict[Phase, Times]:
        """The times of all phases that the attempt has."""
        return {phase: self.phase(phase) for phase in TIMED if phase in self.measured.phases}

    @property
    def suspend(self) -> Times | None:
        """From the begin of suspend to the end of noirq; None where the attempt has not all three phases."""
        return self.together(WAY_DOWN)

    @property
    def resume(self) -> Times | None:
        """From the begin of resume_noirq to the end of resume; None where the attempt has not all three phases."""
        return self.together(WAY_UP)

    def together(self, way: tuple[Phase, ...]) -> Times | None:
        """The times of phases one after the other. What passes between them is measured, and is in no rule."""
        if any(phase not in self.measured.phases for phase in way):
            return None
        each = [self.phase(phase) for phase in way]
        first, last = self.measured.phases[way[0]], self.measured.phases[way[-1]]
        return Times(last.end - first.begin, sum(times.rules for times in each), sum(times.forecast for times in each))

    @property
    def off(self) -> dict[Phase, Times]:
        """The phases that the rules without a change miss by more than a little."""
        return {phase: times for phase, times in self.phases.items() if abs(times.measured - times.rules) > OFF_BY}

    # ---- who waited for whom

    def path(self, phase: Phase) -> list[Step]:
        """The longest path of a phase with the change: callbacks alone, each after what it waited for."""
        numbers = [number for number in longest(self.timings[phase]) if self.callback(phase, number) is not None]
        return [self.step(phase, number) for number in numbers]

    def step(self, phase: Phase, number: int) -> Step:
        length = self.measured.phases[phase].durations[number]
        return Step(phase, self.measured.devices[number], self.callback(phase, number), length, self.wait(phase, number))

    def waits(self, phase: Phase) -> list[Wait]:
        """What each callback of a phase waited for, without the change, where something held it up; in the walk's order."""
        timing = self.rules[phase]
        numbers = [number for number in timing.walk if self.callback(phase, number) is not None]
        return [wait for number in numbers if (wait := self.wait(phase, number, timing)) is not None]

    def callback(self, phase: Phase, number: int) -> CallbackBegin | None:
        return self.measured.phases[phase].callbacks[number]

    def wait(self, phase: Phase, number: int, timing: Timing | None = None) -> Wait | None:
        """What let a device begin, by way of devices without a callback; None where nothing held it up."""
        timing = self.timings[phase] if timing is None else timing
        cause, through = timing.cause[number], []
        if cause is None:
            return None
        other, need = cause
        while self.callback(phase, other) is None:
            through.append(self.measured.devices[other])
            if timing.cause[other] is None:
                return None
            other = timing.cause[other][0]
        devices = self.measured.devices
        waited = timing.begin[number] - timing.came[number]
        return Wait(devices[number], self.callback(phase, number), devices[other], self.callback(phase, other), need, through, waited)


def timings(measured: Measured, plan: Plan) -> dict[Phase, Timing]:
    """Each phase of an attempt over the rules."""
    all_first = not measured.is_one_pass
    return {
        phase: simulate(plan, phase in WAY_DOWN, found.durations, all_first=all_first and phase in WAY_UP, taken=found.taken)
        for phase, found in measured.phases.items()
    }


def total(measured: Measured, plan: Plan) -> int:
    """All phases of an attempt together, over the rules."""
    return sum(timing.total for timing in timings(measured, plan).values())


# ---- what saves most


@dataclass(slots=True, frozen=True, eq=False)
class Saving:
    """A device that would be asynchronous, and the forecast of that."""

    device: Device
    forecast: Forecast
    saved: int  # Nanoseconds, of all phases together.


def held_up(measured: Measured) -> dict[int, int]:
    """How long each synchronous device holds up the walk, in all phases together: at most this is saved without it."""
    found: dict[int, int] = {}
    for timing in timings(measured, measured.plan).values():
        for number in timing.walk:
            if number not in measured.plan.asynchronous and timing.end[number] > timing.came[number]:
                found[number] = found.get(number, 0) + timing.end[number] - timing.came[number]
    return found


def best(measured: Measured, most: int) -> list[Saving]:
    """The devices that save most if they alone are made asynchronous, the best first; such as save nothing are left out.

    A device can save no more than it holds up the walk, so the devices that hold it up longest are tried first, and no
    more are tried once the rest can save less than those found.
    """
    bounds = held_up(measured)
    before, found = total(measured, measured.plan), []
    for number in sorted(bounds, key=bounds.get, reverse=True):
        if len(found) >= most and bounds[number] <= found[most - 1].saved:
            break
        plan = measured.plan.with_flag(number, True)
        saved = before - total(measured, plan)
        if saved > 0:
            device = measured.devices[number]
            found.append(Saving(device, Forecast(measured, plan, [f"{device.shown} asynchronous"]), saved))
            found.sort(key=lambda saving: -saving.saved)
            del found[most:]
    return found
