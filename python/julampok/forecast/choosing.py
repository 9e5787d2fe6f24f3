"""Finds the devices that a user names, and makes the changes that a user asks for."""

from __future__ import annotations

import difflib
from dataclasses import replace
from typing import Sequence

from julampok.errors import CannotError
from julampok.kernel.recording import Device

from .forecast import Forecast
from .measured import Measured
from .plan import CycleError, Plan

NEAREST = 3  # The most names that a refusal offers.


def find(devices: Sequence[Device], words: str) -> int:
    """The number of the device that is named: by its name, as `DRIVER NAME`, `NAME (DRIVER)` or `PARENT/NAME`, or by its path.

    Of several devices of one name the one that has callbacks is meant, if it is one.

    Raises:
        CannotError: no device has that name, or several have.
    """
    found = [number for number, device in enumerate(devices) if words in (device.name, device.shown, with_driver(device))]
    if not found and "/" in words:
        path = words.removeprefix("/sys/").removeprefix("/").removeprefix("devices/").strip("/")
        found = [number for number, device in enumerate(devices) if path in (path_of(device), with_parent(device))]
    busy = [number for number in found if devices[number].has_callbacks]
    found = busy if len(busy) == 1 else found
    if len(found) == 1:
        return found[0]
    if found:
        raise CannotError(f"{len(found)} devices are named {words!r}: {' or '.join(told_apart(devices, found))}")
    raise CannotError(f"there is no device {words!r}; {nearest(devices, words)}")


def with_driver(device: Device) -> str:
    """The device as a trace names it: its driver, then its name."""
    return f"{device.driver} {device.name}".strip()


def with_parent(device: Device) -> str:
    """The device with its parent before it."""
    return device.name if device.parent is None else f"{device.parent.name}/{device.name}"


def path_of(device: Device) -> str | None:
    """The folder of a device below /sys/devices; None where it is not known."""
    return None if device.path is None else device.path.removeprefix("/sys/").removeprefix("devices/").strip("/")


def told_apart(devices: Sequence[Device], numbers: Sequence[int]) -> list[str]:
    """Words that name each of some devices of one name alone: with its driver, with its parent, or its path."""
    forms = [[words(devices[number]) for number in numbers] for words in (with_driver, with_parent, path_of)]
    found = []
    for place, number in enumerate(numbers):
        name = devices[number].name
        fitting = (shown[place] for shown in forms if shown[place] not in (None, name) and shown.count(shown[place]) == 1)
        found.append(repr(next(fitting, name)))
    return found


def nearest(devices: Sequence[Device], words: str) -> str:
    """The names that are nearest to what was asked for."""
    names = list(dict.fromkeys(device.name for device in devices))
    found = difflib.get_close_matches(words, names, NEAREST, 0.5)
    lower = {name.lower(): name for name in reversed(names)}
    found += [lower[name] for name in difflib.get_close_matches(words.lower(), list(lower), NEAREST, 0.5) if lower[name] not in found]
    if not found:
        return f"the recording has {len(names)} others"
    return f"the nearest {'is' if len(found) == 1 else 'are'} {', '.join(found[:NEAREST])}"


def changed(measured: Measured, make_async: Sequence[str], make_sync: Sequence[str], links: Sequence[Sequence[str]],
            pm_async: bool | None = None) -> tuple[Forecast, list[str]]:
    """The forecast of a user's changes, and notes on what they assume.

    Links are added in the order in which they are given.

    Raises:
        CannotError: a device is not there, is to be both, or a link would close a cycle.
    """
    devices, plan, changes, notes = measured.devices, measured.plan, [], []
    if pm_async is not None:
        plan = with_pm_async(measured, plan, pm_async, changes, notes)
    for supplier, consumer in links:
        plan = link(devices, plan, supplier, consumer, changes, notes)
    flags: dict[int, bool] = {}
    for words, is_async in [(words, True) for words in make_async] + [(words, False) for words in make_sync]:
        number = find(devices, words)
        if flags.setdefault(number, is_async) != is_async:
            raise CannotError(f"{devices[number].shown} is asked to be both asynchronous and synchronous")
    for number, is_async in flags.items():
        plan = flag(devices, plan, number, is_async, changes, notes)
    if any(flags.values()) and not measured.is_any_async and pm_async is None:
        notes.append("nobody was asynchronous in this recording, so pm_async was 0 or no device asks for it; the forecast takes "
                     "it that pm_async is 1 and that the devices named by --async alone are asynchronous")
    return Forecast(measured, plan, changes), notes


def with_pm_async(measured: Measured, plan: Plan, is_on: bool, changes: list[str], notes: list[str]) -> Plan:
    """The plan with /sys/power/pm_async written: all devices that ask for it are asynchronous, or none is."""
    if is_on and not any(listed_async(device) for device in measured.devices):
        raise CannotError("--pm-async 1 needs to know which devices ask to be asynchronous: give SYS or --devices")
    asked = {number for number, device in enumerate(measured.devices) if listed_async(device)} if is_on else set()
    if frozenset(asked) == plan.asynchronous:
        notes.append(f"pm_async was {int(is_on)} in the recording, so --pm-async changes nothing")
        return plan
    changes.append(f"pm_async {int(is_on)}, which makes {len(asked)} devices asynchronous")
    return replace(plan, asynchronous=frozenset(asked))


def listed_async(device: Device) -> bool:
    """Whether /sys or a list of devices says that a device asks to be asynchronous."""
    return bool(device.listed_async)


def flag(devices: Sequence[Device], plan: Plan, number: int, is_async: bool, changes: list[str], notes: list[str]) -> Plan:
    """The plan with a device made asynchronous or synchronous; a note where it is so already."""
    words = "asynchronous" if is_async else "synchronous"
    if (number in plan.asynchronous) == is_async:
        notes.append(f"{devices[number].shown} is {words} already")
        return plan
    changes.append(f"{devices[number].shown} {words}")
    return plan.with_flag(number, is_async)


def link(devices: Sequence[Device], plan: Plan, supplier: str, consumer: str, changes: list[str], notes: list[str]) -> Plan:
    """The plan with a link added; a note where it is there already."""
    numbers = find(devices, supplier), find(devices, consumer)
    try:
        after = plan.with_link(*numbers)
    except CycleError as cycle:
        way = " > ".join(devices[number].shown for number in cycle.path)
        why = "a device is no supplier of itself" if len(cycle.path) == 1 else f"{supplier} hangs below {consumer}: {way}"
        raise CannotError(f"the link from {supplier} to {consumer} would close a cycle: {why}") from None
    if after is plan:
        dormant = any(one.is_dormant for one in plan.links if (one.supplier, one.consumer) == numbers)
        notes.append(f"the link from {supplier} to {consumer} is there already{', dormant' if dormant else ''}: it changes nothing")
        return plan
    moved = len(plan.moved(numbers[1]))
    below = f" with the {moved - 1} below it" if moved > 1 else ""
    changes.append(f"a link from {devices[numbers[0]].shown} to {devices[numbers[1]].shown}, which moves the latter{below} to the end of the list")
    return after
