"""Keeps a part of a recording: branches of its devices, each with all below it and all that these need; or its last attempts."""

from __future__ import annotations

import dataclasses
from collections import defaultdict

from .recording import Attempt, CallbackBegin, CallbackEnd, Device, Recording


def branch(recording: Recording, named: list[Device]) -> set[Device]:
    """The devices that are named, all below them, and the parents and suppliers that all of these need."""
    children, suppliers = defaultdict(list), defaultdict(list)
    for device in recording.devices:
        children[device.parent].append(device)
    for link in recording.links:
        suppliers[link.consumer].append(link.supplier)
    kept = reached(named, lambda device: children[device])
    return reached(kept, lambda device: [*suppliers[device], *([device.parent] if device.parent else [])])


def reached(devices, near) -> set[Device]:
    """The devices, and all that are reached from them by `near`, which gives a device's next ones."""
    found, todo = set(devices), list(devices)
    while todo:
        fresh = [other for other in near(todo.pop()) if other not in found]
        found.update(fresh)
        todo += fresh
    return found


def narrow(recording: Recording, kept: set[Device]) -> Recording:
    """The recording with these devices alone: callbacks and links of all others are left out."""
    def stays(event) -> bool:
        return not isinstance(event, (CallbackBegin, CallbackEnd)) or event.device in kept

    events, attempts, at = [], [], 0
    for attempt in recording.attempts:
        events += recording.events[at:attempt.first]
        own = [event for event in attempt.events if stays(event)]
        attempts.append(Attempt(attempt.number, own, len(events), attempt.state, attempt.told))
        events += own
        at = attempt.first + len(attempt.events)
    return dataclasses.replace(
        recording, events=events + recording.events[at:], attempts=attempts,
        devices=[device for device in recording.devices if device in kept],
        links=[link for link in recording.links if link.supplier in kept and link.consumer in kept])


def last_attempts(recording: Recording, count: int) -> Recording:
    """The recording with its last attempts alone, and with what wakeup sources did after the ones that are left out."""
    before = recording.attempts[-count - 1]
    begin = before.first + len(before.events)
    attempts = [Attempt(number, attempt.events, attempt.first - begin, attempt.state, attempt.told)
                for number, attempt in enumerate(recording.attempts[-count:], 1)]
    return dataclasses.replace(recording, events=recording.events[begin:], attempts=attempts)
