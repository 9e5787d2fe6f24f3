"""The machine and the log of one undisturbed attempt in which callbacks come in an order that was chosen.

The order is that of forecasts: the begins and ends of each phase. The log is whole, so that `check` can judge it.
"""

from __future__ import annotations

from typing import Iterable, Iterator, Mapping

from julampok.errors import CannotError
from julampok.kernel.names import Names, Row, write_table
from julampok.kernel.recording import Device, Link, Phase
from julampok.kernel.thinning import thin
from julampok.limits import ALARM_MS, MOST

from .measured import WAY_DOWN
from .plan import Plan, PlanLink
from .simulate import Timing, simulate

MAKER = "task:writer"
SCHEDULE, BEGIN, END = range(3)


# ---- the machine


def log_names(plan: Plan) -> list[str]:
    """The name of each device in machine and log, which have small letters, digits and few signs."""
    names = Names()
    return [names.give(name) for name in plan.names]


def machine_of(plan: Plan, names: list[str]) -> dict:
    """The machine file, as a tree of JSON, whose list of devices is the plan's.

    Each link of a machine file moves its consumer. So dormant links from the first device, one for each device in the
    order of the list, put all back where they stand.
    """
    registered = parents_first(plan)
    file = {"version": 2, "devices": [device_of(plan, names, device) for device in registered]}
    anchor = registered[0] if registered else None
    is_placed = bool(plan.links) or registered != list(plan.order)
    links = [link for link in plan.links if not (is_placed and link.supplier == anchor)]
    file["links"] = [link_of(names, link.supplier, link.consumer, link.is_dormant) for link in links]
    if is_placed:
        kept = {link.consumer: link.is_dormant for link in plan.links if link.supplier == anchor}
        file["links"] += [link_of(names, anchor, device, kept.get(device, True)) for device in plan.order if device != anchor]
    file["actors"] = [{"name": "writer", "kind": "user", "script": [{"op": "state", "text": "mem"}]}]
    file["answers"] = [{"what": "device", "name": names[device], "phase": "prepare", "ret": 1} for device in sorted(plan.direct)]
    return {member: value for member, value in file.items() if value != []}


def that_fit(devices: list[Device], plan: Plan, timings: Mapping[Phase, Timing],
             stay: Iterable[int] = ()) -> tuple[list[Device], Plan, dict[Phase, Timing]]:
    """What of devices, plan and timings a machine file has room for: devices without callbacks go where there are too many.

    The waits of those that go are carried on by links. `stay` are devices that do not go. Raises CannotError where too many
    devices have callbacks.
    """
    if len(devices) <= MOST["devices"] and len(plan.links) + len(devices) <= MOST["links"]:
        return devices, plan, dict(timings)
    ordered = [devices[number] for number in plan.order]
    links = [Link(devices[link.supplier], devices[link.consumer], link.is_dormant) for link in plan.links]
    staying = {device for device in devices if device.has_callbacks} | {devices[number] for number in stay}
    thinned = thin(ordered, links, staying, MOST["devices"] - 1)
    numbers = {device: number for number, device in enumerate(thinned.devices)}
    of_old = {number: numbers[device] for number, device in enumerate(devices) if device in numbers}
    parents = (thinned.parents[device] for device in thinned.devices)
    kept = Plan(
        tuple(device.name for device in thinned.devices), tuple(None if parent is None else numbers[parent] for parent in parents),
        tuple(dict.fromkeys(PlanLink(numbers[link.supplier], numbers[link.consumer], link.is_dormant) for link in thinned.links)),
        tuple(range(len(numbers))), frozenset(of_old[number] for number in plan.asynchronous if number in of_old),
        frozenset(of_old[number] for number in plan.silent if number in of_old))
    if len(kept.links) + len(numbers) > MOST["links"]:
        raise CannotError(f"the machine has more than the {MOST['links']} links that a machine file may have")
    return thinned.devices, kept, {phase: renumbered(timing, of_old) for phase, timing in timings.items()}


def renumbered(timing: Timing, of_old: Mapping[int, int]) -> Timing:
    """The times of the devices that have new numbers."""
    olds = sorted(of_old, key=of_old.get)
    walk = [of_old[number] for number in timing.walk if number in of_old]
    took = lambda times: [times[old] for old in olds]
    return Timing(walk, took(timing.came), took(timing.begin), took(timing.end), [None] * len(olds), timing.total)


def parents_first(plan: Plan) -> list[int]:
    """The devices in the order of the list, but each after its parent."""
    order, given = [], set()
    for device in plan.order:
        above = []
        while device is not None and device not in given:
            given.add(device)
            above.append(device)
            device = plan.parents[device]
        order += reversed(above)
    return order


def device_of(plan: Plan, names: list[str], device: int) -> dict:
    found = {"name": names[device]}
    if (parent := plan.parents[device]) is not None:
        found["parent"] = names[parent]
    if device in plan.asynchronous:
        found["async"] = True
    if device in plan.direct:
        found["runtime"] = "suspended"
    return found


def link_of(names: list[str], supplier: int, consumer: int, is_dormant: bool) -> dict:
    link = {"supplier": names[supplier], "consumer": names[consumer]}
    return link | ({"state": "dormant"} if is_dormant else {})


def table_of(devices: list[Device], names: list[str]) -> str:
    """The table of the names of machine and log, and the real ones."""
    rows = (Row(name, device.name, device.parent and device.parent.name, device.driver, device.path) for name, device in zip(names, devices))
    return write_table(rows, {})


# ---- the log


def log_of(plan: Plan, names: list[str], timings: Mapping[Phase, Timing]) -> str:
    """The text of the log. A phase without a timing has the order of callbacks that take no time."""
    asleep = False
    lines = []
    for who, body in attempt(plan, names, timings):
        asleep = asleep or body == "jump"
        lines.append(f"{ALARM_MS if asleep else 0} 0/0/0 {who} {body}\n")
    return "".join(lines) + "source autosleep 0 0 0 0 0 0 0\nfinished\n"


def attempt(plan: Plan, names: list[str], timings: Mapping[Phase, Timing]) -> Iterator[tuple[str, str]]:
    """The entries of the attempt: who made each, and what it says."""
    of_phase = lambda phase: phase_entries(plan, names, phase, timings.get(phase))
    yield from told("attempt 1 plain", "freeze user", "froze user 0", "freeze kernel", "froze kernel 0", "platform begin 0")
    yield from told(*(f"prepare {names[device]} {1 if device in plan.direct else 0}" for device in plan.order), "done prepare 0")
    yield from of_phase(Phase.SUSPEND)
    yield from told("platform prepare 0")
    yield from of_phase(Phase.LATE)
    yield from of_phase(Phase.NOIRQ)
    yield from told("platform prepare_late 0", "irqs off", "syscore check 0", "enter")
    yield "time", "jump"
    yield from told("wake alarm", "irqs on", "platform wake")
    yield from of_phase(Phase.RESUME_NOIRQ)
    yield from of_phase(Phase.EARLY)
    yield from told("platform finish")
    yield from of_phase(Phase.RESUME)
    yield from told(*(f"complete {names[device]}" for device in reversed(plan.order)), "done complete 0")
    yield from told("platform end", "clear", "thaw all", "over 1 0", "exit")


def told(*bodies: str) -> Iterator[tuple[str, str]]:
    return ((MAKER, body) for body in bodies)


def phase_entries(plan: Plan, names: list[str], phase: Phase, timing: Timing | None) -> Iterator[tuple[str, str]]:
    """The entries of a phase of devices. On the way up a log gives out all asynchronous devices first."""
    is_down = phase in WAY_DOWN
    if timing is None or len(timing.walk) < len(plan.names):
        timing = simulate(plan, is_down, [0] * len(plan.names))
    if not is_down:
        members = (device for device in timing.walk if device in plan.asynchronous and device not in plan.direct)
        yield from told(*(f"schedule {phase} {names[device]}" for device in members))
    for _, _, kind, device in sorted(events(plan, timing, is_down)):
        yield entry(plan, names[device], phase, kind, device)
    yield from told(f"done {phase} 0")


def events(plan: Plan, timing: Timing, is_down: bool) -> Iterator[tuple[int, int, int, int]]:
    """What happens in a phase: when, the place in the walk, what, and the device."""
    for place, device in enumerate(timing.walk):
        if device in plan.direct and not is_down:
            continue
        if is_down and device in plan.asynchronous:
            yield timing.came[device], place, SCHEDULE, device
        yield timing.begin[device], place, BEGIN, device
        if device not in plan.direct:
            yield timing.end[device], place, END, device


def entry(plan: Plan, name: str, phase: Phase, kind: int, device: int) -> tuple[str, str]:
    """Who makes an entry of a phase, and what it says."""
    who = MAKER if kind == SCHEDULE or device not in plan.asynchronous else f"dev:{name}"
    if kind == BEGIN and device in plan.direct:
        return who, f"skip {phase} {name} direct"
    return who, {SCHEDULE: f"schedule {phase} {name}", BEGIN: f"begin {phase} {name}", END: f"end {phase} {name} 0"}[kind]
