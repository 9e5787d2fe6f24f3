"""The answer to a question of order, as text, as JSON, and as a log with the other order."""

from __future__ import annotations

import json
from dataclasses import dataclass, field
from typing import Callable, Iterator, Sequence

from julampok.kernel.recording import Device, Phase

from . import always, logs, machines
from .forecast import Forecast
from .measured import WAY_DOWN, Listed, Measured
from .plan import Plan
from .telling import ms, signed


@dataclass
class Subject:
    """What is asked about: devices and their plan, who has callbacks, and times or a machine file if there are any."""

    devices: list[Device]
    plan: Plan
    phases: list[set[int]]  # For each phase on the way down the devices that have a callback.
    measured: Measured | None = None
    tree: dict | None = None
    notes: list[str] = field(default_factory=list)

    @classmethod
    def of_recording(cls, listed: Listed, measured: Measured | None) -> Subject:
        phases = [{number for number, callback in enumerate(listed.callbacks[phase]) if callback is not None} for phase in WAY_DOWN]
        return cls(listed.devices, listed.plan, phases, measured)

    @classmethod
    def of_machine(cls, tree: dict) -> Subject:
        plan, devices = machines.plan_of(tree)
        changes = any(step["op"] in ("link", "link_state") for actor in tree.get("actors", []) for step in actor.get("script", []))
        notes = ["scripts of the machine change links; this is by the links of the file, before any script"] if changes else []
        return cls(devices, plan, [set(range(len(devices)))], tree=tree, notes=notes)

    def shown(self, number: int) -> str:
        """A device with its driver; one without callbacks is told as such."""
        device = self.devices[number]
        return device.shown if any(number in phase for phase in self.phases) else f"{device.shown} (no callback)"

    def way(self, numbers: Sequence[int]) -> str:
        return " > ".join(self.shown(number) for number in numbers)


@dataclass
class OtherLog:
    """A legal log with the other order: its files, the lines that show the order, and who judged it."""

    files: dict[str, str]
    lines: list[str]
    verdict: str
    by: str


@dataclass
class Told:
    """The whole answer."""

    is_always: bool
    json: dict
    lines: list[str] = field(default_factory=list)
    log: OtherLog | None = None

    @property
    def text(self) -> str:
        return "".join(f"{line}\n" for line in [*self.lines, *(f"note: {note}" for note in self.json.get("notes", []))])


def answer(subject: Subject, first: int, second: int, judge: Callable) -> Told:
    """Whether the first is always down before the second, with all that follows from it."""
    found = always.ask(subject.plan, first, second)
    names = subject.devices[first].name, subject.devices[second].name
    said = {"first": names[0], "second": names[1], "always": found.is_always, "by": found.by and str(found.by)}
    told = Told(found.is_always, said | ({"notes": subject.notes} if subject.notes else {}))
    shown = subject.shown(first), subject.shown(second)
    if found.by is always.By.NEEDS:
        take_path(subject, found, told, shown)
        return told
    if found.by is always.By.LIST:
        take_luck(subject, found, told, shown)
    else:
        take_no(subject, found, told, shown, judge)
    take_link(subject, first, second, told)
    return told


def take_path(subject: Subject, found: always.Answer, told: Told, shown: tuple[str, str]) -> None:
    """Tells the path from the second down to the first."""
    told.json["path"] = [{"device": subject.devices[number].name, "is": need and str(need)} for number, need in found.path]
    told.lines.append(f"yes: {shown[0]} is always down before {shown[1]}, by parents and links:")
    for (above, _), (number, need) in zip(found.path, found.path[1:]):
        told.lines.append(f"  {subject.shown(above)} waits for its {need} {subject.shown(number)}")


def take_luck(subject: Subject, found: always.Answer, told: Told, shown: tuple[str, str]) -> None:
    """Tells who keeps the order of the list."""
    holders = found.holders
    told.json["breaks_if_asynchronous"] = [subject.devices[number].name for number in holders]
    told.lines.append(f"yes, but by the list alone: {shown[0]} is down before {shown[1]}")
    for number in holders:
        why = "is synchronous" if number == found.first else f"waits for {shown[0]}, is synchronous"
        told.lines.append(f"  {subject.shown(number)} {why}, and the walk over the list comes to it before {shown[1]}")
    names = subject.way(holders) if len(holders) == 1 else ", ".join(map(subject.shown, holders))
    told.lines.append(f"  this ends if {names} {'is' if len(holders) == 1 else 'are all'} made asynchronous; nothing makes {shown[1]} wait for {shown[0]}")


def take_no(subject: Subject, found: always.Answer, told: Told, shown: tuple[str, str], judge: Callable) -> None:
    """Tells a log with the other order."""
    told.log = other_log(subject, found.first, found.second, judge)
    other = found.other
    if other is None:
        told.lines.append(f"no: {shown[0]} is not always down before {shown[1]}; either may come first")
    else:
        told.lines.append(f"no: {shown[1]} is always down before {shown[0]}, by {other.by}")
    told.json["reverse_always_by"] = other and str(other.by)
    told.json["other_order"] = {"log_lines": told.log.lines, "verdict": told.log.verdict, "by": told.log.by}
    told.lines.append(f"  a log in which {shown[1]} is down first ({told.log.verdict} by {told.log.by}; -o FOLDER writes it):")
    told.lines += [f"    {line}" for line in told.log.lines]


def take_link(subject: Subject, first: int, second: int, told: Told) -> None:
    """Tells the link that would make the order certain."""
    link = always.link_for(subject.plan, first, second)
    names = [subject.devices[number].name for number in (link.supplier, link.consumer)]
    said = told.json["link"] = {"supplier": names[0], "consumer": names[1], "closes_cycle": link.cycle is not None}
    text = f"a link with the supplier {subject.shown(second)} and the consumer {subject.shown(first)} would make it certain"
    if link.cycle is not None:
        said["cycle"] = [subject.devices[number].name for number in link.cycle]
        told.lines.append(f"{text}, but it would close a cycle: {subject.way(link.cycle)}")
        return
    said["moves"] = [subject.devices[number].name for number in link.moves]
    told.lines.append(f"{text}; it closes no cycle")
    told.lines.append(f"  it moves to the end of the list: {', '.join(said['moves'])}")
    if subject.measured is not None:
        take_cost(Forecast(subject.measured, link.plan, ["link"]), said, told)


def take_cost(forecast: Forecast, said: dict, told: Told) -> None:
    """Tells what a link costs, by the forecast."""
    ways = {"suspend": forecast.suspend, "resume": forecast.resume}
    costs = {f"{name}_ms": ms(times.change) for name, times in ways.items() if times is not None}
    if not costs:
        return
    said |= costs
    words = ", ".join(f"{name} {signed(times.change)} ms" for name, times in ways.items() if times is not None)
    told.lines.append(f"  it costs, by the rules over the measured callbacks: {words}")


# ---- the log with the other order


def other_log(subject: Subject, first: int, second: int, judge: Callable) -> OtherLog:
    """A log in which the second is down before the first, judged. Of a machine file it is a run of that file if one shows it."""
    made = of_machine(subject, first, second) or of_plan(subject, first, second)
    machine, log, names, rows = made
    by = judge()
    verdict = by.check(machine.encode(), log.encode(), "the log with the other order")
    files = {"machine.json": machine, "machine.log": log} | ({"machine.names": rows} if rows else {})
    return OtherLog(files, list(shown_lines(log, names[first], names[second])), verdict.text, by.name)


def of_machine(subject: Subject, first: int, second: int):
    """A run of the machine file that was asked about; None where none shows the order."""
    if subject.tree is None:
        return None
    log = machines.chosen_log(subject.tree, subject.devices[first].name, subject.devices[second].name)
    return None if log is None else (json.dumps(subject.tree, indent=1) + "\n", log, [device.name for device in subject.devices], None)


def of_plan(subject: Subject, first: int, second: int):
    """One undisturbed attempt of the devices, with the order in suspend."""
    timings = {Phase.SUSPEND: always.other_order(subject.plan, first)}
    devices, plan, timings = logs.that_fit(subject.devices, subject.plan, timings, (first, second))
    names = logs.log_names(plan)
    of_device = dict(zip(devices, names))
    log = logs.log_of(plan, names, timings)
    machine = json.dumps(logs.machine_of(plan, names), indent=1) + "\n"
    return machine, log, [of_device.get(device) for device in subject.devices], logs.table_of(devices, names)


def shown_lines(log: str, first: str, second: str) -> Iterator[str]:
    """The lines of two devices in the first suspend phase, with their numbers."""
    for number, line in enumerate(log.splitlines(), 1):
        words = line.split(" ")[3:]
        if words[:2] == ["done", "suspend"]:
            return
        if words[0] in ("begin", "end", "skip") and words[1] == "suspend" and words[2] in (first, second):
            yield f"line {number}: {line}"


# ---- pairs that only the list keeps


def luck_pairs(subject: Subject, numbers: Sequence[int]) -> Iterator[tuple[int, int, list[int]]]:
    """The pairs that the list alone keeps; with two devices the pair of both, with one all of its pairs."""
    pairs = always.lucky(subject.plan, subject.phases, numbers)
    return (pair for pair in pairs if len(numbers) < 2 or set(pair[:2]) == set(numbers))


def luck_text(subject: Subject, numbers: Sequence[int]) -> str:
    """A line a pair: the device that is down first, the other, and who holds the walk."""
    lines = []
    for first, second, holders in luck_pairs(subject, numbers):
        held = " or ".join(subject.devices[number].shown for number in holders)
        lines.append(f"{subject.devices[first].shown}  before  {subject.devices[second].shown}  while {held} is synchronous\n")
    return "".join(lines) + f"{len(lines)} pairs of devices with callbacks go down in one order by the list alone\n"


def luck_json(subject: Subject, numbers: Sequence[int]) -> str:
    """The pairs as JSON."""
    pairs = [{"first": subject.devices[first].name, "second": subject.devices[second].name,
              "breaks_if_asynchronous": [subject.devices[number].name for number in holders]}
             for first, second, holders in luck_pairs(subject, numbers)]
    return json.dumps({"pairs": pairs}, indent=1) + "\n"

