"""Joins the devices that a trace names with those of /sys or of a list of devices, and finds the ends of links.

A trace writes `DRIVER DEVICE, parent: PARENT`, where names may have spaces and are unique on their bus only. Here each device
becomes one object, with its parent's object, its folder in /sys, and whether it was asynchronous as it ran.
"""

import math
import posixpath
from collections import defaultdict

from . import tree as sys_tree
from .recording import Attempt, Device, Note, Phase
from .trace import Lines

CHILDREN_FIRST = (Phase.SUSPEND, Phase.LATE, Phase.NOIRQ, Phase.COMPLETE)
SILENT = (Phase.PREPARE, Phase.COMPLETE)  # In these phases the kernel traces devices that have no callback, too.


def split_words(words: str, known) -> tuple[str, str]:
    """The driver and the device of the words before `, parent:`; `known` are names of devices that are known elsewhere."""
    if words.startswith(" "):
        return "", words[1:]
    parts = words.split(" ")
    if len(parts) == 1:
        return "", words
    splits = [(" ".join(parts[:at]), " ".join(parts[at:])) for at in range(1, len(parts))]
    if (found := next((split for split in splits if split[1] in known), None)) is not None:
        return found
    return splits[0] if parts[0] == "platform" else splits[-1]  # (a device of this bus that has no driver)


class Joiner:
    """Gives the devices of a trace their names, parents and folders. `devices` is the result, in the order of the list."""

    def __init__(self, lines: Lines | None, machine: sys_tree.Machine | None):
        self.lines, self.machine = lines, machine
        self.notes: list[Note] = []
        self.orphans: list[tuple[Device, str]] = []  # Devices whose parent, of this name, stands in no input.
        self.guessed: list[tuple[Device, str]] = []  # Devices whose parent is one of several of this name.
        self.spans: list = []
        self.candidates: dict[Device, list[Device]] = {}  # What the parent of a guessed one may be, the likeliest first.
        self.below: dict[Device, list[Device]] = defaultdict(list)
        self.first_lines: dict[str, int] | None = None  # Of each folder, the line of the first device below it.
        self.parents: dict[Device, str | None] = {}  # The name of the parent, as the trace has it.
        self.by_name: dict[str, list[Device]] = defaultdict(list)
        self.by_path: dict[str, Device] = {}
        self.rows: dict[str, list[sys_tree.Device]] = defaultdict(list)
        for row in machine.devices.values() if machine else []:
            self.rows[row.name].append(row)
        traced = self.traced() if lines else []
        for device in traced:
            self.by_name[device.name].append(device)
        for device in traced:
            self.find_folder(device, self.likely_folders(device))
        for device in traced:
            if device.path is None:
                left = self.free_folders(device)
                self.find_folder(device, left if len(left) == 1 else [])
        for row in machine.devices.values() if machine else []:
            self.add_row(row)
        for device in traced:
            self.find_parent(device)
        self.choose_parents(traced)
        self.tell_parents()
        self.devices = self.in_order(traced)
        self.settle_async()

    # ---- names

    def traced(self) -> list[Device]:
        """The devices of the trace, each once, in the order of the longest prepare, then of their first lines."""
        known = {parent for _, parent in self.lines.devices} | self.rows.keys()
        for (words, parent), device in self.lines.devices.items():
            device.driver, device.name = split_words(words, known)
            self.parents[device] = None if parent == "none" else parent
        attempts = self.lines.attempts
        self.merge_twins(attempts)
        prepared = max((attempt.callbacks(Phase.PREPARE) for attempt in attempts), key=len, default=[])
        order = dict.fromkeys(begin.device for begin in prepared)
        for attempt in attempts:
            order |= dict.fromkeys(begin.device for begin in attempt.begins)
        return list(order)

    def merge_twins(self, attempts: list[Attempt]) -> None:
        """Makes one of devices that differ in their driver alone and never stand in one attempt: the driver came or went."""
        named = {(device.name, parent) for device, parent in self.parents.items()}
        if len(named) == len(self.parents):
            return
        seen: dict[Device, set[int]] = defaultdict(set)
        for attempt in attempts:
            for device in {begin.device: None for begin in attempt.begins}:
                seen[device].add(attempt.number)
        kept: dict[tuple, list[Device]] = defaultdict(list)
        same: dict[Device, Device] = {}
        for device in seen:
            twins = kept[device.name, self.parents[device]]
            twin = next((other for other in twins if not seen[other] & seen[device]), None)
            if twin is None:
                twins.append(device)
            else:
                same[device] = twin
                seen[twin] |= seen[device]
        if same:
            replace(attempts, same)

    # ---- folders

    def free_folders(self, device: Device) -> list[sys_tree.Device]:
        """The folders of that name which no device has yet."""
        return [row for row in self.rows.get(device.name, ()) if row.path not in self.by_path]

    def likely_folders(self, device: Device) -> list[sys_tree.Device]:
        """The free folders whose device above has the name of the parent, and is the parent if that has a folder."""
        name = self.parents[device]
        rows = [row for row in self.free_folders(device) if parent_name(row, self.machine) == name]
        return [row for row in rows if self.is_below(row, name)] or rows

    def find_folder(self, device: Device, rows: list[sys_tree.Device]) -> None:
        """Gives a device of the trace one of these folders: of several the one of its driver, else the likeliest."""
        row = next((row for row in rows if is_of(row, device.driver)), None)
        if row is None and rows:
            row = rows[0] if len(rows) == 1 else min(rows, key=lambda row: (self.first_below(row), is_classed(row)))
        if row is not None:
            self.by_path[row.path] = device
            take_row(device, row)

    def first_below(self, row: sys_tree.Device) -> float:
        """The line in which the trace has the first device that is below a folder for sure; infinite where it has none.

        The devices of a trace come in the order of prepare, in which a parent stands before what is below it. So of two
        folders of one name the first device has the one below which something comes first.
        """
        if self.first_lines is None:
            self.first_lines = {}
            for name, devices in self.by_name.items():
                rows = self.rows.get(name, ())
                if len(devices) == len(rows) == 1 and rows[0].parent is not None:
                    line = min(devices[0].line, self.first_lines.get(rows[0].parent, devices[0].line))
                    self.first_lines[rows[0].parent] = line
        return self.first_lines.get(row.path, math.inf)

    def is_below(self, row: sys_tree.Device, name: str | None) -> bool:
        """Whether the folder above is that of a device of the trace, where the trace has one of that name with a folder."""
        return row.parent in self.by_path or not any(device.path for device in self.by_name.get(name, ()))

    def add_row(self, row: sys_tree.Device) -> None:
        """Adds the device of a folder that the trace does not name."""
        if row.path in self.by_path:
            return
        device = self.by_path[row.path] = Device(row.name, row.driver or row.subsystem)
        device.parent = self.by_path.get(row.parent)
        take_row(device, row)
        self.by_name[device.name].append(device)

    # ---- parents

    def find_parent(self, device: Device) -> None:
        """Gives a device of the trace its parent: the one of the folder above if it has the name, else the likeliest of that name."""
        name = self.parents[device]
        if name is None:
            return
        above = self.by_path.get(self.machine.devices[device.path].parent) if device.path is not None else None
        if above is not None and above.name == name:
            device.parent = above
            return
        found = [other for other in self.by_name.get(name, ()) if other is not device]
        found = [other for other in found if other.line is not None] or found
        found = [other for other in found if self.parents.get(other) != name] or found
        if not found:
            self.orphans.append((device, name))
            return
        before = [other for other in found if other.line is not None and other.line < device.line]
        if len(found) == 1:
            device.parent = found[0]
            return
        self.guessed.append((device, name))
        self.candidates[device] = [*reversed(before), *(other for other in reversed(found) if other not in before)]

    def choose_parents(self, traced: list[Device]) -> None:
        """Gives devices whose parent is one of several of its name the one with which the trace keeps the order.

        The last devices come first: what hangs below a device is known by then, which has callbacks where the device has none.
        """
        if not self.candidates:
            return
        self.spans = spans_of(self.lines.attempts)
        for device in traced:
            if device.parent is not None:
                self.below[device.parent].append(device)
        for device, likely in reversed(self.candidates.items()):
            device.parent = min(likely, key=lambda other: self.rank(other, device))
            self.below[device.parent].append(device)

    def rank(self, parent: Device, child: Device) -> int:
        """How likely a device is the parent of another one, by the phases whose order shows it; the least is the likeliest.

        A device of which no phase says anything is less likely than one that five phases of six show: one may be broken.
        """
        kept = broken = 0
        for phase, spans in self.spans:
            above = nearest_above(parent, spans)
            below = self.nearest_below(child, spans) if above is not None else []
            pairs = [(other, above) if phase in CHILDREN_FIRST else (above, other) for other in below]
            if any(spans[first][1] > spans[second][0] for first, second in pairs):
                broken += 1
            elif pairs and phase not in SILENT:
                kept += 1
        if broken:
            return 1 if kept >= 5 * broken else 3
        return 0 if kept else 2

    def nearest_below(self, device: Device, spans) -> list[Device]:
        """The device, or the nearest below it that have a callback in a phase, where it has none."""
        found, left, passed = [], [device], set()
        while left:
            device = left.pop()
            if device in spans:
                found.append(device)
            elif device not in passed:
                passed.add(device)
                left += self.below.get(device, ())
        return found

    def tell_parents(self) -> None:
        """Notes whose parents stand in no input, and whose are guessed: how many, and the first one."""
        for pairs, text in ((self.orphans, "stands in no input: taken as having none"), (self.guessed, "is one of several devices of that name: taken to be the one before it with which the trace keeps the order")):
            if pairs:
                device, name = pairs[0]
                more = f" (and so for {len(pairs) - 1} more)" if len(pairs) > 1 else ""
                self.note(device, f"the parent {name} of {device.name} {text}{more}")

    def note(self, device: Device, text: str) -> None:
        """Notes something of a device at its first line."""
        self.notes.append(Note(text, self.lines.file, device.line))

    # ---- order, and who was asynchronous

    def in_order(self, traced: list[Device]) -> list[Device]:
        """The devices of the trace in their order, then those of folders alone; parents that no prepare shows come before."""
        order: dict[Device, None] = {}
        for device in [*traced, *self.by_path.values()]:
            above = []
            while device is not None and device not in order and device not in above:
                above.append(device)
                device = device.parent
            order |= dict.fromkeys(reversed(above))
        return list(order)

    def settle_async(self) -> None:
        """Says of each device whether it was asynchronous: by the tasks of its callbacks, and by the list where it had none.

        A device that is in no list and had no callback is taken as asynchronous, if any was: the walk over the kernel's list
        waits at a synchronous one, and what may not be so must not make the kernel's order wrong.
        """
        elsewhere, here = set(), set()
        for attempt in self.lines.attempts if self.lines else []:
            pid = attempt.events[0].pid
            loud = [begin for begin in attempt.begins if begin.phase not in SILENT]
            here.update(begin.device for begin in loud if begin.pid == pid)
            elsewhere.update(begin.device for begin in loud if begin.pid != pid)
        is_on = bool(elsewhere) if self.lines else not self.machine.has_async_off
        unknown = []
        for device in self.devices:
            device.has_callbacks = device in here or device in elsewhere
            is_listed = is_on and bool(device.listed_async)
            is_unknown = self.lines is not None and is_on and device.listed_async is None and not device.has_callbacks
            device.is_async = device in elsewhere or is_unknown or is_listed and device not in here
            unknown += [device] * is_unknown
            if is_listed and not device.is_async:
                self.note(device, f"{device.shown} is listed as asynchronous, and its callbacks ran in the task of the attempt: taken as synchronous")
        if unknown and not any(device.listed_async is not None for device in self.devices):
            self.notes.append(Note(f"{len(unknown)} devices without callbacks may be asynchronous or not, which no input tells: taken as asynchronous, "
                                   "so that nobody is made to wait by their place in the list", self.lines.file))


def spans_of(attempts: list[Attempt]) -> list[tuple[Phase, dict[Device, tuple[int, int]]]]:
    """For each phase of each attempt the lines in which the callback of each device begins and ends."""
    found: dict[tuple[int, Phase], dict] = defaultdict(dict)
    for attempt in attempts:
        for begin in attempt.begins:
            found[attempt.number, begin.phase][begin.device] = begin.line, begin.end.line
    return [(phase, spans) for (_, phase), spans in found.items()]


def nearest_above(device: Device | None, spans) -> Device | None:
    """The device, or the nearest above it that has a callback in a phase, where it has none; None where nobody has."""
    passed = set()
    while device is not None and device not in spans and device not in passed:
        passed.add(device)
        device = device.parent
    return device if device in spans else None


def replace(attempts: list[Attempt], same: dict[Device, Device]) -> None:
    """Puts the one device in the place of its twins in all callbacks."""
    for attempt in attempts:
        for begin in attempt.begins:
            if begin.device in same:
                begin.device = same[begin.device]
                if begin.end is not None:
                    begin.end.device = begin.device


def parent_name(row: sys_tree.Device, machine: sys_tree.Machine) -> str | None:
    """The name of the device above a folder; None where there is none."""
    return machine.devices[row.parent].name if row.parent is not None else None


def is_of(row: sys_tree.Device, driver: str) -> bool:
    """Whether a folder's driver, bus or class is what the trace has before the name. The folder of a class may tell, too."""
    return driver in (row.driver, row.subsystem) if row.driver or row.subsystem else driver == class_of(row)


def class_of(row: sys_tree.Device) -> str:
    """The folder that holds a device's folder: where it is no device itself, it is the device's class."""
    return posixpath.basename(posixpath.dirname(row.path))


def is_classed(row: sys_tree.Device) -> bool:
    """Whether a folder stands in the folder of a class, below its parent's."""
    return row.parent is not None and posixpath.dirname(row.path) != row.parent


def take_row(device: Device, row: sys_tree.Device) -> None:
    """Takes what /sys or the list says of a device."""
    device.path, device.listed_line = row.path, row.line
    device.listed_async, device.may_wake, device.runtime_status = row.is_async, row.may_wake, row.runtime_status
