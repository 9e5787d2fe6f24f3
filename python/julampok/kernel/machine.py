"""The machine file of what /sys or a list of devices tells: devices, links, wakeup sources, processors."""

from __future__ import annotations

import json

from ..errors import CannotError
from ..limits import MOST, MOST_CPUS
from .names import Names, Row, write_table
from .recording import Device, Link, Note, Recording

LISTS = ("devices", "links", "actors", "answers")
# A task that saves the count of events and writes the state, if the save was ok.
WRITER = {"name": "writer", "kind": "user", "script": [{"op": "read"}, {"op": "save"}, {"op": "state", "text": "mem", "if_saved": True}]}


class Builder:
    """Builds a machine file. What it leaves out stands in `notes`."""

    def __init__(self, recording: Recording):
        self.recording = recording
        self.notes: list[Note] = []
        if len(recording.devices) > MOST["devices"]:
            raise CannotError(f"{len(recording.devices)} devices, of which a machine file has at most {MOST['devices']}: ask for a branch with --branch")
        given = Names()
        self.names = {device: given.give(device.name) for device in recording.devices}
        self.links = self.cut(self.without_cycles(), "links")
        given = Names(["autosleep"])
        real = self.cut([name for name in recording.sources if name != "autosleep"], "sources")
        self.sources = {name: given.give(name) for name in real}

    def cut(self, found: list, member: str) -> list:
        """At most as many as a machine file may have."""
        if len(found) > MOST[member]:
            self.notes.append(Note(f"{len(found)} {member}, of which the first {MOST[member]} are kept"))
        return found[:MOST[member]]

    def without_cycles(self) -> list[Link]:
        """The links, each pair once, without those that would close a cycle with the parents and the links before."""
        below: dict[Device, list[Device]] = {device: [] for device in self.names}
        for device in self.names:
            if device.parent in below:
                below[device.parent].append(device)
        kept = {}
        for link in self.recording.links:
            if (link.supplier, link.consumer) in kept:
                continue
            if link.supplier in all_below(link.consumer, below):
                self.notes.append(Note(f"link from {link.supplier.name} to {link.consumer.name} would close a cycle: left out", link.file, link.line))
                continue
            below[link.supplier].append(link.consumer)
            kept[link.supplier, link.consumer] = link
        return list(kept.values())

    def file(self, has_writer: bool) -> dict:
        """The machine file as a tree of JSON."""
        file = {"version": 2 if any(link.is_dormant for link in self.links) else 1, "cpus": min(self.recording.processors or 1, MOST_CPUS)}
        file["devices"] = [self.as_device(device) for device in self.names]
        file["links"] = [self.as_link(link) for link in self.links]
        file["sources"] = list(self.sources.values())
        file["actors"] = [WRITER] if has_writer else []
        return {member: value for member, value in file.items() if value != []}

    def as_device(self, device: Device) -> dict:
        """A device of the file."""
        found = {"name": self.names[device]} | ({"parent": self.names[device.parent]} if device.parent in self.names else {})
        found |= {flag: True for flag, is_set in (("async", device.is_async), ("wakeup", device.may_wake)) if is_set}
        return found | ({"runtime": "suspended"} if device.is_suspended else {})

    def as_link(self, link: Link) -> dict:
        """A link of the file."""
        found = {"supplier": self.names[link.supplier], "consumer": self.names[link.consumer]}
        return found | ({"state": "dormant"} if link.is_dormant else {})

    def table(self) -> str:
        """The table of names: a row for each device and source."""
        rows = [Row(name, device.name, device.parent and device.parent.name, device.driver, device.path) for device, name in self.names.items()]
        return write_table(rows, self.sources)


def all_below(device: Device, below: dict[Device, list[Device]]) -> set[Device]:
    """A device and all that hangs below it."""
    found, todo = {device}, [device]
    while todo:
        fresh = [other for other in below[todo.pop()] if other not in found]
        found.update(fresh)
        todo += fresh
    return found


def written(file: dict) -> str:
    """The text of a machine file: a line for each device, link, actor and answer."""
    members = []
    for member, value in file.items():
        if member in LISTS:
            items = ",\n".join(f"    {json.dumps(item)}" for item in value)
            members.append(f'  "{member}": [\n{items}\n  ]')
        else:
            members.append(f'  "{member}": {json.dumps(value)}')
    return "{\n" + ",\n".join(members) + "\n}\n"
