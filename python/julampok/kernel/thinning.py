"""Leaves out devices that have no callback, where a machine has more than a machine file may have.

A device without callbacks still waits and is waited for. So the first to go are those below which nothing has a callback:
they carry no wait. Then go those between, and a link carries each of their waits on, from what they waited for on the way up
to what waited for them. The kernel's list keeps its order.
"""

import heapq
from dataclasses import dataclass, field

from ..errors import CannotError
from ..limits import MOST
from .recording import Device, Link, Recording


@dataclass(slots=True)
class Thinned:
    """The devices that are kept, in the order of the list, each with its parent; and the links between them.

    A link that carries the wait of devices that are left out has no file and no line; `through` names these devices, from
    the supplier's side, for such a link (supplier, consumer) and for such a parent (parent, child).
    """

    devices: list[Device]
    parents: dict[Device, Device | None]
    links: list[Link]
    left_out: list[Device] = field(default_factory=list)
    through: dict[tuple[Device, Device], tuple[Device, ...]] = field(default_factory=dict)


def must_stay(recording: Recording) -> set[Device]:
    """The devices that a log has to show: those with callbacks, and those whose prepare answered other than 0."""
    answered = {begin.device for attempt in recording.attempts for begin in attempt.begins if begin.end and begin.end.error}
    return answered | {device for device in recording.devices if device.has_callbacks}


def thin(devices: list[Device], links: list[Link], stay: set[Device], most: int = MOST["devices"]) -> Thinned:
    """Leaves out devices that are not in `stay` until at most `most` are left. Raises CannotError where that cannot be.

    Devices above `most` are counted first; where there are no more, everything is kept as it is.
    """
    parents = {device: device.parent for device in devices}
    if len(devices) <= most:
        return Thinned(devices, parents, links)
    loud = sum(device in stay for device in devices)
    if loud > most:
        raise CannotError(f"{loud} devices have callbacks, of which a machine file has at most {most}")
    graph = Graph(devices, links)
    graph.drop_leaves(stay)
    graph.drop_between(stay, most)
    return graph.thinned(devices, links)


class Graph:
    """Who waits for whom: `above` has what a device waits for on the way up, `below` what waits for it."""

    def __init__(self, devices: list[Device], links: list[Link]):
        known = set(devices)
        self.parents = {device: device.parent if device.parent in known else None for device in devices}
        self.above: dict[Device, set[Device]] = {device: set() for device in devices}
        self.below: dict[Device, set[Device]] = {device: set() for device in devices}
        self.through: dict[tuple[Device, Device], tuple[Device, ...]] = {}
        self.gone: set[Device] = set()
        for device, parent in self.parents.items():
            if parent is not None:
                self.join(parent, device)
        for link in links:
            if not link.is_dormant and link.supplier in known and link.consumer in known:
                self.join(link.supplier, link.consumer)

    def join(self, upper: Device, lower: Device) -> None:
        """Lets the lower one wait for the upper one on the way up, and the other way round on the way down."""
        if upper is not lower:
            self.above[lower].add(upper)
            self.below[upper].add(lower)

    def drop_leaves(self, stay: set[Device]) -> None:
        """Drops devices below which nothing has to stay: no wait goes through them."""
        todo = [device for device, lower in self.below.items() if not lower and device not in stay]
        while todo:
            device = todo.pop()
            self.gone.add(device)
            upper = list(self.above[device])
            self.unjoin(device)
            todo += [one for one in upper if one not in stay and not self.below[one]]

    def unjoin(self, device: Device) -> None:
        """Takes a device out of the waits of all others."""
        for upper in self.above.pop(device):
            self.below[upper].discard(device)
        for lower in self.below.pop(device):
            self.above[lower].discard(device)

    def cost(self, device: Device) -> int:
        """How many waits more there are after the device has gone."""
        upper, lower = len(self.above[device]), len(self.below[device])
        return upper * lower - upper - lower

    def drop_between(self, stay: set[Device], most: int) -> None:
        """Drops devices between others, those first whose going costs the fewest links, until few enough are left."""
        places = {device: place for place, device in enumerate(self.above)}
        heap = [(self.cost(device), places[device], device) for device in self.above if device not in stay]
        heapq.heapify(heap)
        while len(self.above) > most and heap:
            cost, place, device = heapq.heappop(heap)
            if device in self.gone:
                continue
            if cost != self.cost(device):  # (its neighbours have changed since)
                heapq.heappush(heap, (self.cost(device), place, device))
                continue
            self.drop(device)

    def drop(self, device: Device) -> None:
        """Drops a device and carries its waits on."""
        upper, lower = list(self.above[device]), list(self.below[device])
        self.gone.add(device)
        self.unjoin(device)
        for one in upper:
            for other in lower:
                if one is not other and one not in self.above[other]:
                    self.through[one, other] = (
                        *self.through.get((one, device), ()), device, *self.through.get((device, other), ()))
                    self.join(one, other)
        for other in lower:
            if self.parents[other] is device:
                self.parents[other] = self.parents[device]

    def thinned(self, devices: list[Device], links: list[Link]) -> Thinned:
        """What is left, with a link for each wait that neither a parent nor a link of the recording says."""
        kept = [device for device in devices if device not in self.gone]
        parents = {device: self.kept_parent(device) for device in kept}
        own = [link for link in links if link.supplier not in self.gone and link.consumer not in self.gone]
        said = {(link.supplier, link.consumer) for link in own if not link.is_dormant}
        said |= {(parent, device) for device, parent in parents.items()}
        carried = self.carried(kept, said)
        if len(own) + len(carried) > MOST["links"]:
            raise CannotError(f"{len(devices)} devices, of which {len(kept)} are left with {len(own) + len(carried)} links: "
                              f"a machine file has at most {MOST['links']}")
        left_out = [device for device in devices if device in self.gone]
        through = {ends: names for ends, names in self.through.items() if not self.gone.intersection(ends)}
        return Thinned(kept, parents, own + carried, left_out, through)

    def kept_parent(self, device: Device) -> Device | None:
        """The nearest device above that is kept, by parents alone."""
        parent = self.parents[device]
        while parent is not None and parent in self.gone:
            parent = self.parents[parent]
        return parent

    def carried(self, kept: list[Device], said: set[tuple[Device, Device]]) -> list[Link]:
        """Links for the waits that nothing else says, in the order of their consumers and suppliers."""
        places = {device: place for place, device in enumerate(kept)}
        return [Link(upper, device) for device in kept for upper in sorted(self.above[device], key=places.get)
                if (upper, device) not in said]
