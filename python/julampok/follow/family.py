"""The devices of a recording as the log needs them: who hangs below whom, and the order of the kernel's list in each attempt.

The list is the order of prepare. Links move devices in it, and devices are registered while others stand there already, so
the parents and links of a machine file alone do not give it. Dormant links, which move devices and let nobody wait, do.
"""

from __future__ import annotations

from dataclasses import dataclass, field

from ..errors import CannotError
from ..kernel.recording import CallbackBegin, Device, Note, Phase, Recording
from ..kernel.thinning import Thinned, must_stay, thin
from ..limits import MOST

MOST_DEVICES = MOST["devices"]


class OutOfOrder(Exception):
    """The kernel did what no legal log has.

    `line` is the line of the trace, `did` what the kernel did there, `first` what had to come first, `first_line` the line
    in which that stands (None: in none), `because` the parents, links and places in the list that say so, `entry` the step as
    a log has it, and `is_by_list` says that the place in the list alone keeps the device waiting.
    """

    is_by_list = False

    def __init__(self, line: int, did: str, first: str, first_line: int | None, because: list[str], entry: tuple | None = None):
        super().__init__(f"line {line}: {did}; {first}")
        self.line, self.did, self.first, self.first_line, self.because, self.entry = line, did, first, first_line, because, entry


@dataclass(slots=True, eq=False)
class Kin:
    """Devices by their numbers: place in the machine file. `above` and `below` are who waits for whom, by links that count."""

    devices: list[Device]
    parents: list[int | None]
    children: list[list[int]]
    consumers: list[list[int]]  # Of all links, the oldest first: what the list's order follows.
    above: list[list[int]]
    below: list[list[int]]
    is_async: list[bool]
    links: list[tuple[int, int]] = field(default_factory=list)  # Suppliers and consumers that are no parents and children.
    number: dict[Device, int] = field(default_factory=dict)
    through: dict[tuple[int, int], tuple[Device, ...]] = field(default_factory=dict)  # Devices left out, through which a wait goes.

    def hang(self, device: int, parent: int) -> None:
        """Gives a device its parent."""
        self.parents[device] = parent
        self.children[parent].append(device)
        self.above[device].append(parent)
        self.below[parent].append(device)

    def moved(self, device: int) -> list[int]:
        """What a new link of this consumer moves to the end of the list: it, and all that hangs below it, in order."""
        found, seen, stack = [], set(), [(device, None)]
        while stack:
            at, rest = stack[-1]
            if rest is None:
                if at in seen:
                    stack.pop()
                    continue
                seen.add(at)
                rest = [*self.children[at], *self.consumers[at]]
                stack[-1] = at, rest
            if rest:
                stack.append((rest.pop(), None))
            else:
                found.append(at)
                stack.pop()
        return found[::-1]

    def move(self, order: list[int], device: int) -> list[int]:
        """The list after a new link of this consumer."""
        last = self.moved(device)
        taken = set(last)
        return [one for one in order if one not in taken] + last


def listed(recording: Recording) -> list[Device]:
    """The devices of the kernel's list: those that a callback of the trace names, in the order of the list."""
    return [device for device in recording.devices if device.line is not None]


def settle(recording: Recording) -> tuple[Kin, list[Note]]:
    """The kin of a recording, its devices in the order of the first list that the trace shows, parents first.

    Of more devices than a machine file may have, those without callbacks are left out and their waits kept. Raises CannotError
    where those with callbacks alone are too many.
    """
    devices = listed(recording)
    here = set(devices)
    links = [link for link in recording.links if not link.is_dormant and link.supplier in here and link.consumer in here]
    try:
        found = thin(devices, links, must_stay(recording))
    except CannotError as error:
        raise CannotError(error.text, recording.trace_file) from None
    notes = []
    if found.left_out:
        text = (f"{len(devices)} devices, more than the {MOST_DEVICES} of a machine file: {len(found.left_out)} that never have a callback "
                "are left out, and whoever waited through them still waits")
        notes.append(Note(text, recording.trace_file))
    return kin_of(recording, found, here), notes


def kin_of(recording: Recording, found: Thinned, here: set[Device]) -> Kin:
    """The kin of the devices that are kept."""
    parents = {device: parent if parent in here else None for device, parent in found.parents.items()}
    order = first_order(recording, found.devices, parents)
    number = {device: place for place, device in enumerate(order)}
    kin = Kin(order, [None] * len(order), [[] for _ in order], [[] for _ in order], [[] for _ in order], [[] for _ in order],
              [device.is_async for device in order], number=number)
    kin.through = {(number[upper], number[lower]): devices for (upper, lower), devices in found.through.items()}
    for place, device in enumerate(order):
        if parents[device] is not None:
            kin.hang(place, number[parents[device]])
    ends = dict.fromkeys((number[link.supplier], number[link.consumer]) for link in found.links)
    kin.links = [(supplier, consumer) for supplier, consumer in ends if supplier != consumer and kin.parents[consumer] != supplier]
    return kin


def first_order(recording: Recording, devices: list[Device], parents: dict[Device, Device | None]) -> list[Device]:
    """The devices in the order of the first prepare that shows a list, then the others; parents first."""
    here, order = set(devices), {}
    prepares = ([begin.device for begin in attempt.begins if begin.phase == Phase.PREPARE] for attempt in recording.attempts)
    shown = next((devices for devices in prepares if devices), [])
    for device in [*shown, *devices]:
        chain = []
        while device is not None and device in here and device not in order and device not in chain:
            chain.append(device)
            device = parents[device]
        order |= dict.fromkeys(reversed(chain))
    return list(order)


def prepared(begins: dict[Device, CallbackBegin], number: dict[Device, int]) -> list[int]:
    """The devices that an attempt prepares, in the order of its list; `begins` are the callbacks of prepare."""
    return [number[device] for device in begins if device in number]


def target(order: list[int], shown: list[int]) -> list[int]:
    """The list as an attempt shows it: its devices in their order; those that it does not show stay behind whom they stood behind."""
    here = set(shown)
    behind: dict[int | None, list[int]] = {}
    last = None
    for device in order:
        if device in here:
            last = device
        else:
            behind.setdefault(last, []).append(device)
    found = list(behind.get(None, []))
    for device in shown:
        found.append(device)
        found += behind.get(device, [])
    return found


def fixed(order: list[int], wanted: list[int]) -> int:
    """How many devices at the front of the wanted list may stay where they are, since they stand in this order already."""
    places = {device: place for place, device in enumerate(order)}
    last = -1
    for count, device in enumerate(wanted):
        if places[device] < last:
            return count
        last = places[device]
    return len(wanted)


class Mover:
    """Brings the machine's list to the order of each attempt, by links that are dormant."""

    def __init__(self, kin: Kin):
        self.kin = kin
        self.order = list(range(len(kin.devices)))
        self.stand = set()  # The links that stand.
        self.next_supplier = [0] * len(kin.devices)
        self.real: dict[int, list[int]] = {}
        self.cycles: list[tuple[int, int]] = []  # Links that close a cycle, which are left out.
        self.has_failed = False  # A device could not be moved, since each link that would do it stands.
        for supplier, consumer in kin.links:
            self.real.setdefault(consumer, []).append(supplier)

    def add(self, supplier: int, consumer: int, is_dormant: bool) -> dict:
        """Adds a link, which moves its consumer; gives it."""
        self.kin.consumers[supplier].append(consumer)
        self.order = self.kin.move(self.order, consumer)
        self.stand.add((supplier, consumer))
        if not is_dormant:
            self.kin.above[consumer].append(supplier)
            self.kin.below[supplier].append(consumer)
        return {"supplier": supplier, "consumer": consumer, "is_dormant": is_dormant}

    def begin(self, wanted: list[int]) -> list[dict]:
        """The links of the file, after which the list stands as wanted. Each link that counts is among them."""
        places = {device: place for place, device in enumerate(wanted)}
        first = min((places[consumer] for consumer in self.real), default=len(wanted))
        found = []
        for device in wanted[min(first, fixed(self.order, wanted)):]:
            real = self.real.pop(device, [])
            for supplier in real:
                if self.hangs(supplier, device):
                    self.cycles.append((supplier, device))
                else:
                    found.append(self.add(supplier, device, False))
            if not real:
                found += self.to_end(device)
        return found

    def to_end(self, device: int) -> list[dict]:
        """A dormant link that moves a device to the end, where one can be made."""
        for supplier in range(self.next_supplier[device], len(self.order)):
            self.next_supplier[device] = supplier + 1
            if supplier != device and (supplier, device) not in self.stand and not self.hangs(supplier, device):
                return [self.add(supplier, device, True)]
        self.has_failed = True
        return []

    def hangs(self, device: int, above: int) -> bool:
        """Whether a device hangs below another one."""
        return bool(self.kin.children[above] or self.kin.consumers[above]) and device in self.kin.moved(above)

    def change(self, wanted: list[int]) -> list[dict]:
        """The links that a script adds between two attempts, after which the list stands as wanted."""
        found = []
        for device in wanted[fixed(self.order, wanted):]:
            found += self.to_end(device)
        return found
