"""The kernel's list of devices, who waits for whom, who is asynchronous, and what a change of these does.

Devices are numbers here, so that a forecast can be made many times: the places of the list that the plan began with.
"""

from __future__ import annotations

import enum
from dataclasses import dataclass, replace
from functools import cached_property
from typing import Sequence


class Need(enum.StrEnum):
    """What a device is to the device that waits for it."""

    CHILD = "child"
    CONSUMER = "consumer"
    PARENT = "parent"
    SUPPLIER = "supplier"
    WALK = "list"  # The walk over the list came to it before, and had to end its callback first.


def moved(children: Sequence[Sequence[int]], consumers: Sequence[Sequence[int]], device: int) -> list[int]:
    """The device and all that hang below it, in the order in which a new link puts them to the end of the list.

    The kernel moves the device, then its children and its consumers, each with what hangs below it. Of a device that it
    moves more than once the last move counts, so this is the reverse of the order in which a search leaves them.
    """
    backward = lambda at: iter([*reversed(consumers[at]), *reversed(children[at])])
    left, seen, todo = [], {device}, [(device, backward(device))]
    while todo:
        at, rest = todo[-1]
        fresh = next((other for other in rest if other not in seen), None)
        if fresh is None:
            left.append(at)
            todo.pop()
        else:
            seen.add(fresh)
            todo.append((fresh, backward(fresh)))
    return left[::-1]


def order_after(parents: Sequence[int | None], links: Sequence[PlanLink]) -> list[int]:
    """The list of devices that were registered in the order of their numbers, after links were made one by one."""
    children, consumers = [[] for _ in parents], [[] for _ in parents]
    for device, parent in enumerate(parents):
        if parent is not None:
            children[parent].append(device)
    order = list(range(len(parents)))
    for link in links:
        consumers[link.supplier].append(link.consumer)
        gone = moved(children, consumers, link.consumer)
        kept = set(gone)
        order = [device for device in order if device not in kept] + gone
    return order


class CycleError(Exception):
    """A link whose supplier hangs below its consumer: `path` are the devices from the consumer down to the supplier."""

    def __init__(self, path):
        super().__init__(path)
        self.path = path


@dataclass(frozen=True, slots=True)
class PlanLink:
    """A device link between two devices. Nobody waits because of a dormant one, yet it keeps its place in the list."""

    supplier: int
    consumer: int
    is_dormant: bool = False


@dataclass(frozen=True)
class Plan:
    """Devices in the order of the kernel's list, and what they wait for.

    `silent` are devices that have no callback in any phase and may not wake the machine. The kernel leaves such a device
    alone (direct-complete) where all devices below it are left alone too: it waits on the way down only.
    """

    names: tuple[str, ...]
    parents: tuple[int | None, ...]
    links: tuple[PlanLink, ...]
    order: tuple[int, ...]
    asynchronous: frozenset[int]
    silent: frozenset[int] = frozenset()

    # ---- who waits for whom

    @cached_property
    def children(self) -> list[list[int]]:
        """The children of each device, in the order of the list that the plan began with."""
        found: list[list[int]] = [[] for _ in self.names]
        for device, parent in enumerate(self.parents):
            if parent is not None:
                found[parent].append(device)
        return found

    @cached_property
    def consumers(self) -> list[list[int]]:
        """The consumers of each device, those of dormant links too, in the order of the links."""
        found: list[list[int]] = [[] for _ in self.names]
        for link in self.links:
            found[link.supplier].append(link.consumer)
        return found

    @cached_property
    def below(self) -> list[list[tuple[int, Need]]]:
        """What each device waits for on the way down."""
        found = [[(child, Need.CHILD) for child in children] for children in self.children]
        for link in self.links:
            if not link.is_dormant:
                found[link.supplier].append((link.consumer, Need.CONSUMER))
        return found

    @cached_property
    def above(self) -> list[list[tuple[int, Need]]]:
        """What each device waits for on the way up, if it is not left alone."""
        found = [[] if parent is None else [(parent, Need.PARENT)] for parent in self.parents]
        for link in self.links:
            if not link.is_dormant:
                found[link.consumer].append((link.supplier, Need.SUPPLIER))
        return found

    @cached_property
    def places(self) -> list[int]:
        """The place of each device in the list."""
        found = [0] * len(self.names)
        for place, device in enumerate(self.order):
            found[device] = place
        return found

    @cached_property
    def direct(self) -> frozenset[int]:
        """The devices that the kernel leaves alone: silent ones with nothing but such ones below them."""
        kept = [device in self.silent for device in range(len(self.names))]
        for device in reversed(self.order):
            if not kept[device]:
                for above in self.superiors(device):
                    kept[above] = False
        return frozenset(device for device, is_kept in enumerate(kept) if is_kept)

    def superiors(self, device: int) -> list[int]:
        """The parent and all suppliers of a device, those of dormant links too."""
        return self._superiors[device]

    @cached_property
    def _superiors(self) -> list[list[int]]:
        found = [[] if parent is None else [parent] for parent in self.parents]
        for link in self.links:
            found[link.consumer].append(link.supplier)
        return found

    # ---- what hangs below

    def moved(self, device: int) -> list[int]:
        """The device and all that hang below it, in the order in which a new link puts them to the end of the list."""
        return moved(self.children, self.consumers, device)

    def path_below(self, device: int, to: int, dormant: bool = False) -> list[tuple[int, Need | None]] | None:
        """The shortest way from a device down to another by children and consumers; None where there is none.

        Each step has what the device is to the one before it. Dormant links count only if asked for.
        """
        came: dict[int, tuple[int, Need] | None] = {device: None}
        todo = [device]
        for at in todo:
            if at == to:
                return self._way(came, to)
            for other, need in self._steps_below(at, dormant):
                if other not in came:
                    came[other] = (at, need)
                    todo.append(other)
        return None

    def _steps_below(self, device: int, dormant: bool) -> list[tuple[int, Need]]:
        if not dormant:
            return self.below[device]
        children = [(child, Need.CHILD) for child in self.children[device]]
        return children + [(consumer, Need.CONSUMER) for consumer in self.consumers[device]]

    @staticmethod
    def _way(came, to):
        way, at = [], to
        while came[at] is not None:
            before, need = came[at]
            way.append((at, need))
            at = before
        return [(at, None), *reversed(way)]

    # ---- changes

    def with_flag(self, device: int, is_async: bool) -> Plan:
        """The plan with a device made asynchronous or synchronous."""
        flags = self.asynchronous | {device} if is_async else self.asynchronous - {device}
        return replace(self, asynchronous=flags)

    def has_link(self, supplier: int, consumer: int) -> bool:
        """Whether the link is there, dormant or not."""
        return consumer in self.consumers[supplier]

    def with_link(self, supplier: int, consumer: int) -> Plan:
        """The plan with a link added, which moves the consumer with all that hangs below it to the end of the list.

        A link that is there changes nothing.

        Raises:
            CycleError: the supplier is the consumer or hangs below it.
        """
        if (path := self.path_below(consumer, supplier, dormant=True)) is not None:
            raise CycleError([device for device, _ in path])
        if self.has_link(supplier, consumer):
            return self
        moved = self.moved(consumer)
        gone = set(moved)
        order = (*(device for device in self.order if device not in gone), *moved)
        return replace(self, links=(*self.links, PlanLink(supplier, consumer)), order=order)
