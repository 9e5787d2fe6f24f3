"""Whether a device is always down before another: by parents and links, by the list alone, or not.

A device is always down before another where a chain leads from its end to the other's begin: a device waits for what is
below it, and whatever the walk comes to waits for the synchronous devices that it came to before.
"""

from __future__ import annotations

import enum
from dataclasses import dataclass, field
from typing import Iterator, Sequence

from .plan import CycleError, Need, Plan
from .simulate import Timing, simulate


class By(enum.StrEnum):
    """What makes an order certain."""

    NEEDS = "parents and links"
    LIST = "the list alone"


@dataclass
class Answer:
    """Whether `first` is always down before `second`, and why.

    `path` leads from the second down to the first where parents and links decide. `holders` are the synchronous devices
    that hold up the walk where the list alone decides: each is the first or waits for it, and the walk comes to it before
    the second. `other` is set where the second is always down before the first.
    """

    first: int
    second: int
    by: By | None
    path: list[tuple[int, Need | None]] = field(default_factory=list)
    holders: list[int] = field(default_factory=list)
    other: Answer | None = None

    @property
    def is_always(self) -> bool:
        """Whether the answer is yes."""
        return self.by is not None


def ask(plan: Plan, first: int, second: int) -> Answer:
    """Whether the first is always down before the second."""
    answer = ask_one_way(plan, first, second)
    if not answer.is_always:
        other = ask_one_way(plan, second, first)
        answer.other = other if other.is_always else None
    return answer


def ask_one_way(plan: Plan, first: int, second: int) -> Answer:
    if (path := plan.path_below(second, first)) is not None:
        return Answer(first, second, By.NEEDS, path)
    holders = holders_of(plan, first, second)
    return Answer(first, second, By.LIST if holders else None, holders=holders)


def above_all(plan: Plan, device: int) -> set[int]:
    """All devices that wait for a device on the way down, by way of others too."""
    found, todo = set(), [device]
    while todo:
        for other, _ in plan.above[todo.pop()]:
            if other not in found:
                found.add(other)
                todo.append(other)
    return found


def holders_of(plan: Plan, first: int, second: int) -> list[int]:
    """The synchronous devices that keep the walk from the second until the first has ended, in the order of the walk."""
    places = plan.places
    waiting = {first} | above_all(plan, first)
    found = [device for device in waiting if device not in plan.asynchronous and places[device] > places[second]]
    return sorted(found, key=lambda device: -places[device])


def other_order(plan: Plan, first: int) -> Timing:
    """A way down in which all goes on without the first as far as it can, and only then the first begins."""
    return simulate(plan, True, [0] * len(plan.names), held=first)


@dataclass
class NewLink:
    """The link that would make an order certain: what it moves in the list, or the cycle that it would close."""

    supplier: int
    consumer: int
    cycle: list[int] | None
    moves: list[int]
    plan: Plan | None


def link_for(plan: Plan, first: int, second: int) -> NewLink:
    """The link by which the first, as a consumer, is always down before the second, its supplier."""
    try:
        after = plan.with_link(second, first)
    except CycleError as cycle:
        return NewLink(second, first, cycle.path, [], None)
    return NewLink(second, first, None, plan.moved(first), after)


# ---- pairs that only the list keeps


def lucky(plan: Plan, among: Sequence[set[int]], only: Sequence[int] = ()) -> Iterator[tuple[int, int, list[int]]]:
    """The pairs that go down in one order by the list alone: the first, the second, and the devices that hold the walk.

    Args:
        plan: who waits for whom.
        among: for each phase the devices that have a callback; a pair is told if both have one in the same phase.
        only: pairs with one of these devices; all if empty.
    """
    walk = list(reversed(plan.order))
    wanted = set(only)
    for place, first in enumerate(walk):
        groups = [group for group in among if first in group]
        if not groups:
            continue
        above = above_all(plan, first)
        holders = [device for device in {first} | above if device not in plan.asynchronous]
        seconds = (device for device in walk[place + 1:] if device not in above and any(device in group for group in groups))
        for second in seconds if holders else ():
            holding = [device for device in holders if plan.places[device] > plan.places[second]]
            if holding and (not wanted or first in wanted or second in wanted):
                yield first, second, sorted(holding, key=lambda device: -plan.places[device])
