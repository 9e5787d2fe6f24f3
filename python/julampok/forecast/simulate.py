"""One phase of devices over the rules of the order: when each callback begins and ends, and what it waited for.

The attempt walks over the list: backward on the way down, forward on the way up. A synchronous device is done in the walk,
an asynchronous one by a worker, as soon as what it waits for has ended. What a device waits for comes before it in the
walk, so one pass over the list tells all times. There are as many workers as are wanted, and nothing but callbacks takes time.
"""

from __future__ import annotations

from dataclasses import dataclass
from typing import Sequence

from .plan import Need, Plan


@dataclass(slots=True)
class Timing:
    """A phase as the rules have it. Lists are by device; times are those of the durations, from the begin of the phase.

    `cause` is what let a device begin last: a device, and what it is to the one that waited; None where nothing held it up.
    `came` is when the walk came to it. A device that the walk never came to has None everywhere.
    """

    walk: list[int]
    came: list[int | None]
    begin: list[int | None]
    end: list[int | None]
    cause: list[tuple[int, Need] | None]
    total: int


def simulate(plan: Plan, is_down: bool, durations: Sequence[int], *, all_first: bool = False, held: int | None = None,
             taken: frozenset[int] | None = None) -> Timing:
    """The times of a phase.

    Args:
        plan: who waits for whom.
        is_down: whether the walk goes backward and a device waits for what is below it.
        durations: how long the callback of each device takes; 0 where it has none.
        all_first: all asynchronous devices are given out before the walk takes the first synchronous one (on the way up).
        held: a device that begins only after nothing else can go on without it.
        taken: the devices that the walk came to before an error stopped it; None: all.
    """
    walk = list(reversed(plan.order)) if is_down else list(plan.order)
    if taken is not None:
        walk = [device for device in walk if device in taken]
    needs, left_alone = (plan.below, frozenset()) if is_down else (plan.above, plan.direct)
    count, hold = len(plan.names), sum(durations) + 1
    timing = Timing(walk, [None] * count, [None] * count, [None] * count, [None] * count, 0)
    came, begin, end, cause = timing.came, timing.begin, timing.end, timing.cause
    now, last = 0, None  # Where the walk is, and the synchronous device that it ended last.
    for device in walk:
        is_async = device in plan.asynchronous
        came[device] = start = 0 if is_async and all_first else now
        why = None if last is None or start == 0 else (last, Need.WALK)
        for other, need in needs[device] if device not in left_alone else ():
            if (ended := end[other]) is not None and ended >= start and ended > 0:
                start, why = ended, (other, need)
        if device == held:
            start += hold
        begin[device], cause[device] = start, why
        end[device] = finish = start + durations[device]
        if not is_async:
            now, last = finish, device
    timing.total = max((finish for finish in end if finish is not None), default=0)
    return timing


def longest(timing: Timing) -> list[int]:
    """The devices on the longest path of a phase, from the first to begin to the last to end; each waited for the one before.

    Devices without a callback may stand among them.
    """
    ends = [device for device in timing.walk if timing.end[device] == timing.total]
    if not ends or timing.total == 0:
        return []
    path, at = [], ends[0]
    while True:
        path.append(at)
        if (cause := timing.cause[at]) is None:
            return path[::-1]
        at = cause[0]
