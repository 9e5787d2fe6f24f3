"""Puts the rows of an attempt into groups: what stopped it on top, what has no callback folded."""

import dataclasses

from .model import Sort, parents_of
from .words import counted

OTHERS = [(Sort.ATTEMPT, "The attempt"), (Sort.TASK, "Tasks and interrupt lines"), (Sort.NOTIFIER, "Notifiers"),
          (Sort.PROCESSOR, "Processors"), (Sort.CORE, "Steps of the core (syscore)")]
ALWAYS = ("prepare", "complete")  # In these phases the kernel comes to each device, whether it has a callback or not.


@dataclasses.dataclass(slots=True)
class Group:
    """Rows under one heading."""

    title: str
    rows: list[int]
    is_folded: bool = False
    tone: str = ""
    is_tree: bool = False  # Rows stand moved in, by how many parents they have.


def has_work(mark):
    """Whether a mark of a device says more than that the kernel came to it."""
    return bool(mark.answer) or mark.kind not in ALWAYS


def groups_of(page, attempt):
    """The groups of an attempt, from above to below. Each row stands once."""
    left = {number: None for number in range(len(page.rows))}
    working = {mark.row for mark in attempt.marks if has_work(mark)}
    marked = {mark.row for mark in attempt.marks}
    broken = [row for tie in attempt.ties if tie.kind == "broken" for row in (tie.source, tie.target)]
    groups = [
        Group("The order that was broken", taken(left, broken), tone="bad"),
        Group("What stopped it, with its parents", taken(left, with_parents(page, attempt.culprits)), tone="bad"),
        Group("The longest path", taken(left, [step.row for step in attempt.path if step.row is not None])),
        Group("Wakeup sources", taken(left, of_sort(page, left, Sort.SOURCE, marked))),
        Group("Devices", taken(left, of_sort(page, left, Sort.DEVICE, working)), is_tree=True),
    ]
    quiet = taken(left, of_sort(page, left, Sort.DEVICE, left))
    groups.append(Group(f"{counted(len(quiet), 'device')} without a callback", quiet, is_folded=True, is_tree=True))
    groups += [Group(title, taken(left, of_sort(page, left, sort, marked))) for sort, title in OTHERS]
    return [group for group in groups if group.rows]


def with_parents(page, rows):
    """Each row, and behind it its parents, the nearest first."""
    return [found for row in rows for found in (row, *parents_of(page.rows, row))]


def of_sort(page, left, sort, among):
    return [number for number in left if page.rows[number].sort is sort and number in among]


def taken(left, rows):
    """Those of the rows that are left, which are so no longer; in their order, each once."""
    found = [row for row in dict.fromkeys(rows) if row in left]
    for row in found:
        del left[row]
    return found
