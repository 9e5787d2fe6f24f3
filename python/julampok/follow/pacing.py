"""Lets the tasks and interrupt lines of a machine act, in a plain run, where they acted in a log that was followed.

In a run each script takes its next step at once. So an interrupt line that reported its event while a device was in its
callback would report it before anything else. Here a line gets as many turns of `post` before each of its steps as the run
takes to come to the place where the log has that step. The turns are counted by running the machine.
"""

from __future__ import annotations

import collections
import copy
import itertools
import re

from ..limits import MOST_STEPS, MOST_TIMES
from ..second.run import Run
MARK = "turn"  # The mark that is posted; nobody waits for it.
PATIENCE = 3  # Turns without a line of anybody else: what is waited for cannot come, since posts keep time from jumping.
# What the line begins with that an operation writes first, where this is not its own name.
FIRST = {"state": ("state", "attempt"), "autosleep": ("awake autosleep", "autosleep EINVAL"), "freeze_point": ("pass",)}
# Lines that say which way a machine went.
WAY = re.compile(r"(attempt|froze|platform|done|cpu|syscore check|enter|wake|over|end \S+ \S+ (?!0))")


class Paced(Run):
    """A machine under way whose scripts wait for their places. `posts` counts the turns before each step, by script."""

    def __init__(self, tree: dict, places: dict[str, list]):
        super().__init__(tree)
        self.due_places, self.stood, self.lines_read = places, collections.Counter(), 0
        self.posts: dict[str, list[int]] = {name: [] for name in places}

    def is_reached(self, place: tuple | None) -> bool:
        """Whether the run has the line of a place."""
        for line in self.lines[self.lines_read:]:
            self.stood[line.split(" ", 2)[2]] += 1
        self.lines_read = len(self.lines)
        return place is None or self.stood[place[0]] >= place[1]

    def script(self, task):
        """The turns of a script, with posts before each step."""
        steps = [{**step, "times": 1} for step in task.steps for _ in range(step.get("times", 1))]
        for step, place in zip(steps, self.due_places[task.name]):
            yield from self.wait_for(task, place)
            yield from getattr(self, "op_" + step["op"])(task, step)
        yield from self.ready(task, False)
        self.put(task.label, "exit")
        task.exited = True
        yield True
        while True:
            yield False

    def wait_for(self, task, place):
        """Posts until the run has come to a place, or nobody else does anything."""
        posts = idle = 0
        while not self.is_reached(place) and idle < PATIENCE and posts < MOST_TIMES:
            before = len(self.lines)
            yield from self.op_post(task, {"mark": MARK})
            posts += 1
            others = any(f" {task.label} " not in line and f" post {MARK}" not in line for line in self.lines[before + 1:])
            idle = 0 if others else idle + 1
        self.posts[task.name].append(posts)


def steps_of(actor: dict) -> int:
    """How many steps a script has."""
    return sum(step.get("times", 1) for step in actor.get("script", []))


def places_of(file: dict, log: str) -> dict[str, list]:
    """For each step of each script the line of somebody else that stands last before it in the log, and which one of its kind.

    A place is the line without its time and counts, and how often it stood up to there; None where no line is before.
    """
    scripts = {f"{'irq' if actor['kind'] == 'irq' else 'task'}:{actor['name']}": actor for actor in file.get("actors", [])}
    todo = {label: iter([step["op"] for step in actor["script"] for _ in range(step.get("times", 1))]) for label, actor in scripts.items()}
    wanted = {label: next(ops, None) for label, ops in todo.items()}
    found: dict[str, list] = {actor["name"]: [] for actor in scripts.values()}
    count, recent = collections.Counter(), []  # The last lines, of which at most two writers matter.
    for line in log.splitlines():
        parts = line.split(" ", 3)
        if len(parts) < 4 or "/" not in parts[1]:
            break
        who, said = parts[2], f"{parts[2]} {parts[3]}"
        op = wanted.get(who)
        if op is not None and f"{parts[3]} ".startswith(tuple(f"{begin} " for begin in FIRST.get(op, (op,)))):
            found[scripts[who]["name"]].append(next((place for other, place in reversed(recent) if other != who), None))
            wanted[who] = next(todo[who], None)
        count[said] += 1
        if who != "time":
            recent = [*[one for one in recent if one[0] != who][-1:], (who, (said, count[said]))]
    for actor in scripts.values():
        found[actor["name"]] += [None] * (steps_of(actor) - len(found[actor["name"]]))
    return found


def place_before_attempt(log: str, number: int):
    """The line before the begin of an attempt, as a place."""
    count, before = collections.Counter(), None
    for line in log.splitlines():
        said = line.split(" ", 2)[-1]
        if re.search(rf" attempt {number} (guarded|plain)", said):
            return before
        count[said] += 1
        before = said, count[said]
    return before


def stand_firm(file: dict, places: dict, refusers: dict[str, list], log: str) -> None:
    """Lets tasks that did not freeze sleep where they cannot be frozen, from before the attempt on.

    In a run each task that may freeze does so at once. `refusers` has for each script the attempts in which it did not freeze.
    """
    for actor in file.get("actors", []):
        numbers = iter(refusers.get(actor["name"], []))
        for at, step in enumerate(actor["script"]):
            if step["op"] not in ("freeze_point", "sleep_d") or (number := next(numbers, None)) is None:
                continue
            if step["op"] == "freeze_point":
                actor["script"][at] = {"op": "sleep_d", "ms": 1}
            places[actor["name"]][at] = place_before_attempt(log, number)


def paced(file: dict, log: str, refusers: dict[str, list[int]] | None = None) -> tuple[dict, bool | None]:
    """The machine file with turns before its steps, and whether a plain run of it goes the way of the log.

    `refusers` has the attempts in which a script, by its name, did not freeze though it could. With more steps than a
    machine file may have the file is as it was given, and None stands in place of the answer.
    """
    whole = copy.deepcopy(file)
    places = places_of(whole, log)
    stand_firm(whole, places, refusers or {}, log)
    run = Paced(whole, places)
    run.run()
    for actor in whole.get("actors", []):
        actor["script"] = with_posts(actor["script"], run.posts[actor["name"]])
    if sum(steps_of(actor) for actor in whole.get("actors", [])) > MOST_STEPS:
        return file, None
    return whole, way_of(Run(whole).run()[0]) == way_of(log)


def with_posts(steps: list[dict], posts: list[int]) -> list[dict]:
    """The steps with their posts before them; a step that is made several times at once stays one where it has none between."""
    found, left = [], iter(posts)
    for step in steps:
        counts = list(itertools.islice(left, step.get("times", 1)))
        if not any(counts[1:]):
            found += [post(counts[0])] * (bool(counts) and counts[0] > 0) + [step]
            continue
        for number in counts:
            found += [post(number)] * (number > 0) + [{name: value for name, value in step.items() if name != "times"}]
    return found


def post(times: int) -> dict:
    """The operation that takes this many turns."""
    return {"op": "post", "mark": MARK} | ({"times": times} if times > 1 else {})


def way_of(log: str) -> list[str]:
    """What the attempts of a log came to: each phase and its answer, who failed, processors, entry and wake."""
    bodies = [line.split(" ", 3)[3] for line in log.splitlines() if line.count(" ") > 2 and "/" in line.split(" ", 2)[1]]
    return [re.sub(r"(guarded|wakeup|timeout) \d+( \S+)?", r"\1", body) for body in bodies if WAY.match(body)]
