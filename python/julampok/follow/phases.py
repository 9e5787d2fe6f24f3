"""Phases of devices: the walk and the asynchronous devices, whose turns the trace gives; silent devices go between.

A device that has no callback in a phase leaves no line there. Still it waits and is waited for, and the walk comes to it in its
place. So each phase goes as far by itself as it can, stops before each callback that the trace has, and where the trace has
one that may not come yet, says what had to come first.
"""

from __future__ import annotations

from collections.abc import Callable
from dataclasses import dataclass

from ..kernel.recording import CallbackBegin
from .family import Kin, OutOfOrder
from .journal import Journal

TESTED = ("suspend", "late")  # Phases in which each device tests for an event before its callback.


@dataclass(slots=True)
class Stage:
    """What the phases of one attempt share: the journal, the devices, their names in the log, and who makes the attempt."""

    journal: Journal
    kin: Kin
    names: list[str]
    maker: str
    order: list[int]
    direct: set[int]  # Devices that the attempt leaves alone, since they are suspended already.
    texts: Callable[[str, str], Texts]  # The entries of a phase, by who makes the attempt and the phase's name.


@dataclass(slots=True)
class Texts:
    """The entries of one phase that come again and again, by device: their actors and bodies."""

    begin: list[str]
    end: list[str]  # With 0.
    direct: list[str]
    schedule: list[str]


def texts_of(kin: Kin, names: list[str], maker: str, phase: str) -> Texts:
    """The entries of a phase."""
    who = [f"dev:{name}" if is_async else maker for name, is_async in zip(names, kin.is_async)]
    return Texts([f"{one} begin {phase} {name}" for one, name in zip(who, names)],
                 [f"{one} end {phase} {name} 0" for one, name in zip(who, names)],
                 [f"{one} skip {phase} {name} direct" for one, name in zip(who, names)],
                 [f"{maker} schedule {phase} {name}" for name in names])


def joined(kin: Kin, above: int, below: int) -> str:
    """Why one device waits for another: by its parent, or by a link."""
    upper, lower = kin.devices[above].shown, kin.devices[below].shown
    through = kin.through.get((above, below))
    if through:
        return f"{lower} hangs below {upper}, over {', '.join(device.shown for device in through)}"
    return f"{upper} is the parent of {lower}" if kin.parents[below] == above else f"{lower} has a link to its supplier {upper}"


class Down:
    """A phase on the way to sleep."""

    def __init__(self, stage: Stage, name: str, begins: dict[int, CallbackBegin], reach: int, keeps: set[int]):
        self.stage, self.name, self.begins = stage, name, begins
        self.put, self.add = stage.journal.put, stage.journal.add
        self.texts = stage.texts(stage.maker, name)
        self.is_async = stage.kin.is_async
        self.place = len(stage.order) - 1  # Of the next device of the walk.
        self.reach = reach  # The walk goes by itself down to this place, until the phase ends.
        self.keeps = keeps  # Devices without a line here that have one elsewhere: they come only as the phase ends.
        self.left = [len(below) for below in stage.kin.below]
        self.is_over = [False] * len(self.left)
        self.is_scheduled = [False] * len(self.left)
        self.is_inside = [False] * len(self.left)
        self.open: list[int] = []  # Scheduled devices that have not ended, the oldest first.
        self.ready: list[int] = []
        self.error, self.own_error = "0", "0"
        self.left_alone: set[int] = set()
        self.ended: list[int] = []  # Devices that ended with 0.
        self.found_at: int | None = None  # The device whose test found an event.
        self.is_tested = name in TESTED
        self.is_ending = False

    # ---- what goes by itself

    def go(self) -> None:
        """Goes as far as it can without the next callback that the trace has."""
        while self.drain() or self.step():
            pass

    def drain(self) -> bool:
        """Lets asynchronous devices act that are ready and have no line here."""
        did = False
        while self.ready:
            device = self.ready.pop()
            if device in self.begins and not self.is_stopped():
                continue
            if device in self.keeps and not self.is_ending:
                continue
            self.take(device)
            did = True
        return did

    def is_stopped(self) -> bool:
        """Whether a device whose turn comes now is skipped."""
        return self.is_ending and (self.error != "0" or self.is_tested and self.stage.journal.is_pending())

    def step(self) -> bool:
        """The walk's next step; False where it has none."""
        if self.place < self.reach or self.error != "0":
            return False
        device = self.stage.order[self.place]
        if self.is_async[device]:
            self.add(self.texts.schedule[device])
            self.is_scheduled[device] = True
            self.open.append(device)
            self.place -= 1
            if self.left[device] == 0:
                self.ready.append(device)
            return True
        if self.left[device] > 0 or device in self.begins and not self.is_stopped():
            return False
        if device in self.keeps and not self.is_ending:
            return False
        self.place -= 1
        self.take(device)
        return True

    def take(self, device: int) -> None:
        """A device's turn that the trace does not show: it is skipped, or passes."""
        if self.is_over[device] or self.is_inside[device]:
            return
        stage = self.stage
        if self.error != "0":
            self.put(self.who(device), f"skip {self.name} {stage.names[device]} error")
        elif self.is_tested and stage.journal.is_pending():
            self.put(self.who(device), f"skip {self.name} {stage.names[device]} pending")
            stage.journal.find()
            self.error = "EBUSY"
            self.found_at = device
        elif device in stage.direct and (self.name != "suspend" or self.hangs_direct(device)):
            self.add(self.texts.direct[device])
            self.left_alone.add(device)
        else:
            self.add(self.texts.begin[device])
            self.add(self.texts.end[device])
            self.ended.append(device)
        self.pass_on(device)

    def hangs_direct(self, device: int) -> bool:
        """Whether all below a device were left alone."""
        return all(below in self.left_alone for below in self.stage.kin.below[device])

    def who(self, device: int) -> str:
        """Who makes a device's entries."""
        return f"dev:{self.stage.names[device]}" if self.stage.kin.is_async[device] else self.stage.maker

    def pass_on(self, device: int) -> None:
        """A device has ended or was skipped: those above it wait for one less."""
        self.is_over[device] = True
        for above in self.stage.kin.above[device]:
            self.left[above] -= 1
            if self.left[above] == 0 and self.is_scheduled[above] and not self.is_over[above]:
                self.ready.append(above)

    # ---- what the trace shows

    def begin(self, device: int, event: CallbackBegin) -> None:
        """A callback begins. Raises OutOfOrder where it may not."""
        self.go()
        is_next = self.is_scheduled[device] or self.place >= 0 and self.stage.order[self.place] == device
        is_late = self.is_over[device] or self.is_inside[device] or self.error != "0"
        if is_late or not is_next or self.left[device] > 0 or self.is_tested and self.stage.journal.is_pending():
            self.refuse(device, event, is_next)
        self.is_inside[device] = True
        self.add(self.texts.begin[device])

    def refuse(self, device: int, event: CallbackBegin, is_next: bool) -> None:
        """Says why a callback may not begin."""
        did = f"{self.stage.kin.devices[device].shown} began its callback of {self.name}"
        entry = self.who(device), f"begin {self.name} {self.stage.names[device]}"
        if self.is_over[device] or self.is_inside[device]:
            raise OutOfOrder(event.line, did, "it had its callback of this phase already", None, [], entry)
        if self.error != "0":
            raise OutOfOrder(event.line, did, f"an error stood in this phase ({self.error}), after which nobody begins", None, [], entry)
        if self.left[device] > 0:
            self.refuse_below(device, event, did, entry)
        if not is_next:
            self.refuse_walk(device, event, did, entry)
        raise OutOfOrder(event.line, did, "its test had to find the event that came before", None, [], entry)

    def end(self, device: int, answer: str) -> None:
        """A callback ends."""
        self.put(self.who(device), f"end {self.name} {self.stage.names[device]} {answer}")
        self.is_inside[device] = False
        is_async = self.stage.kin.is_async[device]
        if not is_async:
            self.place -= 1
        if answer == "0":
            self.ended.append(device)
        else:
            self.error = answer
            self.own_error = self.own_error if is_async else answer
        self.pass_on(device)
        self.go()

    # ---- what had to come first

    def refuse_below(self, device: int, event: CallbackBegin, did: str, entry: tuple) -> None:
        """Says what below a device had to end before its callback."""
        other, because = self.blocker(device)
        raise OutOfOrder(event.line, did, *self.words_of(other), because, entry)

    def blocker(self, device: int) -> tuple[int, list[str]]:
        """The device with a callback that keeps a device waiting, and why, over devices without one."""
        because, seen = [], {device}
        while True:
            below = next((one for one in self.stage.kin.below[device] if not self.is_over[one] and one not in seen), None)
            if below is None:
                return device, because
            because.append(joined(self.stage.kin, device, below))
            seen.add(below)
            device = below
            if device in self.begins or self.is_inside[device]:
                return device, because
            if self.left[device] == 0:
                return self.walk_blocker(device, because)

    def walk_blocker(self, device: int, because: list[str]) -> tuple[int, list[str]]:
        """The device that keeps the walk from coming to a device that nobody else keeps waiting."""
        if self.is_scheduled[device] or self.place < 0:
            return device, because
        next_one = self.stage.order[self.place]
        if next_one == device:
            return device, because
        kin = self.stage.kin
        because.append(f"{kin.devices[next_one].shown} stands behind {kin.devices[device].shown} in the kernel's list, and the walk takes it first")
        if next_one in self.begins or self.is_inside[next_one] or self.left[next_one] == 0:
            return next_one, because
        other, more = self.blocker(next_one)
        return other, because + more

    def refuse_walk(self, device: int, event: CallbackBegin, did: str, entry: tuple) -> None:
        """Says what the walk had to take before it came to a device."""
        other, because = self.walk_blocker(device, [])
        found = OutOfOrder(event.line, did, *self.words_of(other), because, entry)
        found.is_by_list = self.stage.kin.is_async[device]
        raise found

    def words_of(self, device: int) -> tuple[str, int | None]:
        """What a device had to do first, and the line in which it did."""
        shown, begin = self.stage.kin.devices[device].shown, self.begins.get(device)
        if begin is None:
            return f"{shown} had to have passed this phase, and no line shows it", None
        end = begin.end.line if begin.end is not None else begin.line
        return f"{shown} had to end its callback of {self.name} first, which it does in line {end}", end

    # ---- the end

    def finish(self, line: int, is_whole: bool) -> str:
        """The phase ends; gives its answer. Raises OutOfOrder where somebody still has to come."""
        self.is_ending, self.reach = True, 0
        self.ready += [device for device in self.open if self.left[device] == 0 and not self.is_over[device]]
        self.go()
        left = next((device for device in self.open if not self.is_over[device]), None)
        if left is None and self.error == "0" and self.place >= 0:
            left = self.stage.order[self.place]
        if left is not None:
            other, because = self.blocker(left)
            shown = self.stage.kin.devices[left].shown
            raise OutOfOrder(line, f"the phase {self.name} ended", f"{shown} had to have passed it", None, because)
        answer = self.own_error if self.own_error != "0" else self.error
        self.put(self.stage.maker, f"done {self.name} {answer}")
        return answer


class Up:
    """A phase on the way back: the devices that went down in the phase that it mirrors come up, those above them first."""

    def __init__(self, stage: Stage, name: str, begins: dict[int, CallbackBegin], members: list[int]):
        self.stage, self.name, self.begins = stage, name, begins
        self.put, self.add = stage.journal.put, stage.journal.add
        self.texts = stage.texts(stage.maker, name)
        here = set(members)
        self.order = [device for device in stage.order if device in here]
        self.left = {device: sum(above in here for above in stage.kin.above[device]) for device in self.order}
        self.is_over: set[int] = set()
        self.inside: set[int] = set()
        self.walk = [device for device in self.order if not stage.kin.is_async[device]]
        self.place = 0
        for device in self.order:
            if stage.kin.is_async[device]:
                self.add(self.texts.schedule[device])
        self.ready = [device for device in self.order if stage.kin.is_async[device] and self.left[device] == 0]

    def who(self, device: int) -> str:
        """Who makes a device's entries."""
        return f"dev:{self.stage.names[device]}" if self.stage.kin.is_async[device] else self.stage.maker

    def go(self) -> None:
        """Goes as far as it can without the next callback that the trace has."""
        while self.drain() or self.step():
            pass

    def drain(self) -> bool:
        """Lets asynchronous devices pass that are ready and have no line here."""
        did = False
        while self.ready:
            device = self.ready.pop()
            if device not in self.begins and device not in self.is_over:
                self.take(device)
                did = True
        return did

    def step(self) -> bool:
        """The walk's next step; False where it has none."""
        if self.place >= len(self.walk):
            return False
        device = self.walk[self.place]
        if device in self.begins or self.left[device] > 0:
            return False
        self.place += 1
        self.take(device)
        return True

    def take(self, device: int) -> None:
        """A device without a line here passes."""
        self.add(self.texts.begin[device])
        self.add(self.texts.end[device])
        self.pass_on(device)

    def pass_on(self, device: int) -> None:
        """A device has ended: those below it wait for one less."""
        self.is_over.add(device)
        for below in self.stage.kin.below[device]:
            if below in self.left:
                self.left[below] -= 1
                if self.left[below] == 0 and self.stage.kin.is_async[below]:
                    self.ready.append(below)

    def begin(self, device: int, event: CallbackBegin) -> None:
        """A callback begins. Raises OutOfOrder where it may not."""
        self.go()
        left = self.left.get(device)
        is_late = device in self.is_over or device in self.inside
        if left != 0 or is_late or not self.stage.kin.is_async[device] and self.walk[self.place] != device:
            self.refuse(device, event)
        self.inside.add(device)
        self.add(self.texts.begin[device])

    def refuse(self, device: int, event: CallbackBegin) -> None:
        """Says why a callback may not begin."""
        kin = self.stage.kin
        did = f"{kin.devices[device].shown} began its callback of {self.name}"
        entry = self.who(device), f"begin {self.name} {self.stage.names[device]}"
        if device not in self.left:
            raise OutOfOrder(event.line, did, "it had not gone down in this attempt", None, [], entry)
        if device in self.is_over or device in self.inside:
            raise OutOfOrder(event.line, did, "it had its callback of this phase already", None, [], entry)
        other, because = self.blocker(device) if self.left[device] > 0 else self.walk_blocker(device)
        raise OutOfOrder(event.line, did, *self.words_of(other), because, entry)

    def end(self, device: int, answer: str) -> None:
        """A callback ends; an error changes nothing else."""
        self.put(self.who(device), f"end {self.name} {self.stage.names[device]} {answer}")
        self.inside.discard(device)
        if not self.stage.kin.is_async[device]:
            self.place += 1
        self.pass_on(device)
        self.go()

    def blocker(self, device: int) -> tuple[int, list[str]]:
        """The device with a callback that keeps a device waiting, and why, over devices without one."""
        because, kin = [], self.stage.kin
        while True:
            above = next((one for one in kin.above[device] if one in self.left and one not in self.is_over), None)
            if above is None:
                break
            because.append(joined(kin, above, device))
            device = above
            if device in self.begins:
                return device, because
        if not kin.is_async[device] and self.place < len(self.walk) and self.walk[self.place] != device:
            other, more = self.walk_blocker(device)
            return other, because + more
        return device, because

    def walk_blocker(self, device: int) -> tuple[int, list[str]]:
        """The device that the walk had to take before it came to a device."""
        kin, next_one = self.stage.kin, self.walk[self.place]
        because = [f"{kin.devices[next_one].shown} stands before {kin.devices[device].shown} in the kernel's list, and the walk takes it first"]
        if next_one in self.begins or self.left[next_one] == 0:
            return next_one, because
        other, more = self.blocker(next_one)
        return other, because + more

    def words_of(self, device: int) -> tuple[str, int | None]:
        """What a device had to do first, and the line in which it did."""
        shown, begin = self.stage.kin.devices[device].shown, self.begins.get(device)
        if begin is None:
            return f"{shown} had to have passed this phase, and no line shows it", None
        end = begin.end.line if begin.end is not None else begin.line
        return f"{shown} had to end its callback of {self.name} first, which it does in line {end}", end

    def finish(self, line: int) -> None:
        """The phase ends. Raises OutOfOrder where somebody still has to come."""
        self.go()
        left = next((device for device in self.order if device not in self.is_over), None)
        if left is not None:
            _, because = self.blocker(left)
            raise OutOfOrder(line, f"the phase {self.name} ended", f"{self.stage.kin.devices[left].shown} had to have passed it", None, because)
        self.put(self.stage.maker, f"done {self.name} 0")
