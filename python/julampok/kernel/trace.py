"""Reads a trace of the events `power:*`: typed events, and the whole attempts to sleep that they make up.

What stands before the first whole attempt or behind the last one, because the trace begins or ends inside an attempt, is
left out and noted. What is no whole trace is refused by the first line that shows it.
"""

import contextlib
import gc
import itertools
import re
from collections.abc import Callable

from ..errors import CannotError
from .lines import ASIDE, LATENCY, LOST, PLAIN, Head, nanoseconds
from .recording import (Attempt, CallbackBegin, CallbackEnd, Clock, Device, Event, Note, Phase, SourceActivate,
                        SourceDeactivate, SuspendResume)

BEGIN = re.compile(r"(.*), parent: (.+?), ([a-z ]*\[(\w+)\])")
END = re.compile(r"(.*), err=(-?\d+)")
STEP = re.compile(r"(\w+)\[(-?\d+)\] (begin|end)")
SOURCE = re.compile(r"(.*) state=0x([0-9a-f]+)")
ENTERS = re.compile(r"suspend_resume: +suspend_enter\[\d+\] ")
INDENT = re.compile(r"device_pm_callback_(?:start|end):( +)")
MANY = 100_000  # Objects of a long recording.
SAMPLE = 4000  # Callbacks among which one has a driver, if any has.
# What a phase of each name has to say of its callbacks in `noirq driver [suspend]`: the first word, and the event in brackets.
FIRST_WORDS = {"late": ("dpm_suspend_late",), "noirq": ("dpm_suspend_noirq", "dpm_resume_noirq"), "early": ("dpm_resume_early",)}
# Events of devices that belong to a hibernation, by the value of their phase.
HIBERNATION = {1: "freeze", 4: "hibernate", 8: "quiesce", 32: "thaw", 64: "restore", 128: "recover"}


class Lines:
    """The state of reading one trace. `read_trace` is what others use."""

    def __init__(self, file: str, has_enters: bool, indent: str):
        self.file, self.has_enters, self.indent = file, has_enters, indent
        self.head, self.clock = Head(), None
        self.lines: list[str] = []
        self.events: list[Event] = []
        self.attempts: list[Attempt] = []
        self.notes: list[Note] = []
        self.devices: dict[tuple[str, str], Device] = {}  # By the words before `, parent:`, and the parent's name.
        self.heads: dict[str, tuple] = {}  # Task, pid, cpu and flags, by what stands before the time.
        self.layouts = [PLAIN, LATENCY]  # The one that the last line was of comes first.
        self.texts: dict[str, tuple] = {}  # What the text of a line says, for the many that come again.
        self.strays: list[int] = []  # Lines of steps and callbacks outside of an attempt.
        self.unknown: tuple[int, str] | None = None
        self.last_time, self.goes_back = 0, False
        self.open_attempt: list[Event] | None = None
        self.reset()
        self.takers: dict[str, Callable] = {
            "suspend_resume": self.take_step, "device_pm_callback_start": self.take_begin,
            "device_pm_callback_end": self.take_end, "wakeup_source_activate": self.take_activate,
            "wakeup_source_deactivate": self.take_deactivate}

    def reset(self) -> None:
        """Begins with nothing that is open."""
        self.phases: list[SuspendResume] = []  # A failed late phase has early inside.
        self.phase: Phase | None = None  # The innermost one.
        self.callbacks: dict[int, CallbackBegin] = {}  # The open ones, by pid.
        self.is_freezing = self.is_frozen = False

    # ---- lines

    def take_lines(self, lines: list[str]) -> None:
        """Takes the lines of the file. Raises CannotError where one is no line of a trace and stands in an attempt.

        Where the buffer has lost its oldest events, those of one processor may reach back further than those of another. So
        an attempt that lacks some there, before the first whole one, is left out.
        """
        begin = 1
        while begin <= len(lines):
            try:
                self.take_from(lines, begin)
                return
            except CannotError as error:
                if self.head.overwritten_line is None or self.attempts or self.open_attempt is None:
                    raise
                first = self.open_attempt[0].line
                self.notes.append(Note(f"the attempt that begins in line {first} lacks events, as the buffer lost its oldest ones: left out", self.file, error.line))
                self.strays.append(error.line)
                self.open_attempt, begin = None, error.line + 1
                self.reset()

    def take_from(self, lines: list[str], begin: int) -> None:
        """Takes the lines from one on. What stands before a time comes again and again, so it is read once."""
        heads, takers = self.heads, self.takers
        for line, text in enumerate(itertools.islice(lines, begin - 1, None), begin):
            parts = text.split(": ", 2)
            if len(parts) == 3:
                head, event, said = parts
                left, _, stamp = head.rpartition(" ")
                who = heads.get(left)
                taker = takers.get(event)
                if who is not None and taker is not None:
                    taker(line, who, self.time_of(line, stamp), stamp, said)
                    continue
                if who is not None and event.isidentifier():
                    continue
            self.take_by_pattern(line, text)

    def take_by_pattern(self, line: int, text: str) -> None:
        """Takes a line of any layout, and keeps what stands before its time."""
        found = self.layouts[0].fullmatch(text)
        if found is None:
            found = self.layouts[1].fullmatch(text)
            if found is None:
                self.take_other(line, text)
                return
            self.layouts.reverse()
        task, pid, cpu, flags, stamp, event, said = found.groups()
        who = task, int(pid), int(cpu), self.head.flags_of(flags) if flags else ""
        left, _, rest = text.partition(": ")[0].rpartition(" ")
        if rest == stamp:
            self.heads[left] = who
        taker = self.takers.get(event)
        if taker is not None:
            taker(line, who, self.time_of(line, stamp), stamp, said.removeprefix(" "))

    def take_other(self, line: int, text: str) -> None:
        """Takes a line that is no event."""
        if LOST.fullmatch(text):
            if self.open_attempt is not None:
                raise self.fault(line, f"the trace has lost events of the attempt that begins in line {self.open_attempt[0].line}: {text.strip()!r}")
            self.notes.append(Note(f"the trace has lost events here, outside of a whole attempt: {text.strip()}", self.file, line))
        elif ASIDE.fullmatch(text):
            self.head.take(line, text)
        elif self.open_attempt is not None:
            raise self.fault(line, f"no line of a trace: {text[:80]!r}")
        elif self.unknown is None:
            self.unknown = line, text

    def fault(self, line: int, text: str) -> CannotError:
        """The error of a line."""
        return CannotError(text, self.file, line)

    def time_of(self, line: int, stamp: str) -> int | None:
        """The time of an event; all events of a trace have to have one kind of it."""
        if stamp.isdecimal():
            if self.clock is not Clock.COUNTER:
                self.settle_clock(line, stamp, Clock.COUNTER)
            return None
        if self.clock is not Clock.SECONDS:
            self.settle_clock(line, stamp, Clock.SECONDS)
        whole, _, part = stamp.partition(".")
        time = int(whole + part) * 1000 if len(part) == 6 and part.isdecimal() and whole.isdecimal() else self.other_time(line, stamp)
        if time < self.last_time and not self.goes_back:
            self.goes_back = True
            self.notes.append(Note("the time goes back here", self.file, line))
        self.last_time = time
        return time

    def other_time(self, line: int, stamp: str) -> int:
        """The time of a stamp that has not six digits behind its point."""
        if not re.fullmatch(r"\d+\.\d+|\d+us.?", stamp):
            raise self.fault(line, f"no time: {stamp[:80]!r}")
        return nanoseconds(stamp)

    def settle_clock(self, line: int, stamp: str, clock: Clock) -> None:
        """Takes the clock of the first event; raises CannotError for a later one of another kind."""
        if self.clock is not None:
            raise self.fault(line, f"the time {stamp} is of another kind than those above")
        self.clock = clock

    # ---- steps of attempts

    def take_step(self, line: int, who: tuple, time: int | None, stamp: str, said: str) -> None:
        """Takes a `suspend_resume`."""
        found = STEP.fullmatch(said.strip())
        if found is None:
            raise self.fault(line, f"no step of an attempt: {said.strip()[:80]!r}")
        event = SuspendResume(line, *who, time, stamp, found[1], int(found[2]), found[3] == "begin")
        if event.is_begin and self.is_opening(event):
            if self.is_refused(event):
                self.notes.append(Note(f"{event.task}-{event.pid} wrote a state while an attempt was open, which the kernel refuses (EBUSY)", self.file, line))
                return
            self.close(line)
            self.open_attempt = []
        if self.open_attempt is None:
            self.strays.append(line)
            return
        self.open_attempt.append(event)
        if event.phase is not None:
            self.take_phase(event)
        elif event.action == "freeze_processes":
            self.is_freezing = event.is_begin
            self.is_frozen = self.is_frozen or event.is_begin
        elif event.action == "thaw_processes" and not event.is_begin:
            self.is_frozen = False
        if not event.is_begin and event.action in ("thaw_processes", "freeze_processes") and not self.is_frozen and not self.is_freezing:
            self.close(line)

    def is_opening(self, event: SuspendResume) -> bool:
        """Whether a begin opens an attempt. Where the trace has no `suspend_enter` at all, the first step that it has does."""
        if self.has_enters:
            return event.action == "suspend_enter"
        firsts = ("sync_filesystems", "freeze_processes", "dpm_prepare")
        if event.action not in firsts or event.value in HIBERNATION or self.strays and not self.attempts:
            return False
        if self.open_attempt is None:
            return True
        done = {step.action for step in self.open_attempt if isinstance(step, SuspendResume)}
        return bool(done.intersection(firsts[firsts.index(event.action):]))

    def is_refused(self, event: SuspendResume) -> bool:
        """Whether a `suspend_enter` is that of a second task, while the attempt of another one goes on."""
        if self.open_attempt is None or self.open_attempt[0].pid == event.pid:
            return False
        if self.unfinished() is not None:
            return True
        for text in itertools.islice(self.lines, event.line, None):
            found = PLAIN.fullmatch(text) or LATENCY.fullmatch(text)
            if found is not None and found[6] == "suspend_resume":
                return int(found[2]) == self.open_attempt[0].pid
        return False

    def take_phase(self, event: SuspendResume) -> None:
        """Takes the begin or end of a phase of devices."""
        if event.is_begin:
            if event.value in HIBERNATION:
                raise self.fault(event.line, f"{event.action}[{event.value}] is of a hibernation, not of a suspend")
            self.phases.append(event)
            self.phase = event.phase
            return
        opened = self.phases.pop() if self.phases else None
        if opened is None or opened.action != event.action:
            raise self.fault(event.line, f"{event.action} ends without a begin")
        self.phase = self.phases[-1].phase if self.phases else None
        if self.callbacks and not self.phases:
            begin = min(self.callbacks.values(), key=lambda one: one.line)
            raise self.fault(event.line, f"{event.action} ends before the callback of line {begin.line} ({begin.device.name})")

    def close(self, line: int) -> None:
        """Closes the attempt that is open, if one is, as a whole one."""
        if self.open_attempt is None:
            return
        if (why := self.unfinished()) is not None:
            raise self.fault(line, why)
        state = next((step.value for step in self.open_attempt[:1] if step.action == "suspend_enter"), None)
        self.attempts.append(Attempt(len(self.attempts) + 1, self.open_attempt, len(self.events), state))
        self.events += self.open_attempt
        self.open_attempt = None
        self.reset()

    def unfinished(self) -> str | None:
        """What the open attempt still lacks; None where it may end here."""
        if self.callbacks:
            begin = min(self.callbacks.values(), key=lambda one: one.line)
            return f"the callback of line {begin.line} ({begin.device.name}) has no end"
        if self.phases:
            return f"{self.phases[-1].action} of line {self.phases[-1].line} has no end"
        if self.is_frozen or self.is_freezing:
            return f"the attempt that begins in line {self.open_attempt[0].line} froze tasks and has no thaw_processes"
        return None

    # ---- callbacks

    def take_begin(self, line: int, who: tuple, time: int | None, stamp: str, said: str) -> None:
        """Takes a `device_pm_callback_start`."""
        if self.open_attempt is None:
            self.strays.append(line)
            return
        device, operation, wanted = self.texts.get(said) or self.read_begin(line, said)
        task, pid, cpu, flags = who
        if not self.phases:
            raise self.fault(line, f"a callback in no phase of devices: {said.strip()[:80]!r}")
        if pid in self.callbacks:
            raise self.fault(line, f"the callback of line {self.callbacks[pid].line} in the same task has no end yet")
        if wanted is not None and self.phases[-1].action not in wanted:
            raise self.fault(line, f"a callback {operation!r} in {self.phases[-1].action}")
        event = CallbackBegin(line, task, pid, cpu, flags, time, stamp, device, self.phase, operation)
        self.callbacks[pid] = event
        self.open_attempt.append(event)

    def read_begin(self, line: int, said: str) -> tuple:
        """What the text of a begin tells: device, operation, and the phases in which it may stand (None: in any)."""
        found = BEGIN.fullmatch(said.rstrip().removeprefix(self.indent))
        if found is None:
            raise self.fault(line, f"no begin of a callback: {said.strip()[:80]!r}")
        words, parent, operation, verb = found.groups()
        if verb not in ("suspend", "resume"):
            raise self.fault(line, f"a callback of {verb!r}, which is not of a suspend")
        device = self.devices.get((words, parent))
        if device is None:
            device = self.devices[words, parent] = Device(words, line=line)
        wanted = FIRST_WORDS.get(operation.split(" ", 1)[0])
        self.texts[said] = told = device, operation, wanted
        return told

    def take_end(self, line: int, who: tuple, time: int | None, stamp: str, said: str) -> None:
        """Takes a `device_pm_callback_end`."""
        if self.open_attempt is None:
            self.strays.append(line)
            return
        words, error = self.texts.get(said) or self.read_end(line, said)
        task, pid, cpu, flags = who
        begin = self.callbacks.pop(pid, None)
        if begin is None or begin.device.name != words:
            raise self.fault(line, f"a callback ends that did not begin in this task: {said.strip()[:80]!r}")
        begin.end = event = CallbackEnd(line, task, pid, cpu, flags, time, stamp, begin.device, begin.phase, error, begin)
        self.open_attempt.append(event)

    def read_end(self, line: int, said: str) -> tuple:
        """What the text of an end tells: driver and device, and what the callback answered."""
        found = END.fullmatch(said.rstrip().removeprefix(self.indent))
        if found is None:
            raise self.fault(line, f"no end of a callback: {said.strip()[:80]!r}")
        self.texts[said] = told = found[1], int(found[2])
        return told

    # ---- wakeup sources

    def take_activate(self, line: int, who: tuple, time: int | None, stamp: str, said: str) -> None:
        """Takes a `wakeup_source_activate`."""
        self.take_source(SourceActivate(line, *who, time, stamp, *self.read_source(line, said)))

    def take_deactivate(self, line: int, who: tuple, time: int | None, stamp: str, said: str) -> None:
        """Takes a `wakeup_source_deactivate`."""
        self.take_source(SourceDeactivate(line, *who, time, stamp, *self.read_source(line, said)))

    def read_source(self, line: int, said: str) -> tuple[str, int]:
        """What the text of a wakeup source's step tells: its name, and the word of events."""
        found = SOURCE.fullmatch(said.strip())
        if found is None:
            raise self.fault(line, f"no step of a wakeup source: {said.strip()[:80]!r}")
        return found[1], int(found[2], 16)

    def take_source(self, event: Event) -> None:
        """Takes a step of a wakeup source, inside or outside of an attempt."""
        (self.events if self.open_attempt is None else self.open_attempt).append(event)

    # ---- the end

    def finish(self, last: int) -> None:
        """Ends the trace after its last line: what is open there is cut off. Raises CannotError where no attempt is whole."""
        if self.open_attempt is not None:
            why = self.unfinished()
            if why is None:
                self.close(last)
            elif self.attempts:
                begins = self.open_attempt[0].line
                self.notes.append(Note(f"the trace ends inside the attempt that begins in line {begins}: left out", self.file, last))
            else:
                raise self.fault(last, f"the trace ends inside its only attempt: {why}")
        if not self.attempts:
            raise self.no_attempt(last)
        self.note_strays()

    def no_attempt(self, last: int) -> CannotError:
        """The error of a trace without a whole attempt."""
        if self.head.tracer in ("function_graph", "function"):
            return CannotError(f"a trace of the tracer {self.head.tracer}, whose lines are not read: record with the tracer 'nop'", self.file)
        if self.strays and not any("suspend_resume:" in text for text in self.lines):
            return self.fault(self.strays[0], "the trace has no event suspend_resume, which tells where attempts and phases begin: record it, too")
        if self.strays:
            return self.fault(self.strays[0], "the trace begins inside an attempt and has no whole one, which suspend_enter begins")
        if self.unknown is not None:
            return self.fault(self.unknown[0], f"no line of a trace: {self.unknown[1][:80]!r}")
        if self.clock is None:
            return CannotError("no trace: it has no event" if last else "is empty", self.file)
        return CannotError("the trace has no attempt to sleep (no suspend_resume event)", self.file)

    def note_strays(self) -> None:
        """Notes lines that stand outside of the whole attempts."""
        first = self.attempts[0].line
        if not any(attempt.begins for attempt in self.attempts) and any(attempt.steps("dpm_prepare") for attempt in self.attempts):
            self.notes.append(Note("the trace has no callback: device_pm_callback_start and device_pm_callback_end were not recorded", self.file))
        before = [line for line in self.strays if line < first]
        after = [line for line in self.strays if line > first]
        if before:
            self.notes.append(Note(f"the trace begins inside an attempt: {counted(before)} before line {first} left out", self.file, before[0]))
        if after:
            self.notes.append(Note(f"steps or callbacks outside of an attempt: {counted(after)} left out, the first here", self.file, after[0]))
        if self.unknown is not None:
            self.notes.append(Note(f"no line of a trace, outside of an attempt: {self.unknown[1][:80]!r}", self.file, self.unknown[0]))
        if self.head.overwritten_line is not None:
            self.notes.append(Note("the trace's buffer was too small: its oldest events are lost", self.file, self.head.overwritten_line))


def counted(lines: list[int]) -> str:
    """How many lines there are, in words."""
    return "1 line" if len(lines) == 1 else f"{len(lines)} lines"


def text_of(file: str, data: bytes) -> str:
    """The text of a trace. Raises CannotError for a binary file, with what to run for that of trace-cmd."""
    if data.startswith(b"\x17\x08\x44tracing"):
        name = "FILE" if str(file) == "-" else file
        raise CannotError(f"a binary trace of trace-cmd: run 'trace-cmd report -i {name}' and give what it writes", file)
    if b"\0" in data:
        raise CannotError("a binary file, no text of a trace", file, data.count(b"\n", 0, data.index(b"\0")) + 1)
    return data.decode("utf-8", "replace")


def read_trace(file: str, data: bytes) -> Lines:
    """The events and whole attempts of a trace. Devices are not yet told apart from their drivers. Raises CannotError."""
    text = text_of(file, data)
    lines = text.replace("\r\n", "\n").split("\n")
    rest = "" if lines[-1] == "" else lines[-1]
    if lines[-1] == "" or not ends_attempt(rest):
        lines.pop()
    reader = Lines(file, ENTERS.search(text) is not None, indent_of(text))
    reader.lines = lines
    reader.take_lines(lines)
    if rest and not ends_attempt(rest) and not ASIDE.fullmatch(rest):
        reader.notes.append(Note("the last line has no newline, so it may be cut off: left out", file, len(lines) + 1))
    reader.finish(len(lines) + bool(rest))
    return reader


def indent_of(text: str) -> str:
    """The spaces before a driver, behind the first one. A device without a driver has one more, which tells it from that."""
    return min((found[1] for found in itertools.islice(INDENT.finditer(text), SAMPLE)), key=len, default=" ")[1:]


def ends_attempt(text: str) -> bool:
    """Whether a last line without a newline is whole: it ends in the last word of a step that may end an attempt."""
    return re.search(r"(thaw_processes|freeze_processes|sync_filesystems|suspend_enter)\[\d+\] (begin|end)$", text) is not None


@contextlib.contextmanager
def no_collection():
    """Turns Python's collector off while a recording is read: it would look again and again at events, none of which can go.

    What there is of a long recording at the end is kept out of its sight for good.
    """
    was_on = gc.isenabled()
    gc.disable()
    try:
        yield
    finally:
        if gc.get_count()[0] > MANY:
            gc.freeze()
        if was_on:
            gc.enable()
