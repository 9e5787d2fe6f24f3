"""Makes the page's form of a recording: each callback of the trace is a mark, from its line of begin to its line of end.

What was judged and what was forecast comes from elsewhere: `judging` and `timing` add it.
"""

import os
import time

from ..kernel.errnos import error_name
from ..kernel.recording import CallbackBegin, CallbackEnd, Clock, Phase, SourceActivate, SourceDeactivate, SuspendResume
from .model import Attempt, Gap, Mark, Page, Row, Sort, Stage, Tone, Unit

GAP_MS, GAP_SHARE = 100, 0.05  # A stretch without an event is drawn narrow if it is longer than both.
QUIET = {"machine_suspend", "acpi_suspend", "syscore_suspend", "syscore_resume", "suspend_enter", "s2idle"}  # Stages that may be drawn so.
SLEEPS = {"machine_suspend", "acpi_suspend", "syscore_resume"}


class Clockwork:
    """Where things stand across: microseconds since the first event, or lines if the trace has no times."""

    def __init__(self, recording):
        timed = [event.time for event in recording.events if event.time is not None]
        self.unit = Unit.TIME if timed and recording.clock is not Clock.COUNTER else Unit.LINES
        self.base = min(timed, default=0)

    def at(self, event):
        """Where an event stands."""
        return (event.time - self.base) // 1000 if self.unit is Unit.TIME and event.time is not None else event.line

    def until(self, event):
        """Where something ends whose last line is that of the event."""
        return self.at(event) if self.unit is Unit.TIME else event.line + 1


class Rows:
    """The rows of a recording: the devices that prepare came to, whoever is above them, and the wakeup sources."""

    def __init__(self, recording):
        self.rows, self.numbers, self.sources = [], {}, {}
        self.needs = {}
        for link in recording.links:
            self.needs.setdefault(link.consumer, []).append(f"needs {link.supplier.name} by a {'dormant ' * link.is_dormant}link")
        for device in recording.devices:
            if device.line is not None:
                self.of(device)

    def of(self, device):
        """The number of a device's row, behind those of its parents."""
        way = []
        while device is not None and device not in self.numbers and device not in way:
            way.append(device)
            device = device.parent
        for below in reversed(way):
            self.numbers[below] = len(self.rows)
            parent = self.numbers.get(below.parent) if below.parent is not None else None
            self.rows.append(Row(Sort.DEVICE, below.name, below.driver, parent, self.notes(below)))
        return self.numbers[way[0]] if way else self.numbers[device]

    def notes(self, device):
        """What is known of a device."""
        told = [(device.is_async, "asynchronous"), (device.may_wake, "may wake the machine"), (device.is_suspended, "was suspended by runtime power management")]
        return [words for is_so, words in told if is_so] + self.needs.get(device, []) + ([f"/sys/devices/{device.path}"] if device.path else [])

    def source(self, name):
        """The number of a wakeup source's row."""
        if name not in self.sources:
            self.sources[name] = len(self.rows)
            self.rows.append(Row(Sort.SOURCE, name))
        return self.sources[name]


def answer_name(number):
    """An error as the kernel's headers name it; nothing for 0 and for the 1 that a prepare may answer."""
    return "" if number >= 0 else error_name(number)


def task_of(event):
    return f"{event.task}-{event.pid}"


def callback_words(event):
    """What a callback is, by the text that the trace has after the parent."""
    if event.phase in (Phase.PREPARE, Phase.COMPLETE):
        return f"{event.phase}, where the kernel comes to each device"
    words = event.operation.partition("[")[0].split()
    whose = " ".join(word for word in words if word not in ("noirq", "late", "early"))
    return f"{event.phase} callback of its {whose}" if whose else f"{event.phase} callback"


def callback_mark(clock, rows, event):
    """The mark of a callback. One without an end goes on as a line of its own."""
    end = event.end
    words = callback_words(event) + (", answered 1 (it may be left alone)" if end and end.error > 0 else "")
    return Mark(rows.of(event.device), str(event.phase), clock.at(event), clock.until(end or event), event.line, (end or event).line, words,
                answer_name(end.error) if end else "", task_of(event), True, end is None)


def place_words(event, open_callbacks):
    """Where an event of a source was reported, by the flags of its line and the callbacks that were open."""
    if event.is_in_interrupt is None:
        return ""
    if event.is_in_interrupt:
        return "in a hard interrupt" if event.is_in_hardirq else "in a softirq"
    inside = open_callbacks.get(event.pid)
    return f"in the {inside.phase} callback of {inside.device.name} (line {inside.line})" if inside else f"by the task {task_of(event)}"


class Reports:
    """The events of wakeup sources in an attempt: a mark from each one's begin to its end."""

    def __init__(self, clock, rows, last):
        self.clock, self.rows, self.last = clock, rows, last
        self.marks, self.begun, self.callbacks = [], {}, {}

    def see(self, event):
        if isinstance(event, CallbackBegin):
            self.callbacks[event.pid] = event
        elif isinstance(event, CallbackEnd):
            self.callbacks.pop(event.pid, None)
        elif isinstance(event, SourceActivate):
            where = place_words(event, self.callbacks)
            mark = Mark(self.rows.source(event.source), "active", self.clock.at(event), self.clock.until(self.last), event.line, event.line,
                        f"event {event.source}" + f", reported {where}" * bool(where), who=task_of(event), is_open=True)
            self.begun[event.source] = mark
            self.marks.append(mark)
        elif isinstance(event, SourceDeactivate) and event.source in self.begun:
            mark = self.begun.pop(event.source)
            mark.end, mark.last, mark.is_open = self.clock.until(event), event.line, False


def stages_of(clock, attempt):
    """The stages of an attempt by the begins and ends of its steps. A step without an end goes on to the next event."""
    stages, opened = [], {}
    for place, event in enumerate(attempt.events):
        if not isinstance(event, SuspendResume):
            continue
        key = event.action, event.value
        if event.is_begin:
            following = attempt.events[min(place + 1, len(attempt.events) - 1)]
            name = f"{event.action}[{event.value}]" if event.action in ("CPU_OFF", "CPU_ON") else event.action
            opened[key] = Stage(name, str(event.phase or ""), clock.at(event), max(clock.at(event), clock.at(following)), event.line, event.line)
            stages.append(opened[key])
        elif key in opened:
            stage = opened.pop(key)
            stage.end, stage.last = clock.until(event), event.line
    return stages


def mark_failures(stages, marks):
    """Tells each stage on the way down which error one of its callbacks answered."""
    for mark in marks:
        if mark.answer:
            inside = [stage for stage in stages if stage.kind == mark.kind and stage.first < mark.first <= stage.last]
            for stage in inside[-1:]:
                stage.answer = stage.answer or mark.answer


def gaps_of(clock, attempt):
    """Stretches in which the trace has nothing: the machine sleeps, or waits in a test of suspend."""
    if clock.unit is Unit.LINES:
        return []
    first, last = clock.at(attempt.events[0]), clock.at(attempt.events[-1])
    least = max(GAP_MS * 1000, GAP_SHARE * (last - first))
    found, open_steps, callbacks = [], [], 0
    for event, following in zip(attempt.events, attempt.events[1:]):
        if isinstance(event, SuspendResume):
            open_steps = [*open_steps, event.action] if event.is_begin else [step for step in open_steps if step != event.action]
        callbacks += isinstance(event, CallbackBegin) - isinstance(event, CallbackEnd)
        size = clock.at(following) - clock.at(event)
        if size > least and not callbacks and set(open_steps) <= QUIET:
            words = "asleep" if SLEEPS & set(open_steps) else "nothing in the trace for"
            found.append(Gap(clock.at(event), clock.at(following), f"{words} {size / 1000:,.0f} ms"))
    return found


def attempt_of(clock, rows, attempt):
    """The page's form of an attempt, by the trace alone."""
    first, last = attempt.events[0], attempt.events[-1]
    made = Attempt(str(attempt.number), Tone.PLAIN, "", clock.at(first), clock.until(last), attempt.line, attempt.last_line)
    reports = Reports(clock, rows, last)
    for event in attempt.events:
        reports.see(event)
        if isinstance(event, CallbackBegin):
            made.marks.append(callback_mark(clock, rows, event))
    made.marks += reports.marks
    made.stages, made.gaps = stages_of(clock, attempt), gaps_of(clock, attempt)
    mark_failures(made.stages, made.marks)
    tell_outcome(made, attempt)
    return made


def tell_outcome(made, attempt):
    """What the trace alone tells: whether the machine slept, and else what failed."""
    failed = [mark for mark in made.marks if mark.answer and mark.is_callback and mark.kind in ("prepare", "suspend", "late", "noirq")]
    if attempt.steps("machine_suspend", True) and not failed:
        made.answer, made.tone = "slept", Tone.GOOD
        return
    made.answer, made.tone = "turned around before sleep", Tone.BAD
    made.culprits = [mark.row for mark in failed]
    for mark in failed:
        made.answer = f"stopped: {mark.answer}"


def title_of(recording, name):
    """Machine, kernel and date as far as the inputs tell them; the file stands for a machine that none names."""
    kernel = f"Linux {recording.version_text}" if recording.version_from != "by default" else ""
    parts = [recording.machine or name, kernel, recording.date or date_of_file(recording.trace_file)]
    return " \u00b7 ".join(part for part in parts if part)


def date_of_file(path):
    """When the trace's file was written last; nothing for standard input."""
    try:
        return time.strftime("file of %Y-%m-%d %H:%M", time.localtime(os.stat(path).st_mtime)) if path != "-" else ""
    except OSError:
        return ""


def page_of(recording, name):
    """The page's form of a recording, before anything is judged. `name` is that of the trace's file."""
    clock, rows = Clockwork(recording), Rows(recording)
    attempts = [attempt_of(clock, rows, attempt) for attempt in recording.attempts]
    lines = [line.rstrip("\r") for line in recording.trace_lines]
    while lines and not lines[-1]:
        lines.pop()
    notes = [note_words(note) for note in recording.notes]
    page = Page(title_of(recording, name), about_of(recording, name), clock.unit, Tone.OPEN, "", [], rows.rows, attempts, lines, "trace",
                dmesg=dmesg_lines(recording.messages), notes=notes)
    return page, rows, clock


def dmesg_lines(messages):
    """The kernel's messages with their times, each at the number of its line."""
    lines = [""] * max((message.line for message in messages), default=0)
    for message in messages:
        stamp = f"[{message.time / 1e9:12.6f}] " if message.time is not None else ""
        lines[message.line - 1] = stamp + message.text
    return lines


def about_of(recording, name):
    """The file, and what the inputs tell of the machine."""
    told = [name, f"rules of Linux {recording.version_text} ({recording.version_from})"]
    if recording.processors is not None:
        told.append(f"{recording.processors} processor{'s' * (recording.processors != 1)}")
    if recording.clock is Clock.COUNTER:
        told.append("the trace's clock is a counter, so there are no times: across go its lines")
    return told


def note_words(note):
    place = ":".join(str(part) for part in (note.file, note.line) if part is not None)
    return f"{place}: {note.text}" if place else note.text
