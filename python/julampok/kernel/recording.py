"""What a recording of a suspend tells: the events of a trace, its attempts, the devices, their links, and the kernel's messages.

These are the types alone; `reading` makes a `Recording` of files. Each thing has the line of the file that tells of it, so
that whatever a command shows can be found in an input. Times are whole nanoseconds of the clock of the file.
"""

from __future__ import annotations

import bisect
import enum
from dataclasses import dataclass, field


class Phase(enum.StrEnum):
    """A phase of devices, by the names that machine files and logs use."""

    PREPARE = "prepare"
    SUSPEND = "suspend"
    LATE = "late"
    NOIRQ = "noirq"
    RESUME_NOIRQ = "resume_noirq"
    EARLY = "early"
    RESUME = "resume"
    COMPLETE = "complete"

    @property
    def is_down(self) -> bool:
        """Whether the phase is on the way to sleep."""
        return self in DOWN


DOWN = (Phase.PREPARE, Phase.SUSPEND, Phase.LATE, Phase.NOIRQ)
# The kernel's names of the phases, as `suspend_resume` events have them.
PHASES = {
    "dpm_prepare": Phase.PREPARE, "dpm_suspend": Phase.SUSPEND, "dpm_suspend_late": Phase.LATE,
    "dpm_suspend_noirq": Phase.NOIRQ, "dpm_resume_noirq": Phase.RESUME_NOIRQ, "dpm_resume_early": Phase.EARLY,
    "dpm_resume": Phase.RESUME, "dpm_complete": Phase.COMPLETE,
}


class Clock(enum.StrEnum):
    """What the times of a trace are: seconds since some moment, or a counter, which has no times at all."""

    SECONDS = "seconds"
    COUNTER = "counter"


@dataclass(slots=True, frozen=True)
class Note:
    """Something that a user should know of an input: what it is, and where it stands (line None: the whole file)."""

    text: str
    file: str | None = None
    line: int | None = None


@dataclass(slots=True, eq=False)
class Device:
    """A device of the machine. Two devices are the same only if they are one object.

    `line` is the first line of the trace that names it in a callback (None: no callback names it). `path` is its folder
    below /sys/devices, and `listed_line` the line of the list of devices (None: not known). `driver` is what the trace
    writes before the name: the driver, or where there is none the bus or class, or "".
    """

    name: str
    driver: str = ""
    parent: Device | None = None
    line: int | None = None
    path: str | None = None
    listed_line: int | None = None
    is_async: bool = False  # As it ran: where no callback ran in another task than the attempt's, nobody was.
    listed_async: bool | None = None  # As /sys or the list has it; None where neither does.
    may_wake: bool = False
    runtime_status: str | None = None  # As /sys has it; None where it is not told.
    has_callbacks: bool = False  # In some attempt it has a callback between prepare and complete.

    @property
    def is_suspended(self) -> bool:
        """Whether /sys says that the device was runtime suspended."""
        return self.runtime_status == "suspended"

    @property
    def shown(self) -> str:
        """The device as the kernel's own messages name it, with its driver: `0000:00:01.1 (ata_piix)`."""
        return f"{self.name} ({self.driver})" if self.driver else self.name


@dataclass(slots=True, frozen=True, eq=False)
class Link:
    """A device link. It stands in `file` at `line`, or in the folder `file` of /sys (line None)."""

    supplier: Device
    consumer: Device
    is_dormant: bool = False
    file: str | None = None
    line: int | None = None


@dataclass(slots=True, eq=False)
class Event:
    """A line of the trace. `flags` are those of ftrace, without a lazy reschedule's; "" where the trace has none.

    `time` is nanoseconds, None with a counter; `stamp` is the time or count as the trace writes it.
    """

    line: int
    task: str
    pid: int
    cpu: int
    flags: str
    time: int | None
    stamp: str

    @property
    def is_in_hardirq(self) -> bool | None:
        """Whether the line was written in a hard interrupt; None where the trace has no flags."""
        return self.flags[2:3] in ("h", "H", "z", "Z") if len(self.flags) > 2 else None

    @property
    def is_in_softirq(self) -> bool | None:
        """Whether the line was written in a softirq or in a hard interrupt on top of one; None without flags."""
        return self.flags[2:3] in ("s", "H", "Z") if len(self.flags) > 2 else None

    @property
    def is_in_interrupt(self) -> bool | None:
        """Whether the line was written in an interrupt of either kind; None without flags."""
        return self.flags[2:3] not in (".", "") if len(self.flags) > 2 else None


@dataclass(slots=True, eq=False)
class SuspendResume(Event):
    """A step of an attempt: `action[value] begin` or `action[value] end`."""

    action: str
    value: int
    is_begin: bool

    @property
    def phase(self) -> Phase | None:
        """The phase of devices that the step begins or ends; None where it is another step."""
        return PHASES.get(self.action)


@dataclass(slots=True, eq=False)
class CallbackBegin(Event):
    """A callback begins (of prepare and complete: the kernel comes to the device). `end` is set once the trace has it.

    `operation` is the text after the parent, as `noirq driver [suspend]`.
    """

    device: Device
    phase: Phase
    operation: str
    end: CallbackEnd | None = None


@dataclass(slots=True, eq=False)
class CallbackEnd(Event):
    """A callback has ended, with what it answered: 0, or an error as a negative number, or 1 of a prepare."""

    device: Device
    phase: Phase
    error: int
    begin: CallbackBegin


@dataclass(slots=True, eq=False)
class SourceActivate(Event):
    """A wakeup source becomes active. `state` is the kernel's word of events after it: events in progress are its low 16 bits."""

    source: str
    state: int


@dataclass(slots=True, eq=False)
class SourceDeactivate(Event):
    """A wakeup source is no longer active. `state` is as in `SourceActivate`."""

    source: str
    state: int


class Fact(enum.StrEnum):
    """What a message of the kernel says of an attempt. The members of `Message` that each sets stand beside it."""

    VERSION = "kernel version"  # words
    ENTRY = "suspend entry"  # words: deep, s2idle, shallow
    EXIT = "suspend exit"
    FREEZE_USER = "freezing user space processes"
    FREEZE_USER_DONE = "freezing user space processes completed"
    FREEZE_KERNEL = "freezing remaining freezable tasks"
    FREEZE_KERNEL_DONE = "freezing remaining freezable tasks completed"
    FREEZE_ABORTED = "freezing of tasks aborted"  # an event stopped it
    FREEZE_FAILED = "freezing of tasks failed"  # it timed out
    TASK = "task refusing to freeze"  # words: its name; number: its pid
    WAKEUP_PENDING = "wakeup pending"  # the saved count stopped the attempt
    ACTIVE_SOURCE = "active wakeup source"  # words: the source
    LAST_SOURCE = "last active wakeup source"  # words: the source
    CALLBACK_ERROR = "callback returned an error"  # words: DRIVER DEVICE; number: the error
    DEVICE_FAILED = "device failed"  # words: DRIVER DEVICE; number: the error; phase
    NOT_PREPARED = "device not prepared"  # words: DRIVER DEVICE; number: the error
    SUSPEND_FAILED = "some devices failed to suspend, or early wake event detected"
    PHASE_COMPLETE = "phase complete"  # phase
    PHASE_FAILED = "phase aborted or failed"  # phase
    CPU_OFFLINE = "processor is offline"  # number
    CPU_UP = "processor is up"  # number
    CPU_ABORTED = "wakeup pending, abort of processors"
    CPU_NOT_DISABLED = "non-boot processors are not disabled"
    CPU_ERROR = "error taking a processor down or up"  # number: the processor
    SUSPEND_DEBUG = "suspend debug"  # number: seconds; pm_test turns the attempt around
    SUSPEND_TO_IDLE = "suspend-to-idle"
    RESUME_FROM_IDLE = "resume from suspend-to-idle"
    LOW_LEVEL_RESUME = "low-level resume complete"
    TRIGGERED_IRQ = "wakeup interrupt"  # number: the interrupt


@dataclass(slots=True, eq=False)
class Message:
    """A line of dmesg: its time in nanoseconds (None where it has none), its text, and what it says of an attempt."""

    line: int
    time: int | None
    text: str
    fact: Fact | None = None
    words: str = ""
    number: int | None = None
    phase: Phase | None = None


@dataclass(slots=True, eq=False)
class Told:
    """What dmesg tells of one attempt. `is_whole` says that its entry and its exit are there."""

    file: str
    messages: list[Message]
    is_whole: bool

    def first(self, *facts: Fact) -> Message | None:
        """The first message with one of these facts; None where there is none."""
        return next((message for message in self.messages if message.fact in facts), None)

    def all(self, *facts: Fact) -> list[Message]:
        """The messages with one of these facts."""
        return [message for message in self.messages if message.fact in facts]

    @property
    def has_debug_messages(self) -> bool:
        """Whether `pm_debug_messages` was on, so that a fact that only it prints is missing only if it did not happen."""
        return any(message.text.startswith(("PM: Preparing system for sleep", "PM: Finishing wakeup")) for message in self.messages)


@dataclass(slots=True, eq=False)
class Attempt:
    """A whole attempt: where it stands in the events of its recording, and what dmesg tells of it (None: nothing).

    `state` is the value of `suspend_enter`: 1 suspend-to-idle, 2 standby, 3 mem (None: the trace does not have that line).
    """

    number: int
    events: list[Event]  # Of this attempt alone, in the order of the file.
    first: int  # The place of its first event in the events of the recording.
    state: int | None
    told: Told | None = None
    begins: list[CallbackBegin] = field(init=False)  # Its callbacks, in the order in which they began.
    own_steps: list[SuspendResume] = field(init=False)  # Its steps, in their order.

    def __post_init__(self):
        self.begins = [event for event in self.events if type(event) is CallbackBegin]
        self.own_steps = [event for event in self.events if type(event) is SuspendResume]

    @property
    def line(self) -> int:
        """The line in which the attempt begins."""
        return self.events[0].line

    @property
    def last_line(self) -> int:
        """The line in which the attempt ends."""
        return self.events[-1].line

    def steps(self, action: str, is_begin: bool | None = None) -> list[SuspendResume]:
        """The steps of that action (both begins and ends where `is_begin` is None)."""
        return [step for step in self.own_steps if step.action == action and is_begin in (None, step.is_begin)]

    def callbacks(self, phase: Phase | None = None) -> list[CallbackBegin]:
        """The callbacks of a phase (of all where it is None), in the order in which they began."""
        return [event for event in self.begins if phase in (None, event.phase)]


@dataclass(slots=True, eq=False)
class Recording:
    """What the inputs tell. `events` are in the order of the file; of an attempt that is cut off only wakeup sources are there.

    `devices` are in the order of the kernel's list as far as prepare shows it, parents first where it does not; then those
    that only /sys or the list of devices has. `links` are in the order of their file.
    """

    trace_file: str
    events: list[Event]
    attempts: list[Attempt]
    clock: Clock
    devices: list[Device]
    links: list[Link] = field(default_factory=list)
    sources: list[str] = field(default_factory=list)  # Names of wakeup sources that /sys has.
    messages: list[Message] = field(default_factory=list)
    dmesg_file: str | None = None
    processors: int | None = None  # None: no input tells.
    processors_from: str = ""  # What told their number: a file and line, or which lines.
    tracer: str | None = None
    trace_lines: list[str] = field(default_factory=list)  # The lines of the trace as they are, the first one at 0.
    machine: str | None = None  # Maker and product, where dmesg, /sys or the trace's head tells.
    date: str | None = None  # When it was recorded, where an input tells, as that has it.
    version: tuple[int, ...] = (6, 1, 192)
    version_text: str = "6.1.192"
    version_from: str = "by default"  # by default, --kernel, or the file and line of dmesg.
    is_async_listed: bool = False  # /sys or a list of devices told who is asynchronous, not the tasks of the trace alone.
    notes: list[Note] = field(default_factory=list)

    def attempt_of(self, event: Event) -> Attempt | None:
        """The attempt that an event belongs to; None where it stands between attempts."""
        place = bisect.bisect_right(self.attempts, event.line, key=lambda attempt: attempt.line) - 1
        if place < 0 or event.line > self.attempts[place].last_line:
            return None
        return self.attempts[place]
