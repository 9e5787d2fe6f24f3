"""The lines of a trace, as tracefs and `trace-cmd report` write them: who wrote a line, where, when, and which event it is.

Layouts that are read: the plain one of both programs (`TASK-PID [CPU] FLAGS TIME: EVENT: TEXT`, with or without a thread
group and flags) and the latency layout of both (`TASK-PID CPUFLAGS TIME: EVENT: TEXT`, and tracefs's TIME in microseconds
since the trace began, as `123us+`). Lines of function tracers, whose text has no event, are passed over.
"""

import re
from dataclasses import dataclass, field

PLAIN = re.compile(
    r"\s*(\S.*?)-(\d+)\s+(?:\( *[\d-]+\)\s+)?\[(\d+)\]\s+(?:([^\s:\d(][^\s:]{2,8})\s+)?(\d+(?:\.\d+)?):(?:\s+\(\+\d+\))?(?:\s+(?:power:)?(\w+):)?(.*)")
LATENCY = re.compile(
    r"\s*(\S.*?)-(\d+)\s+(\d+)([^\s:\d][^\s:]{2,8})\s+(\d+(?:\.\d+)?|\d+us.?)\s*:(?:\s+\(\+\d+\))?(?:\s+(?:power:)?(\w+):)?(.*)")
# Lines that are no events: comments, stack traces, what trace-cmd writes above and between, and empty ones.
ASIDE = re.compile(r"\s*(#.*|=> .*|cpus=\d+|version *= *\S*|CPU \d+ is empty|trace-cmd: .*|CPU:\d+ \[SUBBUFFER START\].*)?\s*")
LOST = re.compile(r"\s*CPU:\d+ \[(LOST \d+ EVENTS?|(\d+ )?EVENTS DROPPED)\]\s*")

PROCESSORS = re.compile(r"#P:(\d+)")
TRACER = re.compile(r"# tracer: (\S+)")
ENTRIES = re.compile(r"# entries-in-buffer/entries-written: (\d+)/(\d+)")
LATENCY_VERSION = re.compile(r"# \S+ latency trace v\S+ on (\d+\.\d+\S*)")
# The first line that sleepgraph writes: time of the test, host, mode, kernel.
SLEEPGRAPH = re.compile(r"# (?:suspend|command|freeze|standby|mem)-(\d{6}-\d{6}) (\S+) (\S+) (\d+\.\d+\S*)")
SYSINFO = re.compile(r"# sysinfo \| (.*)")
COLUMN = re.compile(r"# .*_-+=> (\S+)")  # What a letter of the flags means; the comments name one after the other.


@dataclass(slots=True)
class Head:
    """What the comments of a trace tell; each is None where no comment does. Lines are those of the comments."""

    tracer: str | None = None
    processors: int | None = None
    processors_line: int | None = None
    version: str | None = None
    version_line: int | None = None
    machine: str | None = None
    date: str | None = None
    columns: list[str] = field(default_factory=list)  # What the letters of the flags mean.
    overwritten_line: int | None = None  # Says that more entries were written than the buffer has.

    def take(self, line: int, text: str) -> None:
        """Takes what a comment, or the line `cpus=N` of trace-cmd, tells."""
        if found := PROCESSORS.search(text) or re.fullmatch(r"\s*cpus=(\d+)\s*", text):
            self.processors, self.processors_line = int(found[1]), line
        if found := TRACER.match(text):
            self.tracer = found[1]
        if found := COLUMN.match(text):
            self.columns.append(found[1])
        if found := ENTRIES.match(text):
            self.overwritten_line = line if int(found[1]) < int(found[2]) else None
        if found := LATENCY_VERSION.match(text):
            self.version, self.version_line = found[1], line
        if found := SLEEPGRAPH.match(text):
            self.version, self.version_line, self.date = found[4], line, date_of(found[1])
        if found := SYSINFO.match(text):
            self.machine = sysinfo_machine(found[1])


    def flags_of(self, flags: str) -> str:
        """The flags without the column of a lazy reschedule, which kernels for real time have before that of interrupts."""
        columns = [name for name in self.columns if name != "CPU#"]
        interrupt = next((place for place, name in enumerate(columns) if name.startswith("hardirq")), 3 if len(flags) > 6 else 2)
        return flags[:2] + flags[interrupt:]


def date_of(stamp: str) -> str:
    """The time that sleepgraph writes as `112624-120000`, as `2024-11-26 12:00:00`."""
    month, day, year, hour, minute, second = (stamp[at:at + 2] for at in (0, 2, 4, 7, 9, 11))
    return f"20{year}-{month}-{day} {hour}:{minute}:{second}"


def sysinfo_machine(text: str) -> str | None:
    """The machine in sleepgraph's line of the system: its maker and product."""
    members = dict(part.strip().split(":", 1) for part in text.split("|") if ":" in part)
    return " ".join(members[name] for name in ("man", "plat") if members.get(name)) or None


def nanoseconds(stamp: str) -> int | None:
    """The time of a stamp in nanoseconds: seconds with a point, or microseconds with `us`; None for a counter."""
    whole, point, part = stamp.partition(".")
    if point:
        return int(whole + part) * 1000 if len(part) == 6 else int(whole + part[:9].ljust(9, "0"))
    whole, unit, _ = stamp.partition("us")
    return int(whole) * 1_000 if unit else None
