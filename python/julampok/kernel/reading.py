"""Reads a recording of a suspend from its files: a trace, and beside it /sys or lists of devices and links, and dmesg.

Commands that take a recording add its words by `add_input_arguments` and read it by `read_recording`.
"""

import re

from ..errors import CannotError
from ..files import read_bytes
from . import messages, tree
from .joining import Joiner
from .recording import Clock, Device, Link, Note, Recording
from .trace import Lines, no_collection, read_trace

VERSION = "6.1.192"
STATES = ("dormant", "active", "available", "probing", "unbinding", "none")


def add_input_arguments(parser) -> None:
    """Adds the words that name a recording: TRACE, [SYS], --devices, --links, --dmesg, --kernel."""
    parser.add_argument("trace", metavar="TRACE", help="a trace of the power events: text of tracefs or of 'trace-cmd report'; '-' is standard input")
    add_side_arguments(parser)


def add_side_arguments(parser) -> None:
    """Adds what stands beside the trace: [SYS], --devices, --links, --dmesg, --kernel."""
    parser.add_argument("sys", metavar="SYS", nargs="?", help="/sys of the machine, or a copy of it (a folder or a tar)")
    parser.add_argument("--devices", metavar="FILE", help="a list of device folders, in place of SYS")
    parser.add_argument("--links", metavar="FILE", help="a list of device links, a line each: SUPPLIER CONSUMER [dormant]")
    parser.add_argument("--dmesg", metavar="FILE", help="the kernel's messages of the recording")
    parser.add_argument("--kernel", metavar="VERSION", help=f"the kernel that was recorded (default: what dmesg or the trace tells, else {VERSION})")


def read_recording(given) -> Recording:
    """The recording that the words of a command name. Raises CannotError."""
    return read_inputs(given.trace, given.sys, given.devices, given.links, given.dmesg, given.kernel)


def inputs_of(given) -> list[str | None]:
    """The files that the words name, so that a command does not write on one of them."""
    return [given.trace, given.sys, given.devices, given.links, given.dmesg]


def read_inputs(trace, sys=None, devices=None, links=None, dmesg=None, kernel=None) -> Recording:
    """The recording of these files; each but the trace may be None. Raises CannotError."""
    return read_and_join(trace, sys, devices, links, dmesg, kernel)[0]


def read_and_join(trace, sys=None, devices=None, links=None, dmesg=None, kernel=None) -> tuple[Recording, Joiner]:
    """The recording of these files, and what finds devices by their names or folders. Raises CannotError."""
    with no_collection():
        return read_all(trace, sys, devices, links, dmesg, kernel)


def read_all(trace, sys, devices, links, dmesg, kernel) -> tuple[Recording, Joiner]:
    """Reads all files of a recording and joins what they tell."""
    if sys is not None and devices is not None:
        raise CannotError("SYS and --devices both list the devices: give one of them")
    if [trace, sys, devices, links, dmesg].count("-") > 1:
        raise CannotError("only one input may be standard input ('-')")
    lines = read_trace(trace, read_bytes(trace))
    machine = tree.read_machine(devices if sys is None else sys) if [sys, devices] != [None, None] else None
    joiner = Joiner(lines, machine)
    recording = Recording(trace, lines.events, lines.attempts, lines.clock or Clock.COUNTER, joiner.devices)
    recording.tracer, recording.trace_lines = lines.head.tracer, lines.lines
    recording.notes = lines.notes + joiner.notes
    recording.is_async_listed = any(device.listed_async is not None for device in joiner.devices)
    if machine is not None:
        take_machine(recording, joiner, machine, sys or devices)
    if links is not None:
        take_links(recording, joiner, links)
    if dmesg is not None:
        take_messages(recording, dmesg)
    recording.machine = lines.head.machine or messages.machine_of(recording.messages) or (machine and machine.maker)
    recording.date = lines.head.date or recording.date
    settle_version(recording, lines, kernel)
    settle_processors(recording, lines, machine, sys)
    note_end(recording)
    return recording, joiner


def take_messages(recording: Recording, file: str) -> None:
    """Takes dmesg: what it tells of the attempts, and when they were made."""
    data = read_bytes(file)
    recording.dmesg_file, recording.messages = file, messages.read_messages(file, data)
    recording.notes += messages.join(file, recording.attempts, recording.messages)
    recording.date = messages.date_of(recording.messages, data.decode("utf-8", "replace").split("\n"))


def note_end(recording: Recording) -> None:
    """Notes a last attempt that ends in front of the freeze: the trace may be cut off there, if dmesg does not have its exit."""
    last = recording.attempts[-1]
    if not last.steps("freeze_processes") and not last.steps("dpm_prepare") and not (last.told and last.told.is_whole):
        recording.notes.append(Note("the last attempt ends here, before tasks freeze; or the trace does", recording.trace_file, last.last_line))


def read_machine_alone(sys=None, devices=None, links=None) -> tuple[Recording, Joiner]:
    """What /sys or a list of devices tells without a trace: a recording without attempts. Raises CannotError."""
    if sys is not None and devices is not None:
        raise CannotError("SYS and --devices both list the devices: give one of them")
    machine = tree.read_machine(sys if sys is not None else devices)
    joiner = Joiner(None, machine)
    recording = Recording("", [], [], Clock.COUNTER, joiner.devices, machine=machine.maker)
    take_machine(recording, joiner, machine, sys if sys is not None else devices)
    if links is not None:
        take_links(recording, joiner, links)
    recording.processors = machine.cpus
    return recording, joiner


def take_machine(recording: Recording, joiner: Joiner, machine: tree.Machine, file: str) -> None:
    """Takes links, sources and notes of /sys."""
    recording.sources = list(dict.fromkeys(machine.sources))
    recording.notes += [Note(text, file) for text in machine.notes]
    for supplier, consumer, is_dormant in machine.links:
        ends = joiner.by_path.get(supplier), joiner.by_path.get(consumer)
        if None in ends:
            recording.notes.append(Note(f"the link from {supplier} to {consumer}: an end has no power/; left out", file))
        else:
            recording.links.append(Link(*ends, is_dormant, file))


# ---- links

def take_links(recording: Recording, joiner: Joiner, file: str) -> None:
    """Takes the links of a list. A name that no device has is noted. Raises CannotError."""
    text = tree.text_bytes(file, may_be_empty=True).decode("utf-8", "replace")
    for line, words in enumerate(text.splitlines(), 1):
        if not words.strip() or words.startswith("#"):
            continue
        *ends, is_dormant = link_words(file, line, words)
        found = [device_named(joiner, name, file, line) for name in ends]
        if None in found:
            name = ends[found.index(None)]
            recording.notes.append(Note(f"no device {name} in the trace or the list of devices: the link is left out", file, line))
        else:
            recording.links.append(Link(*found, is_dormant, file, line))


def link_words(file: str, line: int, text: str) -> tuple[str, str, bool]:
    """Supplier, consumer, and whether the link is dormant. Names with spaces stand between tabs."""
    words = text.strip().split("\t") if "\t" in text.strip() else text.split()
    words = [word.strip() for word in words if word.strip()]
    if len(words) not in (2, 3) or len(words) == 3 and words[2] not in STATES:
        raise CannotError(f"no link (SUPPLIER CONSUMER [dormant]): {text[:80]!r}", file, line)
    return words[0], words[1], words[2:] == ["dormant"]


def device_named(joiner: Joiner, words: str, file: str | None = None, line: int | None = None) -> Device | None:
    """The device of a name, or of a path below /sys/devices; None where there is none. Raises CannotError for one of several."""
    path = words.removeprefix("/sys/").removeprefix("devices/").strip("/")
    if path in joiner.by_path:
        return joiner.by_path[path]
    found = joiner.by_name.get(words, [])
    found = [device for device in found if device.line is not None] or found
    found = [device for device in found if device.has_callbacks] or found
    if len(found) > 1:
        raise CannotError(f"{len(found)} devices are named {words}: give the path below /sys/devices", file, line)
    return found[0] if found else None


# ---- version and processors

def version_numbers(text: str) -> tuple[int, ...] | None:
    """The numbers of a version as 6.1.192 or 6.1.0-30-amd64; None where it has none."""
    found = re.match(r"v?(\d+)\.(\d+)(?:\.(\d+))?", text)
    return tuple(int(number) for number in found.groups() if number is not None) if found else None


def settle_version(recording: Recording, lines: Lines, kernel: str | None) -> None:
    """Sets the kernel's version: as the user gave it, else what the trace's head or dmesg tells, else the default."""
    if kernel is not None:
        if version_numbers(kernel) is None:
            raise CannotError(f"--kernel {kernel}: no version of a kernel, as 6.1.192")
        told = kernel, "--kernel"
    elif lines.head.version is not None:
        told = lines.head.version, f"{recording.trace_file}:{lines.head.version_line}"
    elif (found := messages.version_of(recording.messages)) is not None and version_numbers(found[0]):
        told = found[0], f"{recording.dmesg_file}:{found[1]}"
    else:
        told = VERSION, "by default"
    recording.version_text, recording.version_from = told
    recording.version = version_numbers(told[0])


def settle_processors(recording: Recording, lines: Lines, machine: tree.Machine | None, sys: str | None) -> None:
    """Sets the number of processors: of the trace's head, of /sys, of the folders cpuN, or of those that went off."""
    went = {step.value for attempt in recording.attempts for step in attempt.steps("CPU_OFF", True)}
    folders = sum(re.fullmatch(r"system/cpu/cpu\d+", path) is not None for path in machine.devices) if machine else 0
    if lines.head.processors:
        told = lines.head.processors, f"{recording.trace_file}:{lines.head.processors_line}"
    elif machine is not None and machine.cpus:
        told = machine.cpus, f"{sys}/devices/system/cpu/online"
    elif went:
        told = max(len(went), max(went)) + 1, "the CPU_OFF lines of the trace"
    elif folders:
        told = folders, "the folders cpuN of the devices"
    else:
        return
    recording.processors, recording.processors_from = told
