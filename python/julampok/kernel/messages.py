"""Reads the kernel's messages (dmesg) and what they say of attempts to sleep.

Lines are taken as `dmesg`, `dmesg -r`, `dmesg -x`, `dmesg -T`, /dev/kmsg and journalctl write them. Whatever is not known to
be of an attempt is kept as text.
"""

import re

from ..errors import CannotError
from .recording import Attempt, Fact, Message, Note, Phase, Told

# What stands before a message: level, facility, time, caller, or the host and `kernel:` of a journal.
KMSG = re.compile(r"\d+,\d+,(?P<micros>\d+),[^;]*;(?P<text>.*)")
PREFIX = re.compile(
    r"(?:<\d+>)?(?:\w+ *:\w+ *: *)?(?:\[ *(?P<time>\d+\.\d+)\]|\[(?P<date>[A-Z][a-z]{2} [A-Z][a-z]{2} [ \d]\d [\d:]+ \d{4})\]"
    r"|(?P<day>\d{4}-\d\d-\d\dT\S+)|[A-Z][a-z]{2} [ \d]\d [\d:.]+)?(?: *\[ *[TC]\d+\])?:? ?(?:\S+ kernel: (?:\[ *(?P<inner>\d+\.\d+)\] )?)? *(?P<text>.*)")
DEVICE = r"(?P<words>.+?): (?:PM: )?"
PHASES = {
    ("", "suspend"): Phase.SUSPEND, ("late ", "suspend"): Phase.LATE, ("noirq ", "suspend"): Phase.NOIRQ,
    ("noirq ", "resume"): Phase.RESUME_NOIRQ, ("early ", "resume"): Phase.EARLY, ("", "resume"): Phase.RESUME,
}
# What each message says. The groups `words`, `number`, `error`, `info` and `verb` become the members of `Message`.
FACTS = [(fact, re.compile(pattern)) for fact, pattern in (
    (Fact.ENTRY, r"(?:PM: )?suspend entry \((?P<words>\S+)\)"),
    (Fact.EXIT, r"(?:PM: )?suspend exit"),
    (Fact.WAKEUP_PENDING, r"PM: Wakeup pending, aborting suspend"),
    (Fact.LAST_SOURCE, r"PM: last active wakeup source: (?P<words>.*)"),
    (Fact.ACTIVE_SOURCE, r"PM: active wakeup source: (?P<words>.*)"),
    (Fact.FREEZE_ABORTED, r"Freezing (?:of tasks|user space processes|remaining freezable tasks) aborted after"),
    (Fact.FREEZE_FAILED, r"Freezing (?:of tasks|user space processes|remaining freezable tasks) failed after"),
    (Fact.FREEZE_USER_DONE, r"Freezing user space processes (?:completed|\.\.\. .*done\.)"),
    (Fact.FREEZE_KERNEL_DONE, r"Freezing remaining freezable tasks (?:completed|\.\.\. .*done\.)"),
    (Fact.FREEZE_USER, r"Freezing user space processes"),
    (Fact.FREEZE_KERNEL, r"Freezing remaining freezable tasks"),
    (Fact.TASK, r"task:(?P<words>.+?) +state:.*?\bpid: *(?P<number>\d+)"),
    (Fact.CALLBACK_ERROR, DEVICE + r"dpm_run_callback\(\): .* returns (?P<number>-?\d+)"),
    (Fact.CALLBACK_ERROR, r"PM: dpm_run_callback\(\): .* returns (?P<number>-?\d+)(?P<words>)"),
    (Fact.DEVICE_FAILED, r"PM: Device (?P<words>.+) failed to (?P<verb>suspend|resume)(?P<info>[a-z ]*): error (?P<number>-?\d+)"),
    (Fact.DEVICE_FAILED, DEVICE + r"failed to (?P<verb>suspend|resume)(?P<info>[a-z ]*): error (?P<number>-?\d+)"),
    (Fact.NOT_PREPARED, DEVICE + r"not prepared for power transition: code (?P<number>-?\d+)"),
    (Fact.SUSPEND_FAILED, r"PM: Some devices failed to suspend"),
    (Fact.PHASE_COMPLETE, r"PM: (?P<info>late |noirq |early |)(?P<verb>suspend|resume) of devices complete after"),
    (Fact.PHASE_FAILED, r"PM: (?P<info>late |noirq |early |)(?P<verb>suspend|resume) of devices (?:aborted|failed)"),
    (Fact.CPU_OFFLINE, r"smpboot: CPU ?(?P<number>\d+) is now offline"),
    (Fact.CPU_OFFLINE, r"(?:psci: CPU(?P<number>\d+) killed|CPU(?P<other>\d+): shutdown)"),
    (Fact.CPU_UP, r"CPU(?P<number>\d+) is up"),
    (Fact.CPU_ERROR, r"Error taking CPU(?P<number>\d+) (?:down|up): -?\d+"),
    (Fact.CPU_ABORTED, r"Wakeup pending\. Abort CPU freeze"),
    (Fact.CPU_NOT_DISABLED, r"Non-boot CPUs are not disabled"),
    (Fact.SUSPEND_DEBUG, r"(?:PM: )?suspend debug: Waiting for (?P<number>\d+) second"),
    (Fact.SUSPEND_TO_IDLE, r"PM: suspend-to-idle"),
    (Fact.RESUME_FROM_IDLE, r"PM: resume from suspend-to-idle"),
    (Fact.LOW_LEVEL_RESUME, r"(?:ACPI: PM: )?Low-level resume complete"),
    (Fact.TRIGGERED_IRQ, r"PM: Triggering wakeup from IRQ (?P<number>\d+)"),
    (Fact.VERSION, r"Linux version (?P<words>\S+)"),
)]
# A word that a message must have to be of an attempt, so that most lines of a long dmesg are passed over quickly.
HINT = re.compile(r"suspend|PM: |Freezing|task:|prepared|CPU|resume|Linux version")
ONE_LINE_FREEZE = {Fact.FREEZE_USER_DONE: Fact.FREEZE_USER, Fact.FREEZE_KERNEL_DONE: Fact.FREEZE_KERNEL}
DMI = re.compile(r"DMI: (.+?)(?:, BIOS .*)?")
CLOCK_SET = re.compile(r".*setting system clock to (\d{4}-\d\d-\d\d[T ]\S+)")
DEBIAN_VERSION = re.compile(r"Linux version .* Debian (\d+\.\d+\.\d+)")
# What the messages of an attempt must have for it to have got further than the freeze.
DEVICES = (Fact.PHASE_COMPLETE, Fact.PHASE_FAILED, Fact.DEVICE_FAILED, Fact.CPU_OFFLINE, Fact.SUSPEND_FAILED)


def text_and_time(line: str) -> tuple[str, int | None]:
    """The message of a line and its time in nanoseconds; None where it has none, or a time of day."""
    if found := KMSG.fullmatch(line):
        return found["text"], int(found["micros"]) * 1000
    found = PREFIX.fullmatch(line)
    if found is None:
        return line, None
    whole, _, part = (found["time"] or found["inner"] or "").partition(".")
    return found["text"], int(whole) * 1_000_000_000 + int(part[:9].ljust(9, "0")) if whole else None


def messages_of(line: int, text: str) -> list[Message]:
    """The message of a line; two where an older kernel tells both ends of a freeze in one."""
    text, time = text_and_time(text)
    if not HINT.search(text):
        return [Message(line, time, text)]
    for fact, pattern in FACTS:
        found = pattern.match(text)
        if found is not None:
            return two_ends(line, time, text, fact) or [told(line, time, text, fact, found.groupdict())]
    return [Message(line, time, text)]


def two_ends(line: int, time: int | None, text: str, fact: Fact) -> list[Message]:
    """Both messages of a freeze whose begin and end stand in one line; none of another line."""
    if fact not in ONE_LINE_FREEZE or "completed" in text:
        return []
    return [Message(line, time, text, ONE_LINE_FREEZE[fact]), Message(line, time, text, fact)]


def told(line: int, time: int | None, text: str, fact: Fact, groups: dict) -> Message:
    """A message with what its words tell."""
    number = groups.get("number") or groups.get("other")
    info, verb = groups.get("info"), groups.get("verb")
    phase = PHASES.get((info.replace(" async", "").strip() + " " * bool(info.replace(" async", "").strip()), verb)) if verb else None
    return Message(line, time, text, fact, groups.get("words") or "", int(number) if number else None, phase)


def read_messages(file: str, data: bytes) -> list[Message]:
    """The messages of a file. Raises CannotError where it is no text, or empty."""
    if b"\0" in data:
        raise CannotError("a binary file, no messages of the kernel", file, data.count(b"\n", 0, data.index(b"\0")) + 1)
    if not data.strip():
        raise CannotError("is empty", file)
    lines = data.decode("utf-8", "replace").split("\n")
    found = [message for line, text in enumerate(lines, 1) if text.strip() for message in messages_of(line, text.rstrip("\r"))]
    if not any(message.fact is not None or message.text != lines[message.line - 1].strip() for message in found):
        raise CannotError(f"no messages of the kernel: {found[0].text[:80]!r}", file, found[0].line)
    return found


def cut(file: str, messages: list[Message]) -> list[Told]:
    """The messages of each attempt, from its entry to its exit. One without an entry or an exit is not whole."""
    found, inside, has_entry = [], [], False
    for message in messages:
        if message.fact == Fact.ENTRY:
            if has_entry:
                found.append(Told(file, inside, False))
            inside, has_entry = [], True
        if has_entry:
            inside.append(message)
        if message.fact == Fact.EXIT and has_entry:
            found.append(Told(file, inside, True))
            inside, has_entry = [], False
    if has_entry:
        found.append(Told(file, inside, False))
    return found


def is_alike(attempt: Attempt, told_of: Told) -> bool:
    """Whether messages may be those of an attempt: by its state, how far it came, and the processors that went."""
    entry = told_of.first(Fact.ENTRY)
    if attempt.state is not None and (attempt.state == 1) != (entry.words == "s2idle"):
        return False
    has_devices = bool(attempt.steps("dpm_prepare"))  # (of a device that is not prepared the kernel says that suspend failed)
    if not has_devices and told_of.first(*DEVICES) or has_devices and told_of.first(Fact.FREEZE_ABORTED, Fact.FREEZE_FAILED):
        return False
    errors = {begin.end.error for begin in attempt.callbacks() if begin.end is not None}
    failed = {message.number for message in told_of.all(Fact.DEVICE_FAILED)}
    offline = {message.number for message in told_of.all(Fact.CPU_OFFLINE)}
    return failed <= errors and offline <= {step.value for step in attempt.steps("CPU_OFF")}  # (one may have failed to go)


def join(file: str, attempts: list[Attempt], messages: list[Message]) -> list[Note]:
    """Gives each attempt of the trace its messages: in order, the last ones to the last where dmesg has more. Gives notes."""
    parts = cut(file, messages)
    if not parts:
        return [Note("no message of an attempt ('PM: suspend entry'): nothing is taken of it", file)]
    counts = len(attempts), len(parts)
    shifts = range(min(0, counts[1] - counts[0]), max(0, counts[1] - counts[0]) + 1)
    shift = max(shifts, key=lambda shift: (alike(attempts, parts, shift), shift))
    notes = []
    for place, attempt in enumerate(attempts):
        if 0 <= place + shift < counts[1] and is_alike(attempt, parts[place + shift]):
            attempt.told = parts[place + shift]
        elif 0 <= place + shift < counts[1]:
            line = parts[place + shift].messages[0].line
            notes.append(Note(f"the messages are not those of the attempt in line {attempt.line} of the trace: not taken", file, line))
    if counts[0] != counts[1]:
        first = next((attempt.told.messages[0].line for attempt in attempts if attempt.told), None)
        notes.append(Note(f"the messages tell of {counts[1]} attempts, the trace has {counts[0]}: joined from here", file, first))
    return notes


def alike(attempts: list[Attempt], parts: list[Told], shift: int) -> int:
    """How many attempts have messages that may be theirs, where the first attempt has those of the place `shift`."""
    return sum(0 <= place + shift < len(parts) and is_alike(attempt, parts[place + shift]) for place, attempt in enumerate(attempts))


def machine_of(messages: list[Message]) -> str | None:
    """The machine's maker and product, where the messages have the line `DMI:`."""
    found = (DMI.fullmatch(message.text) for message in messages)
    return next((one[1] for one in found if one is not None), None)


def date_of(messages: list[Message], lines: list[str]) -> str | None:
    """When the attempts were made: the time of day of the first one's entry, else the day of boot; None where neither is told."""
    entry = next((message for message in messages if message.fact == Fact.ENTRY), None)
    if entry is not None and (found := PREFIX.fullmatch(lines[entry.line - 1])) and (found["date"] or found["day"]):
        return found["date"] or found["day"].rstrip(":")
    clock = (CLOCK_SET.match(message.text) for message in messages)
    return next((f"booted {found[1]}" for found in clock if found is not None), None)


def version_of(messages: list[Message]) -> tuple[str, int] | None:
    """The kernel's version and the line that tells it, where the messages have the line `Linux version`."""
    message = next((message for message in messages if message.fact == Fact.VERSION), None)
    if message is None:
        return None
    debian = DEBIAN_VERSION.match(message.text)
    return (debian[1] if debian else message.words), message.line
