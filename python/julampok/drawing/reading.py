"""Reads a log: its entries, the lines of its sources, and how it ends.

What is no log is refused by the number of the first line that shows it.
"""

import re

from ..limits import ERRORS

NUMBER = "0|[1-9][0-9]{0,19}"
NAME = "[a-z0-9_.-]{1,32}"
ERROR = "|".join(ERRORS)
FIELDS = {
    "answer": f"0|{ERROR}",
    "prepared": f"0|1|{ERROR}",
    "error": ERROR,
    "phase": "prepare|suspend|late|noirq|resume_noirq|early|resume|complete",
    "cause": "error|pending|direct",
    "group": "user|kernel",
    "thawed": "kernel|all",
    "down": "begin|prepare|prepare_late",
    "up": "recover|wake|finish|end",
    "status": "active|suspended",
    "state": "mem|off",
    "hardness": "soft|hard",
    "by": "event|alarm",
    "why": "timeout|wakeup",
    "seen": f"busy|{NUMBER}",
}
FIELDS |= dict.fromkeys(["count", "until", "ms", "number", "cpu", "left"], NUMBER)
FIELDS |= dict.fromkeys(["device", "supplier", "consumer", "source", "notifier", "core", "mark", "task"], NAME)

CALLS = {
    "awake": "awake <source>",
    "relax": "relax <source>",
    "event": "event <source> <ms> <hardness>",
    "start": "start <source>",
    "finish": "finish <source>",
    "hard": "hard <source>",
}
LINE_STEPS = {"sleep": "sleep <until>", "slept": "slept", "post": "post <mark>", "got": "got <mark>", "exit": "exit"}
TASK_STEPS = LINE_STEPS | {
    "frozen": "frozen",
    "read_wait": "read wait",
    "read": "read <count>",
    "read_interrupted": "read EINTR",
    "save_wait": "save <count> wait",
    "save_ok": "save <count> ok",
    "save_error": "save <count> <error>",
    "state_wait": "state wait",
    "state_unsaved": "state unsaved",
    "state_error": "state <error>",
    "autosleep_error": "autosleep <error>",
    "autosleep_set": "autosleep set <state>",
    "autosleep_done": "autosleep done",
    "sleep_d": "sleep_d <until>",
    "pass": "pass",
    "runtime": "runtime <device> <status> <answer>",
    "link": "link <supplier> <consumer> <answer>",
    "link_active": "link_state <supplier> <consumer> active <answer>",
    "link_dormant": "link_state <supplier> <consumer> dormant <answer>",
}
CALLBACKS = {
    "begin": "begin <phase> <device>",
    "end": "end <phase> <device> <answer>",
    "skip": "skip <phase> <device> <cause>",
}
ATTEMPT_STEPS = CALLBACKS | {
    "attempt": "attempt <number> plain",
    "attempt_guarded": "attempt <number> guarded <count>",
    "over": "over <number> <answer>",
    "notify_prepare": "notify <notifier> prepare <answer>",
    "notify_post": "notify <notifier> post",
    "freeze": "freeze <group>",
    "froze": "froze <group> 0",
    "froze_error": "froze <group> EBUSY <why> <left> <task>",
    "thaw": "thaw <thawed>",
    "platform_down": "platform <down> <answer>",
    "platform_up": "platform <up>",
    "prepare": "prepare <device> <prepared>",
    "complete": "complete <device>",
    "schedule": "schedule <phase> <device>",
    "done": "done <phase> <answer>",
    "cpu_off": "cpu off <cpu>",
    "cpu_busy": "cpu EBUSY <cpu>",
    "cpu_on": "cpu on <cpu>",
    "irqs_off": "irqs off",
    "irqs_on": "irqs on",
    "core_check": "syscore check <answer>",
    "core_suspend": "syscore suspend <core> <answer>",
    "core_resume": "syscore resume <core>",
    "enter": "enter",
    "enter_busy": "enter EBUSY",
    "wake": "wake <by>",
    "clear": "clear",
}
WORK_STEPS = {
    "auto_run": "run",
    "auto_read": "read <count>",
    "auto_saved": "saved <count>",
    "auto_unsaved": "unsaved <count>",
    "auto_after": "after <seen>",
    "auto_again": "again",
    "auto_off": "off",
    "sleep_d": "sleep_d <until>",
    "slept": "slept",
}
# What each sort of actor may say.
SAYS = {
    "task": CALLS | TASK_STEPS | ATTEMPT_STEPS,
    "irq": CALLS | LINE_STEPS,
    "auto": CALLS | WORK_STEPS | ATTEMPT_STEPS,
    "dev": CALLS | CALLBACKS,
    "timer": {"expire": "expire <source>", "finish": CALLS["finish"]},
    "time": {"jump": "jump"},
}
ENTRY = re.compile(rf"({NUMBER}) ({NUMBER})/({NUMBER})/({NUMBER}) ((?:task|irq|dev|timer):{NAME}|auto|time) (.+)")
SOURCE = re.compile(rf"source ({NAME})" + rf" ({NUMBER})" * 7)
STUCK = re.compile(rf"stuck ((?:task|irq):{NAME}) (read|mark {NAME})")


def pattern(form):
    """The expression of a form, with a group for each of its fields."""
    return re.compile(re.sub("<([a-z]+)>", lambda field: f"(?P<{field[1]}>{FIELDS[field[1]]})", form))


def by_first_word(forms):
    """The kinds with their expressions, found by the first word of what is said."""
    found = {}
    for kind, form in forms.items():
        found.setdefault(form.split(" ")[0], []).append((kind, pattern(form)))
    return found


PATTERNS = {sort: by_first_word(forms) for sort, forms in SAYS.items()}


class Refused(Exception):
    """What was given is no log, or no log of the machine: the number of a line, and why."""

    def __init__(self, line, why):
        super().__init__(f"line {line}: {why}")
        self.line, self.why = line, why


class Entry:
    """An entry: its line, its time in ms, the event word that it saw, its actor, its kind and its fields."""

    __slots__ = ("line", "text", "time", "in_progress", "registered", "actor", "kind", "fields")

    def __init__(self, line, text, parts, kind, fields):
        self.line, self.text, self.kind, self.fields = line, text, kind, fields
        self.time, self.in_progress, self.registered = int(parts[0]), int(parts[1]), int(parts[2])
        self.actor = parts[4]

    def __getitem__(self, field):
        return self.fields.get(field)


class Log:
    """A log: its entries, the numbers of each source by its name, and what each script that is stuck waits for."""

    def __init__(self):
        self.entries, self.sources, self.stuck = [], {}, {}
        self.ends = []  # The lines behind the entries.
        self.finished = False

    def take(self, line, text):
        """Takes the next line."""
        if self.finished:
            raise Refused(line, f"a line after the end of the log: {text[:80]!r}")
        if not self.sources and not text.startswith("source "):
            self.entries.append(entry_of(line, text))
            return
        self.ends.append(text)
        if "autosleep" not in self.sources:
            self.take_source(line, text)
        elif text == "finished" and not self.stuck:
            self.finished = True
        elif (found := STUCK.fullmatch(text)) and found[1] not in self.stuck:
            self.stuck[found[1]] = found[2]
        else:
            raise Refused(line, f"no end of a log: {text[:80]!r}")

    def take_source(self, line, text):
        found = SOURCE.fullmatch(text)
        if found is None or found[1] in self.sources:
            raise Refused(line, f"no line of a source: {text[:80]!r}")
        self.sources[found[1]] = [int(number) for number in found.groups()[1:]]

    def close(self, line):
        """Refuses a log that is cut off before the line."""
        if "autosleep" not in self.sources:
            raise Refused(line, "the log is cut off before its lines of sources are over")
        if not self.finished and not self.stuck:
            raise Refused(line, "the log is cut off before its end")
        scripts = {entry.actor for entry in self.entries if entry.actor.startswith(("task:", "irq:"))}
        left = scripts - {entry.actor for entry in self.entries if entry.kind == "exit"}
        if missing := left - set(self.stuck):
            raise Refused(line, f"the log is cut off: it has no end of {min(missing)}")


def entry_of(line, text):
    """The entry that a line tells."""
    if parts := ENTRY.fullmatch(text):
        sort, said = parts[5].partition(":")[0], parts[6]
        for kind, expression in PATTERNS[sort].get(said.partition(" ")[0], []):
            if fields := expression.fullmatch(said):
                return Entry(line, text, parts.groups(), kind, fields.groupdict())
    raise Refused(line, f"no line of a log: {text[:80]!r}")


def read_log(data):
    """The log that the bytes tell; None for no bytes at all."""
    if not data:
        return None
    log, lines = Log(), data.split(b"\n")
    rest = lines.pop()
    for line, text in enumerate(lines, 1):
        try:
            log.take(line, text.decode("ascii"))
        except UnicodeDecodeError:
            raise Refused(line, "bytes that are no text of a log") from None
    if rest:
        raise Refused(len(lines) + 1, "the log is cut off in this line, which has no newline")
    log.close(len(lines) + 1)
    return log
