"""What a log tells: its attempts with what failed, spans of time, and the sections that are drawn one by one."""

import bisect
import collections

from .joins import ATTEMPT, DOWN, Callers, Join, Tests, Walks, lane_of
from .reading import ATTEMPT_STEPS, Refused

LEAD = 40  # So many entries before an attempt are drawn with it, and after the last one.
MOST = 500  # So many entries outside of attempts make one section.
MORE = 20_000  # A section of more entries is folded, even where it is the only one.

# The kernel's names of the stages, by the kind of entry, by what the platform does, and by phase.
STAGES = {
    "attempt": "enter_state", "attempt_guarded": "enter_state", "over": "return",
    "notify_prepare": "PM_SUSPEND_PREPARE", "notify_post": "PM_POST_SUSPEND",
    "cpu_off": "freeze_secondary_cpus", "cpu_busy": "freeze_secondary_cpus", "cpu_on": "thaw_secondary_cpus",
    "irqs_off": "arch_suspend_disable_irqs", "irqs_on": "arch_suspend_enable_irqs",
    "core_check": "syscore_suspend", "core_suspend": "syscore_suspend", "core_resume": "syscore_resume",
    "enter": "suspend_ops->enter", "enter_busy": "suspend_ops->enter", "wake": "suspend_ops->enter",
    "clear": "events_check_enabled = 0",
}
PLATFORM = {
    "begin": "platform_suspend_begin", "prepare": "platform_suspend_prepare",
    "prepare_late": "platform_suspend_prepare_noirq", "recover": "platform_recover",
    "wake": "platform_resume_noirq", "finish": "platform_resume_finish", "end": "platform_resume_end",
}
PHASES = {
    "prepare": "dpm_prepare", "suspend": "dpm_suspend", "late": "dpm_suspend_late", "noirq": "dpm_suspend_noirq",
    "resume_noirq": "dpm_resume_noirq", "early": "dpm_resume_early", "resume": "dpm_resume",
    "complete": "dpm_complete",
}
FREEZER = {"user": "freeze_processes", "kernel": "freeze_kernel_threads"}
THAWER = {"all": "thaw_processes", "kernel": "thaw_kernel_threads"}

# Kinds that open and close spans, and the fields by which they belong together.
OPENS = {
    "start": ("active", "source"), "frozen": ("frozen", None), "sleep": ("sleeping", None),
    "sleep_d": ("sleeping", None), "read_wait": ("waiting", None), "save_wait": ("waiting", None),
    "state_wait": ("waiting", None), "attempt": ("making", None), "attempt_guarded": ("making", None),
    "enter": ("asleep", None), "notify_prepare": ("told", "notifier"), "core_suspend": ("stopped", "core"),
    "cpu_off": ("off", "cpu"), "schedule": ("given", "device"), "autosleep_set": ("on", None),
    "auto_run": ("working", None),
}
CLOSES = {
    "finish": ("active", "source"), "slept": ("sleeping", None), "read": ("waiting", None),
    "read_interrupted": ("waiting", None), "save_ok": ("waiting", None), "save_error": ("waiting", None),
    "state_error": ("waiting", None), "attempt": ("waiting", None), "attempt_guarded": ("waiting", None),
    "over": ("making", None), "wake": ("asleep", None), "notify_post": ("told", "notifier"),
    "core_resume": ("stopped", "core"), "cpu_on": ("off", "cpu"), "begin": ("given", "device"),
    "skip": ("given", "device"), "autosleep_set": ("on", None), "auto_again": ("working", None),
    "auto_off": ("working", None),
}

# Something that lasts from one entry to another, or to the end of the log.
Span = collections.namedtuple("Span", "what lane first last")


def phase_of(entry):
    """The phase of devices that an entry belongs to, if any."""
    return entry.kind if entry.kind in ("prepare", "complete") else entry["phase"]


def stage_of(entry):
    """The kernel's name of the stage of an attempt that an entry belongs to, if any."""
    if entry.kind in STAGES:
        return STAGES[entry.kind]
    if entry.kind in ("platform_down", "platform_up"):
        return PLATFORM[entry["down"] or entry["up"]]
    if entry.kind in ("freeze", "froze", "froze_error"):
        return FREEZER[entry["group"]]
    return THAWER[entry["thawed"]] if entry.kind == "thaw" else PHASES.get(phase_of(entry))


def error_of(entry):
    """The error that an entry of an attempt brings about, if any; `done` and `over` only repeat one."""
    kind = entry.kind
    if kind in ("froze_error", "cpu_busy", "enter_busy") or entry["cause"] == "pending":
        return "EBUSY"
    if kind == "prepare":
        return entry["prepared"] if entry["prepared"] not in ("0", "1") else None
    answers = ("notify_prepare", "platform_down", "core_check", "core_suspend", "end")
    return entry["answer"] if kind in answers and entry["answer"] != "0" else None


# A stage of an attempt: the kernel's name, its first and last place, and the error that ended it.
Stage = collections.namedtuple("Stage", "name first last error")


def stages_of(entries, attempt):
    """The stages of an attempt, in their order."""
    stages = []
    for place in range(attempt.first, attempt.last + 1):
        entry = entries[place]
        name = stage_of(entry) if entry.kind in ATTEMPT_STEPS else None
        if name is None:
            continue
        if not stages or stages[-1].name != name:
            stages.append(Stage(name, place, place, None))
        error = error_of(entry) if entry.kind != "end" or entry["phase"] in DOWN else None
        stages[-1] = stages[-1]._replace(last=place, error=stages[-1].error or error)
    return stages


class Spans:
    """The spans of a log."""

    def __init__(self):
        self.open, self.found, self.group = {}, [], "user"

    def see(self, place, entry):
        kind = entry.kind
        if kind == "freeze":
            self.group = entry["group"]
        if kind == "finish" and ("active", entry["source"]) not in self.open:
            raise Refused(entry.line, f"a finish of a source that is not active: {entry.text}")
        if kind in CLOSES:
            self.close(place, *self.key(entry, *CLOSES[kind]))
        if kind == "thaw":
            self.close_all(place, "frozen", None if entry["thawed"] == "all" else "kernel")
        if kind == "done" and entry["phase"] == "resume":
            self.close_all(place, "alone", None)
        if kind in OPENS and entry["answer"] in (None, "0") and entry["state"] != "off":
            self.begin(place, entry, *OPENS[kind])
        if kind == "skip" and (entry["phase"], entry["cause"]) == ("suspend", "direct"):
            self.open["alone", entry["device"]] = (place, lane_of(entry), None)

    @staticmethod
    def key(entry, what, field):
        if what == "on":
            return what, "auto"
        return what, entry.actor if field is None else entry[field]

    def begin(self, place, entry, what, field):
        key = self.key(entry, what, field)
        if what == "active" and key in self.open:
            raise Refused(entry.line, f"a start of a source that is active: {entry.text}")
        lane = lane_of(entry)
        if what in ("making", "on", "working"):
            lane = ("actor", "auto" if what == "on" else entry.actor)
        self.open[key] = (place, lane, self.group)

    def close(self, place, what, name):
        if (opened := self.open.pop((what, name), None)) is not None:
            self.found.append(Span(what, opened[1], opened[0], place))

    def close_all(self, place, what, group):
        for key in [key for key, opened in self.open.items() if key[0] == what and group in (None, opened[2])]:
            self.close(place, *key)

    def close_rest(self):
        for (what, _), (first, lane, _) in self.open.items():
            self.found.append(Span(what, lane, first, None))


class Attempt:
    """An attempt: its entries, its guard, what failed on its way down and on its way up, and its answer."""

    def __init__(self, place, entry):
        self.first, self.last = place, None
        self.number, self.maker = entry["number"], entry.actor
        self.guard = "plain" if entry["count"] is None else f"guarded by count {entry['count']}"
        self.failures, self.late_errors = [], []
        self.entered = self.woke = None
        self.answer = None

    def see(self, place, entry):
        if entry.kind == "enter":
            self.entered = place
        elif entry.kind == "wake":
            self.woke = place
        elif error_of(entry):
            is_down = entry.kind != "end" or entry["phase"] in DOWN
            (self.failures if is_down else self.late_errors).append(place)

    def decider(self, entries):
        """The place whose error is the answer: of one phase a synchronous callback's, else the last that was set."""
        own = [at for at in self.failures if entries[at].kind == "end" and entries[at].actor == self.maker]
        return (own or self.failures or [None])[-1]


# Entries that are drawn in one picture, with the attempt among them, if any.
Section = collections.namedtuple("Section", "first end attempt")


class Story:
    """All that is drawn of a log."""

    def __init__(self, log, devices):
        self.log, self.entries, self.devices = log, log.entries, devices
        self.attempts, self.attempt = [], None
        self.spans, self.callers, self.walks = Spans(), Callers(), Walks(devices)
        self.tests = Tests(self.callers, self.entries)
        self.left = []
        for place, entry in enumerate(self.entries):
            self.see(place, entry)
        if self.attempt is not None:
            raise Refused(len(self.entries) + 1, f"attempt {self.attempt.number} is not over")
        self.spans.close_rest()
        self.joins = self.walks.joins + self.callers.joins + self.left + self.tests.joins

    def see(self, place, entry):
        if entry.kind in ("attempt", "attempt_guarded"):
            if self.attempt is not None:
                raise Refused(entry.line, f"attempt {self.attempt.number} is not over yet: {entry.text}")
            self.attempt = Attempt(place, entry)
        elif entry.kind in ATTEMPT_STEPS and self.attempt is None:
            raise Refused(entry.line, f"no attempt is open: {entry.text}")
        for part in (self.spans, self.callers, self.walks, self.tests, self.devices):
            part.see(place, entry)
        if entry["task"] is not None:
            lane = ("actor", f"task:{entry['task']}")
            self.left.append(Join("left", place, lane, place, ATTEMPT, f"{entry['task']} did not freeze"))
        if entry.kind == "over":
            self.attempt.last, self.attempt.answer = place, entry["answer"]
            self.attempts.append(self.attempt)
            self.attempt = None
        elif self.attempt is not None:
            self.attempt.see(place, entry)

    def sections(self):
        """The sections: an attempt with what led to it, or steps outside of attempts."""
        found, start = [], 0
        for attempt in self.attempts:
            lead = max(start, attempt.first - LEAD)
            found += [Section(at, min(at + MOST, lead), None) for at in range(start, lead, MOST)]
            start = attempt.last + 1
            found.append(Section(lead, start, attempt))
        end = len(self.entries)
        if found and end - start <= LEAD:
            found[-1] = found[-1]._replace(end=end)
            start = end
        return found + [Section(at, min(at + MOST, end), None) for at in range(start, end, MOST)]

    def sections_with_parts(self):
        """Each section with the spans and the joins that are drawn in it."""
        sections = self.sections()
        starts = [section.first for section in sections]
        spans, joins = [[] for _ in sections], [[] for _ in sections]
        for span in self.spans.found:
            last = len(self.entries) if span.last is None else span.last
            at = bisect.bisect(starts, span.first) - 1
            while at < len(sections) and sections[at].first <= last:
                spans[at].append(span)
                at += 1
        for join in self.joins:
            joins[bisect.bisect(starts, join.head) - 1].append(join)
        return list(zip(sections, spans, joins))

    def cause(self, place):
        """Who caused what an entry tells."""
        entry = self.entries[place]
        if place in self.tests.found:
            event = self.tests.found[place]
            return f"{self.tests.name(event)} (line {event + 1})"
        if entry.kind == "froze_error":
            return f"task {entry['task']}, which did not freeze" if entry["why"] == "timeout" else "a wakeup"
        for field in ("notifier", "core", "device"):
            if entry[field] is not None:
                return f"{'syscore' if field == 'core' else field} {entry[field]}"
        return "the platform" if entry.kind == "platform_down" else "a wakeup"
