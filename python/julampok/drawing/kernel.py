"""The texts that a kernel shows after the run of a log: wakeup_sources, suspend_stats, and its messages."""

import collections

from ..limits import ERRORS

from .joins import Tests
from .story import error_of

HEADS = ("name\t", "active_count", "event_count", "wakeup_count", "expire_count", "active_since", "total_time", "max_time",
         "last_change", "prevent_suspend_time")
# The counters of suspend_stats by phases; the names of steps, of which the kernel has none for late and early.
COUNTERS = {
    "freeze": "failed_freeze", "prepare": "failed_prepare", "suspend": "failed_suspend", "late": "failed_suspend_late",
    "noirq": "failed_suspend_noirq", "resume": "failed_resume", "early": "failed_resume_early",
    "resume_noirq": "failed_resume_noirq",
}
STEPS = {"freeze": "freeze", "prepare": "prepare", "suspend": "suspend", "noirq": "suspend_noirq",
         "resume_noirq": "resume_noirq", "resume": "resume"}
KEPT = 2  # So many of the last failures the kernel remembers.
LONGEST_NAME = 39
UP = ("resume_noirq", "early", "resume")
TASKS = {"user": "user space processes", "kernel": "remaining freezable tasks"}
FAILED = {
    "prepare": "Some devices failed to suspend, or early wake event detected",
    "suspend": "Some devices failed to suspend, or early wake event detected",
    "late": "late suspend of devices failed", "noirq": "noirq suspend of devices failed",
}


class Checks:
    """Follows a log: whether a saved count is in force, and which sources are active."""

    def __init__(self, story):
        self.tests = Tests(story.callers, story.entries)
        self.active, self.last = {}, None

    def see(self, place, entry):
        self.tests.see(place, entry)
        if entry.kind == "start":
            self.active[entry["source"]] = place
        elif entry.kind == "finish":
            self.active.pop(entry["source"], None)
        if entry.kind in ("start", "finish"):
            self.last = entry["source"]

    @property
    def is_in_force(self):
        return self.tests.check is not None


# ---- /sys/kernel/debug/wakeup_sources


class Extra:
    """What the kernel counts of a source and a log's lines do not tell: reports under a saved count, and time."""

    def __init__(self, story):
        self.wakeups, self.prevented = collections.Counter(), collections.Counter()
        self.since, self.is_on = {}, False
        checks = Checks(story)
        for place, entry in enumerate(story.entries):
            if entry.kind in ("awake", "event") and checks.is_in_force:
                self.wakeups[entry["source"]] += 1
            checks.see(place, entry)
            self.count_time(entry)
        end = story.entries[-1].time if story.entries else 0
        self.stop(list(self.since), end)

    def count_time(self, entry):
        """Counts how long a source is active while autosleep is on."""
        if entry.kind == "start":
            self.since[entry["source"]] = entry.time
        elif entry.kind == "finish":
            self.stop([entry["source"]], entry.time)
            self.since.pop(entry["source"], None)
        elif entry.kind == "autosleep_set":
            self.stop(list(self.since), entry.time)
            self.is_on = entry["state"] == "mem"

    def stop(self, sources, now):
        for source in sources:
            if self.is_on:
                self.prevented[source] += now - self.since.get(source, now)
            self.since[source] = now


def wakeup_sources(story):
    """The file wakeup_sources of debugfs: the newest source first, then what deleted ones counted."""
    extra, rows = Extra(story), ["\t".join(HEADS)]
    for name in [*[source for source in reversed(story.log.sources) if source != "autosleep"], "autosleep", "deleted"]:
        active, events, expired, since, total, most, last = story.log.sources.get(name, [0] * 7)
        numbers = active, events, extra.wakeups[name], expired, since, total, most, last, extra.prevented[name]
        rows.append("\t\t".join([f"{name:<12}\t{numbers[0]}", *map(str, numbers[1:])]))
    return "\n".join(rows) + "\n"


# ---- suspend_stats


class Failures:
    """What suspend_stats counts."""

    def __init__(self, story):
        self.counts = dict.fromkeys(("success", "fail", *COUNTERS.values()), 0)
        self.devices, self.errors, self.steps = ([empty] * KEPT for empty in ("", 0, ""))
        for entry in story.entries:
            self.see(entry)

    def see(self, entry):
        kind, phase = entry.kind, entry["phase"]
        if kind == "over":
            self.counts["success" if entry["answer"] == "0" else "fail"] += 1
            if entry["answer"] != "0":
                self.errors = [-ERRORS[entry["answer"]], *self.errors][:KEPT]
        elif kind == "froze_error":
            self.fail("freeze")
        elif kind == "end" and entry["answer"] != "0":
            self.devices = [entry["device"][:LONGEST_NAME], *self.devices][:KEPT]
            if phase in UP:
                self.fail(phase)
        elif kind == "done" and entry["answer"] != "0":
            self.fail(phase)

    def fail(self, step):
        self.counts[COUNTERS[step]] += 1
        self.steps = [STEPS.get(step, ""), *self.steps][:KEPT]


def suspend_stats(story):
    """The file suspend_stats of debugfs."""
    failures = Failures(story)
    lines = [f"{name}: {count}" for name, count in failures.counts.items()] + ["failures:"]
    for name, (last, before) in (("dev", failures.devices), ("errno", failures.errors), ("step", failures.steps)):
        lines += [f"  last_failed_{name}:\t{last}", f"\t\t\t{before}"]
    return "\n".join(lines) + "\n"


# ---- messages


class Messages:
    """The kernel's messages, each with its time."""

    def __init__(self, story, is_debug):
        self.lines, self.is_debug, self.checks = [], is_debug, Checks(story)
        self.freeze, self.is_first_on = 0, True
        for place, entry in enumerate(story.entries):
            was_in_force = self.checks.is_in_force
            self.checks.see(place, entry)
            if self.is_debug and was_in_force and not self.checks.is_in_force and self.checks.tests.says_found(entry):
                self.tell_pending(entry)
            self.see(entry)

    def tell(self, entry, *lines):
        self.lines += [f"[{entry.time // 1000:5}.{entry.time % 1000:03}000] {line}" for line in lines]

    def tell_pending(self, entry):
        """What pm_wakeup_pending writes where the saved count has changed or an event is in progress."""
        self.tell(entry, "PM: Wakeup pending, aborting suspend")
        active = [f"PM: active wakeup source: {source}" for source in reversed(self.checks.active)]
        self.tell(entry, *(active or [f"PM: last active wakeup source: {self.checks.last}"]))

    def see(self, entry):
        kind = entry.kind
        if kind in ("attempt", "attempt_guarded"):
            self.tell(entry, "PM: suspend entry (deep)", "Filesystems sync: 0.000 seconds")
        elif kind == "over":
            self.tell(entry, "PM: suspend exit")
        elif kind in ("freeze", "froze", "froze_error", "thaw"):
            self.see_tasks(entry)
        elif kind in ("prepare", "end"):
            self.see_device(entry)
        elif kind == "done" and entry["answer"] != "0":
            self.tell(entry, f"PM: {FAILED[entry['phase']]}")
        elif kind == "core_suspend" and entry["answer"] != "0":
            self.tell(entry, f"PM: System core suspend callback {entry['core']} failed.")
        else:
            self.see_processors(entry)

    def see_tasks(self, entry):
        if entry.kind == "freeze":
            self.freeze = entry.time
            self.tell(entry, f"Freezing {TASKS[entry['group']]}")
        elif entry.kind == "thaw":
            words = "OOM killer enabled.", "Restarting tasks ... done."
            self.tell(entry, *(words if entry["thawed"] == "all" else ["Restarting kernel threads ... done."]))
        else:
            self.see_frozen(entry)

    def see_frozen(self, entry):
        time = f"{(entry.time - self.freeze) // 1000}.{(entry.time - self.freeze) % 1000:03} seconds"
        if entry.kind == "froze_error":
            how = "failed" if entry["why"] == "timeout" else "aborted"
            self.tell(entry, f"Freezing of tasks {how} after {time} ({entry['left']} tasks refusing to freeze, wq_busy=0):")
            return
        self.tell(entry, f"Freezing {TASKS[entry['group']]} completed (elapsed {time})")
        if entry["group"] == "user":
            self.tell(entry, "OOM killer disabled.")

    def see_device(self, entry):
        """A callback that answered an error; its function is not known, and stands as 'callback'."""
        error, device = error_of(entry), entry["device"]
        if not error:
            return
        number = -ERRORS[error]
        if entry.kind == "prepare":
            self.tell(entry, f"{device}: PM: device_prepare(): callback+0x0/0x0 returns {number}",
                      f"{device}: PM: not prepared for power transition: code {number}")
            return
        verb = "resume" if entry["phase"] in UP else "suspend"
        where = {"late": " late", "noirq": " noirq", "early": " early", "resume_noirq": " noirq"}.get(entry["phase"], "")
        where = " async" if entry.actor.startswith("dev:") else where
        self.tell(entry, f"{device}: PM: dpm_run_callback(): callback+0x0/0x0 returns {number}",
                  f"{device}: PM: failed to {verb}{where}: error {number}")

    def see_processors(self, entry):
        kind = entry.kind
        if kind == "platform_down" and entry["down"] == "prepare_late" and entry["answer"] == "0":
            self.is_first_on = True
            self.tell(entry, "Disabling non-boot CPUs ...")
        elif kind == "cpu_busy":
            self.tell(entry, "Wakeup pending. Abort CPU freeze", "Non-boot CPUs are not disabled")
        elif kind == "cpu_on":
            self.tell(entry, *["Enabling non-boot CPUs ..."] * self.is_first_on, f"CPU{entry['cpu']} is up")
            self.is_first_on = False


def messages(story, is_debug=False):
    """The kernel's messages of a log, with those of pm_debug_messages that name a wakeup source if asked for."""
    return "".join(f"{line}\n" for line in Messages(story, is_debug).lines)
