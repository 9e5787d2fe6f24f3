"""Tells in words why an attempt failed: its answer, its cause, what was undone, and where it waited longest."""

import collections

from .joins import ATTEMPT
from .story import PHASES, error_of, stage_of
from .words import counted, said

NAMED = 5  # How many devices of a phase are named.
UP = ("resume_noirq", "early", "resume")
PLATFORM = {"recover": "recovers", "wake": "wakes", "finish": "finishes", "end": "ends"}

# A wait: its first and last entry, who waited, and for whom.
Wait = collections.namedtuple("Wait", "first last who whom")


def place_words(entry):
    """The stage in which an entry failed, and the thing that failed there."""
    for field, word in (("device", "device "), ("notifier", "notifier "), ("core", "syscore step "), ("cpu", "processor ")):
        if entry[field] is not None:
            return f"{stage_of(entry)}, at {word}{entry[field]}"
    return stage_of(entry)


def answer_line(story, attempt):
    """What an attempt answered, and where it failed first."""
    words = f"Attempt {attempt.number} of {attempt.maker}, {attempt.guard}, answered {attempt.answer} (line {attempt.last + 1})"
    if not attempt.failures:
        return f"{words}; no entry tells why."
    entry = story.entries[attempt.failures[0]]
    return f"{words}. It failed in {place_words(entry)} (line {entry.line})."


def event_words(story, place):
    """An event, who reported it, and when."""
    event = story.entries[place]
    who = story.callers.within.get(place, event.actor)
    return f"the event '{said(event)}', which {who} reported at {event.time} ms (line {event.line})"


def cause_line(story, attempt):
    """The event or the error that made an attempt fail."""
    if not attempt.failures:
        return "The cause is unknown."
    place, decider = attempt.failures[0], attempt.decider(story.entries)
    entry = story.entries[place]
    if place in story.tests.found:
        words = f"a test for wakeups found {event_words(story, story.tests.found[place])}"
    elif entry.kind == "froze_error" and entry["why"] == "timeout":
        words = f"task {entry['task']} did not freeze until {entry.time} ms ({counted(int(entry['left']), 'task')} left)"
    else:
        words = f"{story.cause(place)} answered {error_of(entry)} at {entry.time} ms: '{said(entry)}'"
    if decider != place:
        other = story.entries[decider]
        words += f"; the answer is that of '{said(other)}' (line {other.line})"
    return f"The cause: {words}."


def named(devices):
    more = [f"{len(devices) - NAMED} more"] if len(devices) > NAMED else []
    return ", ".join(devices[:NAMED] + more)


def undone_line(story, attempt):
    """What the way up undid after the first failure."""
    entries = story.entries[(attempt.failures or [attempt.first])[0] + 1:attempt.last]
    ups = {phase: [entry["device"] for entry in entries if entry.kind == "begin" and entry["phase"] == phase] for phase in UP}
    words = [f"{PHASES[phase]} of {named(devices)}" for phase, devices in ups.items() if devices]
    kinds = collections.Counter(entry.kind for entry in entries)
    words += [f"dpm_complete of {counted(kinds['complete'], 'device')}"] * bool(kinds["complete"])
    words += [f"{counted(kinds['core_resume'], 'syscore step')} started"] * bool(kinds["core_resume"])
    words += [f"{counted(kinds['cpu_on'], 'processor')} on"] * bool(kinds["cpu_on"])
    platform = [PLATFORM[entry["up"]] for entry in entries if entry.kind == "platform_up"]
    words += [f"the platform {', '.join(platform)}"] * bool(platform)
    words += ["tasks thawed"] * bool(kinds["thaw"])
    words += [f"{counted(kinds['notify_post'], 'notifier')} told"] * bool(kinds["notify_post"])
    return f"Undone: {'; '.join(words) or 'nothing'}."


def device_waits(story, attempt):
    """Who of an attempt waited for a device, and since when."""
    heads = {join.head: join for join in story.walks.joins if attempt.first <= join.head <= attempt.last}
    given, walk = {}, attempt.first
    for place in range(attempt.first, attempt.last + 1):
        entry = story.entries[place]
        if place in heads:
            join = heads[place]
            who = f"the walk of {PHASES[entry['phase']]}" if join.target == ATTEMPT else f"{join.target[1]} in {PHASES[entry['phase']]}"
            yield Wait(given.get(entry["device"], walk), place, who, f"device {join.source[1]}")
        if entry.kind == "schedule":
            given[entry["device"]] = place
        elif entry.kind == "done":
            given = {}
        if entry.actor == attempt.maker:
            walk = place


def freezer_waits(story, attempt):
    """The freezes of an attempt that waited, and for which task at last."""
    begun, last = None, None
    for place in range(attempt.first, attempt.last + 1):
        entry = story.entries[place]
        if entry.kind == "freeze":
            begun, last = place, None
        elif entry.kind in ("frozen", "exit") and entry.actor.startswith("task:"):
            last = entry.actor
        elif entry.kind in ("froze", "froze_error") and (entry["task"] or last):
            yield Wait(begun, place, stage_of(entry), f"task:{entry['task']}" if entry["task"] else last)


def wait_line(story, attempt):
    """The longest wait of an attempt, by entries."""
    waits = [*device_waits(story, attempt), *freezer_waits(story, attempt)]
    if not waits:
        known = story.devices.known or not story.devices.order
        return "It waited for nobody." if known else "It waited for nobody, as far as a log without its machine file tells."
    wait = max(waits, key=lambda wait: wait.last - wait.first)
    first, last = story.entries[wait.first], story.entries[wait.last]
    time = f" and {last.time - first.time} ms" if last.time > first.time else ""
    return (f"The longest wait: {wait.who} waited {counted(wait.last - wait.first, 'entry').replace('entrys', 'entries')}{time} "
            f"for {wait.whom} (lines {first.line} to {last.line}).")


def told(story):
    """Four lines for each attempt that failed."""
    for attempt in story.attempts:
        if attempt.answer != "0":
            yield "\n".join(tell(story, attempt) for tell in (answer_line, cause_line, undone_line, wait_line))
