"""What is said of the entries and attempts of a log, in a few words each."""

from .joins import DOWN, lane_of
from .story import stage_of

SHOWN = 3  # So many errors of the way up are shown.


def said(entry):
    """What an entry says, without its time, word and actor."""
    return entry.text.split(" ", 3)[3]


def counted(number, word):
    return f"{number} {word}{'s' * (number != 1)}"


def answer_words(attempt):
    return "slept" if attempt.answer == "0" and attempt.entered is not None else f"stopped: {attempt.answer}"


def sleep_words(story, attempt):
    """How long an attempt slept, and what woke the machine."""
    if attempt.entered is None:
        return "no"
    first, last = story.entries[attempt.entered], story.entries[attempt.woke]
    by = story.cause(attempt.woke) if attempt.woke in story.tests.found else f"the {last['by']}"
    return f"{first.time} to {last.time} ms, woken by {by}"


def failure_words(story, attempt):
    """The stage that failed, what failed there first, and who caused it."""
    if not attempt.failures:
        return ["", "", ""]
    place = attempt.failures[0]
    entry, decider = story.entries[place], attempt.decider(story.entries)
    what = f"{said(entry)} (line {entry.line})"
    if decider != place:
        last = story.entries[decider]
        what += f"; the answer comes from {said(last)} (line {last.line})"
    return [stage_of(entry), what, story.cause(place)]


def late_words(story, attempt):
    """The errors on the way up."""
    late = [f"{said(story.entries[place])} (line {place + 1})" for place in attempt.late_errors]
    more = [f"and {len(late) - SHOWN} more"] if len(late) > SHOWN else []
    return "; ".join(late[:SHOWN] + more)


def wait_words(story, join):
    """Who waited for whom, and what the one is of the other."""
    entry = story.entries[join.head]
    if join.target[0] != "device":
        return f"the walk of {entry['phase']} waited for {join.source[1]}, the last to end"
    one, other, parents = join.target[1], join.source[1], story.devices.parents
    if entry["phase"] in DOWN:
        what = "its child" if parents.get(other) == one else "its consumer"
    else:
        what = "its parent" if parents.get(one) == other else "its supplier"
    return f"in {entry['phase']}, {one} waited for {other}, {what}"


def thing_lane(entry):
    """The lane of an entry; each processor has one of its own."""
    lane = lane_of(entry)
    return ("processors", f"CPU {entry['cpu']}") if lane[0] == "processors" else lane
