"""Explains each attempt to sleep that failed, in four lines.

The lines say what the attempt answered and where it failed; which event or error was the cause, and who reported it when;
what was undone; and where the attempt waited longest, in entries, for whom. Only with the machine file is it known which
device waited for which.
"""

import json

from ..drawing.story import stage_of
from ..drawing.telling import told
from ..errors import YES, CannotError
from ..files import write_out
from ..logs import add_log, read_story

HELP = "tells why each attempt to sleep failed"
EXAMPLE = "julampok explain --machine examples/workers/two-lines.json examples/workers/two-lines-stopped.log"


def add_arguments(parser):
    parser.add_argument("--machine", metavar="MACHINE", help="the machine file of the log")
    parser.add_argument("--json", action="store_true", help="writes the explanation as JSON")
    add_log(parser)


def run(given):
    story = read_story(given.log, given.machine)
    if story is None:
        raise CannotError("an empty log", given.log, 1)
    write_out(json.dumps(as_json(story)) + "\n" if given.json else explained(story))
    return YES


def as_json(story):
    """What is told of a log, for programs: each attempt that failed, and how often the machine slept."""
    failed = [attempt for attempt in story.attempts if attempt.answer != "0"]
    return {"slept": slept(story), "failed": [attempt_json(story, *both) for both in zip(failed, told(story))]}


def attempt_json(story, attempt, text):
    """What is told of an attempt; lines are those of the log."""
    answer, cause, undone, wait = text.split("\n")
    first = story.entries[attempt.failures[0]] if attempt.failures else None
    return {
        "attempt": int(attempt.number), "by": attempt.maker, "answer": attempt.answer, "line": attempt.last + 1,
        "failed_in": first and stage_of(first), "failed_line": first and first.line,
        "says": {"answer": answer, "cause": cause, "undone": undone, "wait": wait},
    }


def slept(story):
    """How often the machine slept."""
    return sum(attempt.entered is not None for attempt in story.attempts)


def explained(story):
    """What is told of a log."""
    parts = list(told(story))
    if parts:
        return "\n\n".join(parts) + "\n"
    count = slept(story)
    return f"No attempt failed. The machine slept {count} time{'s' * (count != 1)}.\n"
