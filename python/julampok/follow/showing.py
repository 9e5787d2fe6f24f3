"""The verdict of a replay as text and as JSON."""

from __future__ import annotations

from ..kernel.recording import Note, Recording
from .verdict import AttemptTold, Replay

STATES = {1: "suspend-to-idle", 2: "standby", 3: "mem"}


def as_text(found: Replay, recording: Recording) -> str:
    """The verdict, the attempts, and notes, a line each."""
    lines = [f"{shown(recording.trace_file)}: {found.headline}", ""]
    for one in found.attempts:
        lines += attempt_lines(one)
    lines += [f"differs: {text}" for text in found.differs[1:]]
    if found.broken:
        lines += ["The steps above that line are legal; nothing below it was followed.", ""]
    if found.notes:
        lines += ["Notes:", *(f"  {note_text(note)}" for note in dict.fromkeys(found.notes))]
    while lines and lines[-1] == "":
        lines.pop()
    return "\n".join(lines) + "\n"


def shown(file: str) -> str:
    """A file as it is shown."""
    return "standard input" if str(file) == "-" else str(file)


def attempt_lines(one: AttemptTold) -> list[str]:
    """The lines of an attempt."""
    answer = "its answer is not told" if one.answer is None else f"answered {one.answer}" if one.is_sure else f"{one.answer}, if this stopped it"
    lines = [f"Attempt {one.number}, lines {one.line} to {one.last_line}, by {one.task}: {answer}."]
    lines += [f"  {text}" for text in one.sentences]
    if one.judged_to is not None:
        lines.append(f"  Judged down to line {one.judged_to}; below it the log stands in.")
    lines += [f"  In the log {text}." for text in one.stand_ins]
    return [*lines, ""]


def note_text(note: Note) -> str:
    """A note with its place."""
    file = "" if note.file is None else shown(note.file)
    place = "" if not file else f"{file}: " if note.line is None else f"{file}:{note.line}: "
    return f"{place}{note.text}"


def as_json(found: Replay, recording: Recording) -> dict:
    """The verdict for a script."""
    return {
        "status": found.status, "legal": found.is_legal, "own_way": found.is_own_way, "headline": found.headline,
        "judge": found.judge, "judged": found.judged, "kernel": recording.version_text,
        "broken": [{"line": one.line, "did": one.did, "first": one.first, "first_line": one.first_line, "because": one.because} for one in found.broken],
        "differs": found.differs,
        "attempts": [{"number": one.number, "line": one.line, "last_line": one.last_line, "task": one.task, "answer": one.answer, "is_sure": one.is_sure,
                      "sentences": one.sentences, "stand_ins": one.stand_ins, "judged_to": one.judged_to} for one in found.attempts],
        "notes": [{"text": note.text, "file": note.file, "line": note.line} for note in found.notes],
    }
