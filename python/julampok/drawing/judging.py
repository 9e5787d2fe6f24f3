"""Adds to the page of a recording what following it found: the verdict, what stopped each attempt, and an order that was broken."""

import re

from ..errors import CannotError
from ..follow.verdict import replay
from .model import Tie, Tone
from .of_recording import note_words

LINE = re.compile(r"(?<!dmesg )\bline (\d+)")
FOUND = re.compile(r"callback of (.+) found it")
PROVED = "the proved program"
UP = ("resume_noirq", "early", "resume", "complete")


def add_verdict(page, rows, recording, judge):
    """Adds the verdict; gives it in a few words. A recording that cannot be followed keeps its times, and the page says why."""
    try:
        found = replay(recording, judge)
    except CannotError as refused:
        if judge is not None and refused.file == judge.path:
            raise
        page.tone = Tone.OPEN
        page.details.append(f"The trace could not be followed: {refused_words(refused)}. What stands below is what the trace itself tells.")
        return "could not be followed"
    page.notes = [note_words(note) for note in found.notes]
    page.judged = judged_lines(found)
    page.details += broken_details(found) if found.broken else [f"{found.headline[0].upper()}{found.headline[1:]}"]
    page.details += [f"It differs: {words}." for words in found.differs[1:]]
    for told in found.attempts:
        made = next((attempt for attempt in page.attempts if attempt.number == str(told.number)), None)
        if made is not None:
            add_told(made, rows, told, recording)
    for broken in found.broken:
        add_broken(page, rows, broken, recording)
    page.tone = Tone.GOOD if found.status == 0 else Tone.BAD
    return verdict_words(found)


def refused_words(refused):
    """Where and why a trace could not be followed."""
    where = f"line {refused.line}: " if refused.line is not None else ""
    return f"{where}{refused.text}".rstrip(".")


def verdict_words(found):
    """The verdict in a few words."""
    if found.status == 0:
        return f"legal by {'the proved checker' if found.judge == PROVED else found.judge}"
    if found.broken:
        return f"{found.illegal}: {found.broken[0].did} (line {found.broken[0].line}), but {found.broken[0].first}"
    return found.illegal if not found.is_legal else "legal, but not the kernel's own way"


def broken_details(found):
    """Why the order is broken, and who says so."""
    because = "; ".join(found.broken[0].because)
    by = f"Judged by {found.judge} ({found.judged})." if not found.judged.startswith("no log") else f"{found.judged[0].upper()}{found.judged[1:]}."
    return [f"That is so since {because}."] * bool(because) + [by, "The steps above that line are legal; nothing below it was followed."]


def judged_lines(found):
    """The log that was judged, each entry with the line of the trace that it comes from."""
    lines = found.log.decode("utf-8", "replace").split("\n")
    lines = lines[:-1] if lines and not lines[-1] else lines
    return [f"{line}    (line {found.origins[place]})" if place < len(found.origins) and found.origins[place] else line
            for place, line in enumerate(lines)]


def add_told(made, rows, told, recording):
    """What stopped an attempt, in the words of the follower, and whose rows stand on top for it."""
    stopped = told.answer != "0"
    limits = [f"Judged down to line {told.judged_to}; below it the log stands in."] if told.judged_to is not None else []
    made.causes = [*told.sentences, *limits, *(f"In the log {words}." for words in told.stand_ins)]
    if not stopped:
        made.tone = Tone.GOOD
        made.answer = "slept" if made.answer == "slept" else "turned around, answer 0"
        return
    made.tone = Tone.BAD
    is_sure = getattr(told, "is_sure", True)
    made.answer = f"stopped: {told.answer or 'its answer is not told'}{'' if is_sure else ', if this stopped it'}"
    lines = [int(number) for sentence in told.sentences[:2] for number in LINE.findall(sentence)] + told.faults
    at_fault = [mark for mark in made.marks if mark.first in set(lines)]
    made.culprits = [rows.of(device) for device in told.fault_devices]
    made.culprits += [mark.row for mark in sorted(at_fault, key=lambda mark: mark.is_callback)]
    made.culprits += finder_rows(made, rows, told, recording, at_fault)
    mark_stage(made, told, lines)


def finder_rows(made, rows, told, recording, at_fault):
    """The device whose test found the event, with a tie from the event to the place where its callback would have begun."""
    found = next((match[1] for sentence in told.sentences if (match := FOUND.search(sentence))), None)
    device = next((device for device in recording.devices if device.line is not None and device.shown == found), None)
    event = next((mark for mark in at_fault if not mark.is_callback), None)
    if device is None or event is None:
        return []
    down = [stage for stage in made.stages if stage.kind in ("suspend", "late", "noirq") and stage.first < event.first]
    if down:
        at = min(down[-1].end, max(event.begin, *(mark.end for mark in at_fault))) if at_fault else event.begin
        made.ties.append(Tie("found", event.row, event.begin, rows.of(device), at, f"the test before {device.shown} found the event", event.first, event.first))
    return [rows.of(device)]


def mark_stage(made, told, lines):
    """Tells the stage that an event or an error stopped. Without a line for it, it is the last one on the way down."""
    way_down = []
    for stage in made.stages:
        if stage.kind in UP or stage.name in ("thaw_processes", "resume_console"):
            break
        way_down.append(stage)
    inside = [stage for stage in way_down if any(stage.first <= line <= stage.last for line in lines)]
    chosen = (inside or [stage for stage in way_down if stage.name != "suspend_enter"])[-1:]
    for stage in chosen:
        stage.answer = stage.answer or ("event" if lines and not told.faults else told.answer or "failed")


def add_broken(page, rows, broken, recording):
    """Marks a pair whose order was broken: what went on too early, and what had to come first."""
    for made in page.attempts:
        marks = {line: mark for mark in made.marks for line in (mark.last, mark.first)}
        early = marks.get(broken.line)
        if early is None:
            continue
        made.tone = Tone.BAD
        made.causes = [f"Not legal, {broken.words}.", *made.causes]
        made.answer = f"not legal; {made.answer}".removesuffix("; ")
        early.answer = early.answer or "too early"
        first = marks.get(broken.first_line)
        if first is None:
            made.culprits.insert(0, early.row)
        else:
            made.ties.append(Tie("broken", first.row, first.end, early.row, early.begin, broken.words, broken.first_line, broken.line))
