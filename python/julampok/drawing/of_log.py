"""Makes the page's form of a log: an entry is a line wide, and each entry is a mark in the row of whom it concerns."""

from .joins import ATTEMPT, lane_of
from .model import Attempt, Mark, Page, Row, Sort, Stage, Table, Tie, Tone, Unit
from .story import PHASES, stages_of
from .telling import cause_line, answer_line, undone_line, wait_line
from .words import answer_words, counted, failure_words, late_words, said, sleep_words, thing_lane, wait_words

SORTS = {
    "device": Sort.DEVICE, "source": Sort.SOURCE, "actor": Sort.TASK, "notifier": Sort.NOTIFIER,
    "processors": Sort.PROCESSOR, "core": Sort.CORE, "attempt": Sort.ATTEMPT, "time": Sort.ATTEMPT,
}
SPANS = {"making": "makes the attempt", "alone": "left alone (direct)", "on": "autosleep is on", "given": "scheduled"}
VERDICTS = {"found": "the event that a test found", "woke": "what woke the machine", "stale": "what moved the count",
            "left": "the task that did not freeze"}
STATISTICS = [
    ("active_count", "became active"), ("event_count", "events"), ("expire_count", "expired"),
    ("active_since", "active now, ms"), ("total_time", "active in all, ms"), ("max_time", "at most, ms"),
    ("last_change", "last change at, ms"),
]
HEADS = ["attempt", "lines", "made by", "guard", "answer", "failed in", "what failed", "caused by", "asleep", "errors on the way up"]
NO_MACHINE = "Whom it waited for is not known without the machine file; give it by --machine."


class Rows:
    """The rows of a log: each lane has one, the devices in their order first."""

    def __init__(self, story):
        self.story, self.rows, self.numbers = story, [], {}
        for device in story.devices.order:
            self.of(("device", device))

    def of(self, lane):
        """The number of a lane's row, which begins with its first use."""
        lane = ATTEMPT if lane[0] == "time" else lane
        if lane not in self.numbers:
            sort, name = lane
            parent = self.story.devices.parents.get(name) if sort == "device" else None
            number = None if parent is None else self.of(("device", parent))
            notes = [note for note in self.story.devices.about.get(name, "").split("; ") if note] if sort == "device" else []
            self.numbers[lane] = len(self.rows)
            self.rows.append(Row(SORTS[sort], name or "the attempt" if sort == "attempt" else name or "processors", "", number, notes))
        return self.numbers[lane]


def entry_mark(story, rows, place):
    """The mark of an entry that is no end of a callback."""
    entry = story.entries[place]
    answer = error_shown(entry)
    return Mark(rows.of(thing_lane(entry)), entry.kind, place + 1, place + 2, place + 1, place + 1, said(entry), answer, entry.actor)


def error_shown(entry):
    """The error that an entry tells of, if any."""
    found = entry["error"] or entry["answer"] or entry["prepared"] or ("EBUSY" if entry["cause"] == "pending" else "")
    return "" if found in ("0", "1") or found.isdigit() else found


def marks_of(story, rows, section, spans):
    """The marks of a section: what lasts first, then its entries and callbacks."""
    marks, begun = [], {}
    for span in spans:
        lane = thing_lane(story.entries[span.first]) if span.lane[0] == "processors" else span.lane
        lane = ("actor", "autosleep") if span.what == "on" else lane  # Beside the spans of its work, not across them.
        end = section.end if span.last is None else min(section.end, span.last)
        words = SPANS.get(span.what, span.what)
        marks.append(Mark(rows.of(lane), span.what, max(section.first, span.first) + 1, end + 1, span.first + 1,
                          end if span.last is None else span.last + 1, words, is_span=True, is_open=span.last is None))
    for place in range(section.first, section.end):
        entry = story.entries[place]
        if entry.kind == "begin":
            begun[entry["device"]] = len(marks)
            marks.append(Mark(rows.of(lane_of(entry)), entry["phase"], place + 1, place + 2, place + 1, place + 1, f"the {entry['phase']} callback",
                              who=entry.actor, is_callback=True, is_open=True))
        elif entry.kind == "end" and entry["device"] in begun:
            mark = marks[begun.pop(entry["device"])]
            mark.end, mark.last, mark.answer, mark.is_open = place + 2, place + 1, error_shown(entry), False
        else:
            marks.append(entry_mark(story, rows, place))
    return marks


def tie_of(story, rows, join):
    """The tie of a join."""
    first, last = join.tail + 1, join.head + 1
    words = wait_words(story, join) if join.what == "waits" else VERDICTS.get(join.what, "")
    words = words if join.what == "waits" else f"{words}: {join.text}".removeprefix(": ")
    source, target = (thing_lane(story.entries[at]) if lane[0] == "processors" else lane
                      for at, lane in ((join.tail, join.source), (join.head, join.target)))
    return Tie(join.what, rows.of(source), first + 1 if join.what == "waits" else first, rows.of(target), last, words, first, last)


def stage_of_log(stage, end):
    """A stage as the page has it; it goes on until the next one begins."""
    kind = next((phase for phase, name in PHASES.items() if name == stage.name), "")
    return Stage(stage.name, kind, stage.first + 1, end + 1, stage.first + 1, stage.last + 1, stage.error or "")


def culprits_of(story, rows, attempt):
    """The rows of what failed first, and of who reported the event that stopped the attempt."""
    if not attempt.failures:
        return []
    place = attempt.failures[0]
    found, event = [rows.of(thing_lane(story.entries[place]))], story.tests.found.get(place)
    if event is not None:
        reporter = story.callers.callback_of.get(event)
        found += [rows.of(("device", reporter))] if reporter else [rows.of(("actor", story.entries[event].actor))]
        found.append(rows.of(lane_of(story.entries[event])))
    if story.entries[place]["task"] is not None:
        found.append(rows.of(("actor", f"task:{story.entries[place]['task']}")))
    return list(dict.fromkeys(found))


def attempt_of(story, rows, section, spans, joins):
    """The page's form of a section."""
    attempt = section.attempt
    made = Attempt(None, Tone.PLAIN, "", section.first + 1, section.end + 1, section.first + 1, section.end)
    made.marks = marks_of(story, rows, section, spans)
    made.ties = [tie_of(story, rows, join) for join in joins]
    if not story.devices.known and story.devices.order:
        made.no_waits = NO_MACHINE
    if attempt is None:
        return made
    made.number, made.answer = attempt.number, answer_words(attempt)
    made.tone = Tone.GOOD if attempt.answer == "0" else Tone.BAD
    stages = stages_of(story.entries, attempt)
    ends = [stage.first for stage in stages[1:]] + [attempt.last + 1]
    made.stages = [stage_of_log(stage, end) for stage, end in zip(stages, ends)]
    if attempt.answer != "0":
        made.causes = [line(story, attempt) for line in (answer_line, cause_line, undone_line, wait_line)]
        made.culprits = culprits_of(story, rows, attempt)
    else:
        made.causes = [f"It was {attempt.guard}, made by {attempt.maker}; asleep {sleep_words(story, attempt)}."]
    made.notes = [f"Errors on the way up: {late_words(story, attempt)}."] if attempt.late_errors else []
    return made


def tables_of(story):
    """What each attempt answered, and what each source counted."""
    tables = []
    if story.attempts:
        rows = [[attempt.number, f"{attempt.first + 1} to {attempt.last + 1}", attempt.maker, attempt.guard, answer_words(attempt),
                 *failure_words(story, attempt), sleep_words(story, attempt), late_words(story, attempt)] for attempt in story.attempts]
        tables.append(Table("Attempts", HEADS, rows))
    heads = ["source"] + [f"{words} ({name})" for name, words in STATISTICS]
    tables.append(Table("Wakeup sources", heads, [[name, *map(str, numbers)] for name, numbers in story.log.sources.items()]))
    return tables


def end_words(log):
    """How the run ended."""
    if log.finished:
        return "The run is finished."
    waits = [f"{who} waits for " + ("the end of an event" if why == "read" else why) for who, why in log.stuck.items()]
    return f"The run is stuck: {'; '.join(waits)}."


def headline_of(story):
    """The attempts of a log in a line, with what stopped the first one that was stopped."""
    failed = [attempt for attempt in story.attempts if attempt.answer != "0"]
    count = len(story.attempts)
    if not failed:
        return "No attempt to sleep" if not count else "The machine slept" if count == 1 else f"{count} attempts to sleep: the machine slept each time"
    stage, _, cause = failure_words(story, failed[0])
    why = f" in {stage} by {cause}" if stage else ", and no entry tells why"
    words = f"({failed[0].answer}){why}"
    return f"Stopped {words}" if count == 1 else f"{count} attempts to sleep, {len(failed)} of them stopped; attempt {failed[0].number} {words}"


def moments_of(entries):
    """When each entry stands, in microseconds: at its time, but each one later than the entry before."""
    found, now = [], 0
    for entry in entries:
        now = max(now, entry.time * 1000)
        found.append(now)
        now += 1
    return found


def page_of(story, name):
    """The page's form of a log; `story` is None for an empty one."""
    title = f"Log {name}" if name != "-" else "A log"
    if story is None:
        return Page(title, [], Unit.LINES, Tone.OPEN, "The log is empty.", [], [], [], [], "log")
    rows = Rows(story)
    attempts = [attempt_of(story, rows, *parts) for parts in story.sections_with_parts()]
    time = story.entries[-1].time if story.entries else 0
    details = [end_words(story.log), f"{len(story.entries)} entries, {time} ms of the log's own time. Across goes the order of the entries, "
               "each a line wide: phases of devices take no time in a log."]
    if not story.devices.known and story.devices.order:
        details.append("Parents, and who waited for whom, are shown only with the machine file.")
    tone = Tone.BAD if any(attempt.answer != "0" for attempt in story.attempts) else Tone.GOOD if story.attempts else Tone.PLAIN
    lines = [entry.text for entry in story.entries] + story.log.ends
    return Page(title, [], Unit.LINES, tone, headline_of(story), details, rows.rows, attempts, lines, "log",
                moments=moments_of(story.entries), more=tables_of(story))
