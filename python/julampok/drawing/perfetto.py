"""Writes the form of a page as Trace Event JSON, the format of Perfetto.

Times are those of the recording, in microseconds. A phase of devices takes no time in a log, so each of its entries takes one
microsecond: it stands at its time in the log, or one microsecond after the entry before it, whichever is later.

A group of tracks is a parent with a track for itself and for each device directly below it. Whatever is no device stands in
groups before and behind them.
"""

import json

from .model import Sort, Unit

STAGES = "attempts"
NO_PARENT = "devices without a parent"
OTHERS = {Sort.SOURCE: "wakeup sources", Sort.ATTEMPT: STAGES, Sort.TASK: "tasks and interrupt lines", Sort.NOTIFIER: "notifiers",
          Sort.PROCESSOR: "processors", Sort.CORE: "syscore steps"}
FLOWS = {"found": "is found", "woke": "wakes", "stale": "makes stale", "waits": "is waited for", "left": "does not freeze",
         "broken": "had to come first"}


class Tracks:
    """The tracks: each has the number of its group, and one of its own."""

    def __init__(self, page):
        self.page, self.events, self.groups, self.numbers = page, [], {}, {}
        self.parents = self.parents_with_names()
        self.of_attempts = self.track(STAGES, "stages")

    def tell(self, group, number, what, **args):
        self.events.append({"ph": "M", "pid": group, "tid": number, "ts": 0, "name": what, "args": args})

    def track(self, group, name):
        """A new track of a group, which begins with its first one."""
        if group not in self.groups:
            self.groups[group] = len(self.groups) + 1
            self.tell(self.groups[group], 0, "process_name", name=group)
            self.tell(self.groups[group], 0, "process_sort_index", sort_index=self.groups[group])
        number = len(self.numbers) + 1
        self.numbers[number] = group
        self.tell(self.groups[group], number, "thread_name", name=name)
        self.tell(self.groups[group], number, "thread_sort_index", sort_index=number)
        return self.groups[group], number

    def group_of(self, number):
        """The group of a row: a parent's own one, that of its parent, or that of its sort."""
        row = self.page.rows[number]
        if row.sort is not Sort.DEVICE:
            return OTHERS[row.sort]
        above = number if number in self.parents else row.parent
        return NO_PARENT if above is None else self.parents[above]

    def parents_with_names(self):
        """Each row that is a parent, with its group's name: numbered where an earlier parent has that name."""
        found, counts = {}, {}
        for number in sorted({row.parent for row in self.page.rows if row.parent is not None}):
            name = shown(self.page.rows[number])
            counts[name] = counts.get(name, 0) + 1
            found[number] = name if counts[name] == 1 else f"{name} #{counts[name]}"
        return found


def shown(row):
    """A row with its driver, if it has one."""
    return f"{row.name} ({row.about})" if row.about else row.name


class Writer:
    """Writes the events of a page."""

    def __init__(self, page):
        self.page, self.tracks = page, Tracks(page)
        self.slices, self.flows = [], []
        marked = {mark.row for attempt in page.attempts for mark in attempt.marks}
        self.of_row = {number: self.tracks.track(self.tracks.group_of(number), shown(page.rows[number])) for number in self.in_groups(marked)}
        for attempt in page.attempts:
            self.add_stages(attempt)
            self.add_marks(attempt)
            self.add_flows(attempt)

    def in_groups(self, marked):
        """The marked rows: what is no device, then each parent and what is directly below it."""
        first = [number for number in sorted(marked) if self.page.rows[number].sort is Sort.SOURCE]
        devices = [number for number in sorted(marked) if self.page.rows[number].sort is Sort.DEVICE]
        rest = [number for number in sorted(marked) if self.page.rows[number].sort not in (Sort.SOURCE, Sort.DEVICE)]
        return first + devices + rest

    def at(self, time):
        """When something begins, in microseconds."""
        if self.page.unit is Unit.TIME or not self.page.moments:
            return time
        return self.page.moments[min(max(time - 1, 0), len(self.page.moments) - 1)]

    def until(self, time, is_span=False):
        """When something ends. In a log a span ends where its last line stands, and all else with its last line."""
        if self.page.unit is Unit.TIME or not self.page.moments:
            return time
        return self.at(time) if is_span and time <= len(self.page.moments) else self.at(time - 1) + 1

    def slice(self, track, name, start, end, **args):
        group, number = track
        self.slices.append({"ph": "X", "pid": group, "tid": number, "ts": start, "dur": max(0, end - start), "name": name, "args": args})

    def add_stages(self, attempt):
        """The attempt, and in it its stages."""
        if attempt.number is None:
            return
        spans = [(stage.begin, stage.end) for stage in attempt.stages] or [(attempt.begin, attempt.end)]
        first, last = min(begin for begin, _ in spans), max(end for _, end in spans)
        lines = f"{attempt.first} to {attempt.last}"
        self.slice(self.tracks.of_attempts, f"attempt {attempt.number}: {attempt.answer}", self.at(first), self.until(last), lines=lines)
        for stage in attempt.stages:
            name = stage.name + (f": {stage.answer}" if stage.answer else "")
            self.slice(self.tracks.of_attempts, name, self.at(stage.begin), self.until(stage.end), line=stage.first)

    def add_marks(self, attempt):
        for mark in attempt.marks:
            name = mark.kind if mark.is_callback else mark.words or mark.kind
            args = {"line": mark.first} | ({"task": mark.who} if mark.who else {}) | ({"answer": mark.answer} if mark.answer else {})
            name += f": {mark.answer}" if mark.answer and mark.is_callback else ""
            self.slice(self.of_row[mark.row], name, self.at(mark.begin), self.until(mark.end, mark.is_span), **args)

    def add_flows(self, attempt):
        """An arrow from who made another wait, or from an event, to whom it concerned, where both have a slice."""
        ends = {}
        for mark in attempt.marks:
            ends.setdefault((mark.row, mark.first), self.at(mark.begin))
            ends.setdefault((mark.row, mark.last), max(self.at(mark.begin), self.until(mark.end) - 1))
        for tie in attempt.ties:
            both = (("s", tie.source, tie.first), ("f", tie.target, tie.last))
            if tie.kind not in FLOWS or not all((row, line) in ends for _, row, line in both):
                continue
            number = len(self.flows) // 2 + 1
            for kind, row, line in both:
                group, track = self.of_row[row]
                event = {"ph": kind, "id": number, "pid": group, "tid": track, "ts": ends[row, line], "name": FLOWS[tie.kind], "cat": "join"}
                self.flows.append(event | ({"bp": "e"} if kind == "f" else {}))

    def events(self):
        """All events; of slices that begin together the longer one first, so that each lies within that before it."""
        slices = sorted(self.slices, key=lambda event: (event["ts"], -event["dur"]))
        return self.tracks.events + slices + self.flows


def perfetto(page):
    """The JSON of a page's form; without events where it has no attempt."""
    events = Writer(page).events() if page.attempts else []
    lines = ",\n".join(json.dumps(event) for event in events)
    told = json.dumps({"title": page.title, "verdict": page.headline, "stop": page.stop, "about": page.about})
    return f'{{"displayTimeUnit": "ms", "otherData": {told}, "traceEvents": [\n{lines}\n]}}\n'
