"""Draws a section of a log as SVG. Across goes the order of entries, in percent, so that a picture can be stretched."""

import html
import pathlib

from . import reading
from .joins import LINKS, lane_of
from .story import error_of, phase_of, stages_of

HERE = pathlib.Path(__file__).resolve().parent
WIDTH = 1600  # For so many pixels the widths of columns are chosen.
STRETCH = 1.6  # A narrow picture is stretched so far at most.
STAGE, STEP, CALLBACK = 17, 13, 14  # Widths of an attempt's entry, of another's, and at most of a callback's.
MARGIN, RIGHT = 12, 120
NAMES = 170  # How wide the names of lanes stand beside a picture.
THIN = 0.001  # No box is narrower, in percent, since one without a width is not shown.
REPEAT = 800  # After so many pixels down the names of phases are said again.
LETTER = 5.6  # How wide a letter is.
LANE = 15
TIME_ROW, STAGE_ROW = 16, 15
SORTS = ("attempt", "notifier", "processors", "core", "device", "actor", "source")  # Lanes from above to below.
# What stands in a box that has no room for words.
LETTERS = {
    "read": "R", "read_wait": "r", "read_interrupted": "R!", "save_ok": "S", "save_wait": "s", "save_error": "S!",
    "state_wait": "w", "state_error": "W!", "state_unsaved": "W!", "autosleep_set": "A", "autosleep_done": "a",
    "autosleep_error": "A!", "sleep": "Z", "sleep_d": "Z", "slept": "z", "pass": "p", "post": ">", "got": "<",
    "frozen": "F", "exit": "X", "runtime": "P", "link": "+", "link_active": "^", "link_dormant": "v", "awake": "K",
    "relax": "k", "event": "E", "expire": "T", "start": "[", "finish": "]", "hard": "H", "auto_run": "Q",
    "auto_read": "R", "auto_saved": "S", "auto_unsaved": "S!", "auto_after": "L", "auto_again": "Q", "auto_off": "O",
}
SPAN_WORDS = {
    "frozen": "frozen", "alone": "left alone", "active": "active", "making": "the attempt", "told": "told",
    "stopped": "stopped",
}
ALWAYS = ("frozen", "active", "on", "making")  # Spans that show their lane even where it has no entry.
VERDICTS = {"found": "found", "woke": "woken by", "stale": "the count was moved by", "left": ""}


def percent(number):
    return f"{number:.4f}".rstrip("0").rstrip(".") + "%"


def sort_of(entry):
    return entry.actor.partition(":")[0]


def words_of(entry):
    """What an entry says, without the names in it."""
    form = reading.SAYS[sort_of(entry)][entry.kind]
    words = [word for word in form.split(" ") if word[0] != "<"]
    words = words[1:] if words[0] == "autosleep" and len(words) > 1 else words
    words = ["link", *words[1:]] if words[0] == "link_state" else words
    shown = (entry[field] for field in ("error", "state", "status", "answer") if entry[field] not in (None, "0"))
    return " ".join([*words, *shown])


def is_stage(entry):
    """Whether an entry is a step of an attempt that stands above the lanes of devices, or ends a phase."""
    return entry.kind in reading.ATTEMPT_STEPS and lane_of(entry)[0] != "device"


class Columns:
    """Where each entry of a section stands across."""

    def __init__(self, entries, first):
        self.first = first
        self.left = MARGIN + LETTER * len(f"{entries[0].time} ms")
        widths = [self.fixed(entry) for entry in entries]
        others = [at for at, width in enumerate(widths) if not width]
        callbacks = [at for at in others if lane_of(entries[at])[0] == "device"]
        steps = [at for at in others if lane_of(entries[at])[0] != "device"]
        room = max(WIDTH / 2, WIDTH - self.left - RIGHT - sum(widths))
        wide = [STEP / 2 + LETTER * len(words_of(entries[at])) for at in steps]
        self.has_words = sum(wide) + len(callbacks) * CALLBACK / 2 <= room
        step = min(STEP, room / (2 if callbacks else 1) / max(1, len(steps)))
        for at, width in zip(steps, wide):
            widths[at] = width if self.has_words else step
        callback = min(CALLBACK, (room - sum(widths[at] for at in steps)) / max(1, len(callbacks)))
        for at in callbacks:
            widths[at] = callback
        self.is_dense, self.is_fine = not self.has_words and step < 8, callback < 4
        self.place(widths)

    def place(self, widths):
        """Puts one column beside another."""
        stretch = max(1, min(STRETCH, (WIDTH - self.left - RIGHT) / max(1, sum(widths))))
        self.starts = [self.left]
        for width in widths:
            self.starts.append(self.starts[-1] + width * stretch)
        self.total = self.starts[-1] + RIGHT
        self.is_crowded = self.total > 1.5 * WIDTH

    @staticmethod
    def fixed(entry):
        if entry.kind == "jump":
            return 14 + LETTER * len(f"{entry.time} ms")
        return STAGE if is_stage(entry) else 0

    def x(self, place):
        """Where the column of an entry begins, in percent."""
        at = min(max(place - self.first, 0), len(self.starts) - 1)
        return 100 * self.starts[at] / self.total

    def middle(self, place):
        if place < self.first:
            return 0
        return (self.x(place) + self.x(place + 1)) / 2

    def pixels(self, share):
        """How many pixels a share of the width is, in a picture that is not zoomed."""
        return share * self.total / 100

    def share(self, pixels):
        return 100 * pixels / self.total


class Lanes:
    """The lanes of a section from above to below: where each stands, and how high it is."""

    def __init__(self, lanes, order, story, top):
        self.story, self.places, self.labels = story, {}, []
        by_sort = {sort: [lane for lane in lanes if lane[0] == sort] for sort in SORTS}
        known = {("device", device): at for at, device in enumerate(order)}
        by_sort["device"].sort(key=known.get)
        by_sort["core"].reverse()
        sources = list(story.log.sources)
        by_sort["source"].sort(key=lambda lane: sources.index(lane[1]) if lane[1] in sources else len(sources))
        devices = len(by_sort["device"])
        device_height = 13 if devices <= 24 else 11 if devices <= 40 else 9
        self.is_small = device_height < 11
        y = top
        for sort in SORTS:
            for lane in by_sort[sort]:
                height = device_height if sort == "device" else LANE
                self.places[lane] = (y, height)
                y += height
            y += 6 if by_sort[sort] and sort != "attempt" else 0
        self.bottom = y + 4

    def middle(self, lane):
        y, height = self.places[lane]
        return y + height / 2

    def name(self, lane):
        """The label of a lane, how far it is moved in, and what is told of it."""
        sort, name = lane
        if sort == "device":
            return name, 10 * min(self.story.devices.depth.get(name, 0), 6), self.story.devices.about.get(name, "")
        words = {"attempt": "attempt", "processors": "processors", "notifier": f"notifier {name}"}
        words |= {"core": f"syscore {name}", "actor": name, "source": f"source {name}"}
        return words[sort], 0, ""


class Picture:
    """The picture of one section."""

    def __init__(self, story, section, spans, joins):
        self.story, self.section, self.spans, self.joins = story, section, spans, joins
        self.entries = story.entries[section.first:section.end]
        self.columns = Columns(self.entries, section.first)
        self.stages = stages_of(story.entries, section.attempt) if section.attempt else []
        longest = max((len(self.label(stage)) for stage in self.stages), default=0)
        self.head = 14 + int(longest * LETTER * 0.72)
        self.verdicts, self.verdict_rows = self.find_verdicts()
        top = self.head + TIME_ROW + (STAGE_ROW if self.stages else 0) + STAGE_ROW * self.verdict_rows
        order = story.devices.order_at(section.attempt.first if section.attempt else section.end)
        self.lanes = Lanes(self.find_lanes(), order, story, top + 3)
        self.back, self.middle, self.between, self.front = [], [], [], []

    def find_lanes(self):
        lanes = dict.fromkeys(lane_of(entry) for entry in self.entries)
        lanes |= dict.fromkeys(span.lane for span in self.spans if span.what in ALWAYS)
        for join in self.joins:
            lanes |= {join.source: None, join.target: None}
        return [lane for lane in lanes if lane != ("time", "")]

    def find_verdicts(self):
        """What each test found, with its place and row, so that no words overlap; and how many rows there are."""
        found, ends = [], []
        for join in sorted((join for join in self.joins if join.what in VERDICTS), key=lambda join: join.head):
            line = "" if join.what == "left" else f" (line {join.tail + 1})"
            words = f"{VERDICTS[join.what]} {join.text}{line}".strip()
            x, width = self.columns.pixels(self.columns.middle(join.head)), LETTER * 1.15 * len(words)
            start = x if x + width < self.columns.total else max(0, x - width)
            row = next((row for row, end in enumerate(ends) if end < start), len(ends))
            ends[row:row + 1] = [start + width]
            found.append((join, words, self.columns.share(start), row))
        return found, len(ends)

    def label(self, stage):
        name, first, _, error = stage
        if name == "return":
            return f"return {self.section.attempt.answer}"
        return f"{name}: {error}" if error else name

    # ---- pieces of SVG

    @staticmethod
    def rect(kind, x, y, width, height, rest="", title=None):
        inner = f"<title>{html.escape(title)}</title></rect>" if title else "</rect>"
        wide = percent(max(width, THIN))
        where = f'x="{percent(x)}" y="{y:g}" width="{wide}" height="{height:g}"'
        return f'<rect class="{kind}" {where}{rest}>{inner}'

    @staticmethod
    def text(kind, x, y, words, rest=""):
        return f'<text class="{kind}" x="{percent(x)}" y="{y:g}"{rest}>{html.escape(words)}</text>'

    @staticmethod
    def line(kind, x1, y1, x2, y2, title=None):
        inner = f"<title>{html.escape(title)}</title>" if title else ""
        where = f'x1="{percent(x1)}" y1="{y1:g}" x2="{percent(x2)}" y2="{y2:g}"'
        return f'<line class="{kind}" {where}>{inner}</line>'

    # ---- what is drawn

    def drawn_lanes(self):
        self.draw_lanes()
        self.draw_stages()
        self.draw_spans()
        self.draw_entries()
        self.draw_joins()
        return "\n".join(self.back + self.middle + self.between + self.front)

    def alone(self, style):
        """The picture as one element in that style, with its names at the left."""
        wide, high = NAMES + int(self.columns.total), self.lanes.bottom
        names, lanes = "".join(self.names()), self.drawn_lanes()
        return (f'<svg xmlns="http://www.w3.org/2000/svg" viewBox="0 0 {wide} {high}" font-family="DejaVu Sans, Verdana, sans-serif">\n'
                f'{style}<rect width="100%" height="100%" fill="#fff"/>\n<svg width="{NAMES}" height="{high}">{names}</svg>\n'
                f'<svg x="{NAMES}" width="{wide - NAMES}" height="{high}">\n{lanes}\n</svg>\n</svg>\n')

    def names(self):
        yield f'<text class="name rows" x="166" y="{self.head + TIME_ROW - 4}" text-anchor="end">time</text>'
        y = self.head + TIME_ROW - 4
        if self.stages:
            y += STAGE_ROW
            yield f'<text class="name rows" x="166" y="{y}" text-anchor="end">stages</text>'
        if self.verdicts:
            yield f'<text class="name rows" x="166" y="{y + STAGE_ROW}" text-anchor="end">found by tests</text>'
        for lane, (y, height) in self.lanes.places.items():
            words, shift, about = self.lanes.name(lane)
            title = f"<title>{html.escape(words + about)}</title>"
            mark = '<tspan class="sort"> async</tspan>' if "; asynchronous" in about else ""
            yield f'<text class="name {lane[0]}" x="{4 + shift}" y="{y + height - 3.5:g}">{words}{mark}{title}</text>'

    def draw_lanes(self):
        for at, (y, height) in enumerate(self.lanes.places.values()):
            self.back.append(self.rect("lane" if at % 2 else "lane other", 0, y, 100, height))
        first = self.entries[0]
        self.front.append(self.text("moment", 0, self.head + TIME_ROW - 4, f"{first.time} ms"))

    def draw_stages(self):
        top = self.head + TIME_ROW
        devices = [place for lane, place in self.lanes.places.items() if lane[0] == "device"]
        ends = [stage.first for stage in self.stages[1:]] + [stage.last + 1 for stage in self.stages[-1:]]
        for stage, end in zip(self.stages, ends):
            name, first, last, error = stage
            x, width = self.columns.x(first), self.columns.x(last + 1) - self.columns.x(first)
            phase = phase_of(self.story.entries[first]) or "other"
            about = f"{name}, lines {first + 1} to {last + 1}"
            failed = " failed" if error or (name == "return" and self.section.attempt.answer != "0") else ""
            whole = self.columns.x(end) - x
            self.middle.append(self.rect(f"stage p-{phase}{failed}", x, top, whole, STAGE_ROW - 2, "", about))
            if devices and phase != "other":
                y, end = devices[0][0], devices[-1][0] + devices[-1][1]
                self.back.append(self.rect(f"tint p-{phase}", x, y, width, end - y))
                for again in range(int(y) + REPEAT, int(end), REPEAT):
                    if self.columns.pixels(width) > LETTER * len(name):
                        self.back.append(self.text("again", x + width / 2, again, name))
            place = percent(self.columns.x(first) + 100 * 7 / self.columns.total)
            label = f'<text class="label{failed}" transform="rotate(-45)">{html.escape(self.label(stage))}</text>'
            self.front.append(f'<svg x="{place}" y="{self.head - 2}" overflow="visible">{label}</svg>')

    def draw_spans(self):
        for span in sorted(self.spans, key=lambda span: span.first):
            if span.what == "asleep":
                self.draw_sleep(span)
            elif span.lane in self.lanes.places:
                self.draw_span(span)

    def draw_span(self, span):
        begins = span.first >= self.section.first
        x = self.columns.x(span.first) if begins else 0
        last = self.section.end if span.last is None else span.last
        end = self.columns.x(last + 1) if last < self.section.end else 100
        y, height = self.lanes.places[span.lane]
        self.back.append(self.rect(f"span {span.what}", x, y + 2, end - x, height - 4, "", self.about(span)))
        words = SPAN_WORDS.get(span.what)
        first = self.columns.pixels(self.columns.x(span.first + 1) - x) + 4 if begins else 4
        room = self.columns.pixels((self.columns.x(last) if last < self.section.end else end) - x)
        steps_within = span.what == "active" and begins and last - span.first < 4
        if words and room > first + LETTER * len(words) and not steps_within:
            self.back.append(self.text("within", x + self.columns.share(first), y + height - 4, words))

    def about(self, span):
        last = "on" if span.last is None else f"line {span.last + 1}"
        return f"{SPAN_WORDS.get(span.what) or span.what}: line {span.first + 1} to {last}"

    def draw_sleep(self, span):
        x, end = self.columns.x(span.first + 1), self.columns.x(span.last)
        top = self.head + TIME_ROW - 2
        slept = self.story.entries[span.last].time - self.story.entries[span.first].time
        self.back.append(self.rect("night", x, top, end - x, self.lanes.bottom - top, "", f"asleep for {slept} ms"))
        self.front.append(self.text("asleep", (x + end) / 2, top + TIME_ROW - 1 + 2, "asleep"))

    def draw_entries(self):
        begun = {}
        for place, entry in enumerate(self.entries, self.section.first):
            if entry.kind == "begin":
                begun[entry.actor, entry["device"]] = place
            elif entry.kind == "end" and (entry.actor, entry["device"]) in begun:
                self.draw_bar(begun.pop((entry.actor, entry["device"])), place)
            elif entry.kind == "jump":
                self.draw_jump(place, entry)
            else:
                self.draw_mark(place, entry)
        for place in begun.values():
            self.draw_mark(place, self.story.entries[place])

    def draw_bar(self, first, last):
        """A callback, from its begin to its end."""
        begin, end = self.story.entries[first], self.story.entries[last]
        y, height = self.lanes.places[lane_of(begin)]
        x, over = self.columns.x(first), self.columns.x(last + 1)
        failed = " failed" if end["answer"] != "0" else ""
        rest = f' data-n="{begin.line} {end.line}"'
        kind = f"bar p-{begin['phase']}{failed}"
        self.middle.append(self.rect(kind, x, y + 1.5, over - x, height - 3, rest, f"{begin.text}\n{end.text}"))
        if failed:
            self.front.append(self.text("error", over, y + height - 3, f"\u00a0{end['answer']}"))

    def draw_jump(self, place, entry):
        top, x = self.head, self.columns.middle(place)
        width = self.columns.x(place + 1) - self.columns.x(place)
        rest = f' data-n="{entry.line}"'
        self.back.append(self.line("jump", x, top + TIME_ROW - 2, x, self.lanes.bottom))
        self.middle.append(self.rect("moment", self.columns.x(place), top, width, TIME_ROW - 3, rest, entry.text))
        self.front.append(self.text("moment middle", x, top + TIME_ROW - 5, f"{entry.time} ms"))

    def draw_mark(self, place, entry):
        """An entry that is no callback: a box in its lane."""
        y, height = self.lanes.places[lane_of(entry)]
        x, over = self.columns.x(place), self.columns.x(place + 1)
        kind, words = self.look(entry)
        rest = f' data-n="{entry.line}"'
        self.middle.append(self.rect(kind, x, y + 2, over - x, height - 4, rest, entry.text))
        failed = "bad" in kind
        if words and lane_of(entry)[0] == "device" and len(words) > 1:
            self.front.append(self.text("error" if failed else "within", over, y + height - 3, f"\u00a0{words}"))
        elif words:
            shown = "letter white" if failed else "letter"
            self.front.append(self.text(shown, (x + over) / 2, y + height - 4.5, words))

    def look(self, entry):
        """How the box of an entry looks, and what stands in it, or beside it in the lane of a device."""
        kind, failed = entry.kind, error_of(entry) or entry["error"]
        if kind == "skip":
            words = {"pending": "pending", "direct": "", "error": "\u00d7"}[entry["cause"]]
            return f"mark skip-{entry['cause']}" + (" bad" if entry["cause"] == "pending" else ""), words
        if kind in ("prepare", "complete", "schedule"):
            prepared = entry["prepared"] or "0"
            words = "" if prepared == "0" or (prepared == "1" and self.columns.is_dense) else prepared
            return f"mark {kind}" + (f" p-{kind}" if kind != "schedule" else "") + (" bad" if failed else ""), words
        if is_stage(entry):
            answer = failed or (entry["answer"] not in (None, "0"))
            return "mark" + (" bad" if answer else ""), entry["cpu"] or ("!" if answer else "")
        answer = failed or entry["answer"] not in (None, "0") or kind in ("state_unsaved", "auto_unsaved")
        words = words_of(entry) if self.columns.has_words else LETTERS[kind]
        return f"mark {kind}" + (" bad" if answer else ""), words

    def draw_joins(self):
        for join in self.joins:
            if self.story.entries[join.head].kind in LINKS:
                self.draw_asker(join)
            x1, x2 = self.columns.middle(join.tail), self.columns.middle(join.head)
            y1, y2 = self.lanes.middle(join.source), self.lanes.middle(join.target)
            if join.what in VERDICTS:  # From the edge of one box to the edge of the other.
                up = 1 if y1 > y2 else -1
                y1 -= up * (self.lanes.places[join.source][1] / 2 - 2)
                y2 += up * (self.lanes.places[join.target][1] / 2 - 2)
            place = f"line {join.head + 1}"
            place = place if join.tail == join.head else f"line {join.tail + 1} to {place}"
            self.between.append(self.line(f"join {join.what}", x1, y1, x2, y2, f"{join.text}: {place}"))
        for join, words, x, row in self.verdicts:
            y = self.head + TIME_ROW + (STAGE_ROW if self.stages else 0) + STAGE_ROW * (row + 1) - 4
            at, target = self.columns.middle(join.head), self.lanes.places[join.target][0]
            self.back.append(self.line("drop", at, y, at, target + 2))
            self.front.append(self.text("verdict", x, y, words))

    def draw_asker(self, join):
        """A line from the task that asks for a link to the nearer one of its devices."""
        entry, x = self.story.entries[join.head], self.columns.middle(join.head)
        y = max(self.lanes.middle(join.source), self.lanes.middle(join.target))
        title = f"{entry.actor} asks: line {entry.line}"
        self.between.append(self.line("join calls", x, self.lanes.middle(lane_of(entry)), x, y, title))


def picture_of(number):
    """What draws the picture of that attempt of a log alone, as SVG; of a log without it, None."""

    def drawn(story):
        parts = [] if story is None else story.sections_with_parts()
        of = next((part for part in parts if part[0].attempt and part[0].attempt.number == number), None)
        if of is None:
            return None
        style = f"<style>\n{(HERE / 'picture.css').read_text()}</style>\n"
        return Picture(story, *of).alone(style + (HERE / "patterns.svg").read_text())

    return drawn
