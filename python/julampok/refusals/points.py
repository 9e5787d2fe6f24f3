"""What an explanation is made of: sentences, each with a place in a file, and the lines that stand there."""

import dataclasses
import difflib

from ..json_text import place_at, places

WIDE = 100  # So many letters of a line are shown.
LONGEST = 60  # So many letters of a name.
MOST = 20  # So many sentences, and steps of a path, are told.


@dataclasses.dataclass
class Point:
    """A sentence on a value of a JSON text: its path, whether the member's name is meant, and a letter in it, from 0."""

    text: str
    path: tuple = ()
    is_key: bool = False
    letter: int = None


@dataclasses.dataclass
class Told:
    """An explanation: its head, and for each sentence the line, the column (from 1), and the lines to show."""

    head: str
    sentences: list  # (line or None, column or None, text, [shown lines])

    def text(self, file):
        """All of it as lines of text."""
        parts = [self.head]
        for line, column, text, shown in self.sentences:
            place = "" if line is None else f"{file}:{line}: " if column is None else f"{file}:{line}:{column}: "
            parts += [f"{place}{text}", *shown]
        return "\n".join(parts) + "\n"

    def json(self, **more):
        """All of it as a value of JSON."""
        said = [{"line": line, "column": column, "text": text} for line, column, text, _ in self.sentences]
        return {**more, "says": self.head, "points": said}


def spans_of(text, wanted):
    """Where the values of these paths stand: {path: (begin, end, begin of the member's name)}; the last of equal ones."""
    return {path: found for path, *found in places(text) if path in wanted}


def located(text, points):
    """The sentences of points with their places in a JSON text."""
    points, more = points[:MOST], len(points) - MOST
    spans = spans_of(text, {point.path for point in points})
    found = []
    for point in points:
        span = spans.get(point.path)
        if span is None:
            found.append((None, None, point.text, []))
            continue
        begin, end = place_of(text, point, span)
        line, column = place_at(text, begin)
        found.append((line, column, point.text, shown_line(text, begin, end)))
    return found + [(None, None, f"and {more:,} more", [])] * (more > 0)


def arrows(names):
    """A path by its names; of a long one its first and last."""
    names = [*names[:MOST // 2], "..", *names[-MOST // 2:]] if len(names) > MOST else names
    return " -> ".join(names)


def place_of(text, point, span):
    """The first letter of what a point is about, and the one behind it."""
    begin, end, key = span
    if point.is_key and key is not None:
        return key, text.index('"', key + 1) + 1
    if point.letter is not None:
        at = begin + 1 + point.letter
        return (at, at + 1) if at < end - 1 and "\\" not in text[begin:end] else (begin, end)
    return begin, end


def shown_line(text, begin, end):
    """The line of a place, cut to what is near, with marks below it."""
    first = text.rfind("\n", 0, begin) + 1
    last = text.find("\n", begin)
    last = len(text) if last < 0 else last
    end = max(begin + 1, min(end, last))
    front = max(first, begin - WIDE // 2) if last - first > WIDE else first
    back = min(last, front + WIDE)
    lead, tail = "…" * (front > first), "…" * (back < last)
    shown = "".join(letter if letter.isprintable() else " " for letter in text[front:back])
    number = text.count("\n", 0, begin) + 1
    mark = " " * (begin - front + len(lead)) + "^" * max(1, min(end, back) - begin)
    return [f"{number:6}  {lead}{shown}{tail}", f"        {mark}"]


# ---- words


def cut(name):
    """A name that may be of any length, as a sentence has it."""
    return name if len(name) <= LONGEST else f"{name[:LONGEST]} .."


def quoted(names, last="or"):
    """Names in a row, each in quotes: 'a', 'b' or 'c'."""
    names = [f"'{name}'" for name in names]
    return names[0] if len(names) == 1 else f"{', '.join(names[:-1])} {last} {names[-1]}"


def nearest(name, names):
    """The names that are most like one that does not exist, the nearest first; at most three."""
    lower = {}
    for one in names:
        lower.setdefault(one.lower(), one)
    found = difflib.get_close_matches(name.lower(), lower, n=3, cutoff=0.6) if isinstance(name, str) and len(name) <= 2 * LONGEST else []
    return [lower[one] for one in found]


FEW = 8  # So many names are all told where none is near.


def near_words(name, names, whole="they are"):
    """A part of a sentence that names the nearest that exists; else all, where they are few."""
    names = list(names)
    found = nearest(name, names)
    if found:
        return f"; the nearest that exists is {quoted(found)}" if len(found) == 1 else f"; the nearest that exist are {quoted(found, 'and')}"
    if not names:
        return "; there is none"
    return f"; {whole} {quoted(names, 'and')}" if len(names) <= FEW else ""


def shown(value):
    """A value as a sentence names it, cut where it is long."""
    if value is None or isinstance(value, bool):
        return {None: "null", True: "true", False: "false"}[value]
    if isinstance(value, (list, dict)):
        kind = "a list" if isinstance(value, list) else "an object"
        return f"{kind} of {len(value):,}" if value else f"an empty {kind[2:].strip()}"
    if isinstance(value, str):
        return f"the text {value[:LONGEST]!r}" + " .." * (len(value) > LONGEST)
    return f"the number {value}"


def numbered(count, word):
    """A count with its word: 1 link, 2 links."""
    return f"{count:,} {word}{'s' * (count != 1)}"
