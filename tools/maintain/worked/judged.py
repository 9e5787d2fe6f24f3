"""Worked logs, broken ones and broken copies of worked ones, as cases of `check`.

A worked log is legal, and a stuck one breaks the rule of ends alone. What a copy of tools/worked/copies.txt breaks stands
there beside it. What a log of tools/worked/broken breaks is said by the second writing.
"""

import json
from dataclasses import dataclass

from julampok.errors import CannotError
from julampok.second.judge import END, judged
from maintain.places import WORKED
from maintain.worked.case import judged_case
from maintain.worked.logs import machine_of, text_of
from maintain.worked.refuted import REFUTED
from maintain.worked.table import LOGS

COPIES = WORKED / "copies.txt"
BARE = {"devices": [], "sources": [], "notifiers": [], "actors": []}


@dataclass(frozen=True)
class Copy:
    """A copy of a worked log that is broken at one line, and the verdict on it."""

    log: str
    line: int
    change: str
    verdict: tuple

    @classmethod
    def read(cls, row):
        """The copy of a line of the table. Raises CannotError."""
        try:
            log, line, change, bad, rule = row.split(" | ")
            return cls(log, int(line), change, (int(bad), int(rule)))
        except ValueError:
            raise CannotError(f"no copy: {row}", COPIES) from None

    def text(self):
        """Its text."""
        lines, at = text_of(WORKED / f"{self.log}.log").splitlines(keepends=True), self.line - 1
        match self.change:
            case "left out":
                del lines[at]
            case "doubled":
                lines.insert(at, lines[at])
            case "exchanged":
                lines[at], lines[at + 1] = lines[at + 1], lines[at]
            case said:
                lines[at] = f"{said}\n"
        return "".join(lines)


def rows_of(path):
    """The lines of a table, without its comments."""
    return [line for line in text_of(path).splitlines() if line and not line.startswith("#")]


def copies():
    """The broken copies of the table."""
    return [Copy.read(row) for row in rows_of(COPIES)]


def verdict_of(name, text):
    """What the second writing says of a log of a worked machine."""
    return judged(BARE | machine_of(name), text)


def case_of(name, text, verdict):
    """The case of a log of a worked machine."""
    return judged_case(json.dumps(machine_of(name), separators=(",", ":")).encode(), text.encode(), verdict)


def worked_verdict(text):
    """None for a log that is finished, else the first line that says who waits, by the rule of ends."""
    stuck = next((at for at, line in enumerate(text.splitlines(), 1) if line.startswith("stuck ")), None)
    return stuck and (stuck, END)


def cases():
    """A case for each worked log, each broken one and each broken copy."""
    for _, name, _ in LOGS:
        text = text_of(WORKED / f"{name}.log")
        yield case_of(name, text, worked_verdict(text))
    for name, machine, *_ in REFUTED:
        text = text_of(WORKED / "broken" / f"{name}.log")
        yield case_of(machine, text, verdict_of(machine, text))
    for copy in copies():
        yield case_of(copy.log, copy.text(), copy.verdict)
