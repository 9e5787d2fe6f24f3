"""What a lab expects of a sweep: a line a rule, 'PLACES: CLAIM'.

PLACES is a pattern with * and ? for the stage of a place or for the entry before it. CLAIM is 'found by PATTERN', 'not
found', 'within MS ms', 'sleeps', 'does not sleep', 'undone PATTERN' or 'not undone PATTERN'.
"""

from __future__ import annotations

import fnmatch
import re
from dataclasses import dataclass
from typing import Callable

from julampok.errors import CannotError

from .sweeping import UNDONE, Outcome, Place


@dataclass(slots=True, frozen=True)
class Rule:
    """A line of the file: which places it is about, what it claims, and the test of that."""

    line: int
    places: str
    claim: str
    holds: Callable[[Outcome], bool]
    needs_times: bool = False

    def is_about(self, place: Place) -> bool:
        """Whether the rule is about a place."""
        return fnmatch.fnmatchcase(place.stage, self.places) or fnmatch.fnmatchcase(place.body, self.places)


def read_rules(text: str, file: str) -> list[Rule]:
    """The rules of a file. Empty lines and lines that begin with # are none. Raises CannotError with the line."""
    rules = []
    for line, words in enumerate(text.splitlines(), 1):
        words = words.strip()
        if not words or words.startswith("#"):
            continue
        places, colon, claim = words.partition(":")
        if not colon or not places.strip() or not claim.strip():
            raise CannotError(f"no rule 'PLACES: CLAIM': {words[:80]!r}", file, line)
        rules.append(rule_of(line, places.strip(), " ".join(claim.split()), file))
    if not rules:
        raise CannotError("has no rule", file)
    return rules


def rule_of(line: int, places: str, claim: str, file: str) -> Rule:
    """The rule of a claim. Raises CannotError for a claim that is none."""
    if claim in ("sleeps", "does not sleep"):
        return Rule(line, places, claim, lambda outcome: outcome.slept == (claim == "sleeps"))
    if claim == "not found":
        return Rule(line, places, claim, lambda outcome: outcome.found_by == "nothing")
    if found := re.fullmatch(r"found by (.+)", claim):
        return Rule(line, places, claim, lambda outcome: fnmatch.fnmatchcase(outcome.found_by, found[1]))
    if found := re.fullmatch(r"within (\d{1,12}(?:\.\d{1,6})?) ms", claim):
        most = float(found[1]) * 1e6
        return Rule(line, places, claim, lambda outcome: outcome.waited is not None and outcome.waited <= most, True)
    if found := re.fullmatch(r"(not )?undone (\S.*)", claim):
        return Rule(line, places, claim, lambda outcome: is_undone(outcome, found[2]) == (found[1] is None))
    raise CannotError(f"no claim: {claim[:80]!r}; there are 'found by ..', 'not found', 'within N ms', 'sleeps', 'does not sleep', "
                      "'undone ..' and 'not undone ..'", file, line)


def is_undone(outcome: Outcome, pattern: str) -> bool:
    """Whether something of that name was undone: a device that was resumed in some phase, or an entry such as 'platform wake'."""
    names = [name for phase in UNDONE for name in outcome.undone.get(phase, ())] + outcome.undone_others
    return any(fnmatch.fnmatchcase(name, pattern) for name in names)
