"""What rt says that a try of a wrong body came to."""

import enum
import re
from dataclasses import dataclass


class Outcome(enum.Enum):
    """What a try came to. The value says which beginning of rt's text tells it; the first that fits counts."""

    BY_NAME = "refused, as it must be (only because a proof file names what the edit took away"
    BY_LIMIT = "refused, as it must be (only by a limit of the prover"
    REFUSED = "refused, as it must be"
    NOT_REFUSED = "NOT REFUSED"
    BAD = "BAD EDIT"
    NOT_TRIED = "NOT TRIED"
    UNTOLD = ""

    @property
    def is_good(self):
        """Whether the contract refuses the wrong body, as far as the prover can tell."""
        return self in (Outcome.REFUSED, Outcome.BY_LIMIT)


@dataclass(frozen=True)
class Tried:
    """A wrong body, what its try came to, and rt's text on it."""

    crate: str
    name: str
    outcome: Outcome
    said: str


# rt names a wrong body by its crate and file name, or, where its file may not stand there, by its path.
BY_LABEL = re.compile(r"rt: must-fail (?P<crate>[a-z0-9_]+)/(?P<name>[^:\s]+): (?P<said>.*)")
BY_PATH = re.compile(r"rt: (?:.*/)?crates/(?P<crate>[a-z0-9_]+)/must-fail/(?P<name>.+): (?P<said>BAD EDIT: .*)")
NOTHING_SAID = "rt said nothing of it"


def outcome_of(said):
    """What rt's text on a wrong body tells."""
    return next(outcome for outcome in Outcome if said.startswith(outcome.value))


def read_line(line):
    """What a line of rt's output tells of a wrong body, or None."""
    found = BY_LABEL.fullmatch(line) or BY_PATH.fullmatch(line)
    return found and Tried(found["crate"], found["name"], outcome_of(found["said"]), found["said"])


def tried_of(output, wanted):
    """What each wrong body came to by rt's output, in the order of wanted, and then what else it tells of.

    wanted: pairs of a crate and a file name. One of which the output says nothing, or says two things that differ, counts as
    not told.
    """
    told = {}
    for tried in filter(None, map(read_line, output.splitlines())):
        told.setdefault((tried.crate, tried.name), []).append(tried)
    results = []
    asked = set(wanted)
    for pair in [*wanted, *(pair for pair in told if pair not in asked)]:
        found = told.get(pair, [])
        if len({tried.outcome for tried in found}) == 1:
            results.append(found[-1])
        else:
            said = "; ".join(tried.said for tried in found) or NOTHING_SAID
            results.append(Tried(*pair, Outcome.UNTOLD, said))
    return results
