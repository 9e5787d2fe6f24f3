"""Logs of suspend-to-idle: random legal ones and changed copies, and those that the program's workers write."""

import functools
import random
from dataclasses import dataclass

from julampok.second.idle import Broken, Session, judge, line_of, text_by_rounds
from maintain.trials.programs import answer
from maintain.trials.subject import whole


@dataclass(frozen=True)
class Log:
    """A text, of how many wakers, events and sessions it is, and whether it is made to be a log."""

    text: str
    sizes: tuple
    is_log: bool


def random_log(rng, sizes):
    """The text that random legal steps make."""
    session, lines = Session(*sizes), []
    while session.end() is None:
        step = rng.choice(list(session.legal_steps()))
        lines.append(line_of(session, *step))
        session.make(*step)
    return "\n".join([*lines, session.end()]) + "\n"


def changed_copy(rng, text):
    """The text with one line changed, left out or doubled, or with another end."""
    lines = text.rstrip("\n").split("\n")
    place, other, change = rng.randrange(len(lines)), rng.choice(lines), rng.randrange(4)
    if change == 0:
        lines[place] = other
    elif change == 1:
        del lines[place]
    elif change == 2:
        lines.insert(place, other)
    else:
        lines[-1] = "end idle" if lines[-1] == "end over" else "end over"
    return "\n".join(lines) + "\n"


def why_refused(text, sizes):
    """What is wrong with a text, or None where it is a whole log."""
    try:
        judge(text, *sizes)
    except Broken as broken:
        return str(broken) or "it is broken"
    return None


def logs(given):
    """Random logs, each with a changed copy where the change left something else."""
    rng = random.Random(given.seed)
    for _ in range(given.count):
        sizes = rng.randint(1, 4), rng.randint(1, 6), rng.randint(1, 4)
        text = random_log(rng, sizes)
        yield Log(text, sizes, True)
        copy = changed_copy(rng, text)
        if copy != text:
            yield Log(copy, sizes, False)


def wanted(log, given):
    """Nothing is wrong with a log; of a changed copy either is right, so it is only counted."""
    return None


def judged(log, given):
    """What is wrong with a text that is made to be a log."""
    return why_refused(log.text, log.sizes) if log.is_log else None


def label(log, wanted, given):
    """Whether a text is a log, or a copy that is refused."""
    if log.is_log:
        return "are logs"
    return "are changed copies that are refused" if why_refused(log.text, log.sizes) else "are changed copies that are logs"


# ---- logs of the program


def add_sizes(parser):
    """How large the runs are."""
    for name, count in (("wakers", 8), ("events", 100), ("sessions", 50), ("workers", 4)):
        parser.add_argument(f"--{name}", type=whole, default=count, help="of each run (default: %(default)s)")


def sizes_of(given):
    """The wakers, events and sessions of a run."""
    return given.wakers, given.events, given.sessions


def runs(given):
    """The text of each run of the program by several workers, or its status where that is not 0."""
    words = ["idle", *map(str, sizes_of(given)), "--workers", str(given.workers)]
    for _ in range(given.count):
        status, text, said = answer(given.program, words, b"")
        told = text if status == 0 else b"status %d\n" % status + said
        yield told.decode("utf-8", "backslashreplace")


def run_judged(text, given):
    """What is wrong with the text of a run."""
    return why_refused(text, sizes_of(given))


@functools.cache
def text_alone(*sizes):
    """The text that one worker writes."""
    return text_by_rounds(*sizes)


def run_label(text, wanted, given):
    """Whether the workers raced."""
    return "as one worker writes them" if text == text_alone(*sizes_of(given)) else "in another order"
