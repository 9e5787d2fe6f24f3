"""Random inputs of the command `locks`, and some at the ends of what it takes.

Some are hostile: without a last newline, with empty lines, with bytes that are no text, too long.
"""

import random

from julampok.limits import MOST_INPUT
from julampok.second.locks import run
from maintain.trials.programs import answer

# As long as an input may be, and one byte longer; as full as a source may be, by writes and by an expiry, and one entry fuller.
LONGEST = b"inactive\n" * 4 + b"active\n" * ((MOST_INPUT - 36) // 7)
EDGES = [
    b"",
    b"\0",
    b"\n" * MOST_INPUT,
    b"\n" * (MOST_INPUT + 1),
    LONGEST,
    LONGEST + b"\n",
    b"lock a\n" * 59_996 + b"after 1\nactive\n",
    b"lock a\n" * 59_997,
    b"lock a 1\n" * 59_995 + b"after 1\nactive\n",
    b"lock a 1\n" * 59_996 + b"after 1\nactive\n",
    b"unlock a\nlock a\n" + b"unlock a\n" * 59_996,
]
HOSTILE = [b"", b"lock", b"after 0", b"after 01", b"active ", b"\0", b"lock \xff", b"unlocks a", b"after 86400001"]
LONG_NAMES = [b"x" * 32, b"x" * 33]
TAILS = [b"", b"", b" 1", b"  1500000", b" 0", b" 86400000000001", b" 9" * 11, b" " + b"0" * 20, b" 1 ", b" -1"]


def text(draw):
    """A name, mostly with nothing or a timeout behind it."""
    name = draw.choice([b"a", b"b", b"wifi", *LONG_NAMES, b"n%d" % draw.randrange(120), b"A", b"", b"a\0"])
    return name + draw.choice([*TAILS, b" %d" % draw.randrange(10**8)])


def line(draw):
    """A line that has a form."""
    way = draw.randrange(12)
    if way < 5:
        return b"lock " + text(draw)
    if way < 7:
        return b"unlock " + text(draw)
    if way < 9:
        return b"after %d" % draw.choice([1, 2, 3, 50, draw.randrange(1, 200)])
    return draw.choice([b"active", b"inactive"])


def input_of(draw):
    """Up to 59 lines, now and then with one of no form, or behind two hundred locks."""
    lines = [line(draw) for _ in range(draw.randrange(60))]
    if draw.randrange(6) == 0:
        lines.insert(draw.randrange(len(lines) + 1), draw.choice(HOSTILE))
    if draw.randrange(8) == 0:
        lines = [b"lock n%d" % draw.randrange(300) for _ in range(200)] + lines
    return b"\n".join(lines) + (b"\n" if draw.randrange(4) else b"")


def inputs(given):
    """The ends, and then random inputs."""
    yield from EDGES
    draw = random.Random(given.seed)
    yield from (input_of(draw) for _ in range(given.count))


def expected(data, given):
    """How the command has to end, by the second writing."""
    return run(data)


def told(data, given):
    """How the program's command ends."""
    return answer(given.program, ["locks"], data)


def label(data, wanted, given):
    """How an input ends."""
    return {0: "are answered", 3: "are refused", 7: "fill a source"}[wanted[0]]
