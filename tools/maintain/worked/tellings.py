"""The other commands' cases: what was worked by hand, and links of a log by the second writing."""

import json

from julampok.second.stats_logs import expected
from maintain.places import WORKED
from maintain.worked.case import Case, many
from maintain.worked.logs import text_of
from maintain.worked.runs import SHORT, file_of, log_of

TEXT = b'{"version":1}\n'

# Inputs of `check` that hold a machine and no log, or no machine: the status and the two texts.
NO_LOGS = [
    (TEXT, 1, b"illegal line 1 definition 23\n", b""),
    (TEXT + b"0 0/0/0 auto again\n0 0/0/0 auto walk\nfinished\n", 1, b"illegal line 2 definition 23\n", b""),
    (TEXT + b"source autosleep 0 0 0 0 0 0 0\n", 1, b"illegal line 2 definition 23\n", b""),
    (b'{"version":1}', 1, b"illegal line 1 definition 23\n", b""),
    (b"", 3, b"", b"machine: rule 1: json\n"),
    (b"{}\nfinished\n", 3, b"", b"machine: rule 3: version\n"),
]

# Worked logs with another line, if any: the number of the line, what stands in its place, and what is said. A legal log; one
# without its `enter`; a save that is answered ok where an event came; a line with a number that is not its place's; a run that is
# stuck; statistics that are not the source's; and a script that has not exited.
JUDGED = [
    ("smallest_attempt", 0, b"", b"legal\n"),
    ("smallest_attempt", 17, b"", b"illegal line 17 definition 18\n"),
    ("smallest_attempt", 2, b"0 0/1/0 task:w save 0 ok\n", b"illegal line 2 definition 4\n"),
    ("event_before_save", 10, b"0 0/1/0 task:w save 0 ok\n", b"illegal line 10 definition 8\n"),
    ("stuck_read", 0, b"", b"illegal line 6 definition 20\n"),
    ("event_before_save", 13, b"source lid 1 2 0 0 0 0 0\n", b"illegal line 13 definition 22\n"),
    ("event_before_save", 12, b"", b"illegal line 14 definition 20\n"),
]

# Inputs that `stats` refuses: a machine that is none, a log that ends too early, and one whose second line is none.
NO_STATS = [
    (((b"", 1),), b"machine: rule 1: json\n"),
    (((b"{}\n", 1),), b"machine: rule 3: version\n"),
    (((b'{"version":1}', 1),), b"log: line 1\n"),
    (((TEXT, 1),), b"log: line 1\n"),
    (((TEXT + b"0 0/0/0 auto run\n0 0/0/0 auto walk\nfinished\n", 1),), b"log: line 2\n"),
    (many(b" ", 16_777_216), b"machine: rule 1: json\n"),
    (many(b" ", 16_777_217), b"machine: longer than 16777216 bytes\n"),
]

# Links of a log of two devices: one that stands already, one that would tie the other way round, one that becomes dormant, and
# one that closes a cycle.
LINKED = [
    "0 0/0/0 auto link a b 0\n0 0/0/0 auto link a b 0\n0 0/0/0 auto link b a EINVAL\n",
    "0 0/0/0 auto link a b 0\n0 0/0/0 auto link_state a b dormant 0\n",
    "0 0/0/0 auto link a b 0\n0 0/0/0 auto link b a 0\n",
]
END = "source autosleep 0 0 0 0 0 0 0\nfinished\n"

LOCKS = b"""\
lock wifi
lock gps 1500000
active
after 2
active
inactive
lock wifi 1
after 1
active
unlock nfc
lock a b
"""

LOCKED = b"""\
0
0
active gps wifi
active wifi
inactive gps
0
active
EINVAL
EINVAL
source gps 1 1 1 0 2 2 2
source wifi 1 2 1 0 3 3 3
"""

# Lines of `locks`, and what is answered: lines of each kind, a line of no form, one byte too many, and a source that is full.
NAMED = [
    (((LOCKS, 1),), 0, LOCKED, b""),
    (((b"active\nafter 0\n", 1),), 3, b"", b"locks: line 2\n"),
    (many(b"\n", 16_777_216), 3, b"", b"locks: line 1\n"),
    (many(b"\n", 16_777_217), 3, b"", b"locks: longer than 16777216 bytes\n"),
    (((b"lock a\n", 59_997),), 7, b"", b"source full: a\n"),
]

# The idler comes back from idle and its session is over; and it sleeps at the end. The option may stand anywhere behind `idle`.
IS_OVER = b"""\
0 waker:0 hard
1 idle begin
1 waker:0 wake
1 idle try ok
1 waker:0 hard
2 waker:0 wake
2 idle leave
2 idle try busy
end over
"""
IS_IDLE = b"0 waker:0 hard\n1 idle begin\n1 waker:0 wake\n1 idle try ok\nend idle\n"
IDLE = [
    ("idle 1 2 1 --workers=1", IS_OVER),
    ("idle 1 1 1 --workers=1", IS_IDLE),
    ("idle 1 2 1 --workers 1", IS_OVER),
    ("idle --workers 1 1 2 1", IS_OVER),
    ("idle 1 --workers=1 2 1", IS_OVER),
    ("idle 1 2 --workers 1 1", IS_OVER),
    ("idle --workers=1 1 1 1", IS_IDLE),
]

# Lines of runs of generated machines. The seed is taken modulo 65,521. A thousand devices, twice: the entries that four undisturbed
# attempts have are 30 and 14 a device and 6 more for each of 519 async ones in each attempt, 22 of the task and the line, 9 for
# three events with a length, and one fewer for a last one, whose end nobody waits for.
SOAKED = [
    ("soak 0 1", 198),
    ("soak 1 1", 230),
    ("soak 7 20", 1532),
    ("soak 65521 1", 198),
    ("soak 7 1000", 68_606),
    ("soak 7 1000", 68_606),
]


def changed(name, number, line):
    """A worked log, with another line in place of that one."""
    lines = log_of(name).splitlines(keepends=True)
    if number:
        lines[number - 1] = line
    return b"".join(lines)


def judged():
    """Cases of `check`, with streams that fail among them: a front of the verdict was written, or nothing."""
    for name, number, line, said in JUDGED:
        yield Case(("check",), ((file_of(name) + b"\n" + changed(name, number, line), 1),), int(said != b"legal\n"), said)
    for file, log in SHORT:
        yield Case(("check",), ((file + b"\n" + log, 1),), 0, b"legal\n")
    for data, status, out, err in NO_LOGS:
        yield Case(("check",), ((data, 1),), status, out, err)
    data = ((file_of("smallest_attempt") + b"\n" + log_of("smallest_attempt"), 1),)
    yield Case(("check",), data, 5, b"leg", b"write fault\n", (("chunk", 3), ("write fails", 2)))
    yield Case(("check",), data, 4, b"", b"read fault\n", (("read fails", 1),))


def linked(devices, log):
    """What `stats` says of a log of so many devices that are not tied, with these lines before its end."""
    tree = {"version": 1, "devices": [{"name": name} for name in devices]}
    status, out, err = expected(tree, log + END)
    return Case(("stats",), ((f"{json.dumps(tree)}\n{log}{END}".encode(), 1),), status, out.encode(), err.encode())


def many_links(count):
    """So many lines, each of another link between the first half of a thousand devices and the second."""
    for number in range(count):
        supplier = number % 500
        yield f"0 0/0/0 auto link d{supplier} d{500 + (supplier + number // 500) % 500} 0\n"


def counted():
    """Cases of `stats`: worked by hand, refused, and links of a log, of which as many may stand as are allowed and no more."""
    for name in ("failed_noirq", "two_links"):
        log, said = (text_of(WORKED / "stats" / f"{name}.{what}").encode() for what in ("in", "out"))
        yield Case(("stats",), ((log, 1),), 0, said)
    for pieces, said in NO_STATS:
        yield Case(("stats",), pieces, 3, b"", said)
    for log in LINKED:
        yield linked("ab", log)
    for count in (4000, 4001):
        yield linked([f"d{number}" for number in range(1000)], "".join(many_links(count)))
    yield Case(("stats",), ((text_of(WORKED / "stats" / "two_links.in").encode(), 1),), 5, b"", b"write fault\n", (("write fails", 1),))


def soaked():
    """Cases of `soak`, and writes of `gen` and `soak` that fail. The input is left as it was."""
    for words, entries in SOAKED:
        yield Case(tuple(words.split()), ((b"{}", 1),), 0, b"entries %d attempts 4 entered 4 aborted 0 finished\n" % entries)
    one = text_of(WORKED / "generated" / "0_1.json").encode()
    yield Case(("gen", "0", "1"), ((b"{}", 1),), 0, one)
    yield Case(("gen", "0", "1"), ((b"{}", 1),), 5, one[:200], b"write fault\n", (("chunk", 100), ("write fails", 3)))
    yield Case(("soak", "0", "1"), ((b"{}", 1),), 5, b"", b"write fault\n", (("write fails", 1),))


def cases():
    """All of them."""
    yield from judged()
    yield from counted()
    for pieces, *said in NAMED:
        yield Case(("locks",), pieces, *said)
    for words, said in IDLE:
        yield Case(tuple(words.split()), (), 0, said)
    yield from soaked()
