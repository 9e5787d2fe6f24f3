"""Runs of machines, as cases of `run`: by the worked logs, and of other machines by the second writing.

Reads and writes that fail at each call, sources that fill up, and words of no form stand here too.
"""

import json

from maintain.places import WORKED
from maintain.trials.files import expected
from maintain.worked.case import Case, many
from maintain.worked.logs import machine_of, text_of
from maintain.worked.table import LOGS

RUN = ("run", "--workers", "1")

USAGE = (b"usage: run [--workers N] or gen SEED DEVICES or soak SEED DEVICES or check or idle WAKERS EVENTS SESSIONS [--workers N] "
         b"or locks or stats\n")

# Machines of which no worked log is kept, each with its log: a file of version 2 with nothing else, and a save of a number that
# the visible count never has.
SHORT = [
    (b'{"version":2}', b"source autosleep 0 0 0 0 0 0 0\nfinished\n"),
    (b'{"version": 1, "actors": [{"name": "w", "kind": "user", "script": [{"op": "save", "count": 16777216}]}]}',
     b"0 0/0/0 task:w save 16777216 EINVAL\n0 0/0/0 task:w exit\nsource autosleep 0 0 0 0 0 0 0\nfinished\n"),
]

# Machines of which a source is full, and that source: 20,000 events of it; an interrupt line that calls on two sources over and
# over, and fills the second; 15,000 writes to autosleep, each of which makes two calls on the last source.
FULL = [
    (b'{"version": 1, "sources": ["a"], "actors": [{"name": "w", "kind": "user", "script": [{"op": "event", "source": "a", "times": 20000}]}]}',
     b"a"),
    (b'{"version": 1, "sources": ["lid", "lan"], "actors": [{"name": "k", "kind": "irq", "repeat": 1000, "script": ['
     b'{"op": "event", "source": "lid"}, {"op": "event", "source": "lan", "times": 10}, '
     b'{"op": "event", "source": "lan", "hard": true, "times": 10}]}]}', b"lan"),
    (b'{"version": 1, "actors": [{"name": "w", "kind": "user", "script": [{"op": "autosleep", "text": "off", "times": 15000}]}]}',
     b"autosleep"),
]

# Words of no form: sizes and workers outside their ranges, words that are missing or too many, an option that stands twice or before
# the command.
OTHER_WORDS = [
    None,
    "",
    "run --workers 0",
    "run --workers 04",
    "run --workers 65",
    "run --workers 1 1",
    "fly",
    "--help",
    "gen 1 1001",
    "gen 01 1",
    "soak 1 0",
    "soak 1",
    "idle",
    "idle 1 1",
    "idle 0 1 1",
    "idle 17 1 1",
    "idle 1 1001 1",
    "idle 1 1 1001",
    "idle 1 1 1 --workers 65",
    "idle 1 1 1 --workers 4 4",
    "--workers 1 idle 1 2 1",
    "idle --workers 1 --workers 1 1 2 1",
    "idle --workers=1 1 2 1 --workers=1",
    "idle 1 2 1 --workers",
    "idle 1 2 --workers 1",
    "idle 1 2 1 --workers=65",
    "idle 1 2 1 --workers=",
]


def file_of(name):
    """The file of a worked machine, on one line."""
    return json.dumps(machine_of(name), separators=(",", ":")).encode()


def log_of(name):
    """Its log."""
    return text_of(WORKED / f"{name}.log").encode()


def run(file, status, out=b"", err=b"", streams=()):
    """A run of a machine file by one worker."""
    return Case(RUN, ((file, 1),), status, out, err, streams)


def worked():
    """The worked machines: the status is 6 where somebody waits for ever."""
    for _, name, _ in LOGS:
        log = log_of(name)
        yield run(file_of(name), 6 if b"\nstuck " in log else 0, log)
    for file, log in SHORT:
        yield run(file, 0, log)


def diamonds():
    """A hundred diamonds of devices, one below the other: a supplies b and c, and these supply the next a."""
    names = [f"{letter}{at}" for at in range(100) for letter in "abc"] + ["a100"]
    ends = [(f"{one}{at}", f"{other}{at + up}") for at in reversed(range(100))
            for one, other, up in (("b", "a", 1), ("c", "a", 1), ("a", "b", 0), ("a", "c", 0))]
    return {
        "version": 1,
        "devices": [{"name": name} for name in names],
        "links": [{"supplier": supplier, "consumer": consumer} for supplier, consumer in ends],
        "actors": [{"name": "w", "kind": "user", "script": [{"op": "state", "text": "mem"}]}],
    }


def large():
    """A laptop that its keys wake twice and its alarm once; and a hundred diamonds, whose devices keep the order of registration."""
    laptop = text_of(WORKED / "machines" / "laptop_sleeps_thrice.json")
    for file in (laptop.encode(), json.dumps(diamonds()).encode()):
        yield run(file, *expected(file))


def refused():
    """Sources that are full, a file of a byte too much, and words of no form, at which nothing is read."""
    for file, source in FULL:
        yield run(file, 7, err=b"source full: " + source + b"\n")
    yield Case(RUN, many(b" ", 16_777_217), 3, err=b"machine: longer than 16777216 bytes\n")
    for words in OTHER_WORDS:
        yield Case(None if words is None else tuple(words.split()), ((file_of("parent_and_child"), 1),), 2, err=USAGE)


def failing_reads():
    """Each read in its turn fails, where a byte or 64 come at a time; a call more than there are fails for nobody."""
    file, log = file_of("parent_and_child"), log_of("parent_and_child")
    for chunk in (1, 64):
        calls = -(-len(file) // chunk) + 1
        for call in range(1, len(file) // chunk + 3):
            streams = (("chunk", chunk), ("read fails", call))
            yield run(file, 4, err=b"read fault\n", streams=streams) if call <= calls else run(file, 0, log, streams=streams)


def failing_writes():
    """Each write of a hundred bytes fails in its turn, and standard output is full after as many: what came before stands."""
    file, log = file_of("parent_and_child"), log_of("parent_and_child")
    for front in range(0, len(log), 100):
        yield run(file, 5, log[:front], b"write fault\n", (("chunk", 100), ("write fails", front // 100 + 1)))
    for room in (0, 100, len(log) - 1):
        yield run(file, 5, log[:room], b"write fault\n", (("write room", room),))


def failing_errors():
    """Standard error that fails changes neither the status nor the log."""
    streams = (("error fails", 1),)
    yield run(file_of("parent_and_child"), 0, log_of("parent_and_child"), streams=streams)
    yield run(b"{}", 3, streams=streams)


def cases():
    """All of them."""
    yield from worked()
    yield from large()
    yield from refused()
    yield Case(("run", "--workers=1"), ((file_of("parent_and_child"), 1),), 0, log_of("parent_and_child"))
    yield from failing_reads()
    yield from failing_writes()
    yield from failing_errors()
