"""Runs whose logs are too long to be kept, as cases of `run`; a row has their checksums.

Two logs are made of their lines, which are the same over and over; the others are those of the second writing. A machine that
`gen` writes is run, too: of its log the number of lines is known.
"""

from maintain.trials.files import expected
from maintain.worked.case import Case
from maintain.worked.runs import RUN
from maintain.worked.tellings import SOAKED

STILL = "source autosleep 0 0 0 0 0 0 0\nfinished\n"

# Thirty thousand calls that end no event: each takes one place of the two that it could take.
RELAXED = (
    '{"version": 1, "sources": ["a"], "actors": [{"name": "w", "kind": "user", "repeat": 2, "script": ['
    '{"op": "relax", "source": "a", "times": 15000}]}]}')
RELAXED_LOG = "0 0/0/0 task:w relax a\n" * 30_000 + "0 0/0/0 task:w exit\nsource a 0 0 0 0 0 0 0\n" + STILL

# A task that saves a count and reports 65,536 events, which 16 bits do not count: the script but its last operation.
COUNT = 16_384
EVENTS = (
    '{"version": 1, "sources": ["a", "b", "c", "d"], "actors": [{"name": "w", "kind": "user", "script": [{"op": "read"}, {"op": "save"}, '
    + "".join(f'{{"op": "event", "source": "{source}", "times": {COUNT}}}, ' for source in "abcd"))

# The last operation and what it makes. They are an attempt under the count that was saved before the events, which is given up,
# and a save of their number, which is answered.
LAST = [
    ('{"op": "state", "text": "mem"}', [
        "attempt 1 guarded 0", "freeze user", "froze user 0", "freeze kernel", "froze kernel 0", "platform begin 0", "done prepare 0",
        "done suspend 0", "platform prepare 0", "done late 0", "done noirq 0", "platform prepare_late 0", "irqs off",
        "syscore check EBUSY", "irqs on", "platform wake", "done resume_noirq 0", "done early 0", "platform finish", "done resume 0",
        "done complete 0", "platform end", "clear", "thaw all", "over 1 EBUSY"]),
    ('{"op": "save", "count": 65536}', ["save 65536 ok"]),
]

# An interrupt that makes enough events to make the log worth its slices, and the most attempts that a file may ask for: 2,000, each
# counted as 50 and no device.
MANY_EVENTS = b'{"version":1,"sources":["lid"],"actors":[{"name":"k","kind":"irq","script":[{"op":"event","source":"lid","times":6000}]}]}'
MOST_ATTEMPTS = b'{"version":1,"actors":[{"name":"w","kind":"user","script":[{"op":"state","text":"mem","times":2000}]}]}'


def summed(file, out, words=RUN):
    """A run that ends well, of whose log the checksum is told."""
    return Case(words, ((file, 1),), 0, out, end="sums")


def events_log(made):
    """The log of the events, after which the last operation makes that."""
    word = "0/65536/0"
    yield "0 0/0/0 task:w read 0\n0 0/0/0 task:w save 0 ok\n"
    for n in range(4 * COUNT):
        source = "abcd"[n // COUNT]
        yield f"0 0/{n}/0 task:w event {source} 0 soft\n0 0/{n}/0 task:w start {source}\n0 1/{n}/0 task:w finish {source}\n"
    yield from (f"0 {word} task:w {each}\n" for each in [*made, "exit"])
    yield from (f"source {source} {COUNT} {COUNT} 0 0 0 0 0\n" for source in "abcd")
    yield STILL


def repeated():
    """Calls that could fill a source and make no step; events after which 16 bits would show the saved count again."""
    yield summed(RELAXED.encode(), RELAXED_LOG.encode())
    for operation, made in LAST:
        yield summed(f"{EVENTS}{operation}]}}]}}".encode(), "".join(events_log(made)).encode())


def cases():
    """All of them. One worker and three write the same log of one interrupt, also if its text is made in slices."""
    yield from repeated()
    yield summed(MOST_ATTEMPTS, expected(MOST_ATTEMPTS)[1])
    log = expected(MANY_EVENTS)[1]
    for count in "13":
        yield summed(MANY_EVENTS, log, ("run", "--workers", count))
    entries = dict(SOAKED)["soak 7 20"]
    yield Case(("gen", "7", "20"), (), 0, b"finished\n", end="rerun", counts=(entries + 5,))
