"""Runs by several workers, as cases of `run`, `check` and `idle`.

Workers pass a gate by which their turns come in an order, and which counts the turns; its plan says what it counts. If several
orders of the log are right, the row tells how many lines there are, or what `check` says of the log.
"""

from maintain.places import WORKED
from maintain.worked.case import Case
from maintain.worked.logs import text_of
from maintain.worked.runs import file_of, log_of

# The gates, in the order of crates/trial_rows/src/plans.rt, from 1.
MACHINE_IS_HELD, TWO_MEET, THREE_MEET, NO_BURST, ONE_SCRIPT, EVENT_ENDS, AUTOSLEEP = range(1, 8)

# Which words bring jobs of the smallest attempt together: of two workers the first has the task and autosleep's work, the other
# the timer. Of three, and of the four that a run has if no number is given, each job has a worker of its own.
MEETINGS = [
    ("run --workers 2", TWO_MEET),
    ("run --workers 3", THREE_MEET),
    ("run", THREE_MEET),
    ("run --workers 1", NO_BURST),
    ("run --workers 64", ONE_SCRIPT),
]

# A task, and an interrupt that makes two calls on a source: a line for each of seven entries, and three after them.
TASK_AND_INTERRUPT = (
    b'{"version":1,"sources":["lid"],"actors":[{"name":"w","kind":"user","script":[{"op":"post","mark":"a"}]},'
    b'{"name":"k","kind":"irq","script":[{"op":"awake","source":"lid"},{"op":"relax","source":"lid"}]}]}')

# A task that reads the count, which it can once a timed event has ended, and then puts the machine to sleep, over an asynchronous
# device. Of two workers one has both scripts, autosleep's work and the device, and the other the four timers.
READER = (
    b'{"version":1,"devices":[{"name":"d","async":true}],"sources":["s","t","u"],"actors":['
    b'{"name":"k","kind":"irq","script":[{"op":"event","source":"s","ms":5}]},'
    b'{"name":"w","kind":"user","script":[{"op":"read"},{"op":"save"},{"op":"state","text":"mem"}]}]}')

# A task that sets autosleep, and waits for a mark that nobody raises.
SETTER = (
    b'{"version":1,"actors":[{"name":"w","kind":"user","script":[{"op":"autosleep","text":"mem"},{"op":"wait","mark":"never"}]}]}')

# The machine, the number of workers and their gate, the status, the number of lines and the last line.
ORDERS = [
    (TASK_AND_INTERRUPT, 5, MACHINE_IS_HELD, 0, 7 + 3, b"finished\n"),
    (READER, 2, EVENT_ENDS, 0, 63, b"finished\n"),
    (SETTER, 2, AUTOSLEEP, 6, 600, b"stuck task:w mark never\n"),
]


def meetings():
    """Two or three first turns meet at a gate, and the log is that of one worker."""
    file, log = file_of("smallest_attempt"), log_of("smallest_attempt")
    for words, gate in MEETINGS:
        yield Case(tuple(words.split()), ((file, 1),), 0, log, streams=(("gate", gate),))


def orders():
    """A report is made while another holds the machine's lock; an expiry, a device's turns, autosleep's work come in bursts."""
    for file, count, gate, status, lines, last in ORDERS:
        yield Case(("run", "--workers", f"{count}"), ((file, 1),), status, last, streams=(("gate", gate),), end="lines", counts=(lines,))


def crowds():
    """Four workers put a laptop to sleep, and their log is legal. Of eight wakers with a hundred events each they write every step."""
    laptop = text_of(WORKED / "machines" / "laptop_of_sixty_devices.json").encode()
    yield Case(("run", "--workers", "4"), ((laptop, 1),), 0, b"legal\n", end="judged")
    yield Case(("idle", "8", "--workers", "4", "100", "50"), (), 0, end="steps", counts=(800, 800))


def cases():
    """All of them."""
    yield from meetings()
    yield from orders()
    yield from crowds()
