"""Runs by many workers: each log has to be one that the machine may give, by the second writing of a run.

Each log of a random machine is followed line by line (`julampok.second.follow`): each line has to be what its actor makes next,
at the end nobody may be able to go on, and the statistics and the end have to be those of the lines. The large logs of the
machines of `tools/dev bench` are read by the program's own command `check`.
"""

import itertools
import json
import time
from dataclasses import dataclass

from julampok.second.follow import Follower
from julampok.second.maker import Maker
from maintain.bench import machines
from maintain.trials.programs import answer, run_by
from maintain.trials.subject import whole

STUCK, FULL = 6, 7  # The statuses of a run that is stuck, and of one whose source is full.
MANY = (2, 4, 16, 64)
BETWEEN = 25  # How many random machines follow each large one.


@dataclass(frozen=True)
class Run:
    """A run of a machine by that number of workers, and what one worker wrote."""

    tree: dict
    workers: int
    alone: tuple
    status: int
    log: str
    is_large: bool = False


def add_workers(parser):
    """By how many workers each machine is run."""
    numbers = "a number of workers, again for more (default: 2, 4, 16, 64)"
    parser.add_argument("--workers", type=whole, action="append", help=numbers)


def runs_of(tree, given, is_large=False):
    """The runs of a machine by each number of workers."""
    data = json.dumps(tree).encode()
    alone = run_by(given.program, data, 1)
    for workers in given.workers or MANY:
        yield Run(tree, workers, alone, *run_by(given.program, data, workers), is_large)


def runs(given):
    """Runs of random machines."""
    maker = Maker(given.seed)
    for _ in range(given.count):
        yield from runs_of(maker.machine(), given)


def large_machines():
    """Machines of `tools/dev bench`, some of them smaller than there."""
    timed = {"script": [{"op": "event", "source": "lid", "ms": 5, "times": 14_999}]}
    yield machines.lines(64, 3_125)
    yield machines.lines(3, 14_999)
    yield machines.tree(10, 1600, is_async=True)
    yield machines.tree(100, 300, is_async=True)
    yield machines.tree(1000, 20, is_async=True, links=4000)
    yield machines.sleepers(lambda number: 7)
    yield machines.sleepers(lambda number: 1009 + 37 * number)
    yield machines.one_source(timed)


def stress(given):
    """Runs for so many minutes: the large machines in turn, with random ones between them."""
    end, maker = time.monotonic() + 60 * given.count, Maker(given.seed)
    for tree in itertools.cycle(list(large_machines())):
        for one, is_large in [(tree, True), *((maker.machine(), False) for _ in range(BETWEEN))]:
            if time.monotonic() >= end:
                return
            yield from runs_of(one, given, is_large)


def wanted(run, given):
    """Nothing is wrong with a run."""
    return None


def refusal(tree, status, log):
    """Why the status and the log are none of that machine's, or None."""
    follower = Follower(tree)
    if not follower.accepts(log):
        return follower.why
    due = STUCK if follower.is_stuck() else 0
    return None if status == due else f"status {status}, where {due} is due"


def refusal_by_check(run, given):
    """Why the program's own checker refuses a log, or None."""
    if run.status not in (0, STUCK):
        return f"status {run.status}"
    status, out, said = answer(given.program, ["check"], json.dumps(run.tree).encode() + b"\n" + run.log.encode())
    return None if status == 0 else (out + said).decode("utf-8", "backslashreplace")


def judged(run, given):
    """Why a run is none of its machine's, or None."""
    if run.status == run.alone[0] == FULL:
        return None
    return refusal_by_check(run, given) if run.is_large else refusal(run.tree, run.status, run.log)


def show(run, given):
    """The machine and the log."""
    return f"{json.dumps(run.tree)}\n{run.log}by {run.workers} workers"


def label(run, wanted, given):
    """Whether the workers raced."""
    return "as one worker writes them" if run.log == run.alone[1] else "in another order"
