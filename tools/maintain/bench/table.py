"""The benches: each row a machine or an input, the words of the program, what is divided by what, and the most that it may be.

Where nothing says how large a ratio may be, there is no most. Ratios carry over from one computer to another, times do not.
"""

import functools
import itertools
import json
import pathlib
import random
import sys
from collections.abc import Callable
from dataclasses import dataclass

from julampok.errors import CannotError
from maintain.bench import copier, machines, traces
from maintain.bench.clock import LOGS, RUN, Spent, run_of

# As many attempts as a file may ask for, so that the start of the process weighs little.
ATTEMPTS = [(10, 1666), (100, 666), (1000, 95)]
GROWS = 3  # What grew with the machine or the log would show as a ratio of ten and more.


@dataclass(frozen=True, eq=False)
class Row:
    """A time, and what it is divided by: the least of some others."""

    name: str
    over: Spent
    under: tuple
    most: float = None
    note: Callable = lambda clock: ""


def against(first, rows):
    """Rows that are divided by one time; each is a name, a time and the most."""
    return [Row(name, spent, (first,), most) for name, spent, most in rows]


def against_least(spents, most):
    """Rows that are divided by the least of them all; each is a name and a time."""
    return [Row(name, spent, tuple(spents.values()), most) for name, spent in spents.items()]


def against_before(spents, most):
    """Rows that are divided by the row before; each is a name and a time."""
    before, rows = None, []
    for name, spent in spents.items():
        rows.append(Row(name, spent, (before or spent,), most))
        before = spent
    return rows


def per_entry(make, less, wanted=0):
    """The time of a run for each entry of its log, less that of another machine, which ends with that status."""
    return run_of(make, less=run_of(lambda: less(make()), wanted=wanted), each=lambda clock: clock.entries(make))


# ---- attempts


def attempt(devices, times, *words, **more):
    """The time of an entry of a run with attempts, less that of the same machine without steps."""
    return per_entry(functools.partial(machines.tree, devices, times, *words, **more), machines.without_steps)


def both(devices, times, links=0):
    """The same machine with synchronous and with asynchronous devices."""
    return {
        f"{devices} devices, {kind}": attempt(devices, times, is_async=is_async, links=links)
        for kind, is_async in (("synchronous", False), ("asynchronous", True))
    }


def attempts():
    """Entries of attempts: more devices, more attempts, more events. Each table is divided by its least row."""
    trees = {name: spent for devices, times in ATTEMPTS for name, spent in both(devices, times).items()}
    return [
        *against_least(trees, GROWS),
        *against_least({f"{name}, 4000 links": spent for name, spent in both(1000, 95, 4000).items()}, GROWS),
        *against_least({f"{times} attempts": attempt(10, times) for times in (16, 160, 1600)}, GROWS),
        *against_least({f"{times} events": attempt(10, times, "event") for times in (200, 2_000, 19_999)}, GROWS),
        *against_least({f"{devices} devices, given up": attempt(devices, times, "give-up") for devices, times in ATTEMPTS}, GROWS),
    ]


# ---- tasks and sources


def tasks():
    """Entries of tasks and wakeup sources, divided by an entry of attempts on ten devices."""
    entry = lambda make: per_entry(make, machines.refused, wanted=3)
    first = entry(functools.partial(machines.tree, 10, 1600))
    rows = [
        ("attempts", first, None),
        ("hard events", entry(machines.hard_events), GROWS),
        ("timed events", entry(machines.timed_events), GROWS),
        ("in step", entry(machines.in_step), GROWS),
        ("apart", entry(machines.apart), GROWS),
        ("one waits", entry(machines.one_waits), None),
        ("posts", entry(machines.posts), GROWS),
        ("waiters, a mark each", entry(functools.partial(machines.waiters, 255)), GROWS),
        ("waiters of one mark", entry(functools.partial(machines.waiters, 1)), GROWS),
        ("events", entry(functools.partial(machines.events, 0)), GROWS),
        ("readers", entry(functools.partial(machines.events, 254)), GROWS),
        ("a writer", entry(functools.partial(machines.writers, 1, 14_986)), GROWS),
        ("writers", entry(functools.partial(machines.writers, 254, 59)), GROWS),
    ]
    return against(first, rows)


# ---- links


def links():
    """Each link of a machine: those that move nearly all devices, those that move one, and those that a task adds."""
    rows = []
    for name, make in (("chain", machines.chain), ("wide", machines.wide), ("script", machines.scripted)):
        bare = run_of(functools.partial(make, 0))
        spents = {}
        for count in (1000, 2000, 4000):
            built = functools.partial(make, count)
            spents[f"{name}, {count} links"] = run_of(built, less=bare, each=lambda clock, built=built: machines.links_of(built()))
        rows += against_before(spents, 1.5)
    return rows


STATES_TAKEN, STATES_TIMES = 99, 1000  # How many links a task takes in turn, and how often.
STATES = {"stays": ("active", "active"), "changes": ("dormant", "active")}


def state_of(pairs, states):
    """The time of a state that a task sets, where these links stand, less that of the machine whose task does nothing."""
    make = functools.partial(machines.set_states, pairs, states, STATES_TAKEN, STATES_TIMES)
    less = run_of(functools.partial(machines.set_states, pairs, (), STATES_TAKEN, STATES_TIMES))
    return run_of(make, less=less, each=lambda clock: STATES_TAKEN * len(states) * STATES_TIMES)


def link_states():
    """Each state of a link that a task sets, where 4,000 links stand, divided by the same where 40 do."""
    rows = []
    for kind, name in itertools.product((machines.spread, machines.star), STATES):
        few, many = (state_of(kind(count), STATES[name]) for count in (40, 4000))
        # Where one device has more links, a state that changes may take longer, by their number.
        most = None if kind is machines.star and name == "changes" else 2
        row = f"{kind.__name__} {name}"
        rows += against(few, [(f"{row}, 40 links", few, most), (f"{row}, {len(kind(4000))} links", many, most)])
    return rows


# ---- logs that are read


def checked(make, less=None, each=None):
    """The time of the checker over a machine and its log."""
    return Spent(("check",), lambda clock: clock.file(make) + b"\n" + clock.log(make), less=less, each=each)


def checked_states(name):
    """The checker over each state that a task sets, less the same machine whose task does nothing, divided by that of 40 links."""
    spents = {}
    for count in (40, 400, 4000):
        make = functools.partial(machines.set_states, machines.spread(count))
        less = checked(functools.partial(make, (), STATES_TAKEN, STATES_TIMES))
        steps = STATES_TAKEN * len(STATES[name]) * STATES_TIMES
        told = checked(functools.partial(make, STATES[name], STATES_TAKEN, STATES_TIMES), less=less, each=lambda clock, steps=steps: steps)
        spents[f"state {name}, {count} links"] = told
    few = next(iter(spents.values()))
    return against(few, [(row, spent, 1.5) for row, spent in spents.items()])


def checked_links():
    """The checker over the log of a task that adds links, for each of them divided by that of half as many."""
    bare = checked(functools.partial(machines.scripted, 0))
    return against_before(
        {
            f"{count} links added": checked(functools.partial(machines.scripted, count), less=bare, each=lambda clock, count=count: count)
            for count in (1000, 2000, 4000)
        },
        1.5,
    )


def checks():
    """The checker over a machine and its log, divided by the run that wrote it; more links divided by fewer."""
    rows = [
        ("10 devices", functools.partial(machines.tree, 10, 1600), 2),
        ("1000 devices", functools.partial(machines.tree, 1000, 95), 5),
        ("1000 devices, 10000 answers", functools.partial(machines.answered, 1000, 95, 10_000), 5),
        ("in step", machines.in_step, 5),
        ("apart", machines.apart, 5),
        ("events", machines.hard_events, 5),
    ]
    told = [Row(name, checked(make), (run_of(make),), most) for name, make, most in rows]
    return told + [row for name in STATES for row in checked_states(name)] + checked_links()


STATS_ENTRIES = 2_000_000


def long_log(clock):
    """The log of 1,000 devices with 4,000 links, whose entries stand in it again."""
    make = functools.partial(machines.tree, 1000, 95, links=4000)
    found = clock.log(make).splitlines(keepends=True)
    entries = [line for line in found if line[:1].isdigit()]
    return clock.file(make) + b"\n" + b"".join((entries * 2)[:STATS_ENTRIES] + found[len(entries):])


def stats():
    """The statistics of a long log, divided by the reading alone of the same with a line of no form behind its end."""
    told = Spent(("stats",), long_log)
    read = Spent(("stats",), lambda clock: long_log(clock) + b"more\n", wanted=3)
    return [Row("2000000 entries", told, (read,), 2)]


# ---- locks


LOCK_LINES = 1_000_000


def mixed_line(draw):
    """A lock with or without a timeout, an unlock or a wait."""
    name, way = b"n%d" % draw.randrange(100), draw.randrange(10)
    if way < 3:
        return b"lock %s %d" % (name, draw.randrange(10**7))
    if way < 5:
        return b"lock " + name
    return b"unlock " + name if way < 8 else b"after %d" % draw.randrange(1, 5)


def lock_lines(kind):
    """A million lines of a kind."""
    draw, names = random.Random(1), [b"lock n%d" % number for number in range(100)]
    made = {
        "mixed": lambda: [mixed_line(draw) for _ in range(LOCK_LINES)],
        "in turn": lambda: [b"%s n%d" % ((b"lock", b"unlock")[turn % 2], turn // 2 % 100) for turn in range(LOCK_LINES)],
        "expiries": lambda: [(b"lock n%d 1000000" % (turn // 2 % 100), b"after 1")[turn % 2] for turn in range(LOCK_LINES)],
        "waits": lambda: names + [b"after 1"] * (LOCK_LINES - 100),
        "active": lambda: names[:2] + [b"active"] * (LOCK_LINES - 2),
    }
    return b"\n".join(made[kind]()) + b"\n"


def locks():
    """The command `locks` over a million lines, divided by a plain program in C that reads and writes the same lines.

    A lock is a wakeup source, which keeps each entry of its history: a million calls fill some 100 MB, whose pages take longer
    to touch for the first time than the copy takes.
    """
    rows = []
    for kind, most in (("mixed", 15), ("in turn", 15), ("expiries", 15), ("waits", 2), ("active", 3)):
        data = functools.cache(lambda clock, kind=kind: lock_lines(kind))
        rows.append(Row(kind, Spent(("locks",), data), (Spent((), data, program=copier.built),), most))
    return rows


# ---- workers


def idle():
    """Each line of suspend-to-idle with 16 wakers, divided by one with one waker."""
    spents = []
    for wakers in (1, 16):
        words = ("idle", str(wakers), "1000", "1000", "--workers", "4")
        spents.append(Spent(words, lambda clock: b"", each=lambda clock, words=words: clock.output(words, b"").count(b"\n")))
    return against(spents[0], [("1 waker", spents[0], None), ("16 wakers", spents[1], 3)])


def workers_row(name, make, most, count=4):
    """A run by so many workers, divided by the same run by one, from start to end; and how many of five logs differ."""
    many = ("run", "--workers", str(count))
    data = lambda clock: clock.file(make)

    def differing(clock):
        """How many logs by four workers are another than the one by one worker."""
        logs = [clock.output(many, clock.file(make)) for _ in range(LOGS)]
        return f"{sum(log != clock.log(make) for log in logs)} of {LOGS} logs differ"

    return Row(name, Spent(many, data, is_wall=True), (Spent(RUN, data, is_wall=True),), most, differing)


def read_tree(path):
    """The tree of a machine file."""
    try:
        return json.loads(pathlib.Path(path).read_text(encoding="utf-8"))
    except (OSError, ValueError) as fault:
        raise CannotError(getattr(fault, "strerror", None) or f"is no JSON: {fault}", path) from None


def workers(files=()):
    """Runs by four workers, divided by the same by one. The computer has to be quiet, and to have four processors.

    The reports of interrupt lines are made under their sources' own locks, beside each other. A burst cuts the scripts,
    autosleep and the timers into four parts, so two of four workers make the reports. All else is done under the machine's lock.
    Lines that raise marks make turns of the machine alone: with 4 and with 64 workers they show how soon bursts back off.
    """
    if files:
        return [workers_row(pathlib.Path(file).stem, functools.partial(read_tree, file), None) for file in files]
    rows = [("lines", functools.partial(machines.lines, 64, 3_125), 0.6)]
    trees = ((devices, functools.partial(machines.tree, devices, times, is_async=True)) for devices, times in ATTEMPTS)
    rows += [(f"{devices} devices", make, 1.3) for devices, make in trees]
    rows += [("1000 devices, 4000 links", functools.partial(machines.tree, 1000, 95, is_async=True, links=4000), 1.3)]
    rows += [("in step", machines.in_step, None), ("apart", machines.apart, None)]
    for count, most in ((4, 1.5), (64, 3)):
        for shape in ((16, 595, 20), (64, 75, 20), (4, 50, 200)):
            name = "{} lines, {} moments, {} posts, {} workers".format(*shape, count)
            rows.append((name, functools.partial(machines.short_turns, *shape), most, count))
    return [workers_row(*row) for row in rows]


# ---- recordings


def recordings():
    """A trace of a real kernel of 250,000 lines that is followed and judged, divided by reading it line by line in Python."""
    python = lambda clock: sys.executable
    start = Spent(("-c", traces.PLAIN), lambda clock: b"", program=python)
    plain = Spent(("-c", traces.PLAIN), lambda clock: traces.long_trace(), program=python, less=start)
    follow = Spent(traces.words("replay"), lambda clock: traces.long_trace(), program=lambda clock: str(traces.ROOT / "julampok"))
    return [Row("replay", follow, (plain,), 100)]


BENCHES = {
    "attempts": attempts,
    "tasks": tasks,
    "links": links,
    "link-states": link_states,
    "check": checks,
    "stats": stats,
    "locks": locks,
    "idle": idle,
    "workers": workers,
    "recordings": recordings,
}
