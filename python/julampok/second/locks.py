"""A second writing of the named locks of user space, from the rules alone.

At each moment a name has no lock, one with no end, or one with an end; apart from that each name's source counts what
happened on it. The rules say what every line of the command `locks` answers; nothing here knows the program.
"""

import re

from ..limits import LONGEST_MS, MOST_ENTRIES, MOST_INPUT, MOST_LOCKS

NAME = rb"[a-z0-9_.-]{1,32}"
LOCK = re.compile(NAME + rb"( +[0-9]{1,20})?\n?", re.ASCII)
FORMS = re.compile(rb"(lock|unlock) .*|after [1-9][0-9]*|active|inactive", re.ASCII | re.DOTALL)
ENDLESS = float("inf")


class FullSource(Exception):
    """The source of that name has no four places left."""


class Source:
    """What is counted of one name, and how it stands."""

    def __init__(self):
        self.since = self.until = None
        self.entries = self.actives = self.events = self.expiries = 0
        self.total = self.longest = self.last = 0

    def begins(self, now):
        self.events += 1
        if self.since is None:
            self.since = self.last = now
            self.actives += 1
            self.entries += 1

    def ends(self, now):
        if self.since is not None:
            lasted = now - self.since
            self.total += lasted
            self.longest = max(self.longest, lasted)
            self.since = self.until = None
            self.last = now
            self.entries += 1

    def line(self, name, now):
        lasts = 0 if self.since is None else now - self.since
        numbers = (self.actives, self.events, self.expiries, lasts, self.total + lasts, max(self.longest, lasts), self.last)
        return b"source %s %s\n" % (name, b" ".join(b"%d" % number for number in numbers))


class Locks:
    """The names that were locked, and a clock."""

    def __init__(self, places=MOST_ENTRIES):
        self.known = {}
        self.now = 0
        self.places = places

    def room(self, name):
        if self.places - self.known[name].entries < 4:
            raise FullSource(name)

    def lock(self, text):
        found = LOCK.fullmatch(text)
        if not found:
            return b"EINVAL"
        name, _, digits = text.rstrip(b"\n").partition(b" ")
        ns = int(digits or b"0")
        ms = -(-ns // 1_000_000)
        if ns >= 1 << 64 or ms > LONGEST_MS:
            return b"EINVAL"
        if name not in self.known:
            if len(self.known) == MOST_LOCKS:
                return b"ENOSPC"
            self.known[name] = Source()
        self.room(name)
        source = self.known[name]
        source.entries += 1
        source.begins(self.now)
        if not ms:
            source.until = ENDLESS
        elif source.until in (None, ENDLESS):
            source.until = self.now + ms
        else:
            source.until = max(source.until, self.now + ms)
        return b"0"

    def unlock(self, text):
        name = text.removesuffix(b"\n")
        if not re.fullmatch(NAME, name) or name not in self.known:
            return b"EINVAL"
        self.room(name)
        self.known[name].entries += 1
        self.known[name].ends(self.now)
        return b"0"

    def after(self, ms):
        to = self.now + ms
        while due := sorted((s.until, name) for name, s in self.known.items() if s.until is not None and s.until <= to):
            at, name = due[0]
            self.room(name)
            self.known[name].entries += 1
            self.known[name].expiries += 1
            self.known[name].ends(at)
        self.now = to

    def names(self, active):
        return b"".join(b" " + name for name in sorted(self.known) if (self.known[name].since is not None) == active)


def lines_of(given):
    """The lines of an input: a newline ends each, and one may be missing at the end."""
    lines = given.split(b"\n")
    return lines[:-1] if lines[-1] == b"" else lines


def is_line(line):
    word = line.partition(b" ")
    return bool(FORMS.fullmatch(line)) and (word[0] != b"after" or int(word[2]) <= LONGEST_MS)


def run(given, places=MOST_ENTRIES):
    """What the command answers to an input: its status, its output, and what it says on standard error."""
    if len(given) > MOST_INPUT:
        return 3, b"", b"locks: longer than %d bytes\n" % MOST_INPUT
    lines = lines_of(given)
    for number, line in enumerate(lines, 1):
        if not is_line(line):
            return 3, b"", b"locks: line %d\n" % number
    locks, out = Locks(places), []
    try:
        for line in lines:
            word, _, rest = line.partition(b" ")
            if word == b"lock":
                out.append(locks.lock(rest))
            elif word == b"unlock":
                out.append(locks.unlock(rest))
            elif word == b"after":
                locks.after(int(rest))
            else:
                out.append(word + locks.names(word == b"active"))
    except FullSource as full:
        return 7, b"", b"source full: %s\n" % full.args[0]
    said = b"".join(line + b"\n" for line in out)
    return 0, said + b"".join(locks.known[name].line(name, locks.now) for name in sorted(locks.known)), b""
