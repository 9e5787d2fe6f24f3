"""Measures how long a program takes over an input: the least of some runs."""

import functools
import json
import os
import subprocess
import tempfile
import time
from collections.abc import Callable
from dataclasses import dataclass

from julampok.errors import CannotError

RUNS = 5
LOGS = 5  # Logs by several workers, of which it is counted how many differ.
RUN = ("run", "--workers", "1")


@dataclass(frozen=True, eq=False)
class Spent:
    """The time that a program takes, in seconds: of its processor, or from start to end.

    `data` gives its input, of the clock; `less` is what is taken off; `each` how many things the time is divided by.
    """

    words: tuple
    data: Callable
    wanted: int = 0  # The status that the run has to end with.
    less: "Spent" = None
    each: Callable = None
    is_wall: bool = False
    program: Callable = None  # Another program than the one that is measured, of the clock.


class Clock:
    """Measures a program; what was measured once is not measured again."""

    def __init__(self, program, folder, runs=RUNS):
        self.program, self.folder, self.runs = program, folder, runs
        self.best = functools.cache(self.best)
        self.file = functools.cache(self.file)
        self.log = functools.cache(self.log)

    def file(self, make):
        """The bytes of a machine file, of what makes its tree."""
        return json.dumps(make()).encode()

    def log(self, make):
        """The log of a machine by one worker."""
        return self.output(RUN, self.file(make))

    def entries(self, make):
        """How many entries that log has."""
        return sum(line[:1].isdigit() for line in self.log(make).splitlines())

    def output(self, words, data, wanted=(0, 6)):
        """What the program writes of an input."""
        done = subprocess.run([self.program, *words], input=data, capture_output=True)
        if done.returncode not in wanted:
            said = done.stderr.decode(errors="replace")[:200]
            raise CannotError(f"{' '.join(words)} ended with status {done.returncode}: {said}", self.program)
        return done.stdout

    def once(self, words, given, spent):
        """The time of one run over an open file."""
        given.seek(0)
        begun = time.monotonic()
        try:
            done = subprocess.Popen(words, stdin=given, stdout=subprocess.DEVNULL, stderr=subprocess.DEVNULL)
        except OSError as error:
            raise CannotError(error.strerror, words[0]) from None
        _, status, used = os.wait4(done.pid, 0)
        took = time.monotonic() - begun
        done.returncode = os.waitstatus_to_exitcode(status)
        if done.returncode != spent.wanted:
            said = " ".join(map(str, words[1:]))
            raise CannotError(f"{said} ended with status {done.returncode}, where {spent.wanted} is due", words[0])
        return took if spent.is_wall else used.ru_utime + used.ru_stime

    def best(self, spent):
        """The least time of some runs."""
        words = [spent.program(self) if spent.program else self.program, *spent.words]
        with tempfile.TemporaryFile() as given:
            given.write(spent.data(self))
            return min(self.once(words, given, spent) for _ in range(self.runs))

    def seconds(self, spent):
        """The least time, less what is taken off."""
        return max(self.best(spent) - (self.best(spent.less) if spent.less else 0.0), 0.0)

    def each(self, spent):
        """The same, of one of the things that it is divided by; and how many these are."""
        count = spent.each(self) if spent.each else 1
        return self.seconds(spent) / count, count


def run_of(make, **given):
    """The processor time of a run of a machine by one worker."""
    return Spent(RUN, lambda clock: clock.file(make), **given)
