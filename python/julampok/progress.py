"""Shows on a terminal how long a command has been at work, and how far it is, once two seconds have passed."""

import sys
import threading
import time

AFTER = 2.0  # Seconds without a word.
EVERY = 0.5  # Seconds between two lines.
ERASE = "\r\x1b[K"


class Progress:
    """What a command does, how much of it is done, and of how much; shown beside it by a thread of its own."""

    def __init__(self, what, whole=None):
        self.what, self.whole, self.done = what, whole, 0
        self.begun, self.is_shown, self.over = time.monotonic(), False, threading.Event()

    def at(self, done, whole=None):
        """So much is done, of so much; cheap, so that a loop may say it often."""
        self.done = done
        if whole is not None:
            self.whole = whole

    def line(self):
        """What is shown now."""
        seconds = int(time.monotonic() - self.begun)
        part = f", {min(99, 100 * self.done // self.whole)}%" if self.whole else f", {self.done:,}" if self.done else ""
        return f"julampok {self.what}: {seconds} s{part}"

    def show(self, stream):
        """Shows the line again and again until the command is over."""
        wait = AFTER
        while not self.over.wait(wait):
            wait, self.is_shown = EVERY, True
            stream.write(f"{ERASE}{self.line()}")
            stream.flush()

    # ---- while a command runs

    def __enter__(self):
        global RUNNING
        RUNNING, self.outer, self.stream = self, RUNNING, sys.stderr
        self.thread = None
        if is_terminal():
            self.thread = threading.Thread(target=self.show, args=(self.stream,), daemon=True)
            self.thread.start()
            sys.stderr = Erasing(self, self.stream)
        return self

    def __exit__(self, *_):
        global RUNNING
        RUNNING = self.outer
        self.over.set()
        if self.thread is not None:
            self.thread.join(timeout=1)
            self.erase()
            sys.stderr = self.stream

    def erase(self):
        """Takes the line away, so that something else can be written."""
        if self.is_shown:
            self.is_shown = False
            self.stream.write(ERASE)
            self.stream.flush()


class Erasing:
    """Standard error, on which the line of progress goes before anything else comes."""

    def __init__(self, progress, stream):
        self.progress, self.stream = progress, stream

    def write(self, text):
        self.progress.erase()
        return self.stream.write(text)

    def __getattr__(self, name):
        return getattr(self.stream, name)


RUNNING = Progress("")  # What the running command tells; nobody shows this first one.


def current():
    """The progress of the command that runs."""
    return RUNNING


def is_terminal():
    """Whether somebody looks at standard error."""
    try:
        return sys.stderr.isatty()
    except (AttributeError, ValueError):
        return False
