"""How a program answers: its status, what it writes, and what it says."""

import subprocess

from julampok.errors import CannotError


def answer(program, words, data):
    """The status, the standard output and the standard error of a program over these bytes."""
    try:
        done = subprocess.run([program, *words], input=data, capture_output=True)
    except OSError as error:
        raise CannotError(error.strerror, program) from None
    return done.returncode, done.stdout, done.stderr


def run_by(program, data, workers):
    """The status and the log of a run by that number of workers."""
    status, log, _ = answer(program, ["run", "--workers", str(workers)], data)
    return status, log.decode("utf-8", "backslashreplace")
