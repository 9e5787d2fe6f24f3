"""A log and its machine as the commands read them, with each refusal as one line."""

from .drawing.machine import NoMachine, devices_seen, read_machine
from .drawing.reading import Refused, read_log
from .drawing.story import Story
from .errors import CannotError
from .files import looks_like, read_bytes, refuse_twice


def add_log(parser):
    """The words of a command that reads a log, and its machine where the user has it."""
    parser.add_argument("log", metavar="LOG", nargs="?", default="-", help="what 'julampok run' wrote; '-' or nothing is standard input")


def read_log_file(path):
    """The log of a file; None for a text without a line. Raises CannotError."""
    data = read_bytes(path)
    try:
        return read_log(data)
    except Refused as refused:
        kind = looks_like(data, "a log") if refused.line == 1 else ""
        raise CannotError(f"{refused.why}{kind}", path, refused.line) from None


def read_story(path, machine=None):
    """The story of a log, with its machine file where one is given; None for an empty log. Raises CannotError."""
    refuse_twice(str(machine), str(path))
    log = read_log_file(path)
    if log is None:
        return None
    try:
        devices = devices_seen(log) if machine is None else read_machine(read_bytes(machine), log)
    except NoMachine as refused:
        raise CannotError(str(refused), machine, refused.line) from None
    except Refused as refused:
        raise CannotError(refused.why, path, refused.line) from None
    return Story(log, devices)
