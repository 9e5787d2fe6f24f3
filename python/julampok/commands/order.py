"""Says whether a device is always down before another: by parents and links, by the list alone, or not.

TRACE is a kernel's trace (with SYS, --devices and --links for what it does not tell) or a machine file. A is always down
before B where B waits for it, itself or by way of others, also of such without callbacks: then the path is shown. Or the
kernel's list alone keeps them so: that ends when the devices that hold up its walk are made asynchronous. Else there is a
legal log with the other order, which -o FOLDER writes with its machine; and the link that would make the order certain is
told, with the cycle that it would close, or with what it moves in the list and what it costs.

--luck lists all pairs that the list alone keeps: 'A B' a line, and who holds the walk. With devices named, their pairs.
Status 0: A is always down before B. Status 1: it is not.
"""

import json
import os

from ..errors import NO, YES, CannotError
from ..files import read_bytes, write_folder, write_out
from ..forecast import choosing, machines, ordering
from ..forecast.measured import NoTimesError, choose_listed, list_devices, measure
from ..kernel.reading import add_input_arguments, read_recording
from ..program import add_program, chosen

HELP = "says whether a device is always down before another, and why"
EXAMPLE = "julampok order examples/real/order.trace --links examples/real/order.links disk ctl"


def add_arguments(parser):
    add_input_arguments(parser)
    names = parser.add_argument("names", metavar="A B", nargs="+", help="the two devices")
    names.required, names.default = False, []  # With --luck there need not be any.
    parser.add_argument("--luck", action="store_true", help="lists all pairs whose order the list alone keeps")
    parser.add_argument("--attempt", metavar="N", type=int, help="the attempt of the trace; else the first that slept")
    parser.add_argument("--json", action="store_true", help="writes the answer as JSON")
    parser.add_argument("-o", dest="folder", metavar="FOLDER", help="writes the log with the other order there, and its machine")
    add_program(parser)


def run(given):
    take_names(given)
    tree = None
    data = read_bytes(given.trace) if is_file(given.trace) else b""
    if machines.is_machine(data):
        if given.sys is not None:
            raise CannotError(f"a machine file has no SYS: {given.sys}", given.trace)
        tree = machines.read_machine(data, given.trace)
        subject = ordering.Subject.of_machine(tree)
    else:
        subject = subject_of(given, read_recording(given))
    numbers = [choosing.find(subject.devices, name) for name in given.names]
    if given.luck:
        write_out(ordering.luck_json(subject, numbers) if given.json else ordering.luck_text(subject, numbers))
        return YES
    if numbers[0] == numbers[1]:
        raise CannotError(f"{given.names[0]} and {given.names[1]} are one device")
    answer = ordering.answer(subject, *numbers, judge=lambda: chosen(given))
    if given.folder is not None:
        if answer.log is None:
            raise CannotError(f"{given.names[0]} is always down before {given.names[1]}: there is no log with the other order to write")
        write_folder(given.folder, answer.log.files, [given.trace])
    write_out(json.dumps(answer.json, indent=2) + "\n" if given.json else answer.text)
    return YES if answer.is_always else NO


def is_file(path):
    return path == "-" or os.path.isfile(path)


def take_names(given):
    """Tells SYS and the devices apart, which the words do by their number. Raises CannotError."""
    words = ([given.sys] if given.sys is not None else []) + given.names
    least = 0 if given.luck else 2
    if given.luck and len(words) < 3 and words and os.path.exists(words[0]):
        least = len(words) - 1
    if not given.luck and not 2 <= len(words) <= 3 or given.luck and len(words) > 3:
        raise CannotError("wants two devices: TRACE [SYS] A B")
    has_sys = len(words) == 3 or given.luck and least < len(words) and bool(words) and os.path.exists(words[0])
    given.sys, given.names = (words[0], words[1:]) if has_sys else (None, words)


def subject_of(given, recording):
    """The devices of a recording's attempt, with its times where the clock has any. Raises CannotError."""
    try:
        attempt = choose_listed(recording, given.attempt)
        listed = list_devices(recording, attempt)
    except NoTimesError as refused:
        raise CannotError(str(refused), recording.trace_file, refused.line) from None
    try:
        measured = measure(recording, attempt)
    except NoTimesError:
        measured = None
    return ordering.Subject.of_recording(listed, measured)
