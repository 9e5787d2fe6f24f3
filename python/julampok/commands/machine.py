"""Makes a machine file of a real machine: of its /sys, or of a trace of its power events, or of both.

SYS is /sys itself, or a copy of it (a folder or a tar); --devices takes a list of device folders in its place, a line each,
as '/sys/devices/pci0000:00/0000:00:1f.2 async=enabled wakeup=disabled'. They give devices with parents and flags, links,
wakeup sources and processors. --writer adds a task that writes 'mem' under a saved count.

With --trace the file is the one of 'julampok replay': the kernel's list of devices, what callbacks answered, and the tasks
and interrupt lines whose events the trace shows. Each of these takes turns of 'post' before its steps, so that a run of the
file by one worker goes the way of the trace. What the file cannot say is left out and told on standard error.
"""

import pathlib

from ..errors import YES, CannotError
from ..files import is_special, refuse_inputs, say, write_all, write_new
from ..follow.machine import fits, machine_of, table_of
from ..follow.machine import written as written_of_trace
from ..follow.pacing import paced
from ..follow.verdict import followed
from ..kernel.machine import Builder, written
from ..kernel.narrowing import branch, last_attempts, narrow
from ..kernel.reading import add_side_arguments, device_named, read_and_join, read_machine_alone
from ..kernel.recording import Note

HELP = "makes a machine file of a real machine, of its /sys or a trace"
EXAMPLE = "julampok machine --trace examples/real/order.trace --devices examples/real/order.devices -o order.json"


def add_arguments(parser):
    parser.add_argument("--trace", metavar="TRACE", help="a trace of the machine's power events: text of tracefs or of 'trace-cmd report'")
    add_side_arguments(parser)
    parser.add_argument("--branch", metavar="DEVICE", action="append", default=[],
                        help="keeps this device (its name, or its path below /sys/devices), all below it, and all that these need")
    parser.add_argument("--writer", action="store_true", help="without TRACE: adds a task that saves the count and writes 'mem'")
    parser.add_argument("-o", dest="output", metavar="FILE", default="-",
                        help="the machine file to write, with the table of the real names beside it (.names); else standard output")


def run(given):
    if given.sys is given.devices is given.trace is None:
        raise CannotError("wants SYS, or --devices FILE, or --trace TRACE")
    inputs = [given.trace, given.links, given.sys, given.devices, given.dmesg]
    table_file = table_beside(given.output, inputs)
    file, table, notes = of_trace(given) if given.trace is not None else of_tree(given)
    if table_file is None:
        write_new(given.output, file, inputs)
    else:
        write_all({given.output: file, table_file: table}, inputs)
    for note in notes:
        say("julampok machine", CannotError(note.text, note.file, note.line))
    return YES


def table_beside(output, inputs):
    """The file of the table of names; None where the machine goes into no file. Raises CannotError, as writing would."""
    if output == "-":
        return None
    refuse_inputs(output, inputs)
    if is_special(output):
        return None
    table_file = str(pathlib.Path(output).with_suffix(".names"))
    if pathlib.Path(output) == pathlib.Path(table_file):
        raise CannotError("is where the table of names goes; the machine file wants another name", output)
    refuse_inputs(table_file, inputs)
    return table_file


def kept(given, recording, joiner):
    """The recording, or the branches of it that the words name. Raises CannotError."""
    named = []
    for words in given.branch:
        device = device_named(joiner, words)
        if device is None:
            raise CannotError(f"no device {words}")
        named.append(device)
    return narrow(recording, branch(recording, named)) if named else recording


def of_tree(given):
    """The file of /sys or a list, its table, and notes."""
    if given.dmesg is not None:
        raise CannotError("--dmesg goes with --trace")
    recording, joiner = read_machine_alone(given.sys, given.devices, given.links)
    builder = Builder(kept(given, recording, joiner))
    return written(builder.file(given.writer)), builder.table(), recording.notes + builder.notes


def of_trace(given):
    """The file of a trace that was followed, its table, and notes. Raises CannotError where it cannot be followed."""
    recording, joiner = read_and_join(given.trace, given.sys, given.devices, given.links, given.dmesg, given.kernel)
    recording = kept(given, recording, joiner)
    whole, notes = len(recording.attempts), []
    while True:
        follower, file, is_same = paced_file(recording)
        if is_same is not None or len(recording.attempts) == 1:
            break
        recording = last_attempts(recording, len(recording.attempts) * 2 // 3)
        notes = [Note(f"{whole} attempts, of which the file has the last {len(recording.attempts)}: more steps than a machine file may have", given.trace)]
    if not is_same:
        notes.append(Note("a run of the file goes another way than the kernel did", given.trace))
    return written_of_trace(file), table_of(follower), follower.notes + notes


def paced_file(recording):
    """A recording that was followed, its machine file, and whether a run of that goes its way (None: it has too many steps)."""
    follower, broken = followed(recording)
    if broken is not None:
        raise CannotError(f"{broken.did}; {broken.first}: no machine does that; 'julampok replay' tells more", recording.trace_file, broken.line)
    file = machine_of(follower)
    if why := fits(file):
        raise CannotError(why, recording.trace_file)
    refusers = {}
    for plan in follower.plans:
        for script in plan.refusers:
            refusers.setdefault(script.name, []).append(plan.number)
    return follower, *paced(file, follower.journal.end(), refusers)
