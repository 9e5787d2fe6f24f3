"""Follows the trace of a real kernel to a whole log, and says whether that log is legal: what the kernel did, judged.

The trace gives whose turn is next; devices without a callback go between. Standard output has the verdict, what stopped each
attempt, and notes. The proved checker judges if this clone has built it, or the program that --program names; else a second
writing of the rules in Python. Status 0: legal, and the kernel's own way and answer. 1: not. 2: an input is missing or broken, or the
trace cannot be followed.
"""

import json

from ..errors import NO, YES
from ..files import write_folder, write_out
from ..follow.showing import as_json, as_text
from ..follow.verdict import replay
from ..kernel.reading import add_input_arguments, inputs_of, read_recording
from ..program import add_program, chosen

HELP = "follows a kernel's trace to a whole log, and judges it"
REAL = "examples/real/irq-suspend-async"
EXAMPLE = f"julampok replay {REAL}.trace --devices {REAL}.devices --links {REAL}.links --dmesg {REAL}.dmesg"


def add_arguments(parser):
    add_input_arguments(parser)
    parser.add_argument("-o", "--output", metavar="FOLDER", help="a new folder for machine.json, followed.log, names.txt and verdict.txt")
    parser.add_argument("--json", action="store_true", help="writes the verdict as JSON")
    add_program(parser)


def run(given):
    recording = read_recording(given)
    judge = chosen(given)
    found = replay(recording, judge)
    text = as_text(found, recording)
    if given.output is not None:
        files = {"machine.json": found.machine, "followed.log": found.log, "names.txt": found.table, "verdict.txt": text.encode("utf-8", "surrogateescape")}
        write_folder(given.output, files, inputs_of(given))
    write_out(json.dumps(as_json(found, recording), indent=1) + "\n" if given.json else text)
    return YES if found.status == 0 else NO
