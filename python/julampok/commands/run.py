"""Runs a machine file and writes its log, as the proved program does.

The machine is JSON (docs/FORMATS.md). The proved program runs it where --program names it or this clone has built it. Else a
second writing of the rules in Python runs it as one worker does, and says so on standard error. By one worker the log of a
machine is always the same. Status 1: the machine is stuck (the log says who waits), or a wakeup source has no room for another
call (then there is no log).
"""

import argparse
import re

from ..errors import NO, YES, CannotError
from ..files import read_bytes, refuse_inputs, say, write_new
from ..program import add_program, chosen

HELP = "runs a machine file and writes its log"
EXAMPLE = "julampok run examples/order/laptop.json -o laptop.log"


def add_arguments(parser):
    parser.add_argument("machine", metavar="MACHINE", nargs="?", default="-", help="the machine file; '-' or nothing is standard input")
    parser.add_argument("-o", "--output", metavar="LOG", default="-", help="the log to write; else standard output")
    parser.add_argument("--workers", metavar="N", type=workers, help="1 to 64 threads run the machine, else 1; wants the program")
    add_program(parser)


def workers(word):
    """A number of workers, as the program takes it."""
    if not re.fullmatch("[1-9][0-9]?", word) or int(word) > 64:
        raise argparse.ArgumentTypeError(f"a number from 1 to 64 is wanted, not {word!r}")
    return int(word)


def run(given):
    inputs = [given.machine, given.program]
    if given.output != "-":
        refuse_inputs(given.output, inputs)
    ran = chosen(given).run(read_bytes(given.machine), given.machine, given.workers)
    if ran.failure:
        say("julampok run", CannotError(ran.failure, given.machine))
        return NO
    write_new(given.output, ran.log, inputs)
    return YES if ran.is_finished else NO
