"""Says whether a log is one that its machine may write, whoever wrote it: 'legal', or the first bad line and its rule.

'illegal line N definition D' names the line, from 1, and the rule by its number; 'julampok why' says it in words. The proved
checker judges where --program names it or this clone has built it; else a second writing of the rules in Python, which says
so on standard error. Status 2: the text is no log, or the log is cut off.
"""

import json

from ..errors import NO, YES, CannotError
from ..files import looks_like, read_bytes, refuse_twice, write_out
from ..program import add_program, chosen
from ..refusals.log_lines import cut_off

HELP = "says whether a log is legal for its machine"
EXAMPLE = "julampok check examples/workers/two-lines.json examples/workers/two-lines-slept.log"
GRAMMAR = 23  # The number of the rule that a line breaks which no log has.


def add_arguments(parser):
    parser.add_argument("machine", metavar="MACHINE", help="the machine file; '-' is standard input")
    parser.add_argument("log", metavar="LOG", nargs="?", default="-", help="the log; '-' or nothing is standard input")
    parser.add_argument("--json", action="store_true", help="writes the verdict as JSON")
    add_program(parser)


def run(given):
    refuse_twice(given.machine, given.log)
    machine, log = read_bytes(given.machine), read_bytes(given.log)
    judge = chosen(given)
    found = judge.check(machine, log, given.machine)
    refuse_no_log(log, found, given.log)
    said = {"legal": found.is_legal, "line": found.line, "definition": found.rule, "by": judge.name}
    write_out((json.dumps(said) if given.json else found.text) + "\n")
    return YES if found.is_legal else NO


def refuse_no_log(log, found, file):
    """Raises CannotError for a text that is no log at all, or only the front of one."""
    if found.rule == GRAMMAR:
        why = cut_off(log.decode("utf-8", "replace"), found.line)
        if why is not None:
            raise CannotError(f"{why} ({found.text}){looks_like(log, 'a log')}", file, found.line)
