"""Compares two recordings: devices, orders, answers and times, and the first place where their ways part.

A and B are traces of the same machine, such as before and after a change of the kernel. The way of an attempt is its
steps, its list of devices, the order of callbacks in the walk over it, who is asynchronous, what callbacks answered, and
whether each device waited for what it has to wait for. In which order workers come is a race, and no difference.

Status 0: the same way and outcome, and no phase took longer in B by more than --by. Status 1: not. With --bisect an input
that cannot be compared has status 125, which 'git bisect run' takes for a commit that cannot be tested.
"""

import json
import sys

from ..errors import CannotError, NO, YES, one_line
from ..files import write_out
from ..forecast.difference import compare
from ..forecast.telling import ms, shown, signed, table
from ..kernel.reading import read_inputs

HELP = "compares two traces: where their ways part, and what became slower"
EXAMPLE = "julampok diff examples/real/whatif-gpu-sync.trace examples/real/whatif-gpu-async.trace"
UNTESTED = 125  # What 'git bisect run' skips.
MOST_TOLD = 10  # The most callbacks and partings that are shown as text.


def milliseconds(text):
    """A number of milliseconds, 0 or more. Raises CannotError, so that --bisect has its status for it, too."""
    try:
        found = float(text)
    except ValueError:
        found = -1.0
    if not 0 <= found < 1e12:
        raise CannotError(f"--by {text}: no number of milliseconds")
    return found


def add_arguments(parser):
    parser.add_argument("a", metavar="A", help="a trace of the power events")
    parser.add_argument("b", metavar="B", help="the trace that is held against it")
    for kind, what in (("devices", "list of devices"), ("links", "list of links")):
        parser.add_argument(f"--{kind}", metavar="FILE", action="append", default=[], help=f"the {what} of both, or given twice: that of A, then that of B")
    parser.add_argument("--by", metavar="MS", default="20", help="how much longer a phase of B may take (default: 20 ms)")
    parser.add_argument("--bisect", action="store_true", help="status 125 in place of 2, for 'git bisect run'")
    parser.add_argument("--json", action="store_true", help="writes all as JSON")


def run(given):
    if not given.bisect:
        return differ(given)
    try:
        return differ(given)
    except CannotError as error:
        print(one_line(f"julampok diff: {error}"), file=sys.stderr)
        return UNTESTED


def differ(given):
    """The status, after what the recordings differ in was written."""
    by = milliseconds(given.by)
    sides = [(one[0] if one else None, one[-1] if one else None) for one in (given.devices, given.links)]
    if any(len(one) > 2 for one in (given.devices, given.links)):
        raise CannotError("--devices and --links are given once, or once for A and once for B")
    if given.a == given.b == "-":
        raise CannotError("only one input may be standard input ('-')")
    a, b = (read_inputs(trace, devices=sides[0][at], links=sides[1][at]) for at, trace in enumerate((given.a, given.b)))
    for recording in (a, b):
        if not recording.attempts:
            raise CannotError("the trace has no whole attempt", recording.trace_file)
    found = compare(a, b)
    slower = found.slower(round(by * 1e6))
    is_same = not found.partings and not slower
    write_out(as_json(found, slower, is_same) if given.json else as_text(found, slower, is_same, by))
    return YES if is_same else NO


def as_json(found, slower, is_same):
    """All that differs, for a script."""
    parting = lambda one: {"what": one.words, "line_a": one.line_a, "line_b": one.line_b}
    phase = lambda one: {"attempt": one.attempt, "phase": str(one.phase), "a_ms": ms(one.a), "b_ms": ms(one.b), "change_ms": ms(one.b - one.a),
                         "slower": one in slower, "path_a": one.path_a, "path_b": one.path_b}
    callback = lambda one: {"attempt": one[0], "phase": str(one[1]), "device": one[2], "a_ms": ms(one[3]), "b_ms": ms(one[4]),
                            "change_ms": ms(one[4] - one[3])}
    said = {"same": is_same, "parts": parting(found.partings[0]) if found.partings else None, "partings": [parting(one) for one in found.partings]}
    said |= {"phases": [phase(one) for one in found.phases], "callbacks": [callback(one) for one in found.callbacks], "notes": found.notes}
    return json.dumps(said, indent=2) + "\n"


def as_text(found, slower, is_same, by):
    """All that differs, for a reader."""
    text = "the same way" if not found.partings else f"their ways part at {parting_text(found.partings[0])}"
    lines = [text, *(f"  also {parting_text(one)}" for one in found.partings[1:MOST_TOLD])]
    if len(found.partings) > MOST_TOLD:
        lines.append(f"  and {len(found.partings) - MOST_TOLD} places more")
    lines += phases_text(found, slower)
    for one in slower:
        paths = [" > ".join(path) or "none of a millisecond" for path in (one.path_a, one.path_b)]
        lines.append(f"  longest path of {one.phase}: {paths[0]}" + (" in both" if paths[0] == paths[1] else f" in A, {paths[1]} in B"))
    for attempt, phase, device, a, b in found.callbacks[:MOST_TOLD]:
        lines.append(f"  attempt {attempt}, {phase} of {device}: {shown(a)} ms, then {shown(b)} ms ({signed(b - a)})")
    lines += [f"note: {note}" for note in found.notes]
    names = ", ".join(f"{one.phase} of attempt {one.attempt}" for one in slower)
    lines.append(f"slower by more than {by:g} ms: {names or 'no phase'}")
    lines.append("the same" if is_same else "not the same")
    return "".join(f"{line}\n" for line in lines)


def parting_text(one):
    lines = [f"line {line} of {name}" for name, line in (("A", one.line_a), ("B", one.line_b)) if line is not None]
    return f"{', '.join(lines)}: {one.words}"


def phases_text(found, slower):
    """A row a phase."""
    if not found.phases:
        return []
    rows = [("ms", "A", "B", "change", "")]
    rows += [(f"  attempt {one.attempt}, {one.phase}", shown(one.a), shown(one.b), signed(one.b - one.a), "slower" if one in slower else "")
             for one in found.phases]
    return table(rows).splitlines()
