"""Tries an event at each place of an attempt: which test finds it, what is undone, and how long it goes unnoticed.

MACHINE is a machine file, or a kernel's trace, of which a machine with a writer is made. The event comes from an interrupt
line right behind each entry of the attempt, from the read of the count on. With --trace (or a trace as MACHINE) callbacks
take the time that they took there, and the times until the event is noticed are shown; devices are found by their names,
by the table beside MACHINE (its name with .names) where there is one.

Output is TAP, a line a place. --expect FILE has rules, 'PLACES: CLAIM' a line, and a place that breaks one is 'not ok':
  noirq: found by cpu 1            (a stage, or the entry before the place; * and ? stand for any letters;
                                    found by save, freeze user, suspend disk, cpu 1, syscore check, enter, wake or the like)
  begin suspend disk: undone hub   (also: not undone ..)
  *: within 200 ms                 (also: not found, sleeps, does not sleep)
Status 0: no rule is broken. Status 1: one is.
"""

import json

from ..errors import NO, YES, CannotError
from ..files import read_bytes, read_text, write_out
from ..forecast import expecting, logs, machines, matching, sweeping
from ..forecast.measured import TIMED, NoTimesError, choose_attempt, choose_listed, list_devices, measure
from ..forecast.telling import ms, shown
from ..kernel.reading import read_inputs
from ..limits import LONGEST_MS
from ..progress import Progress

HELP = "tries an event at each place of an attempt: which test finds it"
EXAMPLE = "julampok sweep examples/order/laptop.json --expect examples/order/laptop.rules"


def number(least, most):
    """A reader of numbers in a range."""
    def whole(text):
        if not text.isdecimal() or not least <= int(text[:12]) <= most:
            raise ValueError(text)
        return int(text)
    whole.__name__ = f"number from {least} to {most}"
    return whole


def add_arguments(parser):
    parser.add_argument("machine", metavar="MACHINE", help="a machine file or a trace; '-' is standard input")
    parser.add_argument("--trace", metavar="TRACE", help="a trace of the machine, for the time of its callbacks")
    parser.add_argument("--devices", metavar="FILE", help="the list of devices of the trace")
    parser.add_argument("--links", metavar="FILE", help="the list of device links of the trace")
    parser.add_argument("--expect", metavar="FILE", help="the rules that each place has to keep")
    parser.add_argument("--attempt", metavar="N", type=number(1, 1000), default=1, help="the attempt of the machine (default: 1)")
    parser.add_argument("--ms", metavar="MS", type=number(0, LONGEST_MS), default=0, help="how long the event is in progress (default: 0)")
    parser.add_argument("--hard", action="store_true", help="the event is hard: it stops an attempt that saved no count, too")
    parser.add_argument("--jobs", metavar="N", type=number(1, 1024), help="how many processes (default: all processors)")
    parser.add_argument("--json", action="store_true", help="writes the places as JSON")


def run(given):
    rules = expecting.read_rules(read_text(given.expect), given.expect) if given.expect is not None else []
    tree, durations, real = subject(given)
    if durations is None and (rule := next((rule for rule in rules if rule.needs_times), None)) is not None:
        raise CannotError(f"{rule.claim!r} needs the times of a trace: give --trace", given.expect, rule.line)
    sweep = sweeping.Sweep(tree, sweeping.Event(given.ms, given.hard), given.attempt, durations)
    places = [sweeping.real_place(place, real) for place in sweep.places]
    idle = next((rule for rule in rules if not any(map(rule.is_about, places))), None)
    if idle is not None:
        raise CannotError(f"no place of the attempt is {idle.places!r}", given.expect, idle.line)
    with Progress("tries places", len(sweep.groups())) as progress:
        found = sweep.outcomes(given.jobs or sweeping.processors(), progress)
    found = [(place, sweeping.real_outcome(outcome, real)) for place, (_, outcome) in zip(places, found)]
    broken = [[rule for rule in rules if rule.is_about(place) and not rule.holds(outcome)] for place, outcome in found]
    write_out(as_json(sweep, found, broken, durations) if given.json else as_tap(sweep, found, broken, durations))
    return NO if any(broken) else YES


# ---- the machine and its times


def subject(given):
    """The machine, how long each callback takes, by phase and device, or None, and the real names of a trace's devices."""
    data = read_bytes(given.machine)
    if machines.is_machine(data):
        tree = machines.read_machine(data, given.machine)
        return tree, durations_of_file(given, tree) if given.trace is not None else no_times(given), {}
    if given.trace is not None:
        raise CannotError("is no machine file; with a trace in its place there is no --trace", given.machine)
    return of_trace(given)


def no_times(given):
    if given.devices is not None or given.links is not None:
        raise CannotError("--devices and --links belong to a trace: give --trace")


def recording_of(given, trace):
    return read_inputs(trace, devices=given.devices, links=given.links)


def of_trace(given):
    """A machine of a trace's devices, with a writer that saves the count."""
    recording = recording_of(given, given.machine)
    try:
        attempt = choose_listed(recording)
        listed = list_devices(recording, attempt)
    except NoTimesError as refused:
        raise CannotError(str(refused), given.machine, refused.line) from None
    devices, plan, _ = logs.that_fit(listed.devices, listed.plan, {})
    names = logs.log_names(plan)
    tree = logs.machine_of(plan, names) | {"actors": [sweeping.WRITER]}
    real = {name: device.name for name, device in zip(names, devices)}
    tree["cpus"] = min(recording.processors or 1, 64)
    try:
        measured = measure(recording, attempt)
    except NoTimesError:
        return tree, None, real
    kept = dict(zip(devices, names))
    return tree, by_name(measured, [kept.get(device) for device in measured.devices]), real


def durations_of_file(given, tree):
    """How long the callbacks of a machine file's devices took in a trace."""
    recording = recording_of(given, given.trace)
    try:
        measured = measure(recording, choose_attempt(recording))
    except NoTimesError as refused:
        raise CannotError(str(refused), given.trace, refused.line) from None
    names = matching.names_in_machine(matching.rows_of(tree, given.machine), measured.devices)
    if not any(names):
        raise CannotError(f"no device of the trace is one of {given.machine}", given.trace)
    return by_name(measured, names)


def by_name(measured, names):
    """How long each callback took, by phase and by the device's name in the machine."""
    return {(str(phase), name): measured.phases[phase].durations[place] for phase in TIMED if phase in measured.phases
            for place, name in enumerate(names) if name is not None}


# ---- output


def as_tap(sweep, found, broken, durations):
    """A line a place."""
    lines = ["TAP version 13", f"1..{len(found)}"]
    if not sweep.is_guarded and not sweep.event.is_hard:
        lines.append("# the attempt saved no count, so an event that is not hard stops nothing: --hard")
    for at, ((place, outcome), rules) in enumerate(zip(found, broken), 1):
        lines.append(f"{'not ok' if rules else 'ok'} {at} - {place.stage}, after '{place.body}': {words(outcome, durations)}")
        if rules:
            lines += ["  ---", "  broken:", *(f"    - {json.dumps(f'line {rule.line}: {rule.places}: {rule.claim}')}" for rule in rules), "  ..."]
    return "".join(f"{line}\n".replace("#", "\\#") if line.startswith(("ok", "not ok")) else f"{line}\n" for line in lines)


def words(outcome, durations):
    """What came of the event at a place, in words."""
    text = "found by nothing" if outcome.found_by == "nothing" else f"found by {outcome.found_by}"
    if durations is not None and outcome.waited is not None:
        text += f" after {shown(outcome.waited)} ms"
    text += f"; {'slept' if outcome.slept else 'did not sleep'}, {f'answer {outcome.result}' if outcome.result else 'no attempt'}"
    undone = [f"{len(devices)} in {phase}" for phase, devices in outcome.undone.items()]
    return text + (f"; undone: {', '.join(undone)}" if undone and not outcome.slept else "")


def as_json(sweep, found, broken, durations):
    """All places."""
    places = []
    for (place, outcome), rules in zip(found, broken):
        said = {"ok": not rules, "stage": place.stage, "after": place.body, "found_by": None if outcome.found_by == "nothing" else outcome.found_by}
        said |= {"noticed_after_ms": ms(outcome.waited) if durations is not None else None, "slept": outcome.slept, "answer": outcome.result}
        said |= {"undone": outcome.undone, "undone_others": outcome.undone_others}
        places.append(said | ({"broken": [{"line": rule.line, "places": rule.places, "claim": rule.claim} for rule in rules]} if rules else {}))
    return json.dumps({"attempt": sweep.attempt, "guarded": sweep.is_guarded, "places": places}, indent=1) + "\n"
