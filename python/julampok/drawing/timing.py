"""Adds to the page of a recording what was measured and forecast: who waited for whom and why, the longest path, what would help."""

from ..forecast.forecast import Forecast, best
from ..forecast.measured import TIMED, NoTimesError, measure
from ..forecast.telling import best_sentence
from .model import Step, Tie

LEAST = 1_000_000  # Steps of the path that are shorter, in nanoseconds, are told together.
LEAST_WAIT = 10_000  # How long a shorter wait was is not told.
LEAST_SHARE = 0.05  # A device with a smaller share of the whole is not named in the headline.
NAMED = 3
HELPS = 5
OF_WHAT = ("What would help is a forecast: the measured callbacks over the order's rules. It knows no buses, no locks and no processors.")


def add_times(page, rows, clock, recording):
    """Adds times to each attempt that has them. Gives, by attempt, what the headline says of it."""
    told = {}
    for attempt, made in zip(recording.attempts, page.attempts):
        try:
            forecast = measured_forecast(recording, attempt)
        except NoTimesError as refused:
            made.no_waits = f"Whom it waited for is not known: {refused}."
            continue
        marks = {mark.first: place for place, mark in enumerate(made.marks) if mark.is_callback}
        add_waits(made, rows, clock, forecast)
        add_path(made, rows, marks, forecast)
        add_helps(made, forecast)
        add_phases(made, forecast)
        told[attempt.number] = time_words(forecast)
    return told


def measured_forecast(recording, attempt):
    """The attempt over the rules, without a change. Raises NoTimesError."""
    measured = measure(recording, attempt)
    return Forecast(measured, measured.plan)


def shown_ms(nanoseconds):
    """A time as ms for a sentence."""
    size = nanoseconds / 1e6
    return f"{size:,.{0 if size >= 100 else 1 if size >= 1 else 3}f} ms"


def add_waits(made, rows, clock, forecast):
    """A tie for each callback that something held up."""
    for phase in forecast.phases:
        for wait in forecast.waits(phase):
            if None in (wait.callback, wait.other_callback) or wait.other_callback.end is None:
                continue
            end = wait.other_callback.end
            words = f"{phase}: {wait.words}" + (f"; by the rules for {shown_ms(wait.waited)}" if wait.waited >= LEAST_WAIT else "")
            made.ties.append(Tie("waits", rows.of(wait.other), clock.until(end), rows.of(wait.device), clock.at(wait.callback), words,
                                 end.line, wait.callback.line))


def add_path(made, rows, marks, forecast):
    """The longest path of each phase that takes its time: its long steps, and the short ones together."""
    lengths = {phase: sum(step.length for step in forecast.path(phase)) for phase in forecast.phases}
    for phase in forecast.phases:
        if lengths[phase] < LEAST and any(length >= LEAST for length in lengths.values()):
            continue
        steps = forecast.path(phase)
        least = max(LEAST, lengths[phase] // 100) if any(step.length >= LEAST for step in steps) else 1
        for step in steps:
            if step.length >= least:
                words = "begins with the phase" if step.wait is None else step.wait.words
                made.path.append(Step(rows.of(step.device), str(phase), words, marks.get(step.callback.line)))
        short = [step.length for step in steps if step.length < least]
        if short:
            made.path.append(Step(None, str(phase), f"{len(short)} shorter, together {shown_ms(sum(short))}"))


def add_helps(made, forecast):
    """What saves most, of an attempt that slept."""
    if not forecast.measured.slept:
        return
    savings = [saving for saving in best(forecast.measured, HELPS) if saving.saved >= LEAST]
    made.helps = [f"{best_sentence(saving)}." for saving in savings] or ["No device saves a millisecond or more if it alone is made asynchronous."]
    made.helps.append(OF_WHAT)


def add_phases(made, forecast):
    """How long each phase took, and what the rules give for it."""
    made.phases = [[str(phase), shown_ms(times.measured), shown_ms(times.rules), f"{(times.measured - times.rules) / 1e6:+,.1f} ms"]
                   for phase, times in forecast.phases.items()]
    if forecast.off:
        made.phases_note = (f"The rules miss {', '.join(map(str, forecast.off))} by more than 5 ms: something took part that is in no rule, "
                            "such as a processor, a bus, a lock, or workers that began late.")


def time_words(forecast):
    """How long an attempt took each way, and which devices take most of the longest path."""
    ways = [(name, times) for name, times in (("suspend", forecast.suspend), ("resume", forecast.resume)) if times is not None]
    if not ways:
        ways = [(str(phase), times) for phase, times in forecast.phases.items()]
    words = ", ".join(f"{name} {times.measured / 1e6:,.0f} ms" for name, times in ways)
    share = path_share(forecast, sum(times.measured for _, times in ways)) if forecast.measured.slept else ""
    return f"{words}; {share}" if share else words


def path_share(forecast, whole):
    """The devices that take most of the longest path, in its order, and how much of the whole they take."""
    totals = {}
    for phase in TIMED:
        for step in forecast.path(phase) if phase in forecast.phases else []:
            totals[step.device] = totals.get(step.device, 0) + step.length
    most = sorted(totals, key=totals.get, reverse=True)[:NAMED]
    named = [device for device in totals if device in most and totals[device] >= LEAST_SHARE * whole]
    if not named:
        return ""
    taken = sum(totals[device] for device in named)
    return f"{100 * taken / whole:.0f} % is {' > '.join(device.name for device in named)}"
