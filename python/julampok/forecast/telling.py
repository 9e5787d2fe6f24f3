"""Times, forecasts and longest paths as text and as JSON."""

from __future__ import annotations

from typing import Iterator, Sequence

from julampok.kernel.recording import Phase, Recording

from .forecast import Forecast, Saving, Step, Times
from .measured import TIMED, WAY_DOWN, WAY_UP

OF_WHAT = ("what the rules give is durations of callbacks over the order of devices: it knows no buses, no locks and no processors, "
           "and what passes between callbacks is not in it")
OF_OTHERS = "may be asynchronous or not"  # In a note of the reading on devices without callbacks, of which forecasts think otherwise.
LEAST_SHOWN = 1_000_000  # Callbacks that are shorter, in nanoseconds, are told together unless all are asked for.


def ms(nanoseconds: int | None) -> float | None:
    """Milliseconds, to the microsecond; None for None."""
    return None if nanoseconds is None else round(nanoseconds / 1e6, 3)


def shown(nanoseconds: int | None) -> str:
    """Milliseconds as text."""
    return "-" if nanoseconds is None else f"{nanoseconds / 1e6:,.1f}"


def signed(nanoseconds: int | None) -> str:
    """A change in milliseconds as text."""
    return "-" if nanoseconds is None else f"{round(nanoseconds / 1e6, 1) + 0:+,.1f}"


# ---- notes


def notes_of(recording: Recording, forecast: Forecast, more: Sequence[str] = ()) -> list[str]:
    """What a user should know of the times: what they are of, where the rules miss the base, and what the inputs lack."""
    found = [OF_WHAT, *more]
    for phase, times in forecast.off.items():
        found.append(off_note(phase, times, bool(forecast.changes)))
    found += failed_notes(forecast)
    if not recording.is_async_listed and forecast.measured.is_any_async:
        found.append("neither SYS nor --devices tells who is asynchronous: a device without callbacks is taken as synchronous, "
                     "as devices are by default, unless the walk passed it while it had to wait")
    if not forecast.measured.is_one_pass:
        found.append(f"version {recording.version_text}: before 6.1.76 all asynchronous devices are given out first on the way up")
    elif recording.version[:2] != (6, 1):
        found.append(f"the rules are those of 6.1; this kernel is {recording.version_text}, which may give out devices in another order")
    return found + [note_line(note) for note in recording.notes if OF_OTHERS not in note.text]


def note_line(note) -> str:
    place = ":".join(str(part) for part in (note.file, note.line) if part is not None)
    return f"{place}: {note.text}" if place else note.text


def off_note(phase: Phase, times: Times, is_changed: bool) -> str:
    """That a phase took another time than the rules give, with both numbers, and the change in words."""
    is_more = times.measured > times.rules
    why = ("something took part that is in no rule (a processor, a bus, a lock, workers that began late) or that no input tells (a link)"
           if is_more else "some device waited less than is taken here, so who is asynchronous, or a link, is not as the inputs tell")
    text = (f"{phase}: measured {shown(times.measured)} ms, the rules give {shown(times.rules)} ms, "
            f"{shown(abs(times.measured - times.rules))} ms off; {why}")
    return text + (f"; as a change, the forecast is {signed(times.change)} ms" if is_changed else "")


def failed_notes(forecast: Forecast) -> Iterator[str]:
    """That an attempt was turned around before sleep, and in which phase."""
    measured = forecast.measured
    if measured.slept:
        return
    last = next((phase for phase in reversed(WAY_DOWN) if phase in measured.phases), None)
    where = f"its last phase on the way down is {last}" if last else "it has no phase on the way down"
    yield f"attempt {measured.attempt.number} did not enter sleep: {where}"


# ---- JSON


def times_json(times: Times | None) -> dict:
    """A stretch of time as JSON; None three times where the attempt has no such stretch."""
    times = times or Times(None, None, None)
    return {"measured_ms": ms(times.measured), "rules_ms": ms(times.rules), "forecast_ms": ms(times.forecast)}


def as_json(forecast: Forecast, notes: Sequence[str], savings: Sequence[Saving] | None) -> dict:
    """All that `times` tells, for a script."""
    found = {"suspend": times_json(forecast.suspend), "resume": times_json(forecast.resume)}
    found["phases"] = [{"phase": str(phase)} | times_json(times) for phase, times in forecast.phases.items()]
    found["path"] = [step_json(step) for phase in forecast.phases for step in forecast.path(phase)]
    found["notes"] = list(notes)
    if savings is not None:
        found["best"] = [saving_json(saving) for saving in savings]
    return found


def step_json(step: Step) -> dict:
    waits_for = step.wait.other.name if step.wait is not None else None
    return {"device": step.device.name, "phase": str(step.phase), "ms": ms(step.length), "waits_for": waits_for}


def saving_json(saving: Saving) -> dict:
    forecast = saving.forecast
    found = {"device": saving.device.name, "saves_ms": ms(saving.saved)}
    found |= {"suspend": times_json(forecast.suspend), "resume": times_json(forecast.resume)}
    found["phases"] = [{"phase": str(phase)} | times_json(times) for phase, times in forecast.phases.items()]
    return found


# ---- text


def as_text(recording: Recording, forecast: Forecast, notes: Sequence[str], savings: Sequence[Saving] | None, is_all: bool) -> str:
    """All that `times` tells, for a reader."""
    parts = [head(recording, forecast), phases_text(forecast), devices_text(forecast, is_all), path_text(forecast, is_all)]
    if savings is not None:
        parts.append(best_text(savings))
    parts.append("".join(f"note: {note}\n" for note in notes))
    return "\n".join(parts)


def head(recording: Recording, forecast: Forecast) -> str:
    """What was measured, and what is changed."""
    measured, attempt = forecast.measured, forecast.measured.attempt
    text = (f"attempt {attempt.number} of {len(recording.attempts)}, lines {attempt.line} to {attempt.last_line} of {recording.trace_file}: "
            f"{len(measured.devices)} devices, {len(measured.plan.asynchronous)} of them asynchronous\n")
    return text + "".join(f"changed: {change}\n" for change in forecast.changes)


def phases_text(forecast: Forecast) -> str:
    """A line for suspend, for resume and for each phase. A phase that the rules miss has its forecast as a change."""
    off, is_changed = forecast.off, bool(forecast.changes)
    heads = ("ms", "measured", "rules", *(("forecast", "change") if is_changed else ()))
    rows = [heads]
    for name, way, times in (("suspend", WAY_DOWN, forecast.suspend), ("resume", WAY_UP, forecast.resume)):
        if times is not None:
            rows.append(phase_row(f"{name}, whole", times, is_changed, any(phase in off for phase in way)))
        rows += [phase_row(f"  {phase}", forecast.phases[phase], is_changed, phase in off) for phase in way if phase in forecast.phases]
    return table(rows)


def phase_row(name: str, times: Times, is_changed: bool, is_off: bool) -> tuple[str, ...]:
    row = (name, shown(times.measured), shown(times.rules))
    if not is_changed:
        return row
    return (*row, "as change" if is_off else shown(times.forecast), signed(times.change))


def table(rows: Sequence[Sequence[str]]) -> str:
    """Rows in columns: the first to the left, the others to the right."""
    widths = [max(len(row[column]) for row in rows) for column in range(len(rows[0]))]
    line = lambda row: "  ".join(cell.ljust(width) if at == 0 else cell.rjust(width) for at, (cell, width) in enumerate(zip(row, widths)))
    return "".join(line(row).rstrip() + "\n" for row in rows)


def devices_text(forecast: Forecast, is_all: bool) -> str:
    """The devices with callbacks, the slowest first, with the time of each callback."""
    measured, rows = forecast.measured, []
    for number, device in enumerate(measured.devices):
        each = [(phase, measured.phases[phase].durations[number]) for phase in TIMED
                if phase in measured.phases and measured.phases[phase].callbacks[number] is not None]
        if each:
            flag = ", asynchronous" if number in measured.plan.asynchronous else ""
            rows.append((sum(length for _, length in each), f"{device.shown}{flag}", each))
    rows.sort(key=lambda row: -row[0])
    kept = rows if is_all else [row for row in rows if row[0] >= LEAST_SHOWN]
    lines = [(name, shown(total), "  ".join(f"{phase} {shown(length)}" for phase, length in each if is_all or length >= LEAST_SHOWN // 10))
             for total, name, each in kept]
    width = max((len(name) for name, *_ in lines), default=0)
    text = "".join(f"  {name.ljust(width)}  {total.rjust(8)}  {said}".rstrip() + "\n" for name, total, said in lines)
    rest = rows[len(kept):]
    others = f"  and {len(rest)} more with {shown(sum(row[0] for row in rest))} ms together\n" if rest else ""
    silent = len(measured.devices) - len(rows)
    return f"devices, the slowest first (ms in callbacks):\n{text}{others}  {silent} devices without a callback\n"


def path_text(forecast: Forecast, is_all: bool) -> str:
    """The longest path of each phase: callbacks one after the other, and what each waited for."""
    text = "longest path" + (", with the change:\n" if forecast.changes else ":\n")
    for phase, times in forecast.phases.items():
        steps = forecast.path(phase)
        in_callbacks = sum(step.length for step in steps)
        text += f"  {phase}: {shown(in_callbacks)} ms in {len(steps)} callbacks"
        if not forecast.changes:
            text += f", {shown(times.measured - in_callbacks)} ms of the {shown(times.measured)} waiting between them"
        text += "\n" + "".join(path_lines(steps, is_all))
    return text


def path_lines(steps: Sequence[Step], is_all: bool) -> Iterator[str]:
    """A line a callback of a path; short ones in a row are one line."""
    short: list[Step] = []
    for step in steps:
        if not is_all and step.length < LEAST_SHOWN:
            short.append(step)
            continue
        yield from short_line(short)
        short = []
        why = "begins with the phase" if step.wait is None else step.wait.words
        yield f"    {shown(step.length).rjust(8)}  {step.device.shown}  {why}\n"
    yield from short_line(short)


def short_line(steps: Sequence[Step]) -> Iterator[str]:
    if steps:
        names = steps[0].device.shown if len(steps) == 1 else f"{len(steps)} short ones, {steps[0].device.shown} to {steps[-1].device.shown}"
        yield f"    {shown(sum(step.length for step in steps)).rjust(8)}  {names}\n"


def best_text(savings: Sequence[Saving]) -> str:
    """What would be saved by each device that is made asynchronous."""
    if not savings:
        return "no device saves anything if it alone is made asynchronous\n"
    rows = [("saves most if made asynchronous (ms)", "together", "suspend", "resume")]
    for saving in savings:
        ways = (way_change(saving.forecast, way) for way in (WAY_DOWN, WAY_UP))
        rows.append((f"  {saving.device.shown}", signed(-saving.saved), *map(signed, ways)))
    return table(rows)


def way_change(forecast: Forecast, way: Sequence[Phase]) -> int:
    """What a change adds on one way, of the phases that the attempt has."""
    return sum(forecast.phases[phase].change for phase in way if phase in forecast.phases)


def best_sentence(saving: Saving) -> str:
    """A saving as a sentence."""
    down, up = (way_change(saving.forecast, way) for way in (WAY_DOWN, WAY_UP))
    return f"{saving.device.shown} made asynchronous: suspend {signed(down)} ms, resume {signed(up)} ms by the rules"

