"""Puts together the page of a recording: what its trace tells, what was judged of it, and its times."""

from .judging import add_verdict
from .of_recording import page_of
from .timing import add_times


def report_of(recording, name, judge=None):
    """The page's form of a recording. `judge` is a program that judges logs, or None for the second writing."""
    page, rows, clock = page_of(recording, name)
    verdict = add_verdict(page, rows, recording, judge)
    times = add_times(page, rows, clock, recording)
    for attempt in page.attempts:
        words = times.get(int(attempt.number))
        attempt.answer += f"; {words}" if words and attempt.answer else words or ""
    page.headline, page.stop = headline_of(page, verdict), stop_of(page, verdict)
    return page


def headline_of(page, verdict):
    """The verdict, and behind it the times of an attempt that slept."""
    words = [verdict[0].upper() + verdict[1:]]
    if len(page.attempts) > 1:
        words.append(f"{len(page.attempts)} attempts")
    slept = next((attempt for attempt in page.attempts if "slept; " in attempt.answer), None)
    if slept is not None:
        said = slept.answer.removeprefix("not legal; ").removeprefix("slept; ")
        words.append(f"attempt {slept.number}: {said}" if len(page.attempts) > 1 else said)
    return "; ".join(words)


def stop_of(page, verdict):
    """What stopped the first attempt that was stopped."""
    stopped = [attempt for attempt in page.attempts if "stopped" in attempt.answer]
    if not stopped:
        return ""
    first = stopped[0]
    answer = first.answer.removeprefix("not legal; ").partition(";")[0].removeprefix("stopped: ")
    causes = [cause for cause in first.causes if not cause.startswith("Not legal")]
    why = f": {causes[0].rstrip('.')}" if causes else ""
    count = len(page.attempts)
    if count == 1:
        return f"Stopped ({answer}){why}"
    many = f"{'All' if len(stopped) == count else len(stopped)} of {count} attempts stopped; attempt" if len(stopped) > 1 else "Attempt"
    return f"{many} {first.number} ({answer}){why}" if len(stopped) > 1 else f"Attempt {first.number} stopped ({answer}){why}"
