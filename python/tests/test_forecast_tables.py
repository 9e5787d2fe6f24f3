"""The tables of forecasts against measurements on the page of the recordings are what the commands say of the recordings.

usage: python3 python/tests/test_forecast_tables.py, which prints the tables as they have to stand there.
"""

import functools
import json
import pathlib
import statistics
import sys
import unittest

sys.path.insert(0, str(pathlib.Path(__file__).parent))

from command_tests import ROOT, julampok  # noqa: E402
from recordings import words  # noqa: E402

PAGE = ROOT / "python" / "tests" / "recordings" / "README.md"
PHASES = ("suspend", "late", "noirq", "resume_noirq", "early", "resume")
ONE_PROCESSOR = (
    ("whatif-gpu-sync", ("--async", "gpu"), "whatif-gpu-async"),
    ("whatif-gpu-async", ("--sync", "gpu"), "whatif-gpu-sync"),
    ("slow-sync-one", ("--pm-async", "1"), "slow-async-one"),
    ("slow-async-one", ("--pm-async", "0"), "slow-sync-one"),
)
TWO_PROCESSORS = (("sync", "--async", "async"), ("async", "--sync", "sync"))
MANY_AT_ONCE = (("slow-sync", ("--pm-async", "1"), "slow-async"), ("slow-async", ("--pm-async", "0"), "slow-sync"))


@functools.cache
def times(name, *more):
    """What `times --json` says of a recording."""
    return json.loads(julampok("times", *words(name), *more, "--json").out)


def row(*cells):
    return "| " + " | ".join(str(cell) for cell in cells) + " |\n"


def head(*cells):
    return row(*cells) + "|" + "---|" * len(cells) + "\n"


def number(value):
    return f"{value:.1f}"


def change(value):
    return f"{value:+.1f}"


def one_processor():
    """A pair of rows for each change: what the forecast says of each phase, and what the kernel then took."""
    text = head("recording", "change", "ms", *PHASES)
    for before, asked, after in ONE_PROCESSOR:
        said, took = times(before, *asked)["phases"], times(after)["phases"]
        text += row(f"`{before}`", f"`{' '.join(asked)}`", "before", *(number(phase["measured_ms"]) for phase in said))
        text += row("", "", "by the rules", *(number(phase["rules_ms"]) for phase in said))
        text += row("", "", "forecast", *(number(phase["forecast_ms"]) for phase in said))
        text += row(f"`{after}`", "", "then measured", *(number(phase["measured_ms"]) for phase in took))
        text += row("", "", "forecast is off by", *(change(ours["forecast_ms"] - theirs["measured_ms"]) for ours, theirs in zip(said, took)))
    return text


def two_processors():
    """A row for each recording and way: the change by the forecast beside that of the medians."""
    text = head("recording", "change", "", "measured", "by the rules", "change by the forecast", "change of the medians", "off by")
    median = lambda kind, way: statistics.median(times(f"whatif-gpu-{kind}-{one}")[way]["measured_ms"] for one in (1, 2, 3))
    for kind, asked, after in TWO_PROCESSORS:
        for one in (1, 2, 3):
            for way in ("suspend", "resume"):
                name = f"whatif-gpu-{kind}-{one}"
                said = times(name, asked, "gpu")[way]
                ours, theirs = said["forecast_ms"] - said["rules_ms"], median(after, way) - median(kind, way)
                text += row(f"`{name}`", f"`{asked} gpu`", way, number(said["measured_ms"]), number(said["rules_ms"]), change(ours), change(theirs), change(ours - theirs))
    return text


def many_at_once():
    """A row for each way of a pair in which many devices change at once, on two processors, one recording each."""
    text = head("recording", "change", "", "measured", "by the rules", "change by the forecast", "change of the other recording", "off by")
    for before, asked, after in MANY_AT_ONCE:
        for way in ("suspend", "resume"):
            said = times(before, *asked)[way]
            ours, theirs = said["forecast_ms"] - said["rules_ms"], times(after)[way]["measured_ms"] - said["measured_ms"]
            text += row(f"`{before}`", f"`{' '.join(asked)}`", way, number(said["measured_ms"]), number(said["rules_ms"]), change(ours), change(theirs), change(ours - theirs))
    return text


class Page(unittest.TestCase):
    """The page has the three tables."""

    def test_one_processor(self):
        self.assertIn(one_processor(), PAGE.read_text())

    def test_two_processors(self):
        self.assertIn(two_processors(), PAGE.read_text())

    def test_many_at_once(self):
        self.assertIn(many_at_once(), PAGE.read_text())


if __name__ == "__main__":
    print(one_processor())
    print(two_processors())
    print(many_at_once())
