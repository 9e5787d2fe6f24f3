"""Tries report: pages of recordings of a real kernel, of a thousand devices, and of what is broken.

What is expected stands in the recordings' README, or is read in their traces.
"""

import functools
import html
import html.parser
import json
import re
import tempfile
import unittest
from pathlib import Path

import recordings
from command_tests import EXAMPLES, ROOT, julampok
from julampok.drawing import groups, packing, page
from julampok.drawing.model import Sort, Tone, Unit
from julampok.drawing.reporting import report_of
from julampok.kernel.reading import read_inputs
from traces import trace_of

# Milliseconds of suspend and resume, as the README of the recordings has them.
WHAT_IF = {"whatif-gpu-sync": (445, 349), "whatif-gpu-async": (324, 279), "whatif-gpu-sync-1": (517, 374), "whatif-gpu-async-3": (403, 301)}
# What stopped an attempt: its answer, words of its causes, and rows that stand on top.
STOPPED = {
    "irq-suspend": ("EBUSY", ("lid", "disk", "hub"), ["disk", "lid", "hub", "ctl"]),
    "irq-late": ("EBUSY", ("key", "wlan"), ["wlan", "key"]),
    "async-fails": ("EIO", ("net",), ["net"]),
    "wont-freeze-user": ("EBUSY", ("stuckd",), []),
    "syscore": ("EBUSY", ("lid", "last test"), ["lid"]),
}
MOST_BYTES = 3_000_000
NAMES = '<img src=x onerror="alert(1)">&amp;'


@functools.cache
def form(name, without=()):
    """The page's form of a recording, judged by the second writing."""
    return report_of(read_inputs(**recordings.inputs(name, without)), f"{name}.trace")


def made(text, **files):
    """The page's form of the text of a trace."""
    with tempfile.TemporaryDirectory() as folder:
        paths = {}
        for ending, inside in ({"trace": text} | files).items():
            paths[ending] = str(Path(folder) / f"one.{ending}")
            Path(paths[ending]).write_text(inside)
        return report_of(read_inputs(**paths), "one.trace")


def data_of(drawn):
    """The data that a page holds for its script."""
    return json.loads(re.search('<script type="application/json" id="data">(.*?)</script>', drawn, re.S)[1])


def rows_of(attempt, whole, title):
    """The names of the rows of a group."""
    return [whole.rows[number].name for group in groups.groups_of(whole, attempt) if group.title.startswith(title) for number in group.rows]


class Elements(html.parser.HTMLParser):
    """The elements of a page, each with its attributes; and the text outside of scripts and styles."""

    def __init__(self, text):
        super().__init__()
        self.elements, self.text, self.within = [], "", ""
        self.feed(text)
        self.close()

    def handle_starttag(self, tag, attributes):
        self.elements.append((tag, dict(attributes)))
        self.within = tag

    def handle_endtag(self, tag):
        self.within = ""

    def handle_data(self, text):
        self.text += text if self.within not in ("script", "style") else ""


class Recordings(unittest.TestCase):
    def test_times(self):
        for name, (suspend, resume) in WHAT_IF.items():
            whole = form(name)
            self.assertRegex(whole.headline, f"^Legal by the second writing; suspend {suspend} ms, resume {resume} ms; [0-9]+ % is [a-z]+ > ", name)
            self.assertIs(whole.tone, Tone.GOOD)

    def test_marks_are_the_callbacks_of_the_trace(self):
        """By lines 481 and 483 of whatif-gpu-sync the suspend callback of gpu takes 60.328280 to 60.478517 s."""
        whole = form("whatif-gpu-sync")
        starts = {place: line for place, line in enumerate(whole.lines, 1) if "device_pm_callback_start" in line}
        marks = {mark.first: mark for mark in whole.attempts[0].marks if mark.is_callback}
        self.assertEqual(set(marks), set(starts))
        self.assertEqual((marks[481].last, marks[481].end - marks[481].begin), (483, 60_478_517 - 60_328_280))
        for place, mark in marks.items():
            begin, end = (float(re.search(r"(\d+\.\d+): device", whole.lines[line - 1])[1]) for line in (mark.first, mark.last))
            self.assertAlmostEqual((mark.end - mark.begin) / 1e6, end - begin, places=5, msg=place)
            self.assertIn(f" {whole.rows[mark.row].name}, ", whole.lines[place - 1])

    def test_the_longest_path_holds_together(self):
        """Each step of a phase begins after the step before it has ended, and says why."""
        for name in ("whatif-gpu-sync", "slow-async-one"):
            attempt = form(name).attempts[0]
            steps = [(step.phase, attempt.marks[step.mark]) for step in attempt.path if step.mark is not None]
            self.assertGreater(len(steps), 5)
            for (phase, mark), (later_phase, later) in zip(steps, steps[1:]):
                if phase == later_phase:
                    self.assertGreaterEqual(later.begin, mark.end, (name, phase))
            self.assertTrue(all(step.words for step in attempt.path))

    def test_what_stopped_an_attempt_stands_on_top(self):
        for name, (answer, words, top) in STOPPED.items():
            whole = form(name)
            attempt = whole.attempts[-1]
            self.assertEqual((whole.tone, attempt.tone), (Tone.GOOD, Tone.BAD), name)
            self.assertTrue(whole.headline.startswith("Legal by the second writing"), name)
            self.assertTrue(whole.stop.startswith(f"Stopped ({answer}): "), (name, whole.stop))
            self.assertTrue(all(word in " ".join(attempt.causes) for word in words), (name, attempt.causes))
            self.assertLessEqual(set(top), set(rows_of(attempt, whole, "What stopped it")), name)
            drawn = page.page_html(whole)
            self.assertRegex(drawn, f'<details class="attempt bad" id="attempt-{attempt.number}" open>')

    def test_two_attempts(self):
        """The first one slept, so it is folded; the second one was stopped while wlan was in its callback."""
        whole = form("two-cycles")
        self.assertEqual([attempt.tone for attempt in whole.attempts], [Tone.GOOD, Tone.BAD])
        self.assertRegex(whole.headline, "^Legal by the second writing; 2 attempts; attempt 1: suspend [0-9]+ ms, resume [0-9]+ ms; ")
        self.assertRegex(whole.stop, r"^Attempt 2 stopped \(EBUSY\): key reported an event in line 1659, from a hard interrupt, with wlan ")
        drawn = page.page_html(whole)
        self.assertRegex(drawn, '<details class="attempt good" id="attempt-1">')
        self.assertRegex(drawn, '<details class="attempt bad" id="attempt-2" open>')
        self.assertIn("wlan", rows_of(whole.attempts[1], whole, "What stopped it"))

    def test_a_broken_order_is_marked(self):
        """ctl is above port, which is above disk; by its README lines 490 and 545 of the trace are ctl's begin and disk's end."""
        whole = form("order-broken")
        attempt = whole.attempts[0]
        self.assertRegex(whole.headline, r"^Not legal: ctl .*\(line 490\).*disk .*line 545")
        self.assertEqual(set(rows_of(attempt, whole, "The order that was broken")), {"ctl", "disk"})
        ties = [(whole.rows[tie.source].name, tie.first, whole.rows[tie.target].name, tie.last) for tie in attempt.ties if tie.kind == "broken"]
        self.assertEqual(ties, [("disk", 545, "ctl", 490)])
        self.assertIn('<a href="#L490">line 490</a>', page.page_html(whole))

    def test_silent_devices_are_folded(self):
        """Devices whose lines are those of prepare and complete alone."""
        whole = form("whatif-gpu-sync")
        named = [set(re.findall(f"device_pm_callback_start:.*? (\\S+), parent: .*, {info}\\[", "\n".join(whole.lines))) for info in ("", "[a-z ]+ ")]
        quiet = next(group for group in groups.groups_of(whole, whole.attempts[0]) if group.is_folded)
        self.assertEqual(quiet.title, f"{len(quiet.rows)} devices without a callback")
        self.assertGreater(len(quiet.rows), 150)
        self.assertFalse({whole.rows[number].name for number in quiet.rows} & (named[1] - named[0]))

    def test_a_counter_has_no_times(self):
        for name in ("s3", "noirq-fails", "at-cpu2", "g9-error-each-time"):
            whole = form(name)
            self.assertIs(whole.unit, Unit.LINES)
            self.assertNotIn(" ms", page.page_html(whole).partition("<script")[0].partition("</style>")[2], name)

    def test_sleep_is_drawn_narrow(self):
        """The clock of slow-async jumps from 30.387552 to 32.752047 s, and s2idle sleeps from 19.487821 to 21.889969 s."""
        for name, size in (("slow-async", 2364), ("s2idle", 2402)):
            gaps = form(name).attempts[0].gaps
            self.assertEqual([gap.words.replace(",", "") for gap in gaps], [f"asleep {size} ms"], name)

    def test_what_inputs_do_not_tell_is_not_shown(self):
        whole, alone = form("irq-suspend"), form("irq-suspend", ("devices", "links", "dmesg"))
        self.assertEqual(len(whole.attempts[0].marks), len(alone.attempts[0].marks))
        self.assertFalse(any("link" in note for row in alone.rows for note in row.notes))
        self.assertTrue(any("needs hub by a link" in note for row in whole.rows for note in row.notes))
        self.assertEqual(alone.dmesg, [])

    def test_all_recordings(self):
        """Each makes a page that holds its trace whole, loads nothing, and refers to no place that it has not."""
        for name in recordings.names():
            whole = form(name)
            drawn = page.page_html(whole)
            elements, data = Elements(drawn), data_of(drawn)
            self.assertEqual(packing.unpacked(data["log"]), whole.lines, name)
            self.assertFalse([one for one in elements.elements if {"src", "background", "poster"} & set(one[1])], name)
            self.assertIn(("meta", {"http-equiv": "Content-Security-Policy", "content": page.POLICY}), elements.elements)
            counts = {"L": len(whole.lines), "G": len(whole.judged), "D": len(whole.dmesg)}
            links = [given["href"] for tag, given in elements.elements if tag == "a"]
            self.assertTrue(all(link[0] == "#" and 1 <= int(link[2:]) <= counts[link[1]] for link in links), name)
            self.assertLess(len(drawn.encode()), 400_000, name)
            for attempt, told in zip(whole.attempts, data["attempts"]):
                placed = [number for group in told["groups"] for number in group[1]]
                self.assertEqual(len(placed), len(set(placed)), name)
                self.assertLessEqual({mark.row for mark in attempt.marks}, set(placed), name)


class Example(unittest.TestCase):
    def test_the_pair(self):
        """The page says what the second recording of the pair shows: gpu made asynchronous saves 445 - 324 and 349 - 279 ms."""
        told, folder = (ROOT / "examples" / "README.md").read_text(), EXAMPLES / "real"
        one, two = (folder / f"whatif-gpu-{kind}.trace" for kind in ("sync", "async"))
        words = ("--devices", one.with_suffix(".devices"), "--dmesg", one.with_suffix(".dmesg"))
        drawn = html.unescape(julampok("report", one, *words).out)
        help_words = re.search(r'says the page: "(.*?)"', told, re.S)[1].replace("\n", " ")
        self.assertIn(help_words, drawn)
        saved = [float(number) for number in re.findall(r"-([\d.]+) ms", help_words)]
        for saving, before, after in zip(saved, WHAT_IF["whatif-gpu-sync"], WHAT_IF["whatif-gpu-async"]):
            self.assertAlmostEqual(saving, before - after, delta=5)
        forecast = json.loads(julampok("times", one, "--devices", one.with_suffix(".devices"), "--async", "gpu", "--json").out)
        second = json.loads(julampok("times", two, "--devices", two.with_suffix(".devices"), "--json").out)
        for way in ("suspend", "resume"):
            numbers = [*(forecast[way][name] for name in ("measured_ms", "rules_ms", "forecast_ms")), second[way]["measured_ms"]]
            self.assertIn(f"| {way} | {' | '.join(f'{number:.1f}' for number in numbers)} |", told)


class Others(unittest.TestCase):
    def test_a_thousand_devices(self):
        whole = made(trace_of(1000))
        self.assertEqual(sum(row.sort is Sort.DEVICE for row in whole.rows), 1000)
        self.assertEqual(len(whole.lines), 20_000)
        self.assertLess(len(page.page_html(whole).encode()), MOST_BYTES)

    def test_names_do_not_become_markup(self):
        text = trace_of(3, name=lambda number: f"{NAMES}{number}".replace(" ", "_"), source=NAMES.replace(" ", "_"))
        drawn = page.page_html(made(text, dmesg="[    1.000000] PM: suspend entry (deep)\n[    1.1] <script>alert(1)</script>\n"))
        elements = Elements(drawn).elements
        self.assertEqual([tag for tag, _ in elements if tag in ("img", "script")], ["script", "script"])
        self.assertFalse([given for _, given in elements if any(name.startswith("on") for name in given)])
        self.assertIn(NAMES.replace(" ", "_"), "".join(row[1] for row in data_of(drawn)["rows"]))

    def test_a_trace_that_cannot_be_followed(self):
        """A device that resumes before it was suspended is no trace of these rules, yet its times are shown."""
        lines = trace_of(4).split("\n")
        first = next(place for place, line in enumerate(lines) if "dpm_suspend[2] begin" in line)
        last = next(place for place, line in enumerate(lines) if "dpm_suspend[2] end" in line)
        whole = made("\n".join(lines[:first] + lines[last + 1:]))
        drawn = page.page_html(whole)
        self.assertTrue(whole.attempts[0].marks)
        self.assertIsNot(whole.tone, Tone.GOOD)
        self.assertRegex(drawn, "could not be followed|[Nn]ot legal")

    def test_inputs_that_are_none(self):
        with tempfile.TemporaryDirectory() as folder:
            out = Path(folder) / "out.html"
            for inside in (b"", b"\0\1\2", b"x\n", trace_of(2).encode()[:700]):
                given = Path(folder) / "given"
                given.write_bytes(inside)
                done = julampok("report", given, "-o", out)
                self.assertEqual((done.status, done.out, done.err.count("\n"), out.exists()), (2, "", 1, False), inside[:20])
            done = julampok("report", folder, "-o", out)
            self.assertEqual((done.status, done.err.count("\n")), (2, 1))
            given.write_text(trace_of(2))
            self.assertEqual(julampok("report", given, "-o", given).status, 2)
            self.assertEqual(given.read_text(), trace_of(2))

    def test_the_command(self):
        with tempfile.TemporaryDirectory() as folder:
            out = Path(folder) / "out.html"
            done = julampok("report", *recordings.words("irq-suspend"), "-o", out)
            self.assertEqual((done.status, done.out), (0, ""))
            self.assertTrue(out.read_text().endswith("</html>\n"))


if __name__ == "__main__":
    unittest.main()
