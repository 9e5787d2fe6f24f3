"""Holds the page of the recordings, and the samples in examples/real, against what replay says of the recordings of a real kernel.

What the kernel did in each recording, and what it answered, is known from who recorded it, and stands in KNOWN.
"""

import contextlib
import os
import re
import sys
import unittest

import recordings
from command_tests import EXAMPLES, ROOT, julampok

from julampok.follow.verdict import replay
from julampok.kernel.reading import read_inputs

REAL = ROOT / "python" / "tests" / "recordings" / "README.md"
SLEPT = ("0", ["The machine slept"])
NOT_TOLD = None
# For each attempt: what the write answered (NOT_TOLD: the kernel's messages do not have it), and words that have to be said.
KNOWN = {
    "s3": [SLEPT], "order": [SLEPT], "slow-sync": [SLEPT], "slow-async": [SLEPT], "slow-sync-one": [SLEPT], "slow-async-one": [SLEPT],
    "whatif-gpu-sync": [SLEPT], "whatif-gpu-sync-1": [SLEPT], "whatif-gpu-sync-2": [SLEPT], "whatif-gpu-sync-3": [SLEPT],
    "whatif-gpu-async": [SLEPT], "whatif-gpu-async-1": [SLEPT], "whatif-gpu-async-2": [SLEPT], "whatif-gpu-async-3": [SLEPT],
    "noirq-fails": [("EIO", ["d5 (dpmt) answered -5 (EIO) in noirq"])],
    "order-broken": [],
    "s2idle": [("0", ["suspend-to-idle"])],
    "pm-test-devices": [("0", ["pm_test 'devices'"])],
    "two-cycles": [SLEPT, ("EBUSY", ["key reported", "hard interrupt", "wlan (dpmt) in its suspend callback", "saved count"])],
    "irq-suspend": [("EBUSY", ["lid reported", "hard interrupt", "disk (dpmt) in its suspend callback", "test before the suspend callback of"])],
    "irq-suspend-async": [("EBUSY", ["lid reported", "hard interrupt", "mid (dpmt)", "long (dpmt)", "test before the suspend callback of fast"])],
    "irq-late": [("EBUSY", ["key reported", "hard interrupt", "wlan (dpmt) in its late callback", "test before the late callback of"])],
    "irq-noirq": [("EBUSY", ["lid reported", "hard interrupt", "disk (dpmt) in its noirq callback", "test before processor 1"])],
    "cpu-off": [("EBUSY", ["lid reported", "test before processor 2", "saved count"])],
    "syscore": [("EBUSY", ["lid reported", "last test before the entry", "saved count"])],
    "soft-unguarded": [("0", ["The machine slept", "lid reported an event before", "no saved count"])],
    "freeze-user": [("EBUSY", ["lid reported", "softirq", "a user task"])],
    "freeze-kernel": [("EBUSY", ["key reported", "softirq", "a kernel thread"])],
    "wont-freeze-user": [("EBUSY", ["did not freeze in time", "stuckd"])],
    "async-fails": [("EIO", ["net (dpmt) answered -5 (EIO) in suspend, asynchronously"])],
    "platform-begin": [(NOT_TOLD, ["platform's begin failed", "not told"])],
    "platform-prepare": [(NOT_TOLD, ["platform's prepare failed", "not told"])],
    "platform-prepare_late": [(NOT_TOLD, ["platform's prepare_late failed", "not told"])],
    "at-n1": [("EBUSY", ["lid reported", "freezer found it"]), SLEPT],
    "at-hard-begin": [("EBUSY", ["lid reported", "before the suspend callback"]), SLEPT],
    "at-prepare": [("EBUSY", ["lid reported", "before the late callback"]), SLEPT],
    "at-hard-prepare_late": [("EBUSY", ["lid reported", "before processor 1"]), SLEPT],
    "at-cpu2": [("EBUSY", ["lid reported", "before processor 3"]), SLEPT],
    "at-t1": [("EBUSY", ["lid reported", "last test before the entry"]), SLEPT],
    "line-freeze-user-guarded": [("EBUSY", ["lid reported", "softirq", "freezer found it"])],
    "g2-wakelock-held": [SLEPT, SLEPT],
    "g3-event-in-attempt": [("EBUSY", ["lid reported", "suspend callback of d1"]), SLEPT, SLEPT, SLEPT],
    "g9-error-each-time": [("EIO", ["d1 (dpmt) answered -5 (EIO) in suspend"])] * 5,
    "g10-autosleep-off-while-attempt": [("EBUSY", ["autosleep reported", "from the task runner"])],
}
# What dmesg alone tells, so that without it something else is said: who did not freeze, and whether a count was saved.
BY_DMESG = re.compile(r"dmesg|saved count|not told|Tasks did not freeze|freezer found it|pm_test|platform|It may also")


def said(one):
    """What replay says of the cause of an attempt, in one line."""
    return " ".join(text for text in one.sentences if not text.startswith("Undone:"))


def rows(name, found):
    """The rows of the table of recordings: recording, attempt, lines, answer, what is said."""
    if found.broken:
        return [(name, "", "", "", f"not legal: {found.broken[0].words}")]
    return [(name, str(one.number), f"{one.line} to {one.last_line}", one.answer or "not told", said(one)) for one in found.attempts]


def table():
    """The text of the table, and where it begins and ends in the page."""
    text = REAL.read_text()
    begin = text.index("| recording | what was recorded |")
    end = text.index("\n\n", begin)
    return text[begin:end], begin, end


def page_rows():
    """The rows that the page has, without what was recorded."""
    table_rows = re.findall(r"^\| (`[\w-]+`|) \| [^|]* \| (\d*) \| ([\d to]*) \| ([^|]*) \| (.*) \|$", table()[0], re.M)
    found, name = [], ""
    for first, *rest in table_rows:
        name = first.strip("`") or name
        found.append((name, *(cell.strip() for cell in rest)))
    return found


@contextlib.contextmanager
def inside(folder):
    """Makes a folder the current one."""
    before = os.getcwd()
    os.chdir(folder)
    try:
        yield
    finally:
        os.chdir(before)


class Recordings(unittest.TestCase):
    """All recordings, followed once."""

    @classmethod
    def setUpClass(cls):
        cls.recordings = {name: read_inputs(**recordings.inputs(name)) for name in recordings.names()}
        cls.found = {name: replay(recording) for name, recording in cls.recordings.items()}

    def test_what_is_known(self):
        self.assertEqual(set(self.found), set(KNOWN))
        for name, known in KNOWN.items():
            found = self.found[name]
            with self.subTest(name):
                self.assertEqual(found.status, int(name == "order-broken"), found.headline)
                self.assertEqual([one.answer for one in found.attempts], [answer for answer, _ in known])
                for one, (_, words) in zip(found.attempts, known):
                    self.assertEqual([word for word in words if word not in said(one)], [], said(one))

    def test_the_broken_order(self):
        """Lines 490 and 545 were edited; nothing but `port`, which has no callbacks, stands between the two devices."""
        broken, = self.found["order-broken"].broken
        self.assertEqual((broken.line, broken.first_line), (490, 545))
        for word in ("ctl (dpmt)", "disk (dpmt)", "port"):
            self.assertIn(word, broken.words)

    def test_the_page(self):
        wanted = [row for name in KNOWN for row in rows(name, self.found[name])]
        self.assertEqual(sorted(page_rows()), sorted(wanted))

    def test_lines_are_those_of_the_trace(self):
        """Each line that is named in what is said has the device or source that stands before it."""
        for name, found in self.found.items():
            lines = self.recordings[name].trace_lines
            for one in found.attempts:
                for device, number in re.findall(r"(\S+) \(\w+\) (?:answered|in its)[^.]*? line (\d+)", said(one)):
                    self.assertIn(device, lines[int(number) - 1])
                for source, number in re.findall(r"(\S+) reported an event(?: before,)? in line (\d+)", said(one)):
                    self.assertIn(f"wakeup_source_activate: {source} ", lines[int(number) - 1])

    def test_without_messages(self):
        """Without dmesg the status stays, and nothing but what dmesg alone tells is said otherwise."""
        for name, found in self.found.items():
            if recordings.file_of(name, "dmesg") is None:
                continue
            other = replay(read_inputs(**recordings.inputs(name, without=("dmesg",))))
            with self.subTest(name):
                self.assertEqual(other.status, found.status)
                for one, bare in zip(found.attempts, other.attempts):
                    self.assertEqual([text for text in one.sentences if not BY_DMESG.search(text)], [text for text in bare.sentences if not BY_DMESG.search(text)])
                    self.assertNotIn("dmesg line", " ".join(bare.sentences))

    def test_the_trace_alone(self):
        """Without lists of devices and links, and without dmesg, every recording is followed; a broken order is found by parents."""
        for name, found in self.found.items():
            with self.subTest(name):
                other = replay(read_inputs(**recordings.inputs(name, without=("devices", "links", "dmesg"))))
                self.assertEqual((other.status, [one.line for one in other.attempts]), (found.status, [one.line for one in found.attempts]))


class Samples(unittest.TestCase):
    """The samples in examples/real: examples/README.md has what replay says of each."""

    TOLD = re.findall(r"```sh\n../../julampok (replay [^\n]*)\n```\n\n```\n(.*?)```", (ROOT / "examples" / "README.md").read_text(), re.S)

    def test_all_are_told(self):
        traces = {path.name for path in (EXAMPLES / "real").glob("*.trace")}
        self.assertLessEqual({"order.trace", "order-broken.trace", "irq-suspend-async.trace", "cpu-off.trace"}, traces)
        self.assertLessEqual({"order.trace", "order-broken.trace", "irq-suspend-async.trace", "cpu-off.trace"}, {words.split()[1] for words, _ in self.TOLD})

    def test_what_is_told(self):
        without_judge = lambda text: re.sub(r" Judged by .*", "", text)
        for words, told in self.TOLD:
            with self.subTest(words), inside(EXAMPLES / "real"):
                done = julampok(*words.split())
                self.assertEqual(without_judge(done.out), without_judge(told), done.err)
                self.assertEqual(done.status, int("broken" in words))


def write_page():
    """Writes the table of recordings anew, with what was recorded as it stands there."""
    text = REAL.read_text()
    own, begin, end = table()
    what = dict(re.findall(r"^\| `([\w-]+)` \| ([^|]*) \|", own, re.M))
    Recordings.setUpClass()
    lines = []
    for name in KNOWN:
        for place, row in enumerate(rows(name, Recordings.found[name])):
            head = (f"`{name}`", what.get(name, "")) if place == 0 else ("", "")
            lines.append(f"| {' | '.join((*head, *row[1:]))} |")
    REAL.write_text(text[:begin] + "| recording | what was recorded | attempt | lines | answer | what `replay` says |\n|---|---|---|---|---|---|\n" + "\n".join(lines) + text[end:])


def write_samples():
    """Writes anew what replay says of the samples in EXAMPLES.md."""
    page = ROOT / "examples" / "README.md"
    text = page.read_text()
    for words, told in Samples.TOLD:
        with inside(EXAMPLES / "real"):
            text = text.replace(told, julampok(*words.split()).out)
    page.write_text(text)


if __name__ == "__main__":
    if sys.argv[1:] == ["--write"]:
        write_page()
        write_samples()
    else:
        unittest.main()
