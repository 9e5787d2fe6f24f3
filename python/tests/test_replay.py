"""replay on the recordings of a real kernel: what each should come out as is written here by hand, after what is known of it."""

import json
import os
import random
import re
import tempfile
import unittest

import recordings
from command_tests import julampok
from julampok.drawing.judging import verdict_words
from julampok.errors import CannotError
from julampok.follow.showing import as_json
from julampok.follow.verdict import replay
from julampok.kernel.reading import read_inputs
from julampok.kernel.recording import Phase

SLEPT = [("0", "slept")]
# Of each recording: for each attempt the answer (None: no input tells), and words that the sentences have to have.
KNOWN = {
    "s3": SLEPT, "slow-sync": SLEPT, "slow-async": SLEPT, "slow-sync-one": SLEPT, "slow-async-one": SLEPT, "order": SLEPT,
    "whatif-gpu-sync": SLEPT, "whatif-gpu-async": SLEPT,
    **{f"whatif-gpu-{how}-{number}": SLEPT for how in ("sync", "async") for number in (1, 2, 3)},
    "noirq-fails": [("EIO", "d5 (dpmt) answered -5 (EIO) in noirq")],
    "s2idle": [("0", "suspend-to-idle", "lid")],
    "pm-test-devices": [("0", "pm_test 'devices'")],
    "two-cycles": [("0", "slept", "00:05"), ("EBUSY", "key reported", "hard interrupt", "wlan (dpmt) in its suspend callback", "saved count was")],
    "irq-suspend": [("EBUSY", "lid reported", "hard interrupt", "disk (dpmt) in its suspend callback", "before the suspend callback of hub (dpmt)", "saved count was")],
    "irq-suspend-async": [("EBUSY", "lid reported", "hard interrupt", "mid (dpmt)", "long (dpmt)", "before the suspend callback of fast (dpmt)", "saved count was")],
    "irq-late": [("EBUSY", "key reported", "hard interrupt", "wlan (dpmt) in its late callback", "saved count was")],
    "irq-noirq": [("EBUSY", "lid reported", "disk (dpmt) in its noirq callback", "before processor 1 went off", "saved count was")],
    "cpu-off": [("EBUSY", "lid reported", "before processor 2 went off", "saved count was")],
    "syscore": [("EBUSY", "lid reported", "last test before the entry", "saved count was")],
    "soft-unguarded": [("0", "slept", "lid reported an event before", "no saved count")],
    "freeze-user": [("EBUSY", "lid reported", "softirq", "b (dmesg line 8) had not frozen, a user task", "saved count was")],
    "freeze-kernel": [("EBUSY", "key reported", "softirq", "kk (dmesg line 11) had not frozen, a kernel thread", "saved count was")],
    "wont-freeze-user": [("EBUSY", "in time", "stuckd (dmesg line 6) had not frozen, a user task")],
    "async-fails": [("EIO", "net (dpmt) answered -5 (EIO) in suspend, asynchronously")],
    "platform-begin": [(None, "platform's begin failed", "not told")],
    "platform-prepare": [(None, "platform's prepare failed", "not told")],
    "platform-prepare_late": [(None, "platform's prepare_late failed", "not told")],
    "at-n1": [("EBUSY", "lid reported", "freezer found it", "saved count was"), ("0", "slept")],
    "at-hard-begin": [("EBUSY", "lid reported", "suspend callback of d1 (dpmt)", "saved count or a hard event"), ("0", "slept")],
    "at-prepare": [("EBUSY", "lid reported", "late callback of d1 (dpmt)"), ("0", "slept")],
    "at-hard-prepare_late": [("EBUSY", "lid reported", "before processor 1 went off"), ("0", "slept")],
    "at-cpu2": [("EBUSY", "lid reported", "before processor 3 went off"), ("0", "slept")],
    "at-t1": [("EBUSY", "lid reported", "last test before the entry"), ("0", "slept")],
    "line-freeze-user-guarded": [("EBUSY", "lid reported", "softirq", "freezer found it")],
    "g2-wakelock-held": SLEPT * 2,
    "g3-event-in-attempt": [("EBUSY", "lid reported", "from the suspend callback of d1 (dpmt)", "autosleep work")] + SLEPT * 3,
    "g9-error-each-time": [("EIO", "d1 (dpmt) answered -5 (EIO) in suspend")] * 5,
    "g10-autosleep-off-while-attempt": [("EBUSY", "autosleep reported", "runner-39 had not frozen", "autosleep work")],
}
# Recordings whose bottom no legal log has: the last line that is judged.
DOWN_TO = {"s2idle": "dpm_suspend_noirq[2] end", "pm-test-devices": "dpm_suspend[2] end", "platform-begin": "suspend_enter[3] end",
           "platform-prepare": "dpm_suspend[2] end", "platform-prepare_late": "dpm_suspend_noirq[2] end"}
NO_MESSAGES = ("dmesg",)


def recorded(name, without=()):
    """A recording of the folder."""
    return read_inputs(**recordings.inputs(name, without))


class Known(unittest.TestCase):
    """Each recording comes out as what is known of it."""

    def test_table_is_whole(self):
        self.assertEqual(sorted([*KNOWN, "order-broken"]), recordings.names())

    def test_recordings(self):
        for name, attempts in KNOWN.items():
            with self.subTest(name):
                recording = recorded(name)
                found = replay(recording)
                self.assertEqual((found.status, found.judged), (0, "legal"), found.headline)
                self.assertEqual([one.answer for one in found.attempts], [answer for answer, *_ in attempts])
                for one, (_, *words) in zip(found.attempts, attempts):
                    said = " ".join(one.sentences)
                    for word in words:
                        self.assertIn(word, said)
                for one in found.attempts:
                    line = recording.trace_lines[one.judged_to - 1] if one.judged_to else ""
                    self.assertTrue(line.endswith(DOWN_TO.get(name, "")), line)

    def test_broken_order(self):
        found = replay(recorded("order-broken"))
        self.assertEqual((found.status, found.is_legal), (1, False))
        broken = found.broken[0]
        self.assertEqual((broken.line, broken.first_line), (490, 545))
        self.assertIn("ctl (dpmt) began its callback of suspend", broken.did)
        self.assertIn("disk (dpmt) had to end", broken.first)
        self.assertEqual(broken.because, ["ctl (dpmt) is the parent of port", "port is the parent of disk (dpmt)"])
        self.assertRegex(found.judged, r"illegal line \d+ definition 9")

    def test_what_a_log_says_has_its_line(self):
        found = replay(recorded("irq-suspend"))
        entries = [line for line in found.log.decode().splitlines() if line[:1].isdigit()]
        self.assertEqual(len(entries), len(found.origins))
        at = next(at for at, line in enumerate(entries) if " event lid " in line)
        self.assertEqual(found.origins[at], 491)
        at = next(at for at, line in enumerate(entries) if line.endswith("begin suspend disk"))
        self.assertEqual(found.origins[at], 490)


class WithoutMessages(unittest.TestCase):
    """Without dmesg only what dmesg alone tells changes."""

    def test_verdicts(self):
        for name, attempts in KNOWN.items():
            with self.subTest(name):
                found = replay(recorded(name, NO_MESSAGES))
                self.assertEqual((found.status, found.judged), (0, "legal"), found.headline)
                answers = [one.answer for one in found.attempts]
                if name != "pm-test-devices":  # (of which the trace alone looks as a platform that failed)
                    self.assertEqual(answers, [answer for answer, *_ in attempts])

    def test_what_is_not_told(self):
        said = {name: " ".join(replay(recorded(name, NO_MESSAGES)).attempts[0].sentences) for name in (
            "freeze-user", "freeze-kernel", "pm-test-devices", "platform-prepare", "irq-suspend")}
        self.assertIn("user or kernel, not told", said["freeze-user"])
        self.assertIn("user or kernel, not told", said["freeze-kernel"])
        self.assertIn("It may also have been pm_test", said["pm-test-devices"])
        self.assertIn("It may also have been pm_test", said["platform-prepare"])
        self.assertIn("Whether a saved count or a hard event made the test find it is not told", said["irq-suspend"])

    def test_trace_alone(self):
        for name in KNOWN:
            with self.subTest(name):
                found = replay(recorded(name, ("dmesg", "devices", "links")))
                self.assertEqual((found.status, found.judged), (0, "legal"), found.headline)


class Passed(unittest.TestCase):
    """An event that a test would have found, had a count been saved, did not stop the attempt; behind the test a step of the core failed."""

    EVENT = ["          <idle>-0       [000] dNs2.    35.907080: wakeup_source_activate: lid state=0x1",
             "          <idle>-0       [000] dNs2.    35.907080: wakeup_source_deactivate: lid state=0x10000"]

    def test_between_the_last_callbacks_of_late(self):
        lines = text_of(recordings.file_of("slow-sync-one", "trace")).split("\n")
        lines = [*lines[:599], *self.EVENT, *lines[599:639], *lines[646:]]  # (behind the last callback come devices that have none)
        for without in (("dmesg",), ("dmesg", "devices", "links")):
            found = replay(copy_of("slow-sync-one", lines, without))
            said = " ".join(found.attempts[0].sentences)
            self.assertEqual((found.status, found.attempts[0].answer, found.attempts[0].is_sure), (0, None, False), found.headline)
            self.assertIn("A step of the system core failed; its error is not told.", said)
            self.assertNotIn("lid", said)


class ComesAndGoes(unittest.TestCase):
    """A device that was there in one of two attempts: the log's list has it in both, and a note says so."""

    def test_notes(self):
        lines = text_of(recordings.file_of("two-cycles", "trace")).split("\n")[:-1]
        wanted = {1: (0, 1184), 2: (1184, len(lines))}
        for number, (begin, end) in wanted.items():
            kept = [line for place, line in enumerate(lines) if not (begin <= place < end and "leds input0::scrolllock" in line)]
            found = replay(copy_of("two-cycles", kept))
            notes = [note for note in found.notes if "not prepare" in note.text]
            with self.subTest(number):
                self.assertEqual(found.status, 0, found.headline)
                self.assertEqual([note.text for note in notes], [f"input0::scrolllock (leds): attempt {number} does not prepare it; it stands in the log's list there, and passes without a callback"])
                self.assertIn("dpm_prepare[2] begin", kept[notes[0].line - 1])
        self.assertEqual([note for note in replay(copy_of("two-cycles", lines)).notes if "not prepare" in note.text], [])


class Versions(unittest.TestCase):
    """The rules are those of 6.1. Its versions differ in times alone; of others the verdict says by which rules it judges."""

    @staticmethod
    def of_kernel(name, version):
        """The verdict on a recording, taken as one of that version."""
        recording = recorded(name)
        recording.version, recording.version_text, recording.version_from = tuple(map(int, version.split("."))), version, "--kernel"
        return replay(recording)

    def test_versions_of_these_rules(self):
        for name in ("slow-async", "irq-suspend-async", "two-cycles", "order-broken"):
            told = [as_json(self.of_kernel(name, version), recorded(name)) for version in ("6.1", "6.1.75", "6.1.76", "6.1.192")]
            self.assertEqual(told[1:], told[:-1])
            self.assertNotIn("rules", json.dumps(told[0]))

    def test_other_versions(self):
        for version in ("5.10.3", "6.2", "6.12.9", "6.18"):
            legal, broken = self.of_kernel("slow-async", version), self.of_kernel("order-broken", version)
            self.assertEqual((legal.status, broken.status, broken.broken[0].line), (0, 1, 490))
            self.assertEqual(verdict_words(broken).split(":")[0], "not legal by the rules of Linux 6.1")
            self.assertTrue(broken.headline.startswith("not legal by the rules of Linux 6.1: line 490: "), broken.headline)
            for found in (legal, broken):
                note, = (note.text for note in found.notes if "rules" in note.text)
                self.assertTrue(note.startswith(f"the rules are those of Linux 6.1; the recording is of {version} (--kernel)"), note)

    def test_place_in_the_list(self):
        """An asynchronous device without parent that begins before the walk comes to it: in 6.1 nothing gives it out so early."""
        lines = text_of(recordings.file_of("slow-async", "trace")).split("\n")[:-1]
        begin, end = (next(line for line in lines[497:] if words in line) for words in ("start: dpmt snd, parent: none, bus [suspend]", "end: dpmt snd, err=0"))
        rest = [line for line in lines if line not in (begin, end)]
        recording = copy_of("slow-async", [*rest[:497], begin, end, *rest[497:]])
        self.assertTrue(replay(recording).headline.startswith("not legal: line 498: snd (dpmt) began its callback of suspend"))
        recording.version, recording.version_text = (6, 18), "6.18"
        with self.assertRaisesRegex(CannotError, "so by the rules of Linux 6.1, .* whether it does in 6.18 .* julampok does not know"):
            replay(recording)


class Exchanged(unittest.TestCase):
    """Copies in which two callbacks have changed places, of which one has to wait for the other, are never legal."""

    COPIES = 34

    def test_copies(self):
        dice, tried = random.Random(7), 0
        names = [name for name in KNOWN if "freeze" not in name and "g10" not in name and name != "platform-begin"]
        while tried < self.COPIES:
            name = dice.choice(names)
            recording = recorded(name)
            pair = dice.choice(pairs(recording, dice) or [None])
            if pair is None:
                continue
            tried += 1
            with self.subTest(name, lines=[begin.line for begin in pair]):
                found = replay(copy_of(name, exchanged(recording, *pair)))
                self.assertEqual((found.status, found.is_legal), (1, False), found.headline)
                self.assertLessEqual(found.broken[0].line, max(begin.end.line for begin in pair))


def pairs(recording, dice):
    """Callbacks of one phase of an attempt of which one has to wait for the other: a device and one below it."""
    below = {}
    for device in recording.devices:
        below.setdefault(device.parent, []).append(device)
    for link in recording.links:
        below.setdefault(link.supplier, []).append(link.consumer)
    phase = dice.choice(list(Phase))
    begins = {begin.device: begin for begin in dice.choice(recording.attempts).begins if begin.phase == phase}
    found = []
    for device, begin in begins.items():
        seen, todo = set(), list(below.get(device, ()))
        while todo:
            other = todo.pop()
            if other not in seen:
                seen.add(other)
                todo += below.get(other, ())
        found += [(begin, begins[other]) for other in seen if other in begins]
    return found


def exchanged(recording, one, other):
    """The lines of a trace in which two callbacks have the other's device."""
    lines = list(recording.trace_lines)
    begin = re.compile(r"(.*device_pm_callback_start: )(.*, parent: .+?)(, [a-z ]*\[\w+\])")
    end = re.compile(r"(.*device_pm_callback_end: )(.*)(, err=-?\d+)")
    for pattern, first, second in ((begin, one.line, other.line), (end, one.end.line, other.end.line)):
        parts = [pattern.fullmatch(lines[line - 1]) for line in (first, second)]
        lines[first - 1] = parts[0][1] + parts[1][2] + parts[0][3]
        lines[second - 1] = parts[1][1] + parts[0][2] + parts[1][3]
    return lines


def copy_of(name, lines, without=()):
    """The recording of a name with another trace."""
    with tempfile.NamedTemporaryFile("w", suffix=".trace") as file:
        file.write("\n".join(lines) + "\n")
        file.flush()
        return read_inputs(**recordings.inputs(name, without) | {"trace": file.name})


class Command(unittest.TestCase):
    """The command's words, statuses and files."""

    def test_statuses(self):
        self.assertEqual(julampok("replay", *recordings.words("irq-suspend")).status, 0)
        self.assertEqual(julampok("replay", *recordings.words("order-broken")).status, 1)

    def test_folder(self):
        with tempfile.TemporaryDirectory() as folder:
            out = os.path.join(folder, "out")
            done = julampok("replay", *recordings.words("irq-suspend"), "-o", out)
            self.assertEqual(done.status, 0)
            self.assertEqual(sorted(os.listdir(out)), ["followed.log", "machine.json", "names.txt", "verdict.txt"])
            checked = julampok("check", os.path.join(out, "machine.json"), os.path.join(out, "followed.log"))
            self.assertEqual((checked.status, checked.out.strip()), (0, "legal"))
            with open(os.path.join(out, "verdict.txt")) as file:
                self.assertEqual(file.read(), done.out)

    def test_json(self):
        done = julampok("replay", *recordings.words("two-cycles"), "--json")
        found = json.loads(done.out)
        self.assertEqual([attempt["answer"] for attempt in found["attempts"]], ["0", "EBUSY"])
        self.assertEqual((found["status"], found["legal"], found["own_way"]), (0, True, True))

    def test_inputs_that_cannot_be_followed(self):
        whole = recorded("irq-suspend").trace_lines
        cut = "\n".join(whole[:400]) + "\n"
        for data in (b"", b"no trace\n", b"\0\1\2", b"\x17\x08\x44tracing\0", cut.encode(), b"\xff\xfe\n"):
            with self.subTest(data[:20]):
                done = julampok("replay", "-", data=data)
                self.assertEqual((done.status, done.out), (2, ""))
                self.assertEqual(len(done.err.strip().splitlines()), 1, done.err)
        self.assertEqual(julampok("replay", "/nowhere").status, 2)
        self.assertEqual(julampok("replay", "/").status, 2)

    def test_what_is_shown_stands_in_the_inputs(self):
        for name in ("irq-suspend-async", "cpu-off", "freeze-kernel", "noirq-fails", "order-broken"):
            with self.subTest(name):
                files = [text_of(path) for path in recordings.inputs(name).values() if path]
                said = julampok("replay", *recordings.words(name)).out
                for word in re.findall(r"(\S+) \(dpmt\)", said):
                    self.assertTrue(any(f"dpmt {word}" in text for text in files), word)
                for source in re.findall(r"(\S+) reported an event", said):
                    self.assertTrue(any(f"{source} state=" in text for text in files), source)


def text_of(path):
    """The text of a packed file."""
    from julampok.files import read_bytes
    return read_bytes(path).decode("utf-8", "replace")
