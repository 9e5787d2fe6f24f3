"""Tries dmesg: against the messages of a real Linux 6.1, and against its formats written by hand.
"""

import json
import pathlib
import re
import tempfile
import unittest

from command_tests import SAMPLES, julampok
from julampok.commands.dmesg import texts_of
from julampok.drawing import machine as machines, reading, story
from julampok.second.run import Run

OTHERS = ("ACPI:", "smpboot:", "x86:", "pci ", "random:")  # Messages of other parts of the kernel.
HEAD = "name\t\tactive_count\tevent_count\twakeup_count\texpire_count\tactive_since\ttotal_time\tmax_time\tlast_change\tprevent_suspend_time\n"
DELETED = "deleted     \t0\t\t0\t\t0\t\t0\t\t0\t\t0\t\t0\t\t0\t\t0\n"
STATE = {"op": "state", "text": "mem"}
SAVED = [{"op": "read"}, {"op": "save"}, STATE]


def texts(machine, is_debug=False):
    log = reading.read_log(Run({"version": 1} | machine).run()[0].encode())
    return texts_of(story.Story(log, machines.devices_seen(log)), is_debug)


def user(script):
    return {"actors": [{"name": "w", "kind": "user", "script": script}]}


def plain(text):
    """Messages without levels, times, drivers and functions, which a log does not tell."""
    lines = [re.sub(r"^(<\d>)?\[ *\d+\.\d+\] ", "", line) for line in text.splitlines()]
    lines = [line for line in lines if not line.startswith(OTHERS)]
    lines = [re.sub(r"^dpmt ", "", re.sub(r"\S+\+0x\S+( \[\w+\])?", "FUNCTION", line)) for line in lines]
    return [re.sub(r"\d+\.\d{3} seconds", "SECONDS", line) for line in lines]


class RealMessages(unittest.TestCase):
    def test_both_cycles(self):
        for name in ("s3", "noirq-fails"):
            with tempfile.TemporaryDirectory() as folder, self.subTest(name):
                file = pathlib.Path(folder, "m.json")
                words = "--trace", SAMPLES / f"{name}.trace", "--writer", "-o", file, SAMPLES / "s3.devices"
                self.assertEqual(julampok("machine", *words).status, 0)
                machine = json.loads(file.read_text())
                machine["cpus"] = 2
                found = texts(machine)["dmesg"]
                self.assertEqual(plain(found), plain((SAMPLES / f"{name}.dmesg").read_text()))


class Messages(unittest.TestCase):
    def messages(self, machine, is_debug=False):
        return plain(texts(machine, is_debug)["dmesg"])

    def test_a_wakeup(self):
        lid = {"sources": ["lid", "lan"], "devices": [{"name": "nic"}, {"name": "hub"}]}
        report = {"what": "device", "name": "hub", "phase": "late", "reports": [{"call": "event", "source": "lan"}]}
        found = self.messages(lid | user(SAVED) | {"answers": [report]}, True)
        at = found.index("PM: Wakeup pending, aborting suspend")
        self.assertEqual(found[at + 1:at + 3], ["PM: last active wakeup source: lan", "PM: late suspend of devices failed"])
        report["reports"] = [{"call": "awake", "source": "lid"}, {"call": "awake", "source": "lan"}]
        found = self.messages(lid | user(SAVED) | {"answers": [report]}, True)
        self.assertEqual(found[at + 1:at + 3], ["PM: active wakeup source: lan", "PM: active wakeup source: lid"])
        self.assertNotIn("PM: Wakeup pending, aborting suspend", self.messages(lid | user(SAVED) | {"answers": [report]}))

    def test_a_task_that_does_not_freeze(self):
        machine = {"actors": [{"name": "k", "kind": "kthread", "script": [{"op": "sleep_d", "ms": 30000}]}, *user([STATE])["actors"]]}
        found = texts(machine)["dmesg"].splitlines()
        self.assertIn("[   20.000000] Freezing of tasks failed after 20.000 seconds (1 tasks refusing to freeze, wq_busy=0):", found)
        self.assertIn("[   20.000000] Restarting kernel threads ... done.", found)

    def test_devices(self):
        devices = {"devices": [{"name": "a"}, {"name": "b", "async": True}]}
        answer = lambda name, phase, ret: {"answers": [{"what": "device", "name": name, "phase": phase, "ret": ret}]}
        lines = lambda *words: self.messages(devices | user([STATE]) | answer(*words))
        self.assertIn("a: PM: not prepared for power transition: code -19", lines("a", "prepare", "ENODEV"))
        self.assertIn("b: PM: failed to suspend async: error -16", lines("b", "suspend", "EBUSY"))
        self.assertIn("a: PM: failed to suspend late: error -22", lines("a", "late", "EINVAL"))
        self.assertIn("a: PM: failed to resume early: error -5", lines("a", "early", "EIO"))
        self.assertIn("a: PM: failed to resume: error -11", lines("a", "resume", "EAGAIN"))


class Files(unittest.TestCase):
    def test_wakeup_sources(self):
        """The newest source comes first. One event of 50 ms is reported before a count is saved, one after."""
        event = {"op": "event", "source": "lid", "ms": 50}
        script = [event, {"op": "sleep", "ms": 60}, {"op": "read"}, {"op": "save"}, event, {"op": "sleep", "ms": 60}]
        found = texts({"sources": ["lid", "key"]} | user(script))["wakeup_sources"]
        rows = "key         \t0\t\t0\t\t0\t\t0\t\t0\t\t0\t\t0\t\t0\t\t0\n" + "lid         \t2\t\t2\t\t1\t\t2\t\t0\t\t100\t\t50\t\t110\t\t0\n"
        self.assertEqual(found, HEAD + rows + "autosleep" + "   \t0" + "\t\t0" * 8 + "\n" + DELETED)

    def test_prevented_time(self):
        """A source is active from 0 to 100 ms, and autosleep is on from 40 ms to the end."""
        script = [{"op": "event", "source": "lid", "ms": 100}, {"op": "sleep", "ms": 40}, {"op": "autosleep", "text": "mem"}, {"op": "sleep", "ms": 100}]
        found = texts({"sources": ["lid"], "auto_cycles": 1} | user(script))["wakeup_sources"]
        self.assertEqual(found.split("\n")[1].split()[-1], "60")

    def test_suspend_stats(self):
        """Three attempts: one whole with a failure on its way up, one that fails in late, one in freezing."""
        answers = [("a", "resume", 1), ("b", "late", 2), ("b", "resume_noirq", 2)]
        machine = {"devices": [{"name": "a"}, {"name": "b"}]} | user([STATE, STATE])
        machine["answers"] = [{"what": "device", "name": name, "phase": phase, "attempt": attempt, "ret": "EIO"} for name, phase, attempt in answers]
        expected = (
            "success: 1\nfail: 1\nfailed_freeze: 0\nfailed_prepare: 0\nfailed_suspend: 0\nfailed_suspend_late: 1\n"
            "failed_suspend_noirq: 0\nfailed_resume: 1\nfailed_resume_early: 0\nfailed_resume_noirq: 0\nfailures:\n"
            "  last_failed_dev:\tb\n\t\t\ta\n  last_failed_errno:\t-5\n\t\t\t0\n  last_failed_step:\t\n\t\t\tresume\n")
        self.assertEqual(texts(machine)["suspend_stats"], expected)
        frozen = [{"name": "k", "kind": "kthread", "script": [{"op": "sleep_d", "ms": 30000}]}, *user([STATE])["actors"]]
        found = texts({"actors": frozen})["suspend_stats"]
        self.assertIn("failed_freeze: 1\n", found)
        self.assertIn("  last_failed_errno:\t-16\n\t\t\t0\n  last_failed_step:\tfreeze\n\t\t\t\n", found)


class Refusals(unittest.TestCase):
    def test_what_is_no_log(self):
        for data, text in ((b"", "1: an empty log"), (b"x\n", "1: no line of a log: 'x'"), (b"0 0/0/0 task:w exit\n", "2: the log is cut off")):
            done = julampok("dmesg", data=data)
            self.assertEqual((done.status, done.out), (2, ""))
            self.assertIn(text, done.err)
