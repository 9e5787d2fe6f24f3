"""Tries explain: what it tells of the worked logs, as one reads it in them, and what it refuses.
"""

import json
import os
import unittest

from command_tests import EXAMPLES, WORKED, julampok
from julampok.commands import explain
from julampok.drawing import machine as machines, reading, story
from julampok.second.run import Run

# Of worked logs: what the attempt answered and where, the cause, what was undone, and the longest wait.
TOLD = {
    "callback_reports": (
        "Attempt 1 of task:w, guarded by count 0, answered EBUSY (line 29). It failed in dpm_suspend, at device pci (line 17).",
        "found the event 'event lan 0 soft', which the callback of nic reported at 0 ms (line 13)",
        "dpm_resume of nic; dpm_complete of 2 devices; the platform recovers, ends; tasks thawed", "waited for nobody"),
    "callback_fails_in_noirq": (
        "plain, answered EIO (line 56). It failed in dpm_suspend_noirq, at device c (line 29)", "device c answered EIO at 0 ms",
        "dpm_resume_noirq of g; dpm_resume_early of p, c, g; dpm_resume of p, c, g; dpm_complete of 3 devices", "waited for nobody"),
    "asynchronous_callback_fails": (
        "failed in dpm_suspend, at device c (line 12)", "device c answered EIO", "dpm_complete of 2 devices",
        "the walk of dpm_suspend waited 3 entries for device c (lines 10 to 13)"),
    "event_stops_a_processor": (
        "failed in freeze_secondary_cpus, at processor 2 (line 33)", "'event lid 0 soft', which irq:k reported at 0 ms (line 30)",
        "1 processor on; the platform wakes, finishes, ends", "nobody"),
    "freeze_times_out": (
        "failed in freeze_processes (line 7)", "task b did not freeze until 20000 ms (1 task left)", "Undone: tasks thawed",
        "freeze_processes waited 2 entries and 20000 ms for task:b (lines 5 to 7)"),
    "hard_event": ("failed in syscore_suspend (line 22)", "'event lid 0 hard', which irq:k reported", "wakes", "nobody"),
    "notifier_fails": ("PM_SUSPEND_PREPARE, at notifier n1 (line 3)", "notifier n1 answered EIO", "1 notifier told", "nobody"),
    "platform_begin_fails": ("platform_suspend_begin (line 6)", "the platform answered EIO", "the platform ends", "nobody"),
    "syscore_step_fails": ("at syscore step t2 (line 16)", "syscore t2 answered EIO", "1 syscore step started", "nobody"),
}


def explained(data, machine):
    log = reading.read_log(data)
    return explain.explained(story.Story(log, machines.devices_seen(log) if machine is None else machines.read_machine(machine, log)))


def of_worked(name):
    return explained((WORKED / f"{name}.log").read_bytes(), (WORKED / f"{name}.json").read_bytes())


class Explanations(unittest.TestCase):
    def test_worked_logs(self):
        for name, expected in TOLD.items():
            lines = of_worked(name).split("\n")[:4]
            for words, line in zip(expected, lines, strict=True):
                self.assertIn(words, line, name)

    def test_each_failure_has_four_lines(self):
        for path in sorted(WORKED.glob("*.log")):
            failed = sum(" over " in line and not line.endswith(" 0") for line in path.read_text().split("\n"))
            found = of_worked(path.stem)
            self.assertEqual(found.count("\nThe cause: "), failed, path)
            self.assertEqual([part.count("\n") for part in found.strip().split("\n\n")], [3] * failed or [0], path)

    def test_no_failure(self):
        self.assertEqual(of_worked("parent_and_child"), "No attempt failed. The machine slept 1 time.\n")

    def test_who_waited(self):
        """The child alone is asynchronous, so its parent waits for it; a log without its machine does not tell."""
        machine = {"version": 1, "devices": [{"name": "p"}, {"name": "c", "parent": "p", "async": True}]}
        machine["answers"] = [{"what": "device", "name": "p", "phase": "suspend", "ret": "EIO"}]
        machine["actors"] = [{"name": "w", "kind": "user", "script": [{"op": "state", "text": "mem"}]}]
        log, _ = Run(machine).run()
        self.assertRegex(explained(log.encode(), json.dumps(machine).encode()),
                         "The longest wait: p in dpm_suspend waited 3 entries for device c")
        self.assertNotIn("p in dpm_suspend", explained(log.encode(), None))

    def test_long_logs(self):
        devices = [{"name": f"d{number}", "async": number % 2 == 0} for number in range(300)]
        machine = {"version": 1, "devices": devices, "answers": [{"what": "device", "name": "d0", "phase": "noirq", "ret": "EIO"}]}
        machine["actors"] = [{"name": "w", "kind": "user", "script": [{"op": "state", "text": "mem", "times": 30}]}]
        log, _ = Run(machine).run()
        self.assertGreater(log.count("\n"), 100_000)
        begun = sum(os.times()[:4])  # Processor time, of children too.
        found = explained(log.encode(), json.dumps(machine).encode())
        self.assertEqual(found.count("device d0 answered EIO"), 30)
        self.assertLess(sum(os.times()[:4]) - begun, 30)


class Refusals(unittest.TestCase):
    def refuse(self, text, data, *words):
        done = julampok("explain", *words, data=data)
        self.assertEqual((done.status, done.out, done.err.count("\n")), (2, "", 1))
        self.assertIn(text, done.err)

    def test_what_is_no_log(self):
        log = (WORKED / "callback_reports.log").read_bytes()
        self.refuse("standard input:1: an empty log", b"")
        self.refuse("standard input:1: no line of a log: 'hello'", b"hello\n")
        self.refuse("the log is cut off", log[:500])
        self.refuse(":1: the machine has no task:w", log, "--machine", EXAMPLES / "order" / "laptop.json")
        self.refuse("test_explain.py:1: this is no machine file", log, "--machine", __file__)
        self.refuse("nothing: No such file or directory", b"", "/nothing")


class AsJson(unittest.TestCase):
    def test_a_failed_attempt(self):
        done = julampok("explain", "--json", "--machine", WORKED / "callback_fails_in_noirq.json", WORKED / "callback_fails_in_noirq.log")
        found = json.loads(done.out)
        attempt = found["failed"][0]
        self.assertEqual((done.status, found["slept"], attempt["answer"], attempt["failed_in"], attempt["failed_line"]), (0, 0, "EIO", "dpm_suspend_noirq", 29))
        self.assertIn("device c answered EIO", attempt["says"]["cause"])

    def test_no_failure(self):
        done = julampok("explain", "--json", WORKED / "parent_and_child.log")
        self.assertEqual(json.loads(done.out), {"slept": 1, "failed": []})
