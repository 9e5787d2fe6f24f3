"""Tries who runs and judges: the second writing on worked logs, and a stand-in of the program that ends in each of its ways."""

import json
import os
import pathlib
import re
import tempfile
import unittest
import unittest.mock

from command_tests import EXAMPLES, WORKED, julampok
from julampok import program
from julampok.second.judge import judged
from julampok.second.run import Run

MACHINE, LOG = WORKED / "parent_and_child.json", WORKED / "parent_and_child.log"
STAND_IN = """#!/bin/sh
echo "$@" > "$0.words"
cat > "$0.input"
%s
"""
# How the program ends: what it does, and for run and check the status, and what is said on standard error.
ENDS = [
    ("echo 'machine: rule 9: devices[1]' >&2; exit 3", 2, 2, "machine: rule 9: devices[1]"),
    ("echo 'machine: longer than 16777216 bytes' >&2; exit 3", 2, 2, "machine: longer than 16777216 bytes"),
    ("echo 'read fault' >&2; exit 4", 2, 2, "read fault"), ("echo 'write fault' >&2; exit 5", 2, 2, "write fault"),
    ("echo 'source full: lid' >&2; exit 7", 1, 2, "source full: lid"), ("echo 'want of memory' >&2; exit 8", 2, 2, "want of memory"),
    ("echo usage: run >&2; exit 2", 2, 2, "usage: run"), ("kill -9 $$", 2, 2, "was ended by signal 9"), ("exit 99", 2, 2, "ended with status 99"),
    ("exit 0", 2, 2, "so it is not the program"), ("echo hello", 2, 2, "so it is not the program"),
]


class StandIn(unittest.TestCase):
    def setUp(self):
        self.folder = tempfile.TemporaryDirectory()
        self.program = pathlib.Path(self.folder.name, "program")

    def tearDown(self):
        self.folder.cleanup()

    def does(self, script):
        self.program.write_text(STAND_IN % script)
        self.program.chmod(0o755)

    def test_each_ending(self):
        for script, of_run, of_check, said in ENDS:
            self.does(script)
            for status, words in ((of_run, ("run", MACHINE)), (of_check, ("check", MACHINE, LOG))):
                done = julampok(*words, "--program", self.program)
                self.assertEqual((done.status, done.out, done.err.count("\n")), (status, "", 1), (script, done))
                self.assertIn(said, done.err)

    def test_answers_are_passed_on(self):
        self.does("echo 'stuck task:w read'; exit 6")
        self.assertEqual(julampok("run", MACHINE, "--program", self.program).out, "stuck task:w read\n")
        self.assertEqual(julampok("run", MACHINE, "--program", self.program).status, 1)
        self.does("echo 'illegal line 17 definition 18'; exit 1")
        done = julampok("check", MACHINE, LOG, "--program", self.program)
        self.assertEqual((done.status, done.out, done.err), (1, "illegal line 17 definition 18\n", ""))
        done = julampok("check", "--json", MACHINE, LOG, "--program", self.program)
        self.assertEqual(json.loads(done.out), {"legal": False, "line": 17, "definition": 18, "by": f"the program {self.program}"})
        self.does("echo legal")
        self.assertEqual(julampok("check", MACHINE, LOG, "--program", self.program).status, 0)

    def test_the_built_one_is_taken(self):
        self.does("echo legal")
        with unittest.mock.patch.object(program, "BUILT", self.program):
            done = julampok("check", MACHINE, LOG)
        self.assertEqual((done.status, done.out, done.err), (0, "legal\n", ""))
        self.assertEqual(pathlib.Path(f"{self.program}.words").read_text(), "check\n")

    def test_what_it_is_given(self):
        self.does("echo finished")
        julampok("run", MACHINE, "--program", self.program)
        self.assertEqual(pathlib.Path(f"{self.program}.words").read_text(), "run --workers 1\n")
        self.assertEqual(pathlib.Path(f"{self.program}.input").read_bytes(), MACHINE.read_bytes())
        julampok("run", "--workers", "16", MACHINE, "--program", self.program)
        self.assertEqual(pathlib.Path(f"{self.program}.words").read_text(), "run --workers 16\n")
        self.does("echo legal")
        machine = pathlib.Path(self.folder.name, "m.json")
        machine.write_text(MACHINE.read_text().replace(",", ",\r\n"))
        self.assertEqual(julampok("check", machine, LOG, "--program", self.program).out, "legal\n")
        line, _, log = pathlib.Path(f"{self.program}.input").read_bytes().partition(b"\n")
        self.assertEqual((json.loads(line), log), (json.loads(MACHINE.read_text()), LOG.read_bytes()))

    def test_a_broken_file_never_reaches_it(self):
        """A line break in a text is no JSON, and stays none though the file goes as one line."""
        self.does("echo legal")
        machine = pathlib.Path(self.folder.name, "m.json")
        machine.write_text('{"version": 1, "actors": [{"name": "w", "kind": "user", "script": [{"op": "state", "text": "a\nb"}]}]}')
        done = julampok("check", machine, LOG, "--program", self.program)
        self.assertEqual(done.status, 2)
        self.assertIn(f"{machine}:1: machine: rule 1: json", done.err)


class Second(unittest.TestCase):
    def test_worked_logs(self):
        for path in sorted(WORKED.glob("*.json")):
            ran = julampok("run", path)
            log = path.with_suffix(".log").read_text()
            is_finished = log.endswith("finished\n")
            self.assertEqual((ran.out, ran.status), (log, 0 if is_finished else 1), path)
            self.assertEqual(ran.err.count("\n"), 1)
            checked = julampok("check", path, path.with_suffix(".log"))
            self.assertEqual((checked.status, checked.out == "legal\n"), (0, True) if is_finished else (1, False), path)

    def test_logs_of_several_workers(self):
        for log in sorted((EXAMPLES / "workers").glob("*.log")):
            self.assertEqual(julampok("check", EXAMPLES / "workers" / "two-lines.json", log).out, "legal\n")

    def test_streams(self):
        self.assertEqual(julampok("run", data=MACHINE.read_bytes()).out, LOG.read_text())
        self.assertEqual(julampok("run", "-", data=MACHINE.read_bytes()).out, LOG.read_text())
        self.assertEqual(julampok("check", MACHINE, data=LOG.read_bytes()).out, "legal\n")
        self.assertEqual(julampok("check", "-", LOG, data=MACHINE.read_bytes()).out, "legal\n")

    def test_each_entry_is_needed(self):
        """A worked log without one of its entries, or with one twice, is not legal."""
        for name in ("parent_and_child", "event_stops_a_device", "two_links", "autosleep"):
            tree, lines = json.loads((WORKED / f"{name}.json").read_text()), (WORKED / f"{name}.log").read_text().split("\n")
            for at in range(len(lines) - 1):
                for copy in (lines[:at] + lines[at + 1:], lines[:at + 1] + lines[at:]):
                    found = judged(tree, "\n".join(copy))
                    self.assertIsNotNone(found, (name, at))
                    self.assertLessEqual(found[0], len(lines) + 1)

    def test_names_of_real_machines(self):
        devices = [{"name": "0000.00.1f.2"}, {"name": "reg-dummy", "parent": "0000.00.1f.2", "async": True}, {"name": "-"}]
        machine = {"version": 1, "devices": devices, "actors": [{"name": "a.b-c_1", "kind": "user", "script": [{"op": "state", "text": "mem"}]}]}
        log, _ = Run(machine).run()
        self.assertIn("dev:reg-dummy begin suspend reg-dummy", log)
        self.assertIsNone(judged(machine, log))
        self.assertEqual(judged(machine, log.replace("dev:reg-dummy", "dev:reg-dumm"))[1], 23)

    def test_many_devices(self):
        """1,000 devices in one chain: what takes its time grows with the lines of the log."""
        devices = [{"name": f"d{number}", "async": number % 2 == 1} | ({"parent": f"d{number - 1}"} if number else {}) for number in range(1000)]
        links = [{"supplier": f"d{number}", "consumer": f"d{number + 2}"} for number in range(0, 900, 2)]
        machine = {"version": 1, "devices": devices, "links": links, "actors": [{"name": "w", "kind": "user", "script": [{"op": "state", "text": "mem"}]}]}
        begun = sum(os.times()[:2])
        log, is_stuck = Run(machine).run()
        self.assertFalse(is_stuck)
        self.assertGreater(log.count("\n"), 16_000)
        self.assertIsNone(judged(machine, log))
        order = re.findall(r"begin suspend d(\d+)", log)
        self.assertEqual(list(map(int, order)), list(range(999, -1, -1)))
        self.assertLess(sum(os.times()[:2]) - begun, 30)
