"""Tries examples/README.md: each example stands there, with three lines of its log in their order.

The logs are those of the second writing, and those that are kept beside a machine, which have to be logs of it. The files of
a real machine are made anew of its trace.
"""

import json
import pathlib
import re
import tempfile
import unittest

from command_tests import EXAMPLES, ROOT, SAMPLES, julampok
from julampok.second.follow import Follower
from julampok.second.rules import first_broken
from julampok.second.run import Run

PAGE = (ROOT / "examples" / "README.md").read_text()
TOLD = re.findall(r"^`(\w+/[\w-]+\.(?:json|log))`:[^`]*(?:`[^`\n]+`[^`]*)*?```\n(.*?)```", PAGE, re.M | re.S)
REFUSED = {"order/parent-too-late.json": (9, "devices[0]"), "order/link-closes-a-cycle.json": (12, "links[1]")}
LINKS = "--links", SAMPLES / "s3.links"
MADE = {
    "order/real-machine.json": ("--trace", SAMPLES / "s3.trace", *LINKS),
    "failures/real-failure.json": ("--trace", SAMPLES / "noirq-fails.trace", *LINKS, "--branch", "d0", "--branch", "d3", "--branch", "d5"),
}


def log_of(path):
    """The log that is kept, or that of the machine's run by one worker."""
    return path.read_text() if path.suffix == ".log" else Run(json.loads(path.read_text())).run()[0]


class Examples(unittest.TestCase):
    def test_all_are_told(self):
        files = {str(path.relative_to(EXAMPLES)) for path in EXAMPLES.rglob("*.*") if path.suffix in (".json", ".log")}
        self.assertEqual(files, {file for file, _ in TOLD} | set(REFUSED))

    def test_lines(self):
        for file, told in TOLD:
            with self.subTest(file):
                log = iter(log_of(EXAMPLES / file).split("\n"))
                lines = told.strip().split("\n")
                self.assertEqual(len(lines), 3)
                self.assertEqual([line for line in lines if line not in log], [])

    def test_kept_logs(self):
        logs = sorted(EXAMPLES.rglob("*.log"))
        self.assertEqual(len({path.read_text() for path in logs}), len(logs))
        for path in logs:
            machine = next(file for file in path.parent.glob("*.json") if path.stem.startswith(file.stem))
            follower = Follower(json.loads(machine.read_text()))
            self.assertTrue(follower.accepts(path.read_text()), follower.why)

    def test_refused(self):
        for path in EXAMPLES.rglob("*.json"):
            file = str(path.relative_to(EXAMPLES))
            self.assertEqual(first_broken(json.loads(path.read_text())), REFUSED.get(file), file)
            if file in REFUSED:
                self.assertIn("`machine: rule {}: {}`".format(*REFUSED[file]), PAGE)

    def test_real_machines(self):
        for file, words in MADE.items():
            with tempfile.TemporaryDirectory() as folder:
                made = pathlib.Path(folder, "m.json")
                self.assertEqual(julampok("machine", *words, "-o", made, SAMPLES / "s3.devices").status, 0)
                self.assertEqual(made.read_text(), (EXAMPLES / file).read_text(), file)
