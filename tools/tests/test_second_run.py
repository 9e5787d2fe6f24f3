"""Tests of the second writing of a run and of the rules of machine files: worked logs, and the files that docs/FORMATS.md gives."""

import json
import re
import unittest

from dev_tests import ROOT, WORKED
from julampok.second.follow import Follower
from julampok.second.rules import first_broken
from julampok.second.run import Run
from maintain.worked.table import LOGS

PAGE = (ROOT / "docs" / "FORMATS.md").read_text()
# A row of the page's table of rules: the number, a file that breaks it, and the place that is told.
ROW = re.compile(r"^\| (\d+) \| .* \| `([\[{\"].*)` \| `([\w\[\].]+)` \|$", re.M)


class Runs(unittest.TestCase):
    def test_worked_logs(self):
        """One worker writes each worked log."""
        for _, name, says in LOGS:
            with self.subTest(name):
                tree = json.loads((WORKED / f"{name}.json").read_text())
                self.assertEqual(Run(tree).run()[0], (WORKED / f"{name}.log").read_text(), says)

    def test_worked_logs_are_followed(self):
        for _, name, _ in LOGS:
            with self.subTest(name):
                follower = Follower(json.loads((WORKED / f"{name}.json").read_text()))
                self.assertTrue(follower.accepts((WORKED / f"{name}.log").read_text()), follower.why)

    def test_broken_logs_are_not_followed(self):
        machines = {"never_resumed": "parent_and_child", "begun_twice": "smallest_attempt", "never_woken": "smallest_attempt"}
        for name, machine in machines.items():
            with self.subTest(name):
                follower = Follower(json.loads((WORKED / f"{machine}.json").read_text()))
                self.assertFalse(follower.accepts((WORKED / "broken" / f"{name}.log").read_text()))


class Files(unittest.TestCase):
    def test_files_of_the_page(self):
        rows = [(int(rule), file, place) for rule, file, place in ROW.findall(PAGE)]
        self.assertGreater(len(rows), 20)
        for rule, file, place in rows:
            text = file if rule < 3 else '{"version": 1, ' + file + "}"
            with self.subTest(rule, file=file):
                try:
                    tree = json.loads(text)
                except ValueError:
                    self.assertEqual((rule, place), (1, "json"))
                    continue
                self.assertEqual(first_broken(tree), (rule, place))


if __name__ == "__main__":
    unittest.main()
