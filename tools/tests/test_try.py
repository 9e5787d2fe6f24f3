"""Tests of `tools/dev try`, with the second writing in the place of the proved program (tools/tests/bin/program)."""

import os
import pathlib
import random
import tempfile
import unittest
import unittest.mock

from dev_tests import STAND_IN, WORKED, dev
from julampok.second.rules import first_broken
from maintain.trials import files, idle, locks, logs, near_files
from maintain.trials.subject import By
from maintain.trials.table import SUBJECTS

# A few inputs of each subject that a program answers, and the words that make them few.
FEW = {
    "run": ["--count", "6"],
    "stats": ["--count", "4"],
    "workers": ["--count", "2", "--workers", "2"],
    "idle-workers": ["--count", "2", "--wakers", "2", "--events", "2", "--sessions", "2"],
}
COMMANDS = {"run": "run", "stats": "stats", "workers": "run", "idle-workers": "idle", "locks": "locks", "check": "check"}


def faulty(command):
    """The environment in which the stand-in writes one line too many."""
    return unittest.mock.patch.dict(os.environ, {"STAND_IN_FAULT": command})


class Programs(unittest.TestCase):
    def test_what_agrees(self):
        for subject, words in FEW.items():
            with self.subTest(subject):
                done = dev("try", subject, "--program", STAND_IN, *words)
                self.assertEqual((done.status, done.err), (0, ""))
                self.assertRegex(done.out, r"^\d+ (files|logs|runs) agree: \d+ ")

    def test_what_differs(self):
        for subject, words in FEW.items():
            with self.subTest(subject), faulty(COMMANDS[subject]):
                done = dev("try", subject, "--program", STAND_IN, *words)
                self.assertEqual((done.status, done.out), (1, ""))
                self.assertRegex(done.err, r"(?s)^input: .*\nexpected: .*\nactual: .*")

    def test_locks(self):
        """The inputs at the ends of what the command takes are long, so they are left out."""
        with unittest.mock.patch.object(locks, "EDGES", [b"", b"lock a\n"]):
            done = dev("try", "locks", "--program", STAND_IN, "--count", "5")
            self.assertEqual((done.status, done.err), (0, ""))
            self.assertTrue(done.out.startswith("7 inputs agree: "), done.out)
            with faulty("locks"):
                self.assertEqual(dev("try", "locks", "--program", STAND_IN, "--count", "5").status, 1)

    def test_check(self):
        """Only the refusals that are short, and one worked log with its copies."""
        one = [pair for pair in logs.worked() if "notifier" in str(pair[0])][:1]
        with unittest.mock.patch.object(logs, "REFUSED", logs.REFUSED[:2]), unittest.mock.patch.object(logs, "worked", lambda: one):
            with unittest.mock.patch.object(logs, "random_logs", lambda given: []):
                done = dev("try", "check", "--program", STAND_IN)
                self.assertEqual((done.status, done.err), (0, ""), done.err[-300:])
                self.assertRegex(done.out, "1 are legal.*break rule ")
                with faulty("check"):
                    self.assertEqual(dev("try", "check", "--program", STAND_IN).status, 1)

    def test_no_program(self):
        with tempfile.TemporaryDirectory() as folder:
            for program in (pathlib.Path(folder, "none"), folder, __file__):
                done = dev("try", "run", "--program", program)
                self.assertEqual((done.status, done.out), (2, ""))
                self.assertIn("no program that can be run", done.err)
                self.assertEqual(done.err.count("\n"), 1)

    def test_a_program_of_another_kind(self):
        done = dev("try", "stats", "--program", "/bin/true", "--count", "2")
        self.assertEqual((done.status, done.out), (1, ""))


class SecondWriting(unittest.TestCase):
    def test_what_agrees(self):
        for subject, count in (("log-rules", 6), ("chains", 20), ("idle", 20)):
            with self.subTest(subject):
                done = dev("try", subject, "--count", str(count))
                self.assertEqual((done.status, done.err), (0, ""))
                self.assertRegex(done.out, r"^\d+ (logs|texts) agree: ")

    def test_seeds(self):
        """The same seed makes the same inputs, another seed others."""
        one, same, other = (list(idle.logs(unittest.mock.Mock(seed=seed, count=10))) for seed in (1, 1, 2))
        self.assertEqual(one, same)
        self.assertNotEqual(one, other)

    def test_a_rule_that_says_another_line(self):
        with unittest.mock.patch("maintain.trials.rules.first_broken", lambda tree, lines: (0, [4])):
            done = dev("try", "log-rules", "--count", "6")
        self.assertEqual((done.status, done.out), (1, ""))
        self.assertIn("expected: (None, True)\nactual: (0, True)", done.err)


class Inputs(unittest.TestCase):
    def test_files_of_each_kind(self):
        """Random files run, get stuck and are refused by several rules."""
        given = unittest.mock.Mock(seed=4, count=150)
        wanted = [files.expected(text) for text in files.texts(given)]
        self.assertLess({0, 3, 6} - {status for status, _, _ in wanted}, {0})
        self.assertGreater(len({said.split(b":")[1] for status, _, said in wanted if status == 3}), 4)

    def test_files_that_are_nearly_right(self):
        broken = [first_broken(file) for file in near_files.shared(random.Random(2), 100)]
        self.assertGreater(sum(rule is None for rule in broken), 0)
        self.assertGreater(len({rule[0] for rule in broken if rule}), 8)

    def test_logs_are_judged(self):
        """The worked logs are legal; with another end they are not."""
        for tree, log in list(logs.worked())[:8]:
            lines = log.splitlines()
            self.assertIsNone(logs.judged(tree, lines))
            self.assertEqual(logs.judged(tree, [*lines[:-1], "stuck task:x read"])[1], logs.END)
        self.assertGreater(len(list(WORKED.glob("*.json"))), 40)


class Words(unittest.TestCase):
    def test_each_subject_has_help(self):
        for name, subject in SUBJECTS.items():
            done = dev("try", name, "--help")
            self.assertEqual((done.status, done.err), (0, ""), name)
            self.assertIn(f"tools/dev try {name} --seed 2", done.out)
            self.assertEqual("--program" in done.out, subject.by is By.PROGRAM)

    def test_wrong_words(self):
        for words in (["nothing"], [], ["run", "--count", "0"], ["run", "--count", "x"], ["run", "--seed", "x"], ["definitions"], ["run", "more"]):
            done = dev("try", *words)
            self.assertEqual((done.status, done.out, done.err.count("\n")), (2, "", 1), words)


if __name__ == "__main__":
    unittest.main()
