"""Tests of `tools/dev bench`: its machines are accepted, its rows are whole, and a ratio that is too great fails."""

import json
import pathlib
import shutil
import subprocess
import sys
import tempfile
import unittest
import unittest.mock

from dev_tests import STAND_IN, dev
from julampok.errors import CannotError
from julampok.second.rules import first_broken
from maintain.bench import machines, table
from maintain.bench.clock import Clock, Spent, run_of
from maintain.bench.table import BENCHES, Row, against, against_before, against_least
from maintain.commands import bench

SMALL = {"version": 1, "actors": [{"name": "w", "kind": "user", "script": [{"op": "sleep", "ms": 5}]}]}


def python(code, **given):
    """The time of a little program in Python."""
    return Spent(("-c", code), lambda clock: b"", program=lambda clock: sys.executable, **given)


SHORT, LONG = python("1"), python("100")


def told_time(clock, words, given, spent):
    """In place of a measure, so that no busy computer changes what a test says: a program takes as many seconds as it says."""
    return float(words[-1])


class Machines(unittest.TestCase):
    def test_they_are_accepted(self):
        made = [
            machines.tree(10, 1666), machines.tree(100, 20, "give-up", is_async=True, links=50), machines.tree(10, 200, "event"),
            machines.wide(500), machines.hard_events(), machines.timed_events(),
            machines.in_step(), machines.one_waits(), machines.posts(), machines.waiters(1), machines.waiters(255),
            machines.events(20), machines.writers(254, 59), machines.lines(64, 3_125), machines.short_turns(16, 595, 20),
            machines.answered(100, 20, 1000), machines.set_states(machines.spread(40), ("dormant", "active"), 9, 10), machines.set_states(machines.star(40), (), 9, 10),
        ]
        for number, tree in enumerate(made):
            self.assertIsNone(first_broken(tree), number)
        with unittest.mock.patch.object(machines, "DEVICES", 50):
            for tree in (machines.chain(200), machines.scripted(200)):
                self.assertIsNone(first_broken(tree))
        self.assertIsNotNone(first_broken(machines.refused(SMALL)))

    def test_links_do_not_go_along_the_tree(self):
        for link in machines.some_links(50, 100):
            supplier, consumer = (int(link[end][1:]) for end in ("supplier", "consumer"))
            self.assertTrue(supplier < consumer and not machines.hangs(consumer, supplier))
        self.assertTrue(machines.hangs(9, 4) and machines.hangs(9, 1) and not machines.hangs(9, 3))

    def test_what_moves(self):
        """A chain's link makes its consumer wait for one that is not above it; so many links are made as are asked for."""
        self.assertEqual(machines.links_of(machines.chain(7)), 7)
        self.assertEqual(machines.links_of(machines.scripted(7)), 7)
        self.assertEqual(len(machines.spread(4000)), 4000)
        self.assertEqual(len(machines.star(4000)), 999)


class Rows(unittest.TestCase):
    def test_each_row_is_whole(self):
        for name, rows in BENCHES.items():
            made = rows()
            self.assertEqual(len({row.name for row in made}), len(made), name)
            self.assertTrue(all(row.under and (row.most is None or row.most > 0) for row in made), name)
            self.assertTrue(BENCHES[name].__doc__)

    def test_what_is_divided_by_what(self):
        one, two, three = SHORT, LONG, python("1")
        self.assertEqual([row.under for row in against(one, [("b", two, 2), ("c", three, None)])], [(one,), (one,)])
        self.assertEqual([row.under for row in against_least({"a": one, "b": two}, 3)], [(one, two)] * 2)
        self.assertEqual([row.under for row in against_before({"a": one, "b": two, "c": three}, 3)], [(one,), (one,), (two,)])


class Measured(unittest.TestCase):
    def setUp(self):
        folder = tempfile.TemporaryDirectory()
        self.addCleanup(folder.cleanup)
        self.folder = pathlib.Path(folder.name)
        self.clock = Clock(str(STAND_IN), self.folder, runs=2)

    def bench(self, *rows):
        """How the command ends with these rows."""
        with unittest.mock.patch.dict(BENCHES, {"links": lambda: rows}):
            rows_of = BENCHES["links"]
            rows_of.__doc__ = "Rows of a test."
            return dev("bench", "links", "--program", STAND_IN, "--runs", "2")

    def test_a_measure(self):
        self.assertGreater(self.clock.seconds(python("pass")), 0.0)

    @unittest.mock.patch.object(Clock, "once", told_time)
    def test_ratios(self):
        self.assertEqual((self.clock.seconds(LONG), self.clock.seconds(SHORT)), (100.0, 1.0))
        self.assertEqual(self.clock.seconds(python("103", less=LONG)), 3.0)
        done = self.bench(Row("less", SHORT, (LONG,), 1), Row("the same", LONG, (SHORT, LONG), None))
        self.assertEqual((done.status, done.err), (0, ""))
        done = self.bench(Row("more", LONG, (SHORT,), 1))
        self.assertEqual(done.status, 1)
        self.assertRegex(done.out, r"more +1 +100 s +100\.00 +1  TOO MUCH\n$")

    def test_each_of_many(self):
        make = lambda: SMALL
        spent = run_of(make, each=lambda clock: clock.entries(make))
        each, count = self.clock.each(spent)
        self.assertEqual(count, sum(line[:1].isdigit() for line in self.clock.log(make).decode().splitlines()))
        self.assertAlmostEqual(each * count, self.clock.seconds(spent))

    def test_a_status_that_is_not_due(self):
        with self.assertRaisesRegex(CannotError, "ended with status 0, where 3 is due"):
            self.clock.seconds(run_of(lambda: SMALL, wanted=3))
        self.clock.seconds(run_of(lambda: machines.refused(SMALL), wanted=3))

    def test_lines_that_are_copied(self):
        if shutil.which("cc") is None:
            self.skipTest("no C compiler")
        copier = table.copier.built(self.clock)
        self.assertEqual(subprocess.run([copier], input=b"a\n\nb", capture_output=True).stdout, b"a\n\nb")

    def test_machines_of_files(self):
        file = self.folder / "mine.json"
        file.write_text(json.dumps(SMALL))
        done = dev("bench", "workers", "--program", STAND_IN, "--runs", "1", "--machine", file)
        self.assertEqual((done.status, done.err), (0, ""))
        self.assertRegex(done.out, r"mine +1 .* of 5 logs differ")
        for path, said in ((self.folder / "none.json", "No such file"), (STAND_IN, "is no JSON")):
            done = dev("bench", "workers", "--program", STAND_IN, "--machine", path)
            self.assertEqual((done.status, done.err.count("\n")), (2, 1))
            self.assertIn(said, done.err)

    def test_wrong_words(self):
        for words in (["nothing"], ["--runs", "0"], ["links", "--program", "/none"]):
            done = dev("bench", *words)
            self.assertEqual((done.status, done.out, done.err.count("\n")), (2, "", 1), words)

    def test_times(self):
        for seconds, text in ((2.5, "2.5 s"), (0.0025, "2.5 ms"), (2.5e-6, "2.5 us"), (2.5e-9, "2.5 ns"), (0.0, "0 ns")):
            self.assertEqual(bench.time_text(seconds), text)


if __name__ == "__main__":
    unittest.main()
