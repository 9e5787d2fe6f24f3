"""Tests of `tools/dev worked`: the crates have the worked logs as the command writes them."""

import functools
import json
import pathlib
import tempfile
import unittest
import unittest.mock

from dev_tests import ROOT, WORKED, dev
from julampok.second import idle, locks
from julampok.second.rules import without_defaults
from julampok.second.words import command_of
from maintain.commands import worked
from maintain.trials.files import expected
from maintain.worked import files, formats, idle_cases, judged, link_cases, long_logs, part_cases, reader, rows, tellings
from maintain.worked.case import Call, Case
from maintain.worked.entries import entry_term
from maintain.worked.machine import Machine
from maintain.worked.table import ENTRIES, LAWS, LOGS, MACHINES, MODULES
from maintain.worked.terms import whole


all_files = functools.cache(files.all_files)


class Files(unittest.TestCase):
    def test_the_crates_have_them(self):
        for path, text in all_files().items():
            self.assertTrue((ROOT / "crates" / path).read_bytes() == text, f"{path} is old: `tools/dev worked` writes it")

    def test_each_worked_log_is_in_the_table(self):
        self.assertEqual({name for _, name, _ in LOGS}, {path.stem for path in WORKED.glob("*.log")})
        self.assertLessEqual({module for module, _, _ in LOGS}, set(MODULES))
        self.assertLessEqual({*LAWS, *ENTRIES, *MACHINES}, {name for _, name, _ in LOGS})


class Cases(unittest.TestCase):
    def test_verdicts_on_copies(self):
        """The second writing says of each broken copy what stands beside it."""
        for copy in judged.copies():
            self.assertEqual(judged.verdict_of(copy.log, copy.text()), copy.verdict, copy)

    def test_words(self):
        """Words are refused exactly where the second reading knows no form of them."""
        for case in rows.cases():
            self.assertEqual(case.status == 2, case.words is None or command_of(case.words) is None, case.words)

    def test_a_row(self):
        case = Case(("run", "--workers=1"), ((b"{}", 1), (b"\n", 3)), 4, b"", b"read fault\n", (("read fails", 2), ("chunk", 4)))
        wanted = b"words 3\nsleep\nrun\n--workers=1\nread fails 2\nchunk 4\ninput 2\n{}\nrepeat 3\ninput 1\n\n\nrow 7\n"
        self.assertEqual(b"".join(rows.row(case, 7)), wanted)
        self.assertEqual(rows.said(case, 7), b"row 7 status 4 left 1 out 0 err 11\nread fault\n\n")

    def test_rows_told_in_short(self):
        for case, word, wanted in (
            (Case(("run",), (), 0, b"ab\n", end="sums"), b"sums 7", b"row 7 status 0 left 0 out 3 adler32 32768206 err 0\n\n"),
            (Case(("run",), (), 6, b"b\n", streams=(("gate", 2),), end="lines", counts=(2,)), b"gate 2\nlines 7",
             b"row 7 status 6 left 0 lines 2 err 0\nb\n\ngate passed\n"),
            (Case(("idle",), (), 0, end="steps", counts=(8, 9)), b"steps 7", b"row 7 status 0 left 0 hard 8 wake 9 err 0\n\n"),
            (Case(("run",), (), 0, b"legal\n", end="judged"), b"judged 7", b"row 7 status 0 left 0 out 6 err 0\nlegal\n\n"),
        ):
            self.assertEqual(b"".join(rows.row(case, 7)).splitlines()[3:], word.splitlines())
            self.assertEqual(rows.said(case, 7), wanted)

    def test_long_logs(self):
        """The logs that are made of their lines are those of the second writing."""
        for case in long_logs.repeated():
            self.assertEqual(expected(case.data), (case.status, case.out, case.err))

    def test_cases_of_one_worker(self):
        """The worked texts of suspend-to-idle and of named locks are those of the second writings."""
        for words, said in tellings.IDLE:
            self.assertEqual(idle.text_by_rounds(*command_of(words.split())[1:-1]).encode(), said)
        for pieces, *said in tellings.NAMED:
            self.assertEqual(locks.run(Case(("locks",), pieces, 0).data), tuple(said))

    def test_cases_of_the_checker(self):
        cases = list(judged.cases())
        self.assertEqual(len(cases), len(set(cases)))
        self.assertEqual(sum(case.out == b"legal\n" for case in cases), len(LOGS) - sum(b"stuck" in case.data for case in cases[:len(LOGS)]))
        rules = {case.out.split()[-1] for case in cases if case.status == 1}
        self.assertEqual(rules, {b"%d" % rule for rule in (2, 4, 7, 8, 9, 10, 11, 12, 13, 14, 15, 17, 18, 20, 22)})

    def test_cases_of_the_reader(self):
        """A refused text breaks the rule that stands beside it, by the second writing too, but for what Python reads as JSON."""
        cases = [case for case in reader.cases() if case.status == 3]
        texts = [case for case in cases if case.err != b"machine: rule 1: json\n"]
        self.assertGreater(len(texts), 150)
        for case in texts:
            self.assertEqual(expected(case.data), (case.status, case.out, case.err), case.pieces[:2])
        rules = {int(case.err.split()[2][:-1]) for case in cases}
        self.assertEqual(rules, set(range(1, 25)))


    def test_files_that_are_written(self):
        """What stands in the table by hand is what the second writing writes; and it is written again as it is."""
        for file, text in formats.by_hand():
            self.assertEqual(without_defaults(json.loads(file)), json.loads(text), file)
        calls = [each for each in formats.calls() if each.end == "file"]
        self.assertTrue(all(each.out == calls[at | 1].pieces[0][0] for at, each in enumerate(calls)))

    def test_a_call(self):
        case = Call("stream", ((b"{}\n", 2),), b"cut\n", (("write fails", 2),))
        self.assertEqual(b"".join(rows.call(case, 7)), b"write fails 2\nrepeat 2\ninput 3\n{}\n\nstream 7\n")
        self.assertEqual(rows.gives(case, 7), b"call 7 out 4\ncut\n")

    def test_bad_lines(self):
        """The second writing says the same of each log that is none."""
        for file, log, line in formats.NO_LINES:
            self.assertEqual(judged.judged(judged.BARE | json.loads(file), log.decode()), (line, 23), log)


class CasesOfParts(unittest.TestCase):
    def test_a_line_is_a_call_and_its_answer(self):
        self.assertEqual(part_cases.cut("order => 0 1"), ("order", "0 1"))
        self.assertEqual(part_cases.cut("words sleep run  => -"), ("words sleep run ", "-"))
        self.assertEqual(part_cases.cut("note clear"), ("note clear", ""))
        self.assertEqual(part_cases.cut(" => 2"), ("", "2"))

    def test_each_part_has_a_head_and_calls(self):
        for head, *lines in part_cases.told_parts():
            self.assertTrue(head and " => " not in head and lines, head)
            self.assertFalse([line for line in lines if not line.strip()], head)

    def test_links_by_the_plain_definition(self):
        self.assertEqual(link_cases.moved([None, 0, 1], [(2, 3)], 0), [0, 1, 2, 3])
        self.assertEqual(link_cases.at_last_places([0, 1, 2, 3, 1, 2]), [0, 3, 1, 2])
        self.assertEqual((len(link_cases.deep()), len(link_cases.four_thousand())), (4000, 4000))

    def test_suspend_to_idle_in_rounds(self):
        entries, is_idle = idle_cases.told((1, 1, 1))
        self.assertEqual((entries, is_idle), ([(0, 0, 0), (1, 1, 1), (1, 0, 2), (1, 1, 3)], True))
        self.assertEqual(idle_cases.sum_of([(0, 0, 0), (1, 1, 1)]), 256 + 8 + 1)


class Command(unittest.TestCase):
    def setUp(self):
        folder = tempfile.TemporaryDirectory()
        self.addCleanup(folder.cleanup)
        self.crates = pathlib.Path(folder.name, "crates")
        self.crates.mkdir()
        for patch in (unittest.mock.patch.object(worked, "CRATES", self.crates), unittest.mock.patch.object(worked, "all_files", all_files)):
            patch.start()
            self.addCleanup(patch.stop)

    def test_writing_and_checking(self):
        done = dev("worked", "--check")
        self.assertEqual((done.status, list(self.crates.iterdir())), (1, []))
        self.assertIn("crates/row_trials/stdin is old", done.out)
        self.assertEqual(dev("worked").status, 0)
        self.assertEqual((self.crates / "row_trials/stdin").read_bytes(), all_files()["row_trials/stdin"])
        done = dev("worked", "--check")
        self.assertEqual((done.status, done.out.split(" ")[0]), (0, "0"))
        (self.crates / "law_trials/src/whole.rt").write_text("something else\n")
        done = dev("worked", "--check")
        self.assertEqual((done.status, done.out.splitlines()[0]), (1, "crates/law_trials/src/whole.rt is old"))


class Terms(unittest.TestCase):
    """Terms by hand."""

    MACHINE = Machine({"version": 1, "devices": [{"name": "p"}, {"name": "c", "parent": "p", "async": True}], "sources": ["lid"],
                       "actors": [{"name": "w", "kind": "user", "script": [{"op": "read"}, {"op": "save", "count": 3}]}]})

    def test_entries(self):
        for line, term in (
            ("0 0/0/0 task:w read 0", "entry 0 (word 0 0 0) (actor.Script 0) (kind.Read 0)"),
            ("5 1/2/0 dev:c begin suspend c", "entry 5 (word 1 2 0) (actor.Dev 1) (kind.Begin phase.Suspend 1)"),
            ("5 1/2/0 timer:lid expire lid", "entry 5 (word 1 2 0) (actor.Timer 0) (kind.Expire 0)"),
            ("0 0/0/0 task:w end noirq p EIO", "entry 0 (word 0 0 0) (actor.Script 0) (kind.End phase.Noirq 0 (Some EIO))"),
            ("0 0/0/0 time jump", "entry 0 (word 0 0 0) actor.Time kind.Jump"),
        ):
            self.assertEqual(entry_term(self.MACHINE, line), term)
        with self.assertRaises(ValueError):
            entry_term(self.MACHINE, "0 0/0/0 task:w fly")

    def test_machines(self):
        term = self.MACHINE.term()
        self.assertIn('devices = device (codes "p") None 0 ∷ device (codes "c") (Some 0) 1 ∷ []', term)
        self.assertIn("once (op.Save (Some 3))", term)

    def test_numbers(self):
        self.assertEqual((whole(0), whole(7), whole(-1), whole(-5)), ("(pos 0)", "(pos 7)", "(negsuc 0)", "(negsuc 4)"))


if __name__ == "__main__":
    unittest.main()
