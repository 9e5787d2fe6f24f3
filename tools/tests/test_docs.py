"""Tests of the pages: what they name is there, and the pages of definitions are as they are made of the definitions now."""

import pathlib
import tempfile
import unittest
import unittest.mock

from dev_tests import ROOT, dev
from julampok.errors import CannotError
from maintain.docs import heads, names, prose, recipes
from maintain.docs.definitions import kernel_of, pages, sentence
from maintain.docs.reached import reached


class Pages(unittest.TestCase):
    def test_what_pages_name(self):
        self.assertEqual(names.all_broken(), [])

    def test_pages_of_definitions(self):
        for path, text in [*pages(), heads.page()]:
            self.assertEqual(path.read_text(), text, f"{path.name} is old: `tools/dev docs` writes it")

    def test_nothing_is_too_long(self):
        self.assertEqual(prose.all_long(), [])

    def test_recipes(self):
        self.assertEqual(recipes.all_wrong(), [])
        found = {file for _, files, _ in recipes.rows(recipes.PAGE.read_text()) for file in files}
        self.assertGreater(len(found), 90)

    def test_the_check(self):
        done = dev("docs", "--check")
        self.assertEqual((done.status, done.out, done.err), (0, "", ""))

    def test_the_command(self):
        with unittest.mock.patch("maintain.commands.docs.pages", lambda: [(ROOT / "docs" / "DEFINITIONS.md", "another text\n")]):
            with unittest.mock.patch("maintain.commands.docs.all_broken", lambda: ["docs/X.md:3: no file y.rt"]):
                done = dev("docs", "--check")
        said = "docs/DEFINITIONS.md: is old; `tools/dev docs` writes it\ndocs/X.md:3: no file y.rt\n"
        self.assertEqual((done.status, done.out, done.err), (1, said, ""))


class Broken(unittest.TestCase):
    """Each kind of thing that a page may name and that is not there."""

    def found(self, text):
        with tempfile.TemporaryDirectory(dir=ROOT / "docs", prefix="test-") as folder:
            page = pathlib.Path(folder, "PAGE.md")
            page.write_text(f"# A heading\n\n{text}\n")
            return [what.split(":", 2)[1:] for what in names.broken(page)]

    def test_each_kind(self):
        for text, what in (
            ("[a](nothing.md)", "no file nothing.md"),
            ("[a](#nothing)", "no heading #nothing"),
            ("[a](../../README.md#nothing)", "no heading ../../README.md#nothing"),
            ("`nothing.rt`", "no file nothing.rt"),
            ("`tools/nothing/at_all.py`", "no file tools/nothing/at_all.py"),
            ("`no_such_function_anywhere`", "no name no_such_function_anywhere"),
            ("`Nothing::at_all_of_it`", "no name Nothing::at_all_of_it"),
            ("`no_such_thing` in `wakeup_guard`", "no no_such_thing in wakeup_guard"),
            ("`no_such_thing` of\n  `wakeup_guard`", "no no_such_thing in wakeup_guard"),
            ("`tools/dev nothing NAME`", "no command tools/dev nothing"),
            ("    ./julampok nothing my.json", "no command ./julampok nothing"),
        ):
            with self.subTest(text):
                self.assertIn(["3", f" {what}"], self.found(text))

    def test_what_is_there(self):
        for text in ("[a](#a-heading)", "[a](../../README.md)", "[a](https://nowhere.example/x.md)", "`wakeup_guard`", "`limits.py`",
                     "`python/julampok/limits.py`", "`kernel/power/main.c`", "`.edit.md`", "`*.py`", "`tools/dev edits NAME`", "`./julampok run`"):
            with self.subTest(text):
                self.assertEqual(self.found(text), [])

    def test_crates(self):
        self.assertEqual(list(names.uses_below()), [])
        with tempfile.TemporaryDirectory() as folder:
            pathlib.Path(folder, "crates.txt").write_text("sleep_model: sleep_base\nsleep_base:\n")
            with unittest.mock.patch.object(names, "TOP", pathlib.Path(folder)):
                self.assertEqual(list(names.uses_below()), ["crates.txt:1: sleep_model uses sleep_base, which stands below"])


class Definitions(unittest.TestCase):
    def test_sentences(self):
        self.assertEqual(sentence("the count of it | all"), "The count of it \\| all.")
        self.assertEqual(sentence("a to z"), "a to z.")
        self.assertEqual(sentence("whether it is pending (pm_wakeup_pending)"), "Whether it is pending.")
        self.assertEqual(kernel_of("whether it is pending (pm_wakeup_pending)"), "`pm_wakeup_pending`")
        self.assertEqual(kernel_of("nothing of the kernel"), "")

    def test_what_is_reached(self):
        first = ("sleep_model", "Guard", "pending")
        found = reached([first])
        self.assertIn(first, found)
        self.assertGreater(len(found), 1)
        self.assertEqual(reached([("sleep_model", "Guard", "no_such_definition")]), set())


class Crates(unittest.TestCase):
    """The page of crates."""

    def test_groups(self):
        told = [(comment, [name for name, _ in crates]) for comment, crates in heads.groups()]
        self.assertEqual([name for _, crates in told for name in crates], names.order_of_crates())
        self.assertTrue(all(comment for comment, _ in told))

    def test_heading(self):
        for comment, lines in (
            ("The model: plain types.", ["## The model", "\nPlain types."]),
            ("A library. No program stands on it.", ["## A library", "\nNo program stands on it."]),
            ("What a log says beyond itself.", ["## What a log says beyond itself"]),
        ):
            self.assertEqual([*heads.heading(comment)], lines)

    def test_a_crate_without_a_head(self):
        with tempfile.TemporaryDirectory() as folder:
            source = pathlib.Path(folder, "bare", "src", "lib.rt")
            source.parent.mkdir(parents=True)
            source.write_text("#![tactic(auto)]\n")
            with unittest.mock.patch("maintain.docs.heads.CRATES", pathlib.Path(folder)):
                with self.assertRaisesRegex(CannotError, "no head says what the crate is for"):
                    heads.head("bare")


class Prose(unittest.TestCase):
    """What counts as a sentence, and as a word."""

    def counted(self, text):
        return [(number, words) for number, words, _ in prose.sentences(text)]

    def test_sentences(self):
        for text, counted in (
            ("One two. Three four\nfive.\n\nSix.", [(1, 2), (1, 3), (4, 1)]),
            ("# A heading\n\nOne.\n| a | table |\n\n```\nOne two\n```\n\nTwo words.", [(3, 1), (10, 2)]),
            ("- One two\n  three\n- four\n1. five", [(1, 3), (3, 1), (4, 1)]),
            ("`a b c` and [two words](a/path.md#x).", [(1, 4)]),
            ("It has 4.5 parts, e.g. two - or so.", [(1, 8)]),
        ):
            with self.subTest(text):
                self.assertEqual(self.counted(text), counted)

    def test_too_long(self):
        with tempfile.TemporaryDirectory(dir=ROOT / "docs", prefix="test-") as folder:
            page = pathlib.Path(folder, "PAGE.md")
            page.write_text(" ".join(["word"] * 30) + ".\n\n" + " ".join(["word"] * 31) + ".\n")
            (told,) = prose.too_long(page)
            self.assertTrue(told.endswith("PAGE.md:3: a sentence of 31 words: word word word word word word .."), told)

    def test_too_many(self):
        with tempfile.TemporaryDirectory() as folder:
            pages = [pathlib.Path(folder, name) for name in ("A.md", "B.md")]
            for page in pages:
                page.write_text("# One\n\n| two | three |\n")
            self.assertEqual(prose.words_in(pages), 14)
            self.assertEqual([*prose.too_many([("both", pages, 14)])], [])
            self.assertEqual([*prose.too_many([("both", pages, 13)])], ["both: 14 words, and at most 13"])


class Recipes(unittest.TestCase):
    """What a step of a recipe has to name."""

    TEXT = "## Before\n\n| file | word |\n|---|---|\n| `none.rt` | `none` |\n\n## Recipes\n\n### A thing\n\n| thing | file | word |\n|---|---|---|\n"

    def found(self, row):
        return [what for _, files, words in recipes.rows(f"{self.TEXT}{row}\n\n## Behind\n") for what in recipes.wrong(files, words)]

    def test_each_kind(self):
        for row, what in (
            ("| a | `sleep_base/src/errno.rt` | `Errno`, `by_error` |", []),
            ("| a | `sleep_base/src/errno.rt` | `by_` |", []),
            ("| a | `crates.txt`, `sleep_base/src/errno.rt` | `Errno` |", ["no Errno in crates.txt"]),
            ("| a | `sleep_base/src/nothing.rt` | `Errno` |", ["no file sleep_base/src/nothing.rt"]),
            ("| a | `sleep_base/src/errno.rt` | its row |", ["a step that names no file, or no word"]),
            ("| a | the file | `Errno` |", ["a step that names no file, or no word"]),
            ("no row", []),
        ):
            with self.subTest(row):
                self.assertEqual(self.found(row), what)

    def test_places(self):
        rows = [*recipes.rows(self.TEXT + "| a | `crates.txt` | `sleep_base` |")]
        self.assertEqual(rows, [(13, ["crates.txt"], ["sleep_base"])])


class Made(unittest.TestCase):
    """The wrong bodies of a crate on the page of crates."""

    def test_promises(self):
        for crate in names.crates():
            # only trials stand on a trial, the definitions have no function, and `main` has no clause
            if not crate.endswith(("_trials", "_cases")) and crate not in ("rule_definitions", "sleep_main", "trial_rows"):
                with self.subTest(crate):
                    self.assertTrue(any(part.startswith("Promises: ") for part in heads.head(crate)))

    def test_wrong_bodies(self):
        with tempfile.TemporaryDirectory() as folder:
            edits = pathlib.Path(folder, "bare", "must-fail")
            edits.mkdir(parents=True)
            for name in ("a_step_is_lost.edit", "a_step_is_late.edit.md", "a_step_is_early.edit.md"):
                (edits / name).write_text("")
            with unittest.mock.patch("maintain.docs.heads.CRATES", pathlib.Path(folder)):
                self.assertEqual([*heads.tried("bare")],
                                 ["Wrong bodies in the gate: a step is lost.", "Wrong bodies set aside: a step is early; a step is late."])
                self.assertEqual([*heads.tried("other")], [])


if __name__ == "__main__":
    unittest.main()
