"""Tests of `tools/dev edits`, with a program in the place of rt (tools/tests/bin/rt)."""

import os
import pathlib
import shutil
import subprocess
import tempfile
import unittest
import unittest.mock

from dev_tests import HERE, ROOT, dev
from maintain.edits.outcomes import Outcome

PAIR = "file: src/lib.rt\nold: 1\nnew: 2\n"


class Repository:
    """A small repository: crates alpha, and beta above it."""

    def __init__(self, folder):
        self.top = pathlib.Path(folder) / "checkout"
        self.write("crates.txt", "# a line that names none\nbeta may_wait=1: alpha std\nalpha:\n")
        self.write("HANDLES", "Handles allowed: none.\n")
        for name in ("alpha", "beta"):
            self.write(f"crates/{name}/src/lib.rt", "fn one() -> u32 { 1 }\n")
            self.write(f"crates/{name}/out/rlib/stamp", f"{name} is built\n")
            self.write(f"crates/{name}/out/incremental/proof.oantt", f"{name} is proved\n")
        self.body("alpha", "kept_by_the_gate.edit", "refused")

    def write(self, path, text):
        file = self.top / path
        file.parent.mkdir(parents=True, exist_ok=True)
        file.write_text(text)
        return file

    def body(self, crate, name, outcome):
        return self.write(f"crates/{crate}/must-fail/{name}", f"# outcome: {outcome}\n{PAIR}")

    def git(self, *words):
        own = ["-c", "user.name=a", "-c", "user.email=a@b", "-c", "init.defaultBranch=main", "-c", "commit.gpgsign=false"]
        subprocess.run(["git", *own, *words], cwd=self.top, check=True, capture_output=True)

    def commit(self):
        self.write(".gitignore", "out/\n")
        self.git("init")
        self.git("add", "--all")
        self.git("commit", "--message", "all")

    def files(self):
        return {str(path.relative_to(self.top)): path.read_bytes() for path in self.top.rglob("*") if path.is_file() and ".git" not in path.parts}


class EditsCase(unittest.TestCase):
    """A repository in a folder of its own, and a call of the command."""

    def setUp(self):
        folder = tempfile.TemporaryDirectory()
        self.addCleanup(folder.cleanup)
        self.folder = pathlib.Path(folder.name)
        self.room = self.folder / "room"
        self.room.mkdir()
        self.repository = Repository(folder.name)

    def call(self, *words, path=None):
        """The status, the lines and the complaint of the command, with the stand-in of rt on the path."""
        path = path or f"{HERE / 'bin'}{os.pathsep}{os.environ['PATH']}"
        with unittest.mock.patch.dict(os.environ, {"PATH": path}):
            done = dev("edits", "--checkout", self.repository.top, "--folder", self.room, *words)
        return done.status, done.out.splitlines(), done.err

    def assert_fails(self, word, said, line=None):
        """One wrong body that comes to this outcome fails, and the one that the gate keeps passes beside it."""
        self.repository.body("alpha", "x.edit.md", word)
        status, lines, _ = self.call("alpha")
        self.assertEqual(status, 1)
        self.assertEqual(lines[-1], "1 passed, 1 failed")
        told = [text for text in lines if text.startswith("FAILED alpha/x.edit: ")]
        self.assertEqual(len(told), 1, lines)
        self.assertIn(said, told[0])


class Outcomes(EditsCase):
    """What rt says of a wrong body decides."""

    def test_one_that_is_refused_passes(self):
        self.repository.body("alpha", "x.edit.md", "refused")
        status, lines, complaint = self.call("alpha")
        self.assertEqual((status, lines[-1], complaint), (0, "2 passed, 0 failed", ""))
        self.assertIn("passed alpha/x.edit: refused, as it must be: src/lib.rt:7:5: error", "\n".join(lines))

    def test_one_that_is_refused_by_a_limit_passes(self):
        self.repository.body("alpha", "x.edit.md", "limit")
        status, lines, _ = self.call("alpha")
        self.assertEqual((status, lines[-1]), (0, "2 passed, 0 failed"))
        self.assertIn("only by a limit", "\n".join(lines))

    def test_one_that_is_not_refused_fails(self):
        self.assert_fails("kept", "NOT REFUSED")

    def test_one_that_cannot_be_applied_fails(self):
        self.assert_fails("bad", "BAD EDIT: an 'old:' text is in src/lib.rt 0 times")

    def test_one_that_cannot_be_read_fails(self):
        self.assert_fails("unread", "BAD EDIT: the prover cannot read the edited text")

    def test_one_that_was_not_tried_fails(self):
        self.assert_fails("killed", "NOT TRIED: its check was killed")

    def test_one_that_only_takes_a_name_away_fails(self):
        self.assert_fails("name", "only because a proof file names what the edit took away")

    def test_one_of_which_rt_says_nothing_fails(self):
        self.assert_fails("silent", "rt said nothing of it")

    def test_one_of_which_rt_says_something_new_fails(self):
        self.assert_fails("odd", "something that no rt says today")

    def test_a_file_of_another_name_fails(self):
        self.repository.body("alpha", "x.edit.md", "refused")
        self.repository.write("crates/alpha/must-fail/a note.txt", "nothing\n")
        status, lines, _ = self.call("alpha")
        self.assertEqual((status, lines[-1]), (1, "2 passed, 1 failed"))
        self.assertTrue(any(line.startswith("FAILED alpha/a note.txt: BAD EDIT") for line in lines), lines)

    def test_another_failure_of_rt_fails(self):
        self.repository.body("alpha", "x.edit.md", "refused")
        self.repository.write("crates/alpha/status", "1\n")
        status, lines, _ = self.call("alpha")
        self.assertEqual((status, lines[-1]), (1, "2 passed, 1 failed"))
        self.assertTrue(any(line.startswith("FAILED alpha: rt ended with status 1") for line in lines), lines)

    def test_rt_that_stops_fails_each(self):
        self.repository.body("alpha", "x.edit.md", "stop")
        status, lines, _ = self.call("alpha")
        self.assertEqual((status, lines[-1]), (1, "1 passed, 1 failed"))


class Chosen(EditsCase):
    """Which crates are tried."""

    def setUp(self):
        super().setUp()
        self.repository.body("alpha", "x.edit.md", "refused")
        self.repository.body("beta", "y.edit.md", "refused")

    def listed(self, *words):
        status, lines, complaint = self.call("--list", *words)
        self.assertEqual((status, complaint), (0, ""))
        return [line.partition(":")[0] for line in lines]

    def test_those_named(self):
        self.assertEqual(self.listed("beta"), ["beta"])
        self.assertEqual(self.listed("alpha", "beta"), ["beta", "alpha"])

    def test_all(self):
        self.assertEqual(self.listed("--all"), ["beta", "alpha"])

    def test_those_that_changed(self):
        self.repository.commit()
        self.assertEqual(self.listed("--since", "HEAD"), [])
        self.repository.write("crates/alpha/specs/Lib.antt", "pub mod More\n")
        self.assertEqual(self.listed("--since", "HEAD"), [])
        self.repository.write("crates/alpha/src/lib.rt", "fn one() -> u32 { 2 }\n")
        self.assertEqual(self.listed("--since", "HEAD"), ["alpha"])
        self.repository.write("crates/beta/src/deep/more.rt", "fn two() -> u32 { 2 }\n")
        self.assertEqual(self.listed("--since", "HEAD"), ["beta", "alpha"])
        self.repository.git("add", "--all")
        self.repository.git("commit", "--message", "more")
        self.assertEqual(self.listed("--since", "HEAD~1"), ["beta", "alpha"])

    def test_a_change_that_only_removes_a_file(self):
        self.repository.write("crates/beta/src/more.rt", "fn two() -> u32 { 2 }\n")
        self.repository.commit()
        (self.repository.top / "crates/beta/src/more.rt").unlink()
        self.assertEqual(self.listed("--since", "HEAD"), ["beta"])

    def test_none_changed(self):
        self.repository.commit()
        status, lines, _ = self.call("--since", "HEAD")
        self.assertEqual((status, lines), (0, ["0 passed, 0 failed"]))

    def assert_cannot(self, said, *words):
        status, lines, complaint = self.call(*words)
        self.assertEqual((status, lines), (2, []))
        self.assertIn(said, complaint)
        self.assertEqual(complaint.count("\n"), 1)

    def test_what_cannot_be_chosen(self):
        self.assert_cannot("gamma: no crate of crates.txt", "gamma")
        self.assert_cannot("name crates, or give one of")
        self.assert_cannot("name crates, or give one of", "--all", "alpha")
        self.assert_cannot("no commit of that name", "--since", "nothing")
        self.repository.commit()
        self.assert_cannot("no commit of that name", "--since", "nothing")
        self.assert_cannot("no commit of that name", "--since=--all")
        self.assert_cannot("--also wants the name of one crate", "--all", "--also", "x.edit")


class Copies(EditsCase):
    """The checkout stays as it is, and the copy has what rt kept."""

    def copied(self, *words):
        """What the copy held when rt was called, by a program in its place that keeps it."""
        folder = self.folder / "bin"
        folder.mkdir()
        kept = self.folder / "kept"
        (folder / "rt").write_text(f"#!/bin/sh\ncp -a . {kept}\nexec {HERE / 'bin' / 'rt'} \"$@\"\n")
        (folder / "rt").chmod(0o755)
        status, lines, complaint = self.call(*words, path=f"{folder}{os.pathsep}{os.environ['PATH']}")
        self.assertEqual((status, complaint), (0, ""), lines)
        return kept

    def test_the_checkout_stays(self):
        self.repository.body("alpha", "x.edit.md", "kept")
        before = self.repository.files()
        self.call("alpha")
        self.assertEqual(self.repository.files(), before)
        self.assertEqual(list(self.room.iterdir()), [])

    def test_names_are_given_back_in_the_crate_alone(self):
        self.repository.body("alpha", "x.edit.md", "refused")
        self.repository.body("beta", "y.edit.md", "refused")
        kept = self.copied("alpha")
        names = sorted(str(path.relative_to(kept / "crates")) for path in kept.rglob("*.edit*"))
        self.assertEqual(names, ["alpha/must-fail/kept_by_the_gate.edit", "alpha/must-fail/x.edit", "beta/must-fail/y.edit.md"])

    def test_what_is_proved_below_is_taken_over(self):
        self.repository.body("beta", "y.edit.md", "refused")
        kept = self.copied("beta")
        for name in ("alpha", "beta"):
            self.assertEqual((kept / f"crates/{name}/out/rlib/stamp").read_text(), f"{name} is built\n")
            self.assertEqual((kept / f"crates/{name}/out/incremental/proof.oantt").read_text(), f"{name} is proved\n")

    def test_what_is_proved_above_is_left(self):
        self.repository.body("alpha", "x.edit.md", "refused")
        kept = self.copied("alpha")
        self.assertFalse((kept / "crates/beta/out").exists())
        self.assertTrue((kept / "crates/beta/src/lib.rt").exists())

    def test_a_further_one_is_tried(self):
        more = self.repository.write("elsewhere/z.edit", f"# outcome: kept\n{PAIR}")
        status, lines, _ = self.call("beta", "--also", more)
        self.assertEqual((status, lines[-1]), (1, "0 passed, 1 failed"))
        self.assertTrue(any(line.startswith("FAILED beta/z.edit: NOT REFUSED") for line in lines), lines)

    def test_both_names_at_once(self):
        self.repository.body("alpha", "kept_by_the_gate.edit.md", "refused")
        status, _, complaint = self.call("alpha")
        self.assertEqual(status, 2)
        self.assertIn("kept_by_the_gate.edit stands in must-fail/ beside kept_by_the_gate.edit.md", complaint)

    def test_no_rt(self):
        self.repository.body("alpha", "x.edit.md", "refused")
        status, _, complaint = self.call("alpha", path=str(self.room))
        self.assertEqual(status, 2)
        self.assertIn("rt: No such file or directory", complaint)

    def test_no_crates_txt(self):
        (self.repository.top / "crates.txt").unlink()
        status, _, complaint = self.call("alpha")
        self.assertEqual(status, 2)
        self.assertIn("crates.txt: No such file or directory", complaint)

    def test_rt_ci_may_try_them(self):
        self.repository.body("alpha", "x.edit.md", "refused")
        kept = self.folder / "asked"
        folder = self.folder / "bin"
        folder.mkdir()
        (folder / "rt").write_text(f"#!/bin/sh\necho \"$@\" > {kept}\nexec {HERE / 'bin' / 'rt'} \"$@\"\n")
        (folder / "rt").chmod(0o755)
        status, lines, _ = self.call("alpha", "--ci", path=f"{folder}{os.pathsep}{os.environ['PATH']}")
        self.assertEqual((status, lines[-1], kept.read_text()), (0, "2 passed, 0 failed", "ci alpha\n"))


class Toolchain(unittest.TestCase):
    """What the command looks for is what the toolchain's own rt prints."""

    @unittest.skipUnless(shutil.which("rt"), "the toolchain is not here")
    def test_words_of_rt(self):
        text = pathlib.Path(shutil.which("rt")).read_text(errors="replace")
        for outcome in Outcome:
            self.assertIn(f": {outcome.value}" if outcome.value else "", text)


class Samples(unittest.TestCase):
    """The wrong bodies in tools/tests/edits fit the crate that they are for."""

    def pairs(self, path):
        """The file and the old text of each pair."""
        file = None
        for line in path.read_text().splitlines():
            if line.startswith("file: "):
                file = line.removeprefix("file: ")
            if line.startswith("old: "):
                yield file, line.removeprefix("old: ")

    def test_old_texts_stand_once(self):
        tried = 0
        for path in sorted((HERE / "edits").glob("*/*.edit")):
            folder = ROOT / "crates" / path.parent.name
            for file, old in self.pairs(path):
                wanted = 0 if path.stem == "old_text_is_missing" else 1
                self.assertEqual((folder / file).read_text().count(old), wanted, f"{path}: {old}")
                tried += 1
        self.assertEqual(tried, 6)


if __name__ == "__main__":
    unittest.main()
