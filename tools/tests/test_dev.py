"""Tests of `tools/dev` itself: its help, its words and its statuses."""

import subprocess
import unittest
import unittest.mock

from dev_tests import ROOT, dev
from maintain import cli


class Dev(unittest.TestCase):
    def test_help(self):
        done = dev("--help")
        self.assertEqual((done.status, done.err), (0, ""))
        for name in cli.COMMANDS:
            self.assertIn(cli.module_of(name).HELP.split(",")[0][:20], done.out)
            own = dev(name, "--help")
            self.assertEqual((own.status, own.err), (0, ""))
            self.assertIn(f"example:\n  tools/dev {name}", own.out)

    def test_wrong_words(self):
        for words in ([], ["nothing"], ["docs", "--nothing"], ["test", "--jobs", "0"], ["worked", "more"]):
            done = dev(*words)
            self.assertEqual((done.status, done.out, done.err.count("\n")), (2, "", 1), words)
            self.assertTrue(done.err.startswith("tools/dev"), done.err)

    def test_stopped_from_the_keyboard(self):
        with unittest.mock.patch("maintain.commands.docs.run", side_effect=KeyboardInterrupt):
            self.assertEqual(dev("docs").status, 130)

    def test_as_it_is_called(self):
        """From another folder, and with nobody who reads what it writes."""
        done = subprocess.run([ROOT / "tools" / "dev", "--help"], cwd="/", capture_output=True, text=True)
        self.assertEqual((done.returncode, done.stderr), (0, ""))
        words = f"'{ROOT}/tools/dev' edits --all --list | true; exit ${{PIPESTATUS[0]}}"
        done = subprocess.run(["bash", "-c", words], capture_output=True, text=True)
        self.assertEqual((done.returncode, done.stderr), (0, ""))

    def test_no_other_programs(self):
        """Nothing in tools/ but `dev` is a program, and there is no folder bench/."""
        self.assertEqual([path.name for path in (ROOT / "tools").iterdir() if path.is_file()], ["dev"])
        self.assertFalse((ROOT / "bench").exists())


if __name__ == "__main__":
    unittest.main()
