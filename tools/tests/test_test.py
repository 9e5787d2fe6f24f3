"""Tests of `tools/dev test`: how tests are found, run and counted."""

import pathlib
import tempfile
import textwrap
import unittest
import unittest.mock

from dev_tests import dev
from maintain.testing import files

HEAD = "import os, sys, time, unittest\n"


def case(body):
    """A file with one class of tests."""
    return HEAD + "class T(unittest.TestCase):\n" + textwrap.indent(textwrap.dedent(body), "    ")


class Counted(unittest.TestCase):
    def setUp(self):
        folder = tempfile.TemporaryDirectory()
        self.addCleanup(folder.cleanup)
        self.folder = pathlib.Path(folder.name)
        self.change("FOLDERS", (self.folder,))

    def change(self, name, value):
        patch = unittest.mock.patch.object(files, name, value)
        patch.start()
        self.addCleanup(patch.stop)

    def write(self, name, text):
        path = self.folder / name
        path.parent.mkdir(exist_ok=True)
        path.write_text(text)

    def run_tests(self, *words):
        done = dev("test", *words)
        return done.status, done.out.splitlines()[-1], done.out

    def test_all_pass(self):
        self.write("test_a.py", case("def test_one(self): pass\ndef test_two(self): pass\ndef helper(self): 1 / 0"))
        self.write("test_b.py", case("def test_one(self): pass"))
        self.write("below/test_c.py", case("def test_one(self): pass"))
        self.write("other.py", "1 / 0")
        self.assertEqual(self.run_tests()[:2], (0, "4 passed, 0 failed"))

    def test_some_fail(self):
        self.write("test_a.py", case("def test_one(self): self.assertEqual(1, 2)\ndef test_two(self): pass\ndef test_three(self): raise OSError('x')"))
        status, last, out = self.run_tests()
        self.assertEqual((status, last), (1, "1 passed, 2 failed"))
        self.assertIn("failed test_a.T.test_one:", out)
        self.assertIn("AssertionError: 1 != 2", out)

    def test_a_test_that_says_too_much(self):
        self.write("test_a.py", case("def test_one(self): self.fail('x' * 100_000)\ndef test_two(self): self.fail('y\\n' * 10_000)"))
        status, last, out = self.run_tests()
        self.assertEqual((status, last), (1, "0 passed, 2 failed"))
        self.assertLess(len(out), 5000)

    def test_parts_of_a_test_count_once(self):
        self.write("test_a.py", case('''
            def test_one(self):
                for number in range(4):
                    with self.subTest(number):
                        self.assertEqual(number, 3)
            def test_two(self):
                with self.subTest(1):
                    pass
        '''))
        self.assertEqual(self.run_tests()[:2], (1, "1 passed, 1 failed"))

    def test_skipped(self):
        self.write("test_a.py", case("@unittest.skip('not here')\ndef test_one(self): pass\ndef test_two(self): pass"))
        status, last, out = self.run_tests()
        self.assertEqual((status, last), (0, "1 passed, 0 failed, 1 skipped"))
        self.assertIn("skipped test_a.T.test_one: not here", out)

    def test_marked_as_failing(self):
        self.write("test_a.py", case("@unittest.expectedFailure\ndef test_one(self): self.fail()\n@unittest.expectedFailure\ndef test_two(self): pass"))
        self.assertEqual(self.run_tests()[:2], (1, "1 passed, 1 failed"))

    def test_what_cannot_be_read(self):
        for text in ("import no_such_module_here", "this is no Python", HEAD + "1 / 0"):
            self.write("test_a.py", text)
            self.assertEqual(self.run_tests()[:2], (1, "0 passed, 1 failed"))

    def test_a_class_that_cannot_be_set_up(self):
        self.write("test_a.py", case("@classmethod\ndef setUpClass(cls): 1 / 0\ndef test_one(self): pass"))
        self.assertEqual(self.run_tests()[:2], (1, "0 passed, 1 failed"))

    def test_a_process_that_ends(self):
        self.write("test_a.py", case("def test_one(self):\n    print('a last word', flush=True)\n    os._exit(3)"))
        self.write("test_b.py", case("def test_one(self): sys.exit(0)"))
        status, last, out = self.run_tests()
        self.assertEqual((status, last), (1, "0 passed, 2 failed"))
        self.assertIn("its process ended with status 3", out)
        self.assertIn("a last word", out)

    def test_one_that_takes_too_long(self):
        self.change("LONGEST", 1)
        self.write("test_a.py", case("def test_one(self): time.sleep(60)"))
        status, last, out = self.run_tests()
        self.assertEqual((status, last), (1, "0 passed, 1 failed"))
        self.assertIn("it took more than 1 seconds", out)

    def test_none_found(self):
        self.assertEqual(self.run_tests()[:2], (1, "0 passed, 0 failed"))
        self.write("test_a.py", HEAD)
        self.assertEqual(self.run_tests()[:2], (1, "0 passed, 0 failed"))

    def test_some_chosen(self):
        self.write("test_a.py", case("def test_one(self): pass"))
        self.write("test_b.py", case("def test_one(self): self.fail()"))
        self.assertEqual(self.run_tests("test_a")[:2], (0, "1 passed, 0 failed"))
        self.assertEqual(self.run_tests("nothing")[:2], (1, "0 passed, 0 failed"))

    def test_it_stands_in_its_own_folder(self):
        self.write("helper.py", "NUMBER = 7\n")
        self.write("test_a.py", "import helper\n" + case("def test_one(self): self.assertEqual(helper.NUMBER, 7)"))
        self.assertEqual(self.run_tests()[:2], (0, "1 passed, 0 failed"))


class Found(unittest.TestCase):
    def test_both_tools_have_tests(self):
        names = [str(path.relative_to(files.TOP)) for path in files.test_files()]
        self.assertIn("python/tests/test_why.py", names)
        self.assertIn("tools/tests/test_test.py", names)
        self.assertEqual(len(set(names)), len(names))

    def test_a_browser_is_asked_for(self):
        self.assertFalse(set(files.IN_A_BROWSER) & set(files.test_files()))
        self.assertEqual(sorted(files.test_files(["tests/browser"], in_a_browser=True)), files.IN_A_BROWSER)


if __name__ == "__main__":
    unittest.main()
