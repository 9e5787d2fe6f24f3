"""Tests of `tools/dev count`: its rows are those of docs/SPEED.md, and the page is written anew."""

import pathlib
import tempfile
import unittest
import unittest.mock

from dev_tests import STAND_IN, dev
from maintain.commands import count

TABLE = "```\nmachine         ours   peer  times\nc_same         437.0  106.8   4.09\nd_deep         21.80  7.666   2.84\n```\n"


class Count(unittest.TestCase):
    def setUp(self):
        folder = tempfile.TemporaryDirectory()
        self.addCleanup(folder.cleanup)
        self.page, self.file = pathlib.Path(folder.name, "SPEED.md"), pathlib.Path(folder.name, "c_same.v1.json")
        self.page.write_text(TABLE)
        self.file.write_text("{}")
        page = unittest.mock.patch.object(count, "PAGE", self.page)
        page.start()
        self.addCleanup(page.stop)

    def counted(self, *words, ours=213.6):
        with unittest.mock.patch.object(count, "millions", lambda program, path: ours):
            return dev("count", self.file, "--program", STAND_IN, *words)

    def test_rows(self):
        done = self.counted()
        self.assertEqual((done.status, done.out, done.err), (0, "c_same         213.6  106.8   2.00\n", ""))
        self.assertEqual(self.page.read_text(), TABLE)

    def test_the_page(self):
        self.assertEqual(self.counted("--write").status, 0)
        self.assertEqual(self.page.read_text(), TABLE.replace("437.0  106.8   4.09", "213.6  106.8   2.00"))

    def test_the_most(self):
        self.assertEqual((self.counted("--most", "2").status, self.counted("--most", "1.5").status), (0, 1))

    def test_what_cannot_be_counted(self):
        self.file = self.file.rename(self.file.with_name("other.json"))
        self.assertIn("no row of docs/SPEED.md is called other", self.counted().err)
        with unittest.mock.patch("shutil.which", lambda name: None):
            done = dev("count", self.page.with_name("c_same.json"), "--program", STAND_IN)
        self.assertEqual((done.status, done.err), (2, "tools/dev count: valgrind is not there, which counts\n"))

    def test_the_page_as_it_is(self):
        rows = [found[0] for found in count.ROW.finditer((count.DOCS / "SPEED.md").read_text())]
        self.assertGreater(len(rows), 10)
        for row in rows:
            name, ours, other, times = row.split()
            self.assertEqual(count.row_of(name, float(ours), float(other))[:-5], row[:-5])
            self.assertAlmostEqual(float(times), float(ours) / float(other), delta=0.01)


if __name__ == "__main__":
    unittest.main()
