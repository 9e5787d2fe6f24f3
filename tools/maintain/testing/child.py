"""Runs the tests of one file, and writes what came of them: child.py FILE RESULTS."""

import os
import pathlib
import sys
import unittest

from maintain.testing.results import Gathered


def main(file, results):
    """Runs the tests of the file, which is a module of its folder."""
    path = pathlib.Path(file)
    sys.path.insert(0, str(path.parent))
    gathered = Gathered()
    unittest.defaultTestLoader.loadTestsFromName(path.stem).run(gathered)
    found = gathered.results()
    found.processor = sum(os.times()[:4])
    pathlib.Path(results).write_text(found.write())


if __name__ == "__main__":
    main(*sys.argv[1:])
