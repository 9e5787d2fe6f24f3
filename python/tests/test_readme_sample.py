"""Holds the sample of README.md against what replay says of the recording that it names."""

import re
import unittest

from command_tests import ROOT, julampok

RECORDING = ROOT / "examples" / "real" / "irq-suspend-async"


class Sample(unittest.TestCase):
    def test_the_printed_lines(self):
        text = (ROOT / "README.md").read_text()
        shown = re.search(r"^```\n(examples/real/.*?)^```\n", text, re.M | re.S)[1].splitlines()
        words = [f"{RECORDING}.trace", *(word for name in ("devices", "links", "dmesg") for word in (f"--{name}", f"{RECORDING}.{name}"))]
        done = julampok("replay", *words)
        self.assertEqual(done.status, 0)
        self.assertEqual(shown, done.out.replace(f"{ROOT}/", "").splitlines())


if __name__ == "__main__":
    unittest.main()
