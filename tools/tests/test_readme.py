"""Tests of what README.md says of the toolchain."""

import re
import shutil
import subprocess
import sys
import unittest

from dev_tests import ROOT

LINE = re.compile(r"`(rattle-kit-\w+) logic ([0-9a-f]{16})`")


def told(text):
    """The kit and the sum of its logic that a text names."""
    return LINE.findall(text)


class Toolchain(unittest.TestCase):
    def test_the_line_of_the_toolchain(self):
        """Another sum of the logic fails; another letter of the kit with the same logic is only noted."""
        lines = told((ROOT / "README.md").read_text())
        self.assertEqual(len(lines), 1, "README.md has one line of `rt version`")
        if shutil.which("rt") is None:
            self.skipTest("the toolchain is not here")
        said = subprocess.run(["rt", "version"], capture_output=True, text=True).stdout.strip()
        here = told(f"`{said}`")
        self.assertEqual(len(here), 1, f"`rt version` says {said!r}")
        (kit, logic), (own_kit, own_logic) = lines[0], here[0]
        self.assertEqual(logic, own_logic, f"README.md names the logic {logic}, and the toolchain's is {own_logic}")
        if kit != own_kit:
            print(f"note: README.md names {kit}, and the toolchain is {own_kit} of the same logic", file=sys.stderr)

    def test_what_is_read(self):
        self.assertEqual(told("by `rattle-kit-13f logic dac8208d650f15bf`."), [("rattle-kit-13f", "dac8208d650f15bf")])
        self.assertEqual(told("by `rattle-kit-13f`, and `logic dac8208d650f15bf`"), [])

    def test_the_gate(self):
        """The gate's script runs both parts, and the second only after the first."""
        lines = (ROOT / ".ci" / "run").read_text().splitlines()
        self.assertEqual([line for line in lines if line and not line.startswith("#")],
                         ['cd "$(dirname "$0")/.." || exit', "rt ci || exit", "exec tools/dev test"])


if __name__ == "__main__":
    unittest.main()
