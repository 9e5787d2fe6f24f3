"""The names of errors are Linux's: as its own headers have them where these are there, and some by hand."""

import errno
import sys
import unittest

import command_tests  # noqa: F401 (puts the package on the path)
from julampok.kernel.errnos import NAMES, error_name, error_text


class Names(unittest.TestCase):
    def test_by_hand(self):
        """include/uapi/asm-generic/errno-base.h, errno.h, and include/linux/errno.h."""
        for number, name in ((-5, "EIO"), (-11, "EAGAIN"), (-16, "EBUSY"), (-110, "ETIMEDOUT"), (-517, "EPROBE_DEFER")):
            self.assertEqual((error_name(number), error_text(number)), (name, f"{number} ({name})"))
        self.assertEqual((error_name(-999), error_text(-999)), ("-999", "-999"))

    @unittest.skipUnless(sys.platform == "linux", "another system has other numbers")
    def test_as_the_system_has_them(self):
        for number, name in NAMES.items():
            if number < 512:
                self.assertEqual(getattr(errno, name), number)


if __name__ == "__main__":
    unittest.main()
