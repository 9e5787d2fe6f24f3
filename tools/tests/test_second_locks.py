"""Tests of the second writing of named locks, by rows that were worked out by hand: an input, its status and its output."""

import unittest

import dev_tests  # noqa: F401 (finds the packages)
from julampok.limits import MOST_INPUT
from julampok.second.locks import run

FIRST = b"""lock wifi
lock gps 1500000
active
after 2
active
inactive
lock wifi 1
after 1
active
unlock nfc
lock a b
"""

FIRST_SAID = b"""0
0
active gps wifi
active wifi
inactive gps
0
active
EINVAL
EINVAL
source gps 1 1 1 0 2 2 2
source wifi 1 2 1 0 3 3 3
"""

MANY = b"".join(b"lock n%d\n" % number for number in range(101)) + b"unlock n0\nlock n0\n"

MANY_SAID = b"0\n" * 100 + b"ENOSPC\n0\n0\n" + b"".join(
    b"source n%d %s 0 0 0 0 0\n" % (number, b"1 1" if number else b"2 2") for number in sorted(range(100), key=str)
)

# A later, shorter timeout cuts no earlier one; an unlock of an inactive name is answered.
SHORTER = b"lock a 5000000\nlock a 2000000\nafter 2\nactive\nafter 3\nactive\nunlock a\nactive\n"
SHORTER_SAID = b"0\n0\nactive a\nactive\n0\nactive\nsource a 1 2 1 0 5 5 5\n"

# A timeout is rounded up, at most a day, and 0 is none.
ROUNDED = b"lock a 1\nlock b 0\nlock c 86400000000000\nlock d 86400000000001\nlock e 1000001\nafter 1\nactive\nafter 1\nactive\n"
ROUNDED_SAID = (
    b"0\n0\n0\nEINVAL\n0\nactive b c e\nactive b c\n"
    b"source a 1 1 1 0 1 1 1\nsource b 1 1 0 2 2 2 0\nsource c 1 1 0 2 2 2 0\nsource e 1 1 1 0 2 2 2\n"
)

NAMES = b"lock %s\nlock %s\n" % (b"n" * 32, b"n" * 33)
NAMES_SAID = b"0\nEINVAL\nsource %s 1 1 0 0 0 0 0\n" % (b"n" * 32)

ROWS = [(FIRST, FIRST_SAID), (MANY, MANY_SAID), (SHORTER, SHORTER_SAID), (ROUNDED, ROUNDED_SAID), (NAMES, NAMES_SAID)]

REFUSED = [
    (b"lock a\n\nactive\n", b"locks: line 2\n"),
    (b"lock a\nafter 0\n", b"locks: line 2\n"),
    (b"after 86400001\n", b"locks: line 1\n"),
    (b"active \n", b"locks: line 1\n"),
    (b"lock\n", b"locks: line 1\n"),
    (b"\n" * (MOST_INPUT + 1), b"locks: longer than 16777216 bytes\n"),
]


class Locks(unittest.TestCase):
    def test_answers(self):
        for given, said in ROWS:
            with self.subTest(given[:40]):
                self.assertEqual(run(given), (0, said, b""))

    def test_refusals(self):
        for given, words in REFUSED:
            with self.subTest(given[:40]):
                self.assertEqual(run(given), (3, b"", words))

    def test_no_newline_at_the_end(self):
        self.assertEqual(run(b"lock a\nactive"), (0, b"0\nactive a\nsource a 1 1 0 0 0 0 0\n", b""))

    def test_a_source_that_is_full(self):
        self.assertEqual(run(b"lock a\n" * 2, places=6)[0], 0)
        self.assertEqual(run(b"lock a\n" * 4, places=6), (7, b"", b"source full: a\n"))


if __name__ == "__main__":
    unittest.main()
