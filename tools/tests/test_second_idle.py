"""Tests of the second writing of suspend-to-idle, by logs that were worked out by hand, and by texts that are none."""

import random
import unittest

import dev_tests  # noqa: F401 (finds the packages)
from julampok.second.idle import Broken, judge, text_by_rounds
from maintain.trials.idle import changed_copy, random_log

SEED, LOGS = 3, 100
# An event comes between the first look and the entering: the second look finds it, and nothing is entered.
BACK = """0 waker:0 hard
1 idle begin
1 waker:0 wake
1 idle try ok
1 waker:0 hard
2 waker:0 wake
2 idle leave
2 idle try busy
end over
"""

# The one event comes before the session, so the idler enters.
ASLEEP = """0 waker:0 hard
1 idle begin
1 waker:0 wake
1 idle try ok
end idle
"""
# What no log may say, in the place of a line of BACK (from 1), and why.
WRONG = [
    (1, "0 waker:0 wake", "a wake before its event"),
    (4, "1 idle try busy", "a look that finds what is not there"),
    (8, "2 idle try ok", "a look that finds nothing where an event came"),
    (7, "2 idle begin", "a session while the last one has not ended"),
    (9, "end idle", "an end that is another"),
]


def is_log(text, sizes):
    """Whether a text is a whole log of so many wakers, events and sessions."""
    try:
        judge(text, *sizes)
    except Broken:
        return False
    return True


class Idle(unittest.TestCase):
    def test_worked_logs(self):
        for text, sizes in ((BACK, (1, 2, 1)), (ASLEEP, (1, 1, 1))):
            self.assertTrue(is_log(text, sizes))
            self.assertEqual(text_by_rounds(*sizes), text)

    def test_worked_logs_of_other_sizes(self):
        for sizes in ((2, 2, 1), (1, 1, 1), (1, 3, 1)):
            self.assertFalse(is_log(BACK, sizes), sizes)

    def test_wrong_lines(self):
        lines = BACK.splitlines()
        for number, said, why in WRONG:
            copy = [*lines[: number - 1], said, *lines[number:]]
            self.assertFalse(is_log("\n".join(copy) + "\n", (1, 2, 1)), why)

    def test_lines_that_are_missing(self):
        lines = BACK.splitlines(keepends=True)
        for number in range(len(lines)):
            self.assertFalse(is_log("".join(lines[:number] + lines[number + 1:]), (1, 2, 1)), lines[number])

    def test_random_logs(self):
        rng, refused = random.Random(SEED), 0
        for _ in range(LOGS):
            sizes = rng.randint(1, 4), rng.randint(1, 6), rng.randint(1, 4)
            text = random_log(rng, sizes)
            self.assertTrue(is_log(text, sizes), text)
            refused += not is_log(changed_copy(rng, text), sizes)
        self.assertGreater(refused, LOGS // 2)


if __name__ == "__main__":
    unittest.main()
