"""Tests of the rules of a log in Python: worked logs break no rule, and broken copies of them the rules that are named."""

import json
import random
import unittest

from dev_tests import WORKED
from julampok.second.copies import entries_of
from julampok.second.maker import Maker
from julampok.second.run import Run
from julampok.second.trial import Trial, first_broken

SEED, MACHINES = 5, 60

# Worked logs, with broken copies of each: a line, from 1, what stands there in the copy (None: nothing), and the rules broken there.
BROKEN = {
    "link_added": [
        (2, "0 0/0/0 task:w link a b 0", [2]),
    ],
    "event_stops_a_device": [
        (31, "5 0/1/0 task:w done suspend EBUSY", [4]),
        (31, "0 0/2/0 task:w done suspend EBUSY", [4]),
        (43, "0 0/1/0 task:w attempt 3 plain", [7]),
        (43, "0 0/1/0 task:w attempt 2 guarded 0", [7]),
        (42, "0 0/1/0 task:w over 2 EBUSY", [7]),
        (1, "0 0/0/0 task:w over 0 EBUSY", [7, 15, 17]),
        (2, "0 0/0/0 task:w save 0 EINVAL", [8]),
        (23, "0 0/0/0 task:w begin suspend disk", [9]),
        (17, "0 0/0/0 task:w prepare disk 1", [9]),
        (25, "0 0/0/0 task:w end suspend net EIO", [9]),
        (23, "0 0/0/0 task:w begin late net", [9, 14]),
        (29, "0 0/1/0 task:w begin suspend disk", [9, 10]),
        (29, "0 0/1/0 task:w skip suspend disk direct", [10]),
        (33, "0 0/1/0 task:w begin resume disk", [9, 12]),
        (32, "0 0/1/0 task:w platform end", [14]),
        (15, "0 0/0/0 task:w platform begin EIO", [14]),
        (32, "0 0/1/0 task:w post a", [14, 17]),
        (31, "0 0/1/0 task:w done suspend 0", [15]),
        (32, "0 0/1/0 task:w wake alarm", [14, 18]),
        (32, "0 0/1/0 task:w frozen", [13, 14, 17]),
        (27, "0 0/0/0 irq:k hard lid", [17, 22]),
        (27, "0 0/0/0 task:w start lid", [17]),
        (26, None, [17, 22]),
    ],
    "autosleep": [
        (8, "0 0/1/0 task:w save 0 ok", [8]),
        (9, "0 0/1/0 auto read 0", [8]),
        (3, "0 1/0/0 task:w autosleep EINVAL", [8]),
        (14, None, [13]),
        (14, "0 0/1/0 task:w slept", [13, 17]),
        (27, "0 0/1/0 auto enter EBUSY", [14]),
        (39, "1000 0/1/0 auto over 1 0", [14, 16]),
        (42, "1000 0/1/0 auto sleep_d 1400", [17]),
        (7, "0 0/1/0 auto again", [17]),
        (29, "1000 0/1/0 auto wake event", [18]),
        (11, "0 0/1/0 auto frozen", [13, 17]),
        (43, "1300 0/1/0 time jump", [18]),
        (27, None, [18]),
    ],
    "callback_reports": [
        (13, "0 0/0/0 task:w end suspend nic 0", [9, 17]),
        (13, "0 0/0/0 task:w awake lan", [9, 17]),
    ],
    "runtime_requests": [
        (18, "0 0/0/0 task:n runtime d suspended 0", [11]),
    ],
    "freeze_times_out": [
        (7, "20000 0/0/0 task:w froze user EBUSY timeout 2 b", [13]),
        (5, "0 0/0/0 task:w froze user 0", [13, 14]),
    ],
    "asynchronous_child": [
        (11, "0 0/0/0 task:w begin suspend c", [17]),
    ],
}


def worked(name):
    """A worked machine, with each of its lists, and its log's entries."""
    tree = json.loads((WORKED / f"{name}.json").read_text())
    lists = ("devices", "links", "sources", "notifiers", "actors", "answers")
    return {member: [] for member in lists} | tree, entries_of((WORKED / f"{name}.log").read_text())


class Rules(unittest.TestCase):
    def test_worked_logs(self):
        names = [path.stem for path in sorted(WORKED.glob("*.log"))]
        self.assertGreater(len(names), 40)
        for name in names:
            with self.subTest(name):
                self.assertEqual(first_broken(*worked(name)), (None, []))

    def test_broken_copies(self):
        for name, copies in BROKEN.items():
            tree, lines = worked(name)
            for line, said, rules in copies:
                copy = lines[: line - 1] + ([] if said is None else [said]) + lines[line:]
                with self.subTest(name, line=line, said=said):
                    self.assertEqual(first_broken(tree, copy), (line - 1, rules))

    def test_random_logs(self):
        """The first line that breaks a rule is the first that the run would not write."""
        maker, dice, trial = Maker(SEED), random.Random(SEED), Trial()
        for _ in range(MACHINES):
            tree = maker.machine()
            lines = entries_of(Run(tree).run()[0])
            if 4 <= len(lines) <= 200:
                trial.log(dice, tree, lines)
        self.assertGreater(trial.copies, MACHINES)
        self.assertEqual(trial.differ, 0)


if __name__ == "__main__":
    unittest.main()
