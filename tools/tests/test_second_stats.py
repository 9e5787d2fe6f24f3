"""Tests of a log's statistics in Python: worked logs, and random ones whose longest chain is found by looking at all chains."""

import unittest

import dev_tests  # noqa: F401 (finds the packages)
from julampok.second.run import Run
from julampok.second.stats import BadLinks, Chains
from julampok.second.stats_logs import WORKED, Logs, expected, longest_by_all, told

TWO = {"version": 1, "devices": [{"name": "a"}, {"name": "b"}]}
SEED, LOGS = 7, 300


def log_of(*entries):
    """A log of these entries, each after the time, the event word and the actor."""
    return "".join(f"0 0/0/0 auto {entry}\n" for entry in entries)


def chain_of(*entries):
    """The line of the longest chain of two devices after these entries."""
    return Chains(TWO, log_of(*entries)).lines()[0]


class Statistics(unittest.TestCase):
    def test_worked_logs(self):
        for tree, counts, lines in WORKED:
            log, _ = Run(tree).run()
            self.assertEqual(expected(tree, log), (0, told(counts, lines), ""))

    def test_links(self):
        """A dormant link is no step, one that stands is passed over, and one that closes a cycle is refused."""
        self.assertEqual(chain_of(), "chain 1 a")
        self.assertEqual(chain_of("link a b 0", "link a b 0", "link b a EINVAL"), "chain 2 a b")
        self.assertEqual(chain_of("link a b 0", "link_state a b dormant 0"), "chain 1 a")
        self.assertEqual(chain_of("link a b 0", "link_state a b dormant ENODEV"), "chain 2 a b")
        for entries in (["link a b 0", "link b a 0"], ["link a a 0"]):
            with self.subTest(entries), self.assertRaisesRegex(BadLinks, "^cycle$"):
                chain_of(*entries)

    def test_random_logs(self):
        logs, tried = Logs(SEED), 0
        for _ in range(LOGS):
            tree, log = logs.pair()
            status, out, _ = expected(tree, log) if log is not None else (1, "", "")
            if status == 0:
                self.assertIn(f"\nchain {longest_by_all(Chains(tree, log))}", out)
                tried += 1
        self.assertGreater(tried, LOGS // 2)


if __name__ == "__main__":
    unittest.main()
