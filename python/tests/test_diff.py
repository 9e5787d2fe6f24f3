"""Two recordings beside each other: what they differ in is known from how they were made."""

import json
import pathlib
import tempfile
import unittest

from command_tests import julampok
from recordings import file_of


def diff(a, b, *more):
    """The status and what `diff --json` says of two recordings."""
    words = [file_of(a, "trace"), file_of(b, "trace")]
    words += [word for name in (a, b) for kind in ("devices",) for word in (f"--{kind}", file_of(name, kind))]
    done = julampok("diff", *words, *more, "--json")
    assert done.status in (0, 1), done.err
    return done.status, json.loads(done.out)


class Ways(unittest.TestCase):
    """The first place where the ways part."""

    def test_same_recording(self):
        for name in ("order", "two-cycles", "s3", "async-fails", "freeze-user", "g9-error-each-time", "s2idle"):
            with self.subTest(name):
                done = julampok("diff", file_of(name, "trace"), file_of(name, "trace"))
                self.assertEqual((done.status, done.err), (0, ""))

    def test_noise_is_no_difference(self):
        for kind in ("sync", "async"):
            for one, other in ((1, 2), (2, 3), (3, 1)):
                with self.subTest(kind, one=one):
                    self.assertIsNone(diff(f"whatif-gpu-{kind}-{one}", f"whatif-gpu-{kind}-{other}")[1]["parts"])

    def test_asynchronous(self):
        status, said = diff("whatif-gpu-sync", "whatif-gpu-async")
        self.assertEqual((status, said["parts"]["line_a"]), (1, 481))
        self.assertIn("gpu (below soc) is synchronous in A and asynchronous in B", said["parts"]["what"])
        change = {phase["phase"]: phase["change_ms"] for phase in said["phases"]}
        self.assertTrue(-125 < change["suspend"] < -115 and -55 < change["resume"] < -45)

    def test_slower(self):
        _, said = diff("whatif-gpu-async", "whatif-gpu-sync")
        self.assertEqual([phase["phase"] for phase in said["phases"] if phase["slower"]], ["suspend", "early", "resume"])
        suspend = next(phase for phase in said["phases"] if phase["phase"] == "suspend")
        self.assertEqual((suspend["path_a"], suspend["path_b"]), (["wlan", "panel", "gpu", "soc"], ["wlan", "panel", "gpu", "disk", "nvme", "soc"]))
        _, said = diff("whatif-gpu-async", "whatif-gpu-sync", "--by", "60")
        self.assertEqual([phase["phase"] for phase in said["phases"] if phase["slower"]], ["suspend"])

    def test_by(self):
        with tempfile.TemporaryDirectory() as folder:
            import gzip
            text = gzip.decompress(pathlib.Path(file_of("whatif-gpu-sync", "trace")).read_bytes()).decode()
            later = pathlib.Path(folder) / "later.trace"
            lines = text.splitlines(keepends=True)
            at = next(number for number, line in enumerate(lines) if "dpm_suspend_late[2] end" in line)
            moved = [self.later(line, 0.030) if number >= at and not line.startswith("#") else line for number, line in enumerate(lines)]
            later.write_text("".join(moved))
            words = ("diff", file_of("whatif-gpu-sync", "trace"), later)
            self.assertEqual([julampok(*words, "--by", by).status for by in ("29", "31")], [1, 0])

    @staticmethod
    def later(line, seconds):
        import re
        return re.sub(r"(\d+\.\d{6}):", lambda found: f"{float(found[1]) + seconds:.6f}:", line, count=1)

    def test_broken_order(self):
        status, said = diff("order", "order-broken")
        self.assertEqual((status, said["parts"]["line_b"]), (1, 490))  # ctl before its disk, over a port without callbacks.
        self.assertIn("suspend of ctl begins before that of disk", said["parts"]["what"])

    def test_outcome(self):
        status, said = diff("soft-unguarded", "irq-suspend")
        self.assertEqual(status, 1)
        self.assertIn("dpm_suspend end", said["parts"]["what"])

    def test_answer(self):
        status, said = diff("order", "async-fails")
        self.assertEqual(status, 1)

    def test_attempts(self):
        with tempfile.TemporaryDirectory() as folder:
            import gzip
            lines = gzip.decompress(pathlib.Path(file_of("two-cycles", "trace")).read_bytes()).decode().splitlines(keepends=True)
            end = next(number for number, line in enumerate(lines) if "thaw_processes[0] end" in line)
            one = pathlib.Path(folder) / "one.trace"
            one.write_text("".join(lines[: end + 1]))
            done = julampok("diff", file_of("two-cycles", "trace"), one, "--json")
            self.assertEqual((done.status, json.loads(done.out)["parts"]["what"]), (1, "A has 2 attempts, B 1"))


class Words(unittest.TestCase):
    """Inputs that cannot be compared."""

    def test_cannot(self):
        for extra, status in ((), 2), (("--bisect",), 125):
            done = julampok("diff", file_of("order", "trace"), "nowhere.trace", *extra)
            with self.subTest(extra):
                self.assertEqual((done.status, done.out, done.err.count("\n")), (status, "", 1))

    def test_bisect_answers_as_ever(self):
        words = [file_of(name, "trace") for name in ("order", "order-broken")]
        self.assertEqual([julampok("diff", words[0], b, "--bisect").status for b in words], [0, 1])

    def test_wrong_by(self):
        for by in ("-1", "x", "nan", "inf"):
            with self.subTest(by):
                words = ("diff", file_of("order", "trace"), file_of("order", "trace"), f"--by={by}")
                self.assertEqual([julampok(*words, *more).status for more in ((), ("--bisect",))], [2, 125])


if __name__ == "__main__":
    unittest.main()
