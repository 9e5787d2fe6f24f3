"""An event at each place of an attempt: what finds it is known from recordings, from the rules, and from trying each place."""

import json
import pathlib
import tempfile
import types
import unittest

from command_tests import EXAMPLES, julampok
from recordings import inputs

from julampok.commands import sweep as command
from julampok.forecast.sweeping import Event, Sweep, real_words
from julampok.second.follow import Follower
from julampok.second.maker import Maker
from julampok.second.rules import first_broken

WHOLE = EXAMPLES / "order" / "whole-attempt.json"


def places(*given):
    """What `sweep --json` says of each place, by the entry before it; and the status."""
    done = julampok("sweep", *given, "--jobs", "1", "--json")
    assert done.status in (0, 1), done.err
    return {place["after"]: place for place in json.loads(done.out)["places"]}, done.status


def sweep_of(name):
    """The sweep of a recording, by its callbacks' times."""
    found = inputs(name)
    given = types.SimpleNamespace(machine=found["trace"], trace=None, devices=found["devices"], links=found["links"])
    tree, durations, _ = command.subject(given)
    return Sweep(tree, Event(), 1, durations)


def outcome_of(name, after):
    """What comes of an event right after an entry of a recording's machine."""
    sweep = sweep_of(name)
    place = next(place for place in sweep.places if place.body == after)
    outcome = sweep.outcome(place)
    return outcome, None if outcome.time is None else (outcome.time - place.time) / 1e6


class Found(unittest.TestCase):
    """Which test finds an event."""

    def test_as_the_kernel_did(self):
        """Recordings of events in a callback, after a processor went, and in a step of the core."""
        cases = (("irq-noirq", "begin noirq disk", "cpu 1"), ("cpu-off", "cpu off 1", "cpu 2"), ("syscore", "syscore check 0", "enter"))
        for name, after, finder in cases:
            with self.subTest(name):
                outcome, _ = outcome_of(name, after)
                self.assertEqual((outcome.found_by, outcome.slept, outcome.result), (finder, False, "EBUSY"))

    def test_next_device(self):
        """In irq-suspend the event came while disk was in suspend; hub's test found it, and these four were resumed."""
        outcome, _ = outcome_of("irq-suspend", "begin suspend disk")
        self.assertEqual((outcome.found_by, outcome.undone["resume"][-4:]), ("suspend hub", ["disk", "lamp", "net", "wlan"]))

    def test_time_until_noticed(self):
        """On one processor gpu takes 150 ms in suspend, beside which cam ends; disk is tested only after it."""
        outcome, waited = outcome_of("whatif-gpu-sync", "begin suspend gpu")
        self.assertEqual(outcome.found_by, "suspend disk")
        self.assertTrue(149 < waited < 152)
        self.assertEqual(set(outcome.undone["resume"]) & {"wlan", "cam", "panel", "gpu", "disk", "nvme", "soc"}, {"wlan", "cam", "panel", "gpu"})

    def test_whole_attempt(self):
        found, _ = places(WHOLE)
        for after, finder, slept in (
            ("read 0", "save", True), ("save 0 ok", "suspend disk", False), ("freeze user", "suspend disk", False),
            ("begin suspend bus", "late disk", False), ("begin late bus", "cpu 1", False), ("cpu off 3", "syscore check", False),
            ("syscore check 0", "enter", False), ("syscore suspend timekeeping 0", "enter", False), ("enter", "wake", True),
            ("wake alarm", None, True), ("done resume 0", None, True), ("begin early disk", None, True),
        ):
            with self.subTest(after):
                self.assertEqual((found[after]["found_by"], found[after]["slept"]), (finder, slept))
        self.assertEqual(found["begin late radio"]["undone"], {
            "early": ["radio", "keyboard", "disk"], "resume": ["bus", "radio", "keyboard", "disk"], "complete": ["disk", "keyboard", "radio", "bus"]})

    def test_soft_event_of_a_plain_attempt(self):
        machine = json.dumps(json.loads(WHOLE.read_text()) | {"actors": [{"name": "w", "kind": "user", "script": [{"op": "state", "text": "mem"}]}]})
        done = julampok("sweep", "-", "--jobs", "1", data=machine)
        self.assertIn("# the attempt saved no count", done.out)
        self.assertEqual(done.out.count("found by"), done.out.count("found by nothing") + done.out.count("found by wake"))
        hard = julampok("sweep", "-", "--jobs", "1", "--hard", data=machine)
        self.assertIn("found by suspend disk", hard.out)


class Trials(unittest.TestCase):
    """Random machines: each place by itself, and each log by another writing."""

    def machines(self, count):
        seed = 0
        while count:
            tree, seed = Maker(seed).machine(), seed + 1
            try:
                sweep = Sweep(tree, Event(ms=[0, 30][seed % 2], is_hard=seed % 3 == 0))
            except Exception as error:  # noqa: BLE001 (some machines make no attempt)
                self.assertIn("makes no attempt", str(error))
                continue
            count -= 1
            yield seed, tree, sweep

    def test_places_with_one_outcome(self):
        for seed, _, sweep in self.machines(20):
            for group in sweep.groups():
                with self.subTest(seed=seed, place=group[0].body):
                    first, *others = (sweep.outcome(place) for place in group)
                    self.assertTrue(all(other == first for other in others))

    def test_logs_are_legal(self):
        for seed, _, sweep in self.machines(10):
            for place in sweep.places[::5]:
                self.assertIsNone(first_broken(sweep.machine(place)))
                follower = Follower(sweep.machine(place))
                with self.subTest(seed=seed, place=place.body):
                    self.assertTrue(follower.accepts(sweep.log(place)), follower.why)

    def test_processes(self):
        sweep = Sweep(json.loads(WHOLE.read_text()), Event())
        self.assertEqual(sweep.outcomes(3), sweep.outcomes(1))


class Expected(unittest.TestCase):
    """Rules of a lab."""

    def swept(self, rules, *more):
        with tempfile.TemporaryDirectory() as folder:
            file = pathlib.Path(folder) / "rules"
            file.write_text(rules)
            return julampok("sweep", WHOLE, "--jobs", "1", "--expect", file, *more)

    def test_kept(self):
        done = self.swept("# a comment\n\nnoirq: found by cpu 1\nsuspend: does not sleep\nbegin late radio: undone radio\nbegin late radio: undone platform finish\n"
                          "begin suspend disk: not undone bus\nenter: sleeps\nresume: not found\n")
        self.assertEqual((done.status, done.err), (0, ""))
        self.assertRegex(done.out, r"\ATAP version 13\n1\.\.\d+\nok 1 - ")
        self.assertNotIn("not ok", done.out)

    def test_example(self):
        folder = EXAMPLES / "order"
        done = julampok("sweep", folder / "laptop.json", "--jobs", "1", "--expect", folder / "laptop.rules")
        self.assertEqual((done.status, done.err), (0, ""))

    def test_real_names(self):
        """A device of a trace is shown by its real name, which machine files cannot spell."""
        found = inputs("irq-suspend")
        given = types.SimpleNamespace(machine=found["trace"], trace=None, devices=found["devices"], links=found["links"])
        real = command.subject(given)[2]
        for words, shown in (("begin suspend 0000.00.01.1", "begin suspend 0000:00:01.1"), ("prepare lnxsystm.00 1", "prepare LNXSYSTM:00 1"),
                             ("late lnxsystm.00", "late LNXSYSTM:00"), ("cpu 1", "cpu 1"), ("platform end", "platform end")):
            self.assertEqual(real_words(words, real), shown)

    def test_broken(self):
        done = self.swept("suspend: found by suspend *\n")
        self.assertEqual(done.status, 1)
        bad = [line for line in done.out.splitlines() if line.startswith("not ok")]
        self.assertTrue(bad and all("found by late disk" in line for line in bad))
        self.assertIn('    - "line 1: suspend: found by suspend *"', done.out)

    def test_refused(self):
        for rules, words_of in (("", "no rule"), ("suspend found\n", ":1: no rule"), ("x: y\n", ":1: no claim"), ("nowhere*: not found\n", ":1: no place"),
                                ("*: within 5 ms\n", ":1: .*needs the times")):
            with self.subTest(rules):
                done = self.swept(rules)
                self.assertEqual((done.status, done.out, done.err.count("\n")), (2, "", 1))
                self.assertRegex(done.err, words_of)

    def test_within(self):
        """A device of a machine file that has times in a trace, by its name: gpu takes 150 ms."""
        machine = {"version": 1, "devices": [{"name": "soc"}, {"name": "gpu", "parent": "soc"}]}
        with tempfile.TemporaryDirectory() as folder:
            file = pathlib.Path(folder) / "rules"
            for most, status in ((100, 1), (200, 0)):
                file.write_text(f"begin suspend gpu: within {most} ms\n")
                words = ("--trace", inputs("whatif-gpu-sync")["trace"], "--expect", file)
                self.assertEqual(julampok("sweep", "-", "--jobs", "1", *words, data=json.dumps(machine)).status, status)


class Words(unittest.TestCase):
    """Inputs that cannot be swept."""

    def test_cannot(self):
        for given, data in ((("-",), "{"), (("-",), ""), (("-",), '{"version":1,"devices":7}'), (("nowhere",), ""), ((WHOLE, "--attempt", "9"), ""),
                            ((WHOLE, "--devices", "x"), ""), (("-",), '{"version":1,"actors":[{"name":"w","kind":"user","script":[{"op":"state","text":"disk"}]}]}')):
            with self.subTest(given, data=data):
                done = julampok("sweep", *given, data=data)
                self.assertEqual((done.status, done.out, done.err.count("\n")), (2, "", 1))


if __name__ == "__main__":
    unittest.main()
