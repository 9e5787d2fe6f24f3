"""replay on traces of a model of a kernel, which knows what it did: it is called legal, and what stopped it is found."""

import os
import random
import tempfile
import unittest

import command_tests  # (which puts the package on the path)
from julampok.follow.verdict import replay
from julampok.kernel.reading import read_inputs
from kernel_model import Kernel

assert command_tests
PLACES = ["notifiers", "user", "kernel", "begin", "prepare", "prepare_late", "cpu1", "cpu2", "core"]
LEVELS = ["freezer", "devices", "platform", "processors", "core"]
KINDS = ["none", "event", "event", "hard", "soft", "report", "error", "prepare", "platform", "notifier", "core", "pm_test", "refuse", "s2idle", "up"]
ANSWERS = {0: "0", -5: "EIO", -16: "EBUSY", -19: "ENODEV", -110: "ETIMEDOUT", -12: "ENOMEM", None: None}


class Trial:
    """One machine of the model, and its attempts."""

    def __init__(self, seed, count=0):
        self.dice = random.Random(seed)
        pick = self.dice.choice
        self.kernel = Kernel(seed, pick([1, 3, 8, 14, 30]), pm_async=self.dice.random() < 0.7, cpus=pick([1, 2, 3, 4]),
                             single_pass=self.dice.random() < 0.5, debug=self.dice.random() < 0.8)
        self.kinds = [] if count else [pick(KINDS) for _ in range(pick([1, 2, 2, 3]))]
        for kind in self.kinds:
            self.attempt(kind)
        self.kernel.attempt()
        self.live(count)

    def callback(self):
        """A callback on the way down; a place where there is none."""
        found = [(d.name, phase) for d in self.kernel.list for phase in ("suspend", "late", "noirq") if phase in d.callbacks]
        return self.dice.choice(found or ["begin"])

    def up_error(self):
        """A callback on the way up that answers an error, which changes nothing."""
        found = [(d.name, phase) for d in self.kernel.list for phase in ("resume_noirq", "early", "resume") if phase in d.callbacks]
        return {self.dice.choice(found): ("error", -5)} if found else {}

    def attempt(self, kind):
        """An attempt of a kind."""
        pick, length = self.dice.choice, self.dice.choice([0, 0, 3])
        plans = {
            "event": lambda: {pick([*PLACES, *[self.callback()] * 6]): ("event", "lid", False, length)},
            "hard": lambda: {pick([*PLACES[3:], *[self.callback()] * 6]): ("event", "lid", True, length)},
            "soft": lambda: {pick([PLACES[0], *PLACES[3:], *[self.callback()] * 6]): ("event", "lid", False, length)},
            "report": lambda: {self.callback(): ("report", length)},
            "error": lambda: {self.callback(): ("error", pick([-5, -16, -19, -110, -12]))},
            "prepare": lambda: {(pick(self.kernel.list).name, "prepare"): ("error", pick([-5, -16, -12]))},
            "up": lambda: self.up_error(),
            "platform": lambda: {"platform " + pick(["begin", "prepare", "prepare_late"]): True},
            "notifier": lambda: {"notifier": True}, "core": lambda: {"core step": True},
        }
        plan = plans.get(kind, dict)()
        if kind in ("error", "report"):
            plan.pop("begin", None)  # (a machine without a callback)
        more = {"pm_test": {"pm_test": pick(LEVELS)}, "refuse": {"refuses": pick(["user", "kernel"])}, "s2idle": {"state": 1}}.get(kind, {})
        saved = kind == "event" or kind in ("report", "s2idle") and self.dice.random() < 0.5
        self.kernel.attempt(saved, plan, **more)

    def live(self, count):
        """Attempts of several tasks and of autosleep, and between them locks that are held and devices that come."""
        kernel, pick, is_auto, is_held = self.kernel, self.dice.choice, False, False
        for number in range(count):
            what = pick(["register", "again", "lock", "attempt", "other", "auto"])
            if what == "register":
                kernel.register(f"new{number}")
            elif what == "again":
                kernel.register_again()
            elif what == "lock" and not is_auto:
                is_held = not is_held
                kernel.source("a", is_held)
            elif what == "attempt" and not is_auto:
                self.attempt(pick(["none", "soft", "error", "hard", "refuse"]))
            elif what == "other" and not is_auto:
                kernel.by_another("rtcwake", 90)
            elif what == "auto" and not is_held:
                kernel.write_autosleep()
                for _ in range(0 if is_auto else pick([1, 2, 3])):
                    kernel.autosleep(pick([{}, {pick(PLACES[3:]): ("event", "lid", False, 0)}, {"platform prepare": True}]),
                                     refuses=pick([None, None, "user"]), pm_test=pick([None, None, *LEVELS]))
                is_auto = not is_auto

    def write(self, folder, without=()):
        """Writes the model's files, but for those left out; gives their paths."""
        kernel = self.kernel
        texts = {"trace": kernel.trace(), "devices": kernel.devices(), "links": kernel.link_list(), "dmesg": kernel.dmesg()}
        paths = {}
        for name, text in texts.items():
            if name not in without:
                paths[name] = os.path.join(folder, name)
                with open(paths[name], "w") as file:
                    file.write(text)
        return paths

    def replay(self, folder, without=()):
        """The verdict on the model's files, but for those left out."""
        return replay(read_inputs(**self.write(folder, without)))


class Model(unittest.TestCase):
    """Whatever the model does is legal."""

    SEEDS = range(60)

    def test_all(self):
        with tempfile.TemporaryDirectory() as folder:
            for seed in self.SEEDS:
                trial = Trial(seed)
                with self.subTest(seed, kinds=trial.kinds):
                    found = trial.replay(folder)
                    self.assertEqual(found.status, 0, found.headline)
                    self.assertEqual([one.answer for one in found.attempts], [ANSWERS[one] for one in trial.kernel.truth])
                    self.assertEqual([note.text for note in found.notes if "messages are not those" in note.text], [])

    def test_several(self):
        with tempfile.TemporaryDirectory() as folder:
            for seed in range(1000, 1040):
                trial = Trial(seed, 8)
                with self.subTest(seed):
                    found = trial.replay(folder)
                    self.assertEqual(found.status, 0, found.headline)
                    self.assertEqual([one.answer for one in found.attempts], [ANSWERS[one] for one in trial.kernel.truth])

    def test_less_told(self):
        with tempfile.TemporaryDirectory() as folder:
            for seed in self.SEEDS:
                trial = Trial(seed)
                without = [("dmesg",), ("devices",), ("dmesg", "devices")][seed % 3]
                with self.subTest(seed, kinds=trial.kinds, without=without):
                    found = trial.replay(folder, without)
                    self.assertEqual(found.status, 0, found.headline)


class Limits(unittest.TestCase):
    """More than a machine file may have."""

    def replay(self, kernel):
        """The verdict on a model's trace."""
        with tempfile.TemporaryDirectory() as folder:
            paths = {}
            for name, text in (("trace", kernel.trace()), ("devices", kernel.devices()), ("links", kernel.link_list())):
                paths[name] = os.path.join(folder, name)
                with open(paths[name], "w") as file:
                    file.write(text)
            return replay(read_inputs(**paths))

    def test_list_that_changes_often(self):
        kernel = Kernel(2, 14)
        for number in range(40):
            leaves = [d for d in sorted(kernel.list, key=lambda d: d.name) if not (d.children or d.consumers or d.suppliers or d.callbacks)]
            for device in leaves if number % 2 else leaves[::-1]:
                kernel.list.remove(device)
                kernel.list.append(device)
            kernel.attempt()
        self.assertGreater(len(leaves), 1)
        found = self.replay(kernel)
        self.assertEqual(found.status, 0, found.headline)
        self.assertIn("the list changes too often", " ".join(note.text for note in found.notes))

    def test_many_devices_and_processors(self):
        kernel = Kernel(5, 1300, cpus=100)
        for device in kernel.list[30:]:
            device.callbacks = set()
        kernel.attempt()
        found = self.replay(kernel)
        self.assertEqual((found.status, [one.answer for one in found.attempts]), (0, ["0"]), found.headline)
        self.assertIn("more than the 1000 of a machine file", " ".join(note.text for note in found.notes))
        self.assertIn("the kernel took 99 off", " ".join(found.attempts[0].stand_ins))

    def test_many_sources(self):
        kernel = Kernel(7, 2)
        for attempt in range(3):
            for number in range(120):
                kernel.source(f"s{attempt}-{number}", True)
                kernel.source(f"s{attempt}-{number}", False)
            kernel.attempt()
        found = self.replay(kernel)
        self.assertEqual((found.status, [one.number for one in found.attempts]), (0, [2, 3]), found.headline)
        self.assertIn("attempt 1 is left out", " ".join(note.text for note in found.notes))
