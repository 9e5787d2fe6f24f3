"""Forecasts are held against what the kernel took: recordings of one machine without and with a change."""

import functools
import json
import pathlib
import statistics
import tempfile
import unittest

from command_tests import julampok
from recordings import file_of, names, words

from julampok.forecast import logs
from julampok.forecast.forecast import Forecast, best, total
from julampok.forecast.measured import TIMED, NoTimesError, choose_attempt, measure
from julampok.forecast.plan import PlanLink, order_after
from julampok.kernel.reading import read_inputs
from julampok.second.follow import Follower

MS = 1e6
WITHIN_BASE, WITHIN_CHANGE, WITHIN_MEDIANS = 3, 5, 20  # ms, of a phase, of a phase, and of suspend or resume.
ONE_PROCESSOR = ("whatif-gpu-sync", "whatif-gpu-async", "slow-sync-one", "slow-async-one")
# What was changed between two recordings of one machine: the base, the words of the change, and what came of it.
PAIRS = (
    ("whatif-gpu-sync", ("--async", "gpu"), "whatif-gpu-async"),
    ("whatif-gpu-async", ("--sync", "gpu"), "whatif-gpu-sync"),
    ("slow-sync-one", ("--pm-async", "1"), "slow-async-one"),
    ("slow-async-one", ("--pm-async", "0"), "slow-sync-one"),
)
# Suspend and resume in ms, as they were noted when the recordings were made.
NOTED = {
    "whatif-gpu-sync": (445, 349), "whatif-gpu-sync-1": (517, 374), "whatif-gpu-sync-2": (521, 393), "whatif-gpu-sync-3": (476, 384),
    "whatif-gpu-async": (324, 279), "whatif-gpu-async-1": (373, 320), "whatif-gpu-async-2": (389, 326), "whatif-gpu-async-3": (403, 301),
}


@functools.cache
def times(name, *more):
    """What `times --json` says of a recording."""
    done = julampok("times", *words(name), *more, "--json")
    assert done.status == 0, done.err
    return json.loads(done.out)


@functools.cache
def measured_of(name):
    """The times of a recording's attempt; None where there are none."""
    ending = {kind: file_of(name, kind) for kind in ("trace", "devices", "links", "dmesg")}
    recording = read_inputs(**ending)
    try:
        return measure(recording, choose_attempt(recording))
    except NoTimesError:
        return None


class Kernel(unittest.TestCase):
    """The rules and forecasts beside what the kernel took."""

    def test_measured(self):
        for name, noted in NOTED.items():
            with self.subTest(name):
                said = times(name)
                self.assertEqual(tuple(round(said[way]["measured_ms"]) for way in ("suspend", "resume")), noted)

    def test_base_on_one_processor(self):
        for name in ONE_PROCESSOR:
            for phase in times(name)["phases"]:
                with self.subTest(name, phase=phase["phase"]):
                    self.assertLessEqual(abs(phase["rules_ms"] - phase["measured_ms"]), WITHIN_BASE)
                    self.assertEqual(phase["rules_ms"], phase["forecast_ms"])

    def test_changes_on_one_processor(self):
        for base, change, after in PAIRS:
            said, was = times(base, *change), times(after)
            for ours, theirs in zip(said["phases"], was["phases"], strict=True):
                with self.subTest(base, phase=ours["phase"]):
                    self.assertLessEqual(abs(ours["forecast_ms"] - theirs["measured_ms"]), WITHIN_CHANGE)

    def test_changes_on_two_processors(self):
        took = lambda kind, way: statistics.median(times(f"whatif-gpu-{kind}-{one}")[way]["measured_ms"] for one in (1, 2, 3))
        for way in ("suspend", "resume"):
            change = took("async", way) - took("sync", way)
            for one in (1, 2, 3):
                for kind, word, sign in (("sync", "--async", 1), ("async", "--sync", -1)):
                    with self.subTest(way, recording=f"{kind}-{one}"):
                        said = times(f"whatif-gpu-{kind}-{one}", word, "gpu")[way]
                        self.assertLessEqual(abs(said["forecast_ms"] - said["rules_ms"] - sign * change), WITHIN_MEDIANS)

    def test_two_passes_are_not_what_this_kernel_did(self):
        """The recording is of 6.1.192, which gives devices out as the walk comes to them; before 6.1.76 all came first."""
        off = {version: {phase["phase"] for phase in times("slow-async-one", "--kernel", version)["phases"] if phase["measured_ms"] - phase["rules_ms"] > 20}
               for version in ("6.1", "6.1.75", "6.1.76", "6.1.192")}
        self.assertEqual(off, {"6.1": {"early", "resume"}, "6.1.75": {"early", "resume"}, "6.1.76": set(), "6.1.192": set()})

    def test_list_after_links(self):
        """The devices were registered in this order, then the links were made: the kernel's list is that of the trace."""
        registered = "soc pcie nvme disk usb hub cam kbd i2c pmic gpu panel snd".split()
        measured = measured_of("slow-sync-one")
        found = {device.name: device for device in measured.devices if device.driver == "dpmt"}
        parents = [registered.index(found[name].parent.name) if found[name].parent else None for name in registered]
        links = [PlanLink(*(registered.index(measured.plan.names[end]) for end in (link.supplier, link.consumer))) for link in measured.plan.links]
        self.assertEqual([registered[number] for number in order_after(parents, links)], list(found))

    def test_path(self):
        path = [step for step in times("whatif-gpu-sync")["path"] if step["phase"] == "suspend" and step["ms"] > 1]
        self.assertEqual([(step["device"], step["waits_for"]) for step in path],
                         [("wlan", None), ("panel", "wlan"), ("gpu", "panel"), ("disk", "gpu"), ("nvme", "disk"), ("soc", "nvme")])

    def test_path_through_a_device_without_callbacks(self):
        found = {(step["phase"], step["device"]): step["waits_for"] for step in times("order")["path"]}
        self.assertEqual(found["suspend", "ctl"], "disk")

    def test_best(self):
        said = times("whatif-gpu-sync", "--best", "2")["best"]
        was = times("whatif-gpu-async")
        self.assertEqual([one["device"] for one in said], ["gpu", "wlan"])
        for way in ("suspend", "resume"):
            self.assertLessEqual(abs(said[0][way]["forecast_ms"] - was[way]["measured_ms"]), WITHIN_CHANGE)

    def test_orders_are_legal(self):
        for name in names():
            if (measured := measured_of(name)) is None:
                continue
            for change in (None, len(measured.devices) - 3):
                plan = measured.plan if change is None else measured.plan.with_flag(change, change not in measured.plan.asynchronous)
                given = logs.log_names(plan)
                follower = Follower(logs.machine_of(plan, given))
                with self.subTest(name, change=change):
                    self.assertTrue(follower.accepts(logs.log_of(plan, given, Forecast(measured, plan).timings)), follower.why)


class Best(unittest.TestCase):
    """The devices that save most are those that a try of all finds."""

    def test_all_tried(self):
        for name in ("slow-sync", "slow-async", "order"):
            measured = measured_of(name)
            plan = measured.plan
            before = total(measured, plan)
            saved = sorted((before - total(measured, plan.with_flag(number, True)) for number in range(len(plan.names))), reverse=True)
            with self.subTest(name):
                self.assertEqual([one.saved for one in best(measured, 6)], [one for one in saved[:6] if one > 0])


class Words(unittest.TestCase):
    """What the command says of its words and inputs."""

    def test_form(self):
        said = times("whatif-gpu-sync", "--async", "gpu")
        self.assertEqual(list(said), ["suspend", "resume", "phases", "path", "notes"])
        three = ["measured_ms", "rules_ms", "forecast_ms"]
        self.assertEqual(list(said["suspend"]), three)
        self.assertEqual([phase["phase"] for phase in said["phases"]], list(map(str, TIMED)))
        self.assertTrue(all(list(phase) == ["phase", *three] for phase in said["phases"]))
        self.assertTrue(all(list(step) == ["device", "phase", "ms", "waits_for"] for step in said["path"]))

    def test_counter(self):
        done = julampok("times", *words("s3"))
        self.assertEqual((done.status, done.out), (2, ""))
        self.assertRegex(done.err, r"s3\.trace\.gz:\d+: .*counter.*boot")

    def test_no_phase(self):
        done = julampok("times", *words("freeze-user"))
        self.assertEqual((done.status, done.out, done.err.count("\n")), (2, "", 1))

    def test_failed_attempt(self):
        said = times("irq-late")
        self.assertEqual([phase["phase"] for phase in said["phases"]], ["suspend", "late", "early", "resume"])
        self.assertEqual(said["suspend"], {"measured_ms": None, "rules_ms": None, "forecast_ms": None})
        self.assertTrue(any("did not enter sleep" in note for note in said["notes"]))

    def test_unknown_device(self):
        done = julampok("times", *words("whatif-gpu-sync"), "--async", "gpo")
        self.assertEqual((done.status, done.out), (2, ""))
        self.assertIn("'gpo'; the nearest are gpu", done.err)

    def test_several_devices(self):
        done = julampok("times", *words("order"), "--async", "port")
        self.assertEqual((done.status, done.out), (2, ""))
        self.assertRegex(done.err, "2 devices are named 'port'")
        self.assertEqual(julampok("times", *words("order"), "--async", "ctl/port").status, 0)

    def test_cycle(self):
        done = julampok("times", *words("whatif-gpu-sync"), "--link", "panel", "gpu")
        self.assertEqual((done.status, done.out), (2, ""))
        self.assertIn("gpu (dpmt) > panel (dpmt)", done.err)

    def test_both(self):
        self.assertEqual(julampok("times", *words("whatif-gpu-sync"), "--async", "gpu", "--sync", "gpu").status, 2)

    def test_link_that_is_there(self):
        said = times("slow-async-one", "--link", "pmic", "gpu")
        self.assertTrue(all(phase["rules_ms"] == phase["forecast_ms"] for phase in said["phases"]))
        self.assertTrue(any("there already" in note for note in said["notes"]))

    def test_nobody_was_asynchronous(self):
        self.assertTrue(any("nobody was asynchronous" in note for note in times("slow-sync-one", "--async", "gpu")["notes"]))

    def test_phase_that_the_rules_miss(self):
        said = times("whatif-gpu-sync-1", "--async", "gpu")
        missed = [phase for phase in said["phases"] if abs(phase["measured_ms"] - phase["rules_ms"]) > 5]
        self.assertTrue(missed)
        for phase in missed:
            both = [f"{phase[which]:,.1f} ms" for which in ("measured_ms", "rules_ms")]
            with self.subTest(phase["phase"]):
                self.assertTrue(any(note.startswith(f"{phase['phase']}:") and all(one in note for one in both) for note in said["notes"]))

    def test_folder(self):
        with tempfile.TemporaryDirectory() as folder:
            to = pathlib.Path(folder) / "forecast"
            done = julampok("times", *words("whatif-gpu-sync"), "--async", "gpu", "-o", to)
            self.assertEqual(done.status, 0, done.err)
            self.assertEqual(sorted(path.name for path in to.iterdir()), ["machine.json", "machine.log", "machine.names"])
            follower = Follower(json.loads((to / "machine.json").read_text()))
            self.assertTrue(follower.accepts((to / "machine.log").read_text()), follower.why)


if __name__ == "__main__":
    unittest.main()
