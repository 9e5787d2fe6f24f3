"""Tries draw --perfetto: by the rules of Trace Event JSON, and by what one reads in worked logs.
"""

import collections
import gzip
import json
import os
import re
import unittest

import recordings
from command_tests import WORKED as FOLDER, julampok_apart
from julampok.second.maker import Maker
from julampok.second.merged import Interleaved
from julampok.second.run import Run
from julampok.drawing import machine, of_recording, reading, story
from julampok.kernel.reading import read_inputs
from julampok.drawing.of_log import page_of
from julampok.drawing.perfetto import perfetto

WORKED = sorted(FOLDER.glob("*.log"))
SEED, MACHINES = 11, 60
# What each kind of event has to have, by the format's rules.
FIELDS = {"M": {"name", "args"}, "X": {"name", "ts", "dur"}, "s": {"id", "ts", "name", "cat"}, "f": {"id", "ts", "name", "cat", "bp"}}


def events_of(log, file):
    read = reading.read_log(log)
    return json.loads(perfetto(page_of(story.Story(read, machine.read_machine(file, read)), "-")))["traceEvents"]


def events_of_recording(name):
    page, rows, clock = of_recording.page_of(read_inputs(**recordings.inputs(name)), name)
    return json.loads(perfetto(page))["traceEvents"]


def open_trace(name):
    with gzip.open(recordings.file_of(name, "trace"), "rt") as file:
        return file.read().split("\n")


def tracks_of(events):
    """The names of tracks, each with that of its group."""
    groups = {event["pid"]: event["args"]["name"] for event in events if event["name"] == "process_name"}
    return {(event["pid"], event["tid"]): (groups[event["pid"]], event["args"]["name"]) for event in events if event["name"] == "thread_name"}


def of_worked(name):
    """The slices of a worked log by their tracks."""
    path = FOLDER / name
    events = events_of(path.with_suffix(".log").read_bytes(), path.with_suffix(".json").read_bytes())
    tracks, found = tracks_of(events), collections.defaultdict(list)
    for event in events:
        if event["ph"] == "X":
            found[tracks[event["pid"], event["tid"]]].append((event["ts"], event["dur"], event["name"]))
    return found


class Rules(unittest.TestCase):
    def check(self, events):
        tracks = tracks_of(events)
        for event in events:
            self.assertLessEqual(FIELDS[event["ph"]] | {"pid", "tid", "ph"}, set(event))
            self.assertTrue(all(type(event[field]) is int and event[field] >= 0 for field in ("pid", "tid", "ts", "dur") if field in event))
            if event["ph"] != "M":
                self.assertIn((event["pid"], event["tid"]), tracks)
        self.check_slices([event for event in events if event["ph"] == "X"])
        self.check_flows(events)

    def check_slices(self, slices):
        """Of two slices of a track one lies within the other, or after it."""
        self.assertEqual([event["ts"] for event in slices], sorted(event["ts"] for event in slices))
        open_ends = collections.defaultdict(list)
        for event in slices:
            ends, end = open_ends[event["pid"], event["tid"]], event["ts"] + event["dur"]
            while ends and ends[-1] <= event["ts"]:
                ends.pop()
            self.assertTrue(not ends or end <= ends[-1], event)
            ends.append(end)

    def check_flows(self, events):
        """Each arrow has one begin and one end, each at a slice of its track, and goes forward."""
        flows = collections.defaultdict(dict)
        slices = {(event["pid"], event["tid"], at) for event in events if event["ph"] == "X" for at in (event["ts"], event["ts"] + event["dur"] - 1)}
        for event in events:
            if event["ph"] in "sf":
                self.assertNotIn(event["ph"], flows[event["id"]])
                flows[event["id"]][event["ph"]] = event["ts"]
                self.assertIn((event["pid"], event["tid"], event["ts"]), slices)
        self.assertEqual([flow for flow in flows.values() if len(flow) != 2 or flow["s"] > flow["f"]], [])

    def test_worked_logs(self):
        for path in WORKED:
            with self.subTest(path.stem):
                self.check(events_of(path.read_bytes(), path.with_suffix(".json").read_bytes()))

    def test_random_machines(self):
        maker = Maker(SEED)
        for number in range(MACHINES):
            file = maker.machine()
            with self.subTest(number):
                self.check(events_of(Interleaved(file, number).run()[0].encode(), json.dumps(file).encode()))

    def test_recordings(self):
        """All recordings of a real kernel, those with times and those with a counter."""
        for name in recordings.names():
            with self.subTest(name):
                self.check(events_of_recording(name))

    def test_an_empty_log(self):
        self.assertEqual(json.loads(perfetto(page_of(None, "-")))["traceEvents"], [])


class Content(unittest.TestCase):
    def test_a_parent_and_its_child(self):
        """Lines 13 to 16 of the log are the suspend callbacks: of c, then of its parent p."""
        found = of_worked("parent_and_child")
        slices = {track: [name for *_, name in found[track]] for track in found}
        order = ["prepare {} 0", "suspend", "late", "noirq", "resume_noirq", "early", "resume", "complete {}"]
        for device in ("p", "c"):
            self.assertEqual(slices["p", device], [words.format(device) for words in order])
        self.assertEqual(slices["attempts", "stages"][:2], ["attempt 1: slept", "enter_state"])
        ends = {device: [ts + dur for ts, dur, name in found["p", device] if name == "suspend"] for device in ("p", "c")}
        begins = [ts for ts, _, name in found["p", "p"] if name == "suspend"]
        self.assertLessEqual(ends["c"][0], begins[0])

    def test_times(self):
        """The machine sleeps 1000 ms."""
        asleep = [(ts, dur) for ts, dur, name in of_worked("parent_and_child")["attempts", "the attempt"] if name == "asleep"]
        self.assertTrue(all(ts + dur >= 1_000_000 and ts < 1000 for ts, dur in asleep) and asleep)

    def test_real_times_and_parents(self):
        """By lines 481 and 483 of whatif-gpu-sync gpu's suspend callback takes 60.328280 to 60.478517 s; panel is below gpu, gpu below soc."""
        events = events_of_recording("whatif-gpu-sync")
        tracks, found = tracks_of(events), collections.defaultdict(list)
        for event in events:
            if event["ph"] == "X":
                found[tracks[event["pid"], event["tid"]]].append(event)
        gpu = next(event for event in found["gpu (dpmt)", "gpu (dpmt)"] if event["name"] == "suspend")
        first = min(event["ts"] for event in events if event["ph"] == "X")
        line = next(line for line in open_trace("whatif-gpu-sync") if "suspend_enter[3] begin" in line)
        begun = 60_328_280 - round(float(re.search(r"(\d+\.\d+): suspend_resume", line)[1]) * 1e6)
        self.assertEqual((gpu["ts"] - first, gpu["dur"]), (begun, 60_478_517 - 60_328_280))
        self.assertIn(("gpu (dpmt)", "panel (dpmt)"), found)
        self.assertIn(("soc (dpmt)", "wlan (dpmt)"), found)

    def test_an_event_found(self):
        """Device pci is the parent of nic, so its track stands in a group of its own name."""
        path = FOLDER / "callback_reports"
        events = events_of(path.with_suffix(".log").read_bytes(), path.with_suffix(".json").read_bytes())
        tracks = tracks_of(events)
        flows = {event["ph"]: tracks[event["pid"], event["tid"]] for event in events if event["name"] == "is found"}
        self.assertEqual(flows, {"s": ("wakeup sources", "lan"), "f": ("pci", "pci")})

    def test_long_logs(self):
        file = {"version": 1, "devices": [{"name": f"d{number}"} for number in range(300)]}
        file["actors"] = [{"name": "w", "kind": "user", "script": [{"op": "state", "text": "mem", "times": 26}]}]
        log, _ = Run(file).run()
        self.assertGreater(log.count("\n"), 100_000)
        begun = sum(os.times()[:4])  # Processor time, of children too.
        done = julampok_apart("draw", "--perfetto", input=log.encode())
        self.assertEqual(done.returncode, 0)
        self.assertGreater(len(json.loads(done.stdout)["traceEvents"]), 50_000)
        self.assertLess(sum(os.times()[:4]) - begun, 30)
