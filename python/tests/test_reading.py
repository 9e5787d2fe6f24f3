"""Tests of the reading of recordings: what a trace, lists, and messages tell, and how broken ones are refused."""

import gzip
import io
import os
import pathlib
import random
import sys
import tarfile
import tempfile
import types
import unittest
from unittest import mock

sys.path.insert(0, str(pathlib.Path(__file__).resolve().parents[1]))

import recordings
from julampok.errors import CannotError
from julampok.kernel.reading import add_input_arguments, inputs_of, read_inputs, read_recording, version_numbers
from julampok.kernel.recording import (CallbackBegin, CallbackEnd, Clock, Fact, Phase, SourceActivate, SourceDeactivate,
                                       SuspendResume)

HEAD = "# tracer: nop\n#\n# entries-in-buffer/entries-written: 30/30   #P:2\n#\n"
# An attempt by hand: `dock` and below it `Fixed MDIO bus.0` and `eth 0`, whose driver is `Generic PHY`; a key in late.
STEPS = (
    ("sh", 70, 0, ".....", "1.000001", "suspend_resume", "suspend_enter[3] begin"),
    ("sh", 70, 0, ".....", "1.000002", "suspend_resume", "sync_filesystems[0] begin"),
    ("sh", 70, 0, ".....", "1.000003", "suspend_resume", "sync_filesystems[0] end"),
    ("sh", 70, 0, ".....", "1.000004", "suspend_resume", "freeze_processes[0] begin"),
    ("sh", 70, 0, ".....", "1.000005", "suspend_resume", "freeze_processes[0] end"),
    ("sh", 70, 0, ".....", "1.000006", "suspend_resume", "suspend_enter[3] end"),
    ("sh", 70, 0, ".....", "1.000007", "suspend_resume", "dpm_prepare[2] begin"),
    ("sh", 70, 0, ".....", "1.000008", "device_pm_callback_start", " dock, parent: none, [suspend]"),
    ("sh", 70, 0, ".....", "1.000009", "device_pm_callback_end", " dock, err=0"),
    ("sh", 70, 0, ".....", "1.000010", "device_pm_callback_start", "platform Fixed MDIO bus.0, parent: dock, [suspend]"),
    ("sh", 70, 0, ".....", "1.000011", "device_pm_callback_end", "platform Fixed MDIO bus.0, err=0"),
    ("sh", 70, 0, ".....", "1.000012", "device_pm_callback_start", "Generic PHY a,b:01, parent: Fixed MDIO bus.0, [suspend]"),
    ("sh", 70, 0, ".....", "1.000013", "device_pm_callback_end", "Generic PHY a,b:01, err=0"),
    ("sh", 70, 0, ".....", "1.000014", "suspend_resume", "dpm_prepare[2] end"),
    ("sh", 70, 0, ".....", "1.000015", "suspend_resume", "dpm_suspend[2] begin"),
    ("kworker/u4:1", 9, 1, ".....", "1.000016", "device_pm_callback_start", "Generic PHY a,b:01, parent: Fixed MDIO bus.0, driver [suspend]"),
    ("kworker/u4:1", 9, 1, ".....", "1.000017", "device_pm_callback_end", "Generic PHY a,b:01, err=0"),
    ("sh", 70, 0, ".....", "1.000018", "suspend_resume", "dpm_suspend[2] end"),
    ("sh", 70, 0, ".....", "1.000019", "suspend_resume", "dpm_suspend_late[2] begin"),
    ("<idle>", 0, 1, "d.h2.", "1.000020", "wakeup_source_activate", "power key state=0x20001"),
    ("<idle>", 0, 1, "d.s2.", "1.000021", "wakeup_source_deactivate", "power key state=0x30000"),
    ("sh", 70, 0, ".....", "1.000022", "suspend_resume", "dpm_resume_early[16] begin"),
    ("sh", 70, 0, ".....", "1.000023", "suspend_resume", "dpm_resume_early[16] end"),
    ("sh", 70, 0, ".....", "1.000024", "suspend_resume", "dpm_suspend_late[2] end"),
    ("sh", 70, 0, ".....", "1.000025", "suspend_resume", "dpm_resume[16] begin"),
    ("kworker/u4:1", 9, 1, ".....", "1.000026", "device_pm_callback_start", "Generic PHY a,b:01, parent: Fixed MDIO bus.0, driver [resume]"),
    ("kworker/u4:1", 9, 1, ".....", "1.000027", "device_pm_callback_end", "Generic PHY a,b:01, err=-5"),
    ("sh", 70, 0, ".....", "1.000028", "suspend_resume", "dpm_resume[16] end"),
    ("sh", 70, 0, ".....", "1.000029", "suspend_resume", "thaw_processes[0] begin"),
    ("sh", 70, 0, ".....", "1.000030", "suspend_resume", "thaw_processes[0] end"),
)


def tracefs(step):
    task, pid, cpu, flags, stamp, event, said = step
    return f"{task:>16}-{pid:<7} [{cpu:03}] {flags} {stamp:>12}: {event}: {said}"


def with_group(step):
    task, pid, cpu, flags, stamp, event, said = step
    group = f"({pid:7})" if pid else "(-------)"
    return f"{task:>16}-{pid:<7} {group} [{cpu:03}] {flags[:4]} {stamp:>12}: {event}: {said}"


def report(step):
    task, pid, cpu, _, stamp, event, said = step
    return f"{task:>16}-{pid:<5} [{cpu:03}] {stamp:>12}: {event + ':':21}{said}"


def report_flags(step):
    task, pid, cpu, flags, stamp, event, said = step
    return f"{task:>16}-{pid:<5} [{cpu:03}] {flags[:4]} {stamp}000: {event + ':':21}{said}"


def report_latency(step):
    task, pid, cpu, flags, stamp, event, said = step
    return f"{task[:8]:>8}-{pid:<5} {cpu:3}{flags} {stamp:>12}: {event + ':':21}{said}"


def latency(step):
    task, pid, cpu, flags, stamp, event, said = step
    return f"{task[:8]:>8}-{pid:<7} {cpu:3}{flags} {int(stamp[2:]) + 1000000:4}us+: {event}: {said}"


class Case(unittest.TestCase):
    """A folder that goes with the test, and files in it."""

    def setUp(self):
        folder = tempfile.TemporaryDirectory()
        self.addCleanup(folder.cleanup)
        self.at = pathlib.Path(folder.name)

    def file(self, data, name="my.trace"):
        path = self.at / name
        path.write_bytes(data if isinstance(data, bytes) else data.encode())
        return str(path)

    def read(self, data, **sides):
        sides = {name: self.file(text, f"my.{name}") for name, text in sides.items() if name != "kernel"} | {
            name: text for name, text in sides.items() if name == "kernel"}
        return read_inputs(self.file(data), **sides)

    def refuse(self, line, text, data, **sides):
        """Expects one error that names the line and has the words."""
        with self.assertRaises(CannotError) as caught:
            self.read(data, **sides)
        self.assertEqual(caught.exception.line, line, str(caught.exception))
        self.assertIn(text, str(caught.exception))
        self.assertNotIn("\n", str(caught.exception))


def notes(recording):
    """The notes of a recording but for the one on who may be asynchronous, which a trace without a list always has."""
    return [note for note in recording.notes if "may be asynchronous" not in note.text]


def by_hand(layout=tracefs, head=HEAD, steps=STEPS):
    return head + "".join(layout(step) + "\n" for step in steps)


def without(text, *lines):
    """The text without these lines."""
    return "".join(one for line, one in enumerate(text.splitlines(True), 1) if line not in lines)


def shape(recording):
    """What the events of a recording say, but for flags and tasks, which some layouts cut."""
    found = []
    for event in recording.events:
        own = {SuspendResume: ("action", "value", "is_begin"), CallbackBegin: ("phase", "operation"), CallbackEnd: ("phase", "error"),
               SourceActivate: ("source", "state"), SourceDeactivate: ("source", "state")}[type(event)]
        device = getattr(event, "device", None)
        found.append((type(event), event.line, event.pid, event.cpu, device and device.shown, *(getattr(event, name) for name in own)))
    return found


class Layouts(Case):
    """Both programs' layouts tell the same."""

    def test_tracefs(self):
        recording = self.read(by_hand())
        self.assertEqual((recording.tracer, recording.processors, recording.clock), ("nop", 2, Clock.SECONDS))
        self.assertEqual([device.shown for device in recording.devices], ["dock", "Fixed MDIO bus.0 (platform)", "a,b:01 (Generic PHY)"])
        dock, bus, net = recording.devices
        self.assertEqual((dock.parent, bus.parent, net.parent), (None, dock, bus))
        self.assertEqual([device.is_async for device in recording.devices], [True, True, True])  # (the first two may be)
        self.assertEqual([device.has_callbacks for device in recording.devices], [False, False, True])
        attempt, = recording.attempts
        self.assertEqual((attempt.line, attempt.last_line, attempt.state), (5, 34, 3))
        begin = attempt.callbacks(Phase.SUSPEND)[0]
        self.assertEqual((begin.line, begin.end.line, begin.device, begin.operation), (20, 21, net, "driver [suspend]"))
        self.assertEqual((begin.task, begin.pid, begin.cpu, begin.time, begin.stamp), ("kworker/u4:1", 9, 1, 1000016000, "1.000016"))
        self.assertEqual([one.end.error for one in attempt.callbacks(Phase.RESUME)], [-5])
        key, = [event for event in recording.events if isinstance(event, SourceActivate)]
        self.assertEqual((key.source, key.state, key.is_in_hardirq, key.is_in_softirq, key.is_in_interrupt), ("power key", 0x20001, True, False, True))
        off, = [event for event in recording.events if isinstance(event, SourceDeactivate)]
        self.assertEqual((off.is_in_hardirq, off.is_in_softirq), (False, True))
        self.assertIs(recording.attempt_of(key), attempt)
        self.assertEqual(notes(recording), [])

    def test_all_layouts_are_one(self):
        wanted = shape(self.read(by_hand()))
        for layout in (with_group, report, report_flags, report_latency, latency):
            with self.subTest(layout.__name__):
                recording = self.read(by_hand(layout))
                self.assertEqual(shape(recording), wanted)
                self.assertEqual(recording.events[0].time, 1000001000)
                self.assertEqual(recording.attempts[0].steps("dpm_suspend", True)[0].time, 1000015000)

    def test_flags_that_are_not_there(self):
        key = next(event for event in self.read(by_hand(report)).events if isinstance(event, SourceActivate))
        self.assertEqual((key.flags, key.is_in_hardirq, key.is_in_interrupt), ("", None, None))

    def test_flags_of_a_kernel_for_real_time(self):
        """Their third letter is that of a lazy reschedule, as the comments say, and the fourth that of interrupts."""
        columns = ("irqs-off/BH-disabled", "need-resched", "need-resched-lazy", "hardirq/softirq", "preempt-depth", "preempt-lazy-depth", "migrate-disable")
        head = HEAD + "".join(f"#  {'|' * place} / _----=> {name}\n" for place, name in enumerate(columns))
        wide = [(*step[:3], f"{step[3][:2]}.{step[3][2:4]}..", *step[4:]) for step in STEPS]
        for text in (by_hand(head=head, steps=wide), by_hand(steps=wide)):
            recording = self.read(text)
            key, off = (event for event in recording.events if isinstance(event, (SourceActivate, SourceDeactivate)))
            self.assertEqual((key.is_in_hardirq, off.is_in_hardirq, off.is_in_softirq), (True, False, True))
            self.assertFalse(recording.attempts[0].begins[0].is_in_interrupt)

    def test_counter_has_no_times(self):
        recording = self.read(by_hand(steps=[(*step[:4], str(number), *step[5:]) for number, step in enumerate(STEPS, 7)]))
        self.assertEqual((recording.clock, recording.events[0].time, recording.events[0].stamp), (Clock.COUNTER, None, "7"))

    def test_packed_and_with_returns(self):
        wanted = shape(self.read(by_hand()))
        self.assertEqual(shape(self.read(gzip.compress(by_hand().encode()))), wanted)
        self.assertEqual(shape(self.read(by_hand().replace("\n", "\r\n"))), wanted)

    def test_head_of_trace_cmd(self):
        recording = self.read("cpus=4\nCPU 2 is empty\n" + by_hand(report, head=""))
        self.assertEqual((recording.processors, recording.processors_from.rpartition(":")[2]), (4, "1"))

    def test_head_of_sleepgraph(self):
        head = "# suspend-112624-120000 box mem 6.6.10-arch1\n# sysinfo | man:Maker | plat:One 3 | cpu:x | numcpu:2\n"
        recording = self.read(head + by_hand())
        self.assertEqual((recording.version, recording.version_text, recording.machine), ((6, 6, 10), "6.6.10-arch1", "Maker One 3"))
        self.assertEqual(recording.date, "2024-11-26 12:00:00")

    def test_other_events_are_passed_over(self):
        other = [
            "              sh-70      [000] .....     1.000016: sched_switch: prev_comm=sh prev_pid=70 ==> next_comm=x",
            "              sh-70      [000] .....     1.000016: tracing_mark_write: a mark: of [000] text",
            "              sh-70      [000] .....     1.000016: cpu_down <-freeze_secondary_cpus", " => dpm_suspend", "# a comment", ""]
        text = by_hand()
        lines = text.splitlines()
        mixed = "\n".join([*lines[:20], *other, *lines[20:]]) + "\n"
        self.assertEqual([one[:1] + one[2:] for one in shape(self.read(mixed))], [one[:1] + one[2:] for one in shape(self.read(text))])


class Attempts(Case):
    """Where attempts begin and end, and what is cut off."""

    def twice(self):
        """Two attempts, the second below the first."""
        later = [(*step[:4], f"2{step[4][1:]}", *step[5:]) for step in STEPS]
        return by_hand(steps=[*STEPS, *later])

    def test_two(self):
        recording = self.read(self.twice())
        self.assertEqual([(attempt.number, attempt.line, attempt.last_line) for attempt in recording.attempts], [(1, 5, 34), (2, 35, 64)])
        self.assertEqual(len(recording.devices), 3)

    def test_head_is_cut_off(self):
        for cut in (6, 13, 21, 25, 30):
            recording = self.read(without(self.twice(), *range(5, cut)))
            self.assertEqual(len(recording.attempts), 1)
            self.assertEqual(recording.attempts[0].number, 1)
            self.assertIn("the trace begins inside an attempt", notes(recording)[0].text)
            self.assertIn(notes(recording)[0].line, (5, 6))

    def test_end_is_cut_off(self):
        for cut in (36, 40, 47, 55, 64):
            recording = self.read(without(self.twice(), *range(cut, 65)))
            self.assertEqual([attempt.line for attempt in recording.attempts][:1], [5])
            self.assertIn("ends", notes(recording)[-1].text)

    def test_no_whole_attempt(self):
        text = by_hand()
        self.refuse(5, "begins inside an attempt", without(text, 5))
        self.refuse(5, "begins inside an attempt", without(text, *range(5, 20)))
        self.refuse(24, "the trace ends inside its only attempt", without(text, *range(25, 40)))
        self.refuse(33, "the trace ends inside its only attempt", without(text, 34))
        self.refuse(None, "has no event", HEAD)
        self.refuse(None, "is empty", "")

    def test_events_that_were_not_recorded(self):
        lines = by_hand().splitlines()
        self.refuse(5, "no event suspend_resume", "\n".join([*lines[:4], *(line for line in lines if "callback" in line)]) + "\n")
        recording = self.read("\n".join(line for line in lines if "callback" not in line) + "\n")
        self.assertIn("has no callback", recording.notes[0].text)

    def test_end_without_newline(self):
        self.assertEqual(len(self.read(by_hand()[:-1]).attempts), 1)
        self.refuse(34, "ends inside its only attempt", by_hand()[:-5])

    def test_freeze_that_fails(self):
        """The kernel thaws inside of the freeze that fails, as in the recording of a task that does not freeze."""
        for name, lines in (("wont-freeze-user", (13, 19)), ("freeze-kernel", (13, 21))):
            attempt, = read_inputs(recordings.file_of(name, "trace")).attempts
            self.assertEqual((attempt.line, attempt.last_line), lines)

    def test_ends_before_the_freeze(self):
        recording = self.read(without(self.twice(), *range(8, 35)))
        self.assertEqual([(attempt.line, attempt.last_line) for attempt in recording.attempts], [(5, 7), (8, 37)])
        recording = self.read(without(by_hand(), *range(8, 35)))
        self.assertIn("ends here, before tasks freeze", notes(recording)[0].text)

    def test_no_suspend_enter_at_all(self):
        """A trace that was recorded without these lines begins with what it has."""
        kept = without(by_hand(), 5, 6, 7, 10)
        self.assertEqual([(attempt.line, attempt.state) for attempt in self.read(kept).attempts], [(5, None)])
        kept = without(by_hand(), *range(5, 11), 33, 34)
        self.assertEqual([(attempt.line, attempt.state) for attempt in self.read(kept).attempts], [(5, None)])

    def test_between_attempts(self):
        lines = self.twice().splitlines()
        stray = tracefs(("sh", 70, 0, ".....", "1.500000", "suspend_resume", "thaw_processes[0] begin"))
        key = tracefs(("sh", 70, 0, ".....", "1.500001", "wakeup_source_activate", "lid state=0x1"))
        recording = self.read("\n".join([*lines[:34], stray, key, "what is this", *lines[34:]]) + "\n")
        self.assertEqual([(note.line, note.text[:20]) for note in notes(recording)], [(35, "steps or callbacks o"), (37, "no line of a trace, ")])
        event = next(event for event in recording.events if isinstance(event, SourceActivate) and event.source == "lid")
        self.assertIsNone(recording.attempt_of(event))
        self.assertEqual([recording.events[attempt.first] for attempt in recording.attempts], [attempt.events[0] for attempt in recording.attempts])

    def test_a_second_task_is_refused(self):
        """A second task writes a state while the first one's attempt is open; or after it ended before the freeze."""
        lines = by_hand().splitlines()
        other = tracefs(("other", 71, 1, ".....", "1.000003", "suspend_resume", "suspend_enter[3] begin"))
        for place in (5, 7, 8):
            recording = self.read("\n".join([*lines[:place], other, *lines[place:]]) + "\n")
            self.assertEqual([(attempt.line, attempt.last_line) for attempt in recording.attempts], [(5, 35)])
            self.assertEqual([note.line for note in notes(recording) if "EBUSY" in note.text], [place + 1])
        later = [tracefs(("other", 71, *step[2:])) if step[1] == 70 else tracefs(step) for step in STEPS]
        recording = self.read("\n".join([*lines[:7], *later]) + "\n")
        self.assertEqual([(attempt.line, attempt.events[0].pid) for attempt in recording.attempts], [(5, 70), (8, 71)])

    def test_a_buffer_that_was_too_small(self):
        """The oldest events of one processor are lost, those of the other are not: the first attempt lacks a callback's begin."""
        text = without(self.twice(), 20)
        self.refuse(20, "did not begin", text)
        recording = self.read(text.replace("30/30", "30/90"))
        self.assertEqual([attempt.line for attempt in recording.attempts], [34])
        self.assertIn("lacks events", recording.notes[0].text)

    def test_hibernation_is_no_suspend(self):
        self.refuse(11, "hibernation", by_hand().replace("dpm_prepare[2]", "dpm_prepare[1]"))

    def test_lost_events(self):
        lines = self.twice().splitlines()
        for lost in ("CPU:1 [LOST 12 EVENTS]", "CPU:0 [3 EVENTS DROPPED]", "CPU:0 [EVENTS DROPPED]"):
            self.refuse(21, "lost events", "\n".join([*lines[:20], lost, *lines[20:]]) + "\n")
            recording = self.read("\n".join([*lines[:34], lost, *lines[34:]]) + "\n")
            self.assertEqual([note.line for note in notes(recording)], [35])
        recording = self.read(self.twice().replace("30/30", "30/90"))
        self.assertEqual([(note.line, "too small" in note.text) for note in notes(recording)], [(3, True)])


class Broken(Case):
    """What is no whole trace is refused by its line, in one line."""

    def test_lines(self):
        text = by_hand()
        self.refuse(20, "no line of a trace", text.replace("kworker/u4:1-9       [001] .....     1.000016: dev", "kworker/u4:1-9       [x01]: dev"))
        self.refuse(20, "no begin of a callback", text.replace("driver [suspend]", "driver suspend"))
        self.refuse(21, "no end of a callback", text.replace("1.000017: device_pm_callback_end: Generic PHY a,b:01, err=0", "1.000017: device_pm_callback_end: Generic PHY a,b:01"))
        self.refuse(19, "no step of an attempt", text.replace("dpm_suspend[2] begin", "dpm_suspend begin"))
        self.refuse(24, "no step of a wakeup source", text.replace("state=0x20001", "state"))
        self.refuse(21, "another kind", text.replace(" 1.000017:", " 17:"))

    def test_pairs(self):
        text = by_hand()
        self.refuse(21, "dpm_suspend ends before the callback of line 20", without(text, 21))
        self.refuse(20, "did not begin in this task", without(text, 20))
        self.refuse(21, "did not begin in this task", text.replace("1.000017: device_pm_callback_end: Generic PHY a,b:01", "1.000017: device_pm_callback_end: other"))
        self.refuse(19, "in no phase", without(text, 19))
        self.refuse(27, "dpm_suspend_late ends without a begin", without(text, 27))
        self.refuse(20, "in dpm_suspend", text.replace("driver [suspend]", "late driver [suspend]"))
        self.refuse(20, "not of a suspend", text.replace("driver [suspend]", "driver [freeze]"))
        begin = text.splitlines()[19] + "\n"
        self.refuse(21, "the callback of line 20 in the same task has no end", text.replace(begin, begin * 2))

    def test_no_text(self):
        self.refuse(None, "trace-cmd report -i", b"\x17\x08\x44tracing6\0" + bytes(99))
        self.refuse(2, "binary", b"# tracer: nop\n\x7fELF\0\0")
        self.refuse(None, "cannot be unpacked", gzip.compress(by_hand().encode())[:200])
        self.refuse(1, "no line of a trace: '{'", '{\n  "version": 1\n}\n')
        self.refuse(None, "function_graph", "# tracer: function_graph\n# CPU  DURATION                  FUNCTION CALLS\n 0)   0.1 us    |  foo();\n")
        with self.assertRaises(CannotError):
            read_inputs(str(self.at))
        with self.assertRaises(CannotError):
            read_inputs(str(self.at / "none"))

    def test_time_goes_back(self):
        lines = by_hand().splitlines()
        lines[19], lines[20] = lines[19].replace("1.000016", "1.000090"), lines[20].replace("1.000017", "1.000091")
        recording = self.read("\n".join(lines) + "\n")
        self.assertEqual([(note.line, note.text) for note in notes(recording)], [(22, "the time goes back here")])

    def test_what_cannot_be_opened(self):
        with mock.patch("sys.stdin", types.SimpleNamespace(buffer=io.BytesIO(by_hand().encode()))):
            self.assertEqual(len(read_inputs("-").attempts), 1)
        with self.assertRaises(CannotError):
            read_inputs("-", dmesg="-")
        with self.assertRaises(CannotError):
            read_inputs(self.file(by_hand()), sys="a", devices="b")

    def test_any_break_is_told_in_one_line(self):
        """Cut, exchanged, doubled and spoilt files are read, or are refused with a file; nothing else happens."""
        chance = random.Random(6)
        for name in ("freeze-kernel", "g3-event-in-attempt", "irq-suspend-async"):
            for ending in ("trace", "devices", "links", "dmesg"):
                path = recordings.file_of(name, ending)
                whole = gzip.decompress(pathlib.Path(path).read_bytes()) if path else b""
                for number in range(6 if whole else 0):
                    broken = self.file(spoilt(whole, number, chance), "broken")
                    with self.subTest(name=name, ending=ending, number=number):
                        try:
                            read_inputs(**recordings.inputs(name) | {ending: broken})
                        except CannotError as error:
                            self.assertEqual(error.file, broken)


def spoilt(data, way, chance):
    """A file broken in one of six ways."""
    lines, at = data.split(b"\n"), chance.randrange(len(data))
    other, one = chance.randrange(len(lines)), chance.randrange(len(lines))
    if way == 2:
        return data[:at] + bytes([chance.randrange(256)]) + data[at + 1:]
    if way == 3:
        lines[one], lines[other] = lines[other], lines[one]
    elif way == 4:
        lines.insert(one, lines[other])
    elif way == 5:
        lines.insert(one, b"x" * 100000)
    return data[:at] if way == 0 else data[at:] if way == 1 else b"\n".join(lines)


class Devices(Case):
    """How the devices of a trace are told apart, and joined with lists of folders."""

    def test_names_with_spaces_and_the_list(self):
        devices = "/sys/devices/dock async=disabled wakeup=\n/sys/devices/dock/bus 7 async=enabled wakeup=enabled\n"
        text = by_hand().replace("platform Fixed MDIO bus.0", "my driver bus 7").replace("Fixed MDIO bus.0", "bus 7")
        recording = self.read(text, devices=devices)
        self.assertEqual([device.shown for device in recording.devices], ["dock", "bus 7 (my driver)", "a,b:01 (Generic PHY)"])
        bus = recording.devices[1]
        self.assertEqual((bus.path, bus.listed_line, bus.listed_async, bus.may_wake), ("dock/bus 7", 2, True, True))

    def test_one_name_three_devices(self):
        """A disk's device, and two of its classes, have one name; folders tell which is whose parent."""
        names = (("sd", "target0", "dock"), ("sd", "0:0", "target0"), ("scsi_disk", "0:0", "0:0"), ("bsg", "0:0", "0:0"), ("block", "sda", "0:0"))
        steps = [STEPS[7], STEPS[8]]
        for driver, name, parent in names:
            steps.append((*STEPS[7][:6], f"{driver} {name}, parent: {parent}, [suspend]"))
            steps.append((*STEPS[8][:6], f"{driver} {name}, err=0"))
        text = by_hand(steps=[*STEPS[:7], *steps, STEPS[13], *STEPS[-2:]])
        folders = ("dock", "dock/target0", "dock/target0/0:0", "dock/target0/0:0/bsg/0:0", "dock/target0/0:0/scsi_disk/0:0", "dock/target0/0:0/block/sda")
        devices = "".join(f"/sys/devices/{folder} async=disabled wakeup=\n" for folder in folders)
        for sides in ({}, {"devices": devices}):
            recording = self.read(text, **sides)
            self.assertEqual([device.shown for device in recording.devices], ["dock", "target0 (sd)", "0:0 (sd)", "0:0 (scsi_disk)", "0:0 (bsg)", "sda (block)"])
            disk = recording.devices[2]
            self.assertEqual([device.parent for device in recording.devices[3:]], [disk] * 3)
        paths = {device.driver: device.path for device in recording.devices[3:]}
        self.assertEqual(paths, {"scsi_disk": folders[4], "bsg": folders[3], "block": folders[5]})

    def test_a_name_with_a_slash(self):
        """The kernel has '!' in a name where its maker gave '/': a trace and /sys have the same name."""
        devices = "/sys/devices/dock async=disabled wakeup=\n/sys/devices/dock/cciss!c0d0 async=enabled wakeup=\n"
        recording = self.read(by_hand().replace("Fixed MDIO bus.0", "cciss!c0d0"), devices=devices)
        self.assertEqual([device.name for device in recording.devices], ["dock", "cciss!c0d0", "a,b:01"])
        self.assertEqual((recording.devices[1].path, recording.devices[1].listed_async), ("dock/cciss!c0d0", True))

    def test_two_of_one_name_below_one_parent(self):
        """Of two folders of one name below one device, the first device of the trace has the one below which something comes first."""
        steps = [*STEPS[:7], STEPS[7], STEPS[8]]
        for words, parent in (("usb pad", "dock"), ("serio key", "pad"), ("mmc pad", "dock")):
            steps += [(*STEPS[7][:6], f"{words}, parent: {parent}, [suspend]"), (*STEPS[8][:6], f"{words}, err=0")]
        for above, wanted in (("dock/mem/pad", "dock/pad"), ("dock/pad", "dock/mem/pad")):
            folders = ("dock", "dock/pad", "dock/mem/pad", f"{above}/key")
            devices = "".join(f"/sys/devices/{path} async=disabled wakeup=\n" for path in folders)
            recording = self.read(by_hand(steps=[*steps, STEPS[13], *STEPS[-2:]]), devices=devices)
            self.assertEqual([device.path for device in recording.devices], ["dock", above, f"{above}/key", wanted])
            self.assertEqual(recording.devices[2].parent, recording.devices[1])

    def test_a_parent_of_which_there_are_two(self):
        """Without a list, of two devices named pad the parent is the one with which the trace keeps the order."""
        prepare = [STEPS[7], STEPS[8]]
        for words, parent in (("acpi pad", "dock"), ("platform pad", "none"), ("input key", "pad")):
            prepare += [(*STEPS[7][:6], f"{words}, parent: {parent}, [suspend]"), (*STEPS[8][:6], f"{words}, err=0")]
        names = {"acpi pad": "dock", "platform pad": "none", "input key": "pad"}
        for order in (("input key", "acpi pad", "platform pad"), ("platform pad", "input key", "acpi pad")):
            suspend = []
            for words in order:
                suspend += [(*STEPS[7][:6], f"{words}, parent: {names[words]}, bus [suspend]"), (*STEPS[8][:6], f"{words}, err=0")]
            recording = self.read(by_hand(steps=[*STEPS[:7], *prepare, *STEPS[13:15], *suspend, STEPS[17], *STEPS[-2:]]))
            key = recording.devices[-1]
            self.assertEqual((key.name, key.parent.driver), ("key", "platform" if order[0] == "input key" else "acpi"))
            self.assertTrue(any("is one of several" in note.text for note in recording.notes))

    def test_a_parent_of_which_there_are_two_over_one_without_callbacks(self):
        """What hangs below a device without callbacks tells which of two devices is its parent."""
        names = {"acpi pad": "dock", "platform pad": "none", "hid bus": "pad", "input key": "bus"}
        line = lambda words, info: ((*STEPS[7][:6], f"{words}, parent: {names[words]}, {info}[suspend]"), (*STEPS[8][:6], f"{words}, err=0"))
        prepare = [step for words in names for step in line(words, "")]
        for order, wanted in ((("input key", "acpi pad", "platform pad"), "platform"), (("platform pad", "input key", "acpi pad"), "acpi")):
            suspend = [step for words in order for step in line(words, "bus ")]
            recording = self.read(by_hand(steps=[*STEPS[:7], STEPS[7], STEPS[8], *prepare, *STEPS[13:15], *suspend, STEPS[17], *STEPS[-2:]]))
            bus = next(device for device in recording.devices if device.name == "bus")
            self.assertEqual(bus.parent.driver, wanted)

    def test_parents_that_are_in_no_input(self):
        recording = self.read(without(by_hand(), *range(12, 16)))
        self.assertEqual([device.parent for device in recording.devices], [None])
        self.assertIn("the parent Fixed MDIO bus.0 of a,b:01 stands in no input", recording.notes[0].text)

    def test_a_folder_elsewhere(self):
        """A device whose parent is another one in the list takes a folder of its name only if that is left over, and the only one."""
        folders = lambda *paths: "".join(f"/sys/devices/{path} async=enabled wakeup=\n" for path in paths)
        steps = [*STEPS[:7], STEPS[7], STEPS[8]]
        for parent in ("none", "dock"):
            steps += [(*STEPS[7][:6], f"usb pad, parent: {parent}, [suspend]"), (*STEPS[8][:6], "usb pad, err=0")]
        text = by_hand(steps=[*steps, STEPS[13], *STEPS[-2:]])
        for paths, wanted in ((("dock", "dock/pad"), {"dock": "dock/pad", None: None}), (("dock", "dock/pad", "hub", "hub/pad"), {"dock": "dock/pad", None: "hub/pad"}),
                              (("dock", "hub", "hub/pad", "bus", "bus/pad"), {"dock": None, None: None})):
            recording = self.read(text, devices=folders(*paths))
            self.assertEqual({device.parent and device.parent.name: device.path for device in recording.devices if device.name == "pad" and device.line}, wanted)

    def test_a_driver_that_comes(self):
        """A device whose driver came between two attempts is one device."""
        later = [(*step[:6], step[6].replace("Generic PHY", "mdio_bus")) for step in STEPS]
        recording = self.read(by_hand(steps=[*STEPS, *later]))
        self.assertEqual(len(recording.devices), 3)
        self.assertEqual({begin.device for attempt in recording.attempts for begin in attempt.callbacks(Phase.RESUME)}, {recording.devices[2]})

    def test_who_is_asynchronous(self):
        devices = "/sys/devices/dock async=enabled wakeup=\n"
        recording = self.read(by_hand(), devices=devices)
        self.assertEqual([device.is_async for device in recording.devices], [True, True, True])  # (the second one is in no list)
        self.assertTrue(recording.is_async_listed)
        both = self.read(by_hand(), devices=devices.replace("enabled", "disabled") + "/sys/devices/dock/Fixed MDIO bus.0 async=disabled wakeup=\n")
        self.assertEqual([device.is_async for device in both.devices], [False, False, True])
        self.assertEqual(both.notes, [])
        alone = [("sh", 70, *step[2:]) if step[1] == 9 else step for step in STEPS]
        recording = self.read(by_hand(steps=alone), devices=devices)
        self.assertEqual([device.is_async for device in recording.devices], [False, False, False])

    def test_devices_that_no_prepare_shows(self):
        recording = self.read(by_hand(), devices="/sys/devices/dock async= wakeup=\n/sys/devices/dock/more async= wakeup=\n")
        more = recording.devices[-1]
        self.assertEqual((more.name, more.line, more.parent, more.listed_async), ("more", None, recording.devices[0], None))
        self.assertFalse(recording.is_async_listed)

    def test_the_list_of_a_real_machine(self):
        """By the README of the recordings: d1 and d7 are children of d0, d2 of d1, d4 of d3, d6 of d5; pm_async was 0."""
        recording = read_inputs(**recordings.inputs("s3"))
        found = {device.name: device for device in recording.devices if device.driver == "dpmt"}
        parents = {name: device.parent and device.parent.name for name, device in found.items()}
        self.assertEqual(parents, {"d0": None, "d1": "d0", "d2": "d1", "d3": None, "d4": "d3", "d5": None, "d6": "d5", "d7": "d0"})
        self.assertEqual({name for name, device in found.items() if device.listed_async}, {"d1", "d3", "d6", "d7"})
        self.assertFalse(any(device.is_async for device in recording.devices))
        self.assertTrue(found["d4"].may_wake)
        self.assertEqual(recording.clock, Clock.COUNTER)
        self.assertEqual([(link.supplier.name, link.consumer.name, link.line) for link in recording.links], [("d5", "d1", 1), ("d3", "d5", 2), ("d7", "d6", 3)])
        prepared = [begin.device for begin in recording.attempts[0].callbacks(Phase.PREPARE)]
        self.assertEqual(recording.devices, prepared)

    def test_every_recording(self):
        """Each device of a trace that its list has finds its folder, and its parent's folder is above."""
        for name in recordings.names():
            recording = read_inputs(**recordings.inputs(name))
            with self.subTest(name):
                for device in recording.devices:
                    above = device.parent
                    if device.path and above is not None and above.path:
                        self.assertTrue(device.path.startswith(above.path + "/"))
                lacking = {device.name for device in recording.devices if device.path is None}
                self.assertLessEqual(lacking, {"vcs63", "vcsu63", "vcsa63"})  # (registered after the list was made)

    def test_asynchronous_devices_of_recordings(self):
        """By the README: hub, net and lamp; leaf, fast, long, slow; nobody where pm_async was 0."""
        wanted = {"irq-late": {"hub", "net", "lamp"}, "irq-suspend-async": {"leaf", "fast", "long", "slow"}, "irq-suspend": set(),
                  "whatif-gpu-sync": {"nvme", "disk", "panel", "cam"}, "whatif-gpu-async": {"nvme", "disk", "panel", "cam", "gpu"}}
        for name, devices in wanted.items():
            recording = read_inputs(**recordings.inputs(name))
            self.assertEqual({device.name for device in recording.devices if device.is_async and device.driver == "dpmt"}, devices, name)


class Links(Case):
    """Lists of device links."""

    def links(self, text):
        return self.read(by_hand(), links=text)

    def test_names_and_states(self):
        recording = self.links("# supplier consumer\ndock\ta,b:01\tdormant\nFixed MDIO bus.0\ta,b:01\n\n")
        self.assertEqual([(link.supplier.name, link.consumer.name, link.is_dormant, link.line) for link in recording.links],
                         [("dock", "a,b:01", True, 2), ("Fixed MDIO bus.0", "a,b:01", False, 3)])
        self.assertEqual(self.links("").links, [])

    def test_a_name_that_the_trace_lacks_is_a_note(self):
        recording = self.links("dock a,b:01\ndock nobody\n")
        self.assertEqual(len(recording.links), 1)
        self.assertEqual([(note.line, "nobody" in note.text) for note in notes(recording)], [(2, True)])

    def test_no_list(self):
        for line, text in ((1, "dock"), (2, "dock a,b:01\na b c d"), (1, "dock a,b:01 sleeping")):
            with self.subTest(text), self.assertRaises(CannotError) as caught:
                self.links(text)
            self.assertEqual(caught.exception.line, line)
        with self.assertRaises(CannotError):
            self.links(b"\0\1")


class Messages(Case):
    """What dmesg tells."""

    def told(self, name):
        return [attempt.told for attempt in read_inputs(**recordings.inputs(name)).attempts]

    def test_who_did_not_freeze(self):
        """The README: a user task, a kernel thread, and one that timed out."""
        user, = self.told("freeze-user")
        self.assertIsNone(user.first(Fact.FREEZE_KERNEL))
        self.assertIsNotNone(user.first(Fact.FREEZE_ABORTED))
        self.assertEqual(user.first(Fact.LAST_SOURCE).words, "lid")
        kernel, = self.told("freeze-kernel")
        self.assertIsNotNone(kernel.first(Fact.FREEZE_KERNEL))
        self.assertEqual((kernel.first(Fact.TASK).words, kernel.first(Fact.TASK).number), ("kk", 115))
        timeout, = self.told("wont-freeze-user")
        self.assertIsNone(timeout.first(Fact.FREEZE_ABORTED))
        self.assertEqual((timeout.first(Fact.FREEZE_FAILED).line, timeout.first(Fact.TASK).words), (5, "stuckd"))

    def test_stops(self):
        saved, = self.told("cpu-off")
        self.assertTrue(saved.has_debug_messages)
        self.assertIsNotNone(saved.first(Fact.WAKEUP_PENDING))
        self.assertIsNotNone(saved.first(Fact.CPU_ABORTED))
        self.assertEqual([message.number for message in saved.all(Fact.CPU_OFFLINE)], [1])
        failed, = self.told("async-fails")
        message = failed.first(Fact.DEVICE_FAILED)
        self.assertEqual((message.words, message.number, message.phase, message.time), ("dpmt net", -5, Phase.SUSPEND, 9650728000))
        noirq, = self.told("noirq-fails")
        self.assertEqual(noirq.first(Fact.DEVICE_FAILED).phase, Phase.NOIRQ)
        self.assertFalse(noirq.has_debug_messages)
        self.assertEqual(self.told("pm-test-devices")[0].first(Fact.SUSPEND_DEBUG).number, 1)
        idle, = self.told("s2idle")
        self.assertEqual((idle.first(Fact.ENTRY).words, idle.first(Fact.SUSPEND_TO_IDLE).line), ("s2idle", 14))

    def test_two_attempts(self):
        first, second = self.told("two-cycles")
        self.assertIsNone(first.first(Fact.WAKEUP_PENDING))
        self.assertEqual(second.first(Fact.LAST_SOURCE).words, "key")

    def test_longer_than_the_trace(self):
        """dmesg tells of earlier attempts: the last ones are the trace's."""
        long = gzip.decompress(pathlib.Path(recordings.file_of("two-cycles", "dmesg")).read_bytes())
        short = gzip.decompress(pathlib.Path(recordings.file_of("irq-suspend", "dmesg")).read_bytes())
        recording = read_inputs(recordings.file_of("irq-suspend", "trace"), dmesg=self.file(long + short))
        self.assertEqual(recording.attempts[0].told.first(Fact.LAST_SOURCE).words, "lid")
        self.assertIn("3 attempts, the trace has 1", notes(recording)[-1].text)

    def test_a_processor_that_does_not_go(self):
        """One processor fails to go off: its step stands in the trace, and no message that it is offline."""
        dmesg = gzip.decompress(pathlib.Path(recordings.file_of("cpu-off", "dmesg")).read_bytes())
        broken = dmesg.replace(b"smpboot: CPU 1 is now offline", b"Error taking CPU1 down: -16")
        told = read_inputs(recordings.file_of("cpu-off", "trace"), dmesg=self.file(broken)).attempts[0].told
        self.assertEqual((told.first(Fact.CPU_ERROR).number, told.first(Fact.CPU_OFFLINE)), (1, None))
        self.assertIsNone(read_inputs(recordings.file_of("cpu-off", "trace"), dmesg=self.file(dmesg.replace(b"CPU 1 is", b"CPU 3 is"))).attempts[0].told)

    def test_messages_of_another_attempt(self):
        recording = read_inputs(recordings.file_of("irq-suspend", "trace"), dmesg=recordings.file_of("s2idle", "dmesg"))
        self.assertIsNone(recording.attempts[0].told)
        self.assertIn("not those of the attempt", notes(recording)[-1].text)

    def test_other_layouts(self):
        """journalctl, dmesg -x, -T and /dev/kmsg write the same messages with other heads."""
        text = gzip.decompress(pathlib.Path(recordings.file_of("irq-suspend", "dmesg")).read_bytes()).decode()
        messages = [line[line.index("]") + 2:] for line in text.splitlines()]
        wanted = [message.fact for message in self.told("irq-suspend")[0].messages]
        heads = ("[  12.345678] ", "kern  :info  : [   12.345678] ", "[Tue Dec  1 00:00:01 2026] ", "6,123,12345678,-;", "[   12.345678] box kernel: ",
                 "Dec 01 00:00:01 box kernel: ", "2026-12-01T00:00:01,123456+00:00 ", "<6>[   12.345678][   T98] ", "Dec  1 00:00:01 box kernel: [   12.345678] ",
                 "2026-12-01T00:00:01.123456+01:00 box kernel: ")
        for head in heads:
            with self.subTest(head):
                recording = read_inputs(recordings.file_of("irq-suspend", "trace"), dmesg=self.file("".join(head + one + "\n" for one in messages)))
                told = recording.attempts[0].told
                self.assertEqual([message.fact for message in told.messages], wanted)
                self.assertEqual([message.text for message in told.messages], messages)
                self.assertEqual(told.messages[0].time, 12345678000 if "12345678" in head or "12.345678" in head else None)

    def test_older_kernels(self):
        text = ("[    1.0] PM: suspend entry (deep)\n[    1.1] Freezing user space processes ... (elapsed 0.001 seconds) done.\n"
                "[    1.2] Freezing remaining freezable tasks ... (elapsed 0.001 seconds) done.\n[    1.3] PM: suspend exit\n")
        recording = self.read(by_hand(), dmesg=text)
        facts = [message.fact for message in recording.attempts[0].told.messages]
        self.assertEqual(facts, [Fact.ENTRY, Fact.FREEZE_USER, Fact.FREEZE_USER_DONE, Fact.FREEZE_KERNEL, Fact.FREEZE_KERNEL_DONE, Fact.EXIT])

    def test_version_and_machine(self):
        text = ("[    0.0] Linux version 6.1.0-30-amd64 (debian) (gcc) #1 SMP Debian 6.1.124-1 (2025-01-12)\n"
                "[    0.0] DMI: LENOVO 20XX/20XX, BIOS N2 01/02/2020\n[    1.0] PM: suspend entry (deep)\n[    1.3] PM: suspend exit\n")
        recording = self.read(by_hand(), dmesg=text)
        self.assertEqual((recording.version, recording.version_from.rpartition(":")[2]), ((6, 1, 124), "1"))
        self.assertEqual(recording.machine, "LENOVO 20XX/20XX")
        self.assertEqual(self.read(by_hand(), dmesg=text, kernel="6.9").version, (6, 9))
        self.assertEqual(self.read(by_hand()).version_text, "6.1.192")
        self.assertEqual([version_numbers(text) for text in ("6.1.0-30-amd64", "6.12-rc3", "v5.15.7", "next")], [(6, 1, 0), (6, 12), (5, 15, 7), None])
        self.refuse(None, "no version of a kernel", by_hand(), kernel="new")

    def test_dates(self):
        """The time of day of the entry, in the layouts that have one; else the day of boot."""
        ends = "{0}PM: suspend entry (deep)\n{0}PM: suspend exit\n"
        for head, date in (("[Tue Dec  1 10:20:30 2026] ", "Tue Dec  1 10:20:30 2026"), ("2026-12-01T10:20:30,123456+00:00 ", "2026-12-01T10:20:30,123456+00:00"),
                           ("2026-12-01T10:20:30+01:00 box kernel: ", "2026-12-01T10:20:30+01:00"), ("[  12.0] ", None)):
            self.assertEqual(self.read(by_hand(), dmesg=ends.format(head)).date, date)
        boot = "[    1.0] rtc_cmos 00:04: setting system clock to 2026-12-01T10:00:00 UTC (1796119200)\n"
        self.assertEqual(self.read(by_hand(), dmesg=boot + ends.format("[  12.0] ")).date, "booted 2026-12-01T10:00:00")

    def test_no_messages(self):
        recording = self.read(by_hand(), dmesg="[    1.0] hello\n")
        self.assertIn("no message of an attempt", notes(recording)[0].text)
        self.refuse(None, "is empty", by_hand(), dmesg="\n")
        self.refuse(2, "no messages of the kernel: '{'", by_hand(), dmesg='\n{\n  "version": 1\n}\n')
        self.refuse(1, "no messages of the kernel: '# A page'", by_hand(), dmesg="# A page\n\nof something else.\n")
        self.refuse(1, "binary", by_hand(), dmesg=b"\0\0")


class Trees(Case):
    """/sys itself, a folder of it, and a tar."""

    def tree(self):
        root = self.at / "sys"
        for path, texts in {
                "dock": {"power/async": "disabled", "power/wakeup": "enabled", "power/runtime_status": "suspended"},
                "dock/bus 7": {"power/async": "enabled"}, "virtual/dmi/id": {"sys_vendor": "Maker", "product_name": "Box", "power/async": "disabled"}}.items():
            for name, text in texts.items():
                file = root / "devices" / path / name
                file.parent.mkdir(parents=True, exist_ok=True)
                file.write_text(text + "\n")
        file = root / "devices/system/cpu/online"
        file.parent.mkdir(parents=True)
        file.write_text("0-3,6\n")
        return root

    def check_tree(self, sys):
        trace = self.file(by_hand(head="").replace("platform Fixed MDIO bus.0", "my driver bus 7").replace("Fixed MDIO bus.0", "bus 7"))
        recording = read_inputs(trace, sys=str(sys))
        dock, bus, net = recording.devices[:3]
        self.assertEqual((dock.path, dock.may_wake, dock.is_suspended, bus.path, net.path), ("dock", True, True, "dock/bus 7", None))
        self.assertEqual((recording.processors, recording.machine), (5, "Maker Box"))

    def test_folder_and_tar(self):
        root = self.tree()
        self.check_tree(root)
        for mode in ("w", "w:gz"):
            with tarfile.open(self.at / "sys.tar", mode) as tar:
                tar.add(root, "sys")
            self.check_tree(self.at / "sys.tar")

    def test_no_sys(self):
        trace = self.file(by_hand())
        os.mkdir(self.at / "empty")
        for sys, text in (("empty", "no folder 'devices'"), ("none", "No such file"), ("void", "is empty"), ("cut.tar", "")):
            (self.at / "void").write_bytes(b"")
            with tarfile.open(self.at / "cut.tar", "w") as tar:
                tar.add(self.tree() if not (self.at / "sys").exists() else self.at / "sys", "sys")
            (self.at / "cut.tar").write_bytes((self.at / "cut.tar").read_bytes()[:1300])
            with self.subTest(sys), self.assertRaises(CannotError) as caught:
                read_inputs(trace, sys=str(self.at / sys))
            self.assertIn(text, str(caught.exception))


class Words(Case):
    """The words of commands that take a recording."""

    def test_words(self):
        import argparse
        parser = argparse.ArgumentParser()
        add_input_arguments(parser)
        given = parser.parse_args([self.file(by_hand()), "--links", self.file("", "my.links"), "--kernel", "6.6"])
        self.assertEqual(inputs_of(given), [given.trace, None, None, given.links, None])
        recording = read_recording(given)
        self.assertEqual((recording.version, recording.version_from), ((6, 6), "--kernel"))


if __name__ == "__main__":
    unittest.main()
