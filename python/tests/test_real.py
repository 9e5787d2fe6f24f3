"""Tries the command machine: on traces of a real Linux 6.1, on small trees, and on broken ones."""

import json
import os
import pathlib
import re
import tarfile
import tempfile
import unittest
from unittest import mock

import recordings
from command_tests import SAMPLES, julampok

from julampok.errors import CannotError
from julampok.kernel import tree
from julampok.second.judge import judged
from julampok.second.rules import first_broken
from julampok.second.run import Run

# What the real machine has: its devices, and its own test devices in the order in which its kernel prepares them.
LISTED, LATE_COMERS = 230, ["vcs63", "vcsu63", "vcsa63"]
PREPARED = ["d0", "d3", "d4", "d7", "d5", "d1", "d2", "d6"]
HEAD = """\
       w-10    [000] .....   {}.100000: suspend_resume: suspend_enter[3] begin
       w-10    [000] .....   {}.110000: suspend_resume: dpm_prepare[2] begin
"""


class Scratch(unittest.TestCase):
    def setUp(self):
        self.folder = tempfile.TemporaryDirectory()
        self.addCleanup(self.folder.cleanup)
        self.at = pathlib.Path(self.folder.name)

    def make(self, *words):
        """Makes a machine file, and gives its tree, its table, and what was told."""
        done = julampok("machine", *words, "-o", self.at / "m.json")
        self.assertEqual(done.status, 0, done.err)
        machine = json.loads((self.at / "m.json").read_text())
        self.assertIsNone(first_broken(machine))
        return machine, (self.at / "m.names").read_text(), done.err

    def refuse(self, text, *words):
        done = julampok("machine", *words, "-o", self.at / "no.json")
        self.assertEqual((done.status, done.out, done.err.count("\n")), (2, "", 1), done.err)
        self.assertIn(text, done.err)
        self.assertFalse((self.at / "no.json").exists())

    def write(self, name, text):
        path = self.at / name
        path.parent.mkdir(parents=True, exist_ok=True)
        path.write_text(text)
        return path

    def run_of(self, machine):
        """The log of a run, which has to be legal."""
        log = Run(machine).run()[0]
        self.assertIsNone(judged(machine, log))
        return log


class RealTraces(Scratch):
    def words(self, name):
        return [word for word in ("--trace", *recordings.words(name))]

    def test_a_whole_cycle(self):
        machine, table, told = self.make(*self.words("s3"))
        devices = {device["name"]: device for device in machine["devices"]}
        self.assertEqual(len(devices), LISTED + len(LATE_COMERS))
        self.assertEqual([name for name in devices if name in PREPARED], PREPARED)
        self.assertEqual(list(devices)[-3:], LATE_COMERS)
        self.assertTrue(devices["d4"]["wakeup"] and devices["lnxpwrbn.00"]["wakeup"])
        self.assertEqual([name for name in devices if devices[name].get("async")], [])  # (pm_async was 0)
        self.assertEqual((machine["cpus"], machine["sources"]), (2, ["00.05"]))
        parents = {name: devices[name].get("parent") for name in ("d1", "d2", "cpu0", "regulator.0", "lo", "pnp0103.00-2")}
        self.assertEqual(list(parents.values()), ["d0", "d1", None, "reg-dummy", None, "platform"])
        self.assertIn("input0..numlock\tinput0::numlock\tinput0\tleds\tplatform/i8042/serio0/input/input0/input0::numlock\n", table)
        log = self.run_of(machine)
        self.assertIn("over 1 0", log)
        self.assertIn("awake 00.05", log)

    def test_aborts_of_interrupts(self):
        """By the README of the recordings: the place of the event, and the test that finds it."""
        for name, before, found in (
                ("irq-suspend", "begin suspend disk", "skip suspend .* pending"), ("irq-late", "begin late wlan", "skip late .* pending"),
                ("irq-noirq", "begin noirq disk", "cpu EBUSY 1"), ("cpu-off", "cpu off 1", "cpu EBUSY 2"),
                ("syscore", "syscore suspend core 0", "enter EBUSY"), ("freeze-user", "freeze user", "froze user EBUSY wakeup 1 b"),
                ("freeze-kernel", "freeze kernel", "froze kernel EBUSY wakeup 1 kk")):
            with self.subTest(name):
                log = self.run_of(self.make(*self.words(name))[0])
                places = [log.index(before), re.search("irq:.* (event|awake) (lid|key)", log).start(), re.search(found, log).start()]
                self.assertEqual(places, sorted(places))
                self.assertIn("over 1 EBUSY", log)
                self.assertNotIn("wake alarm", log)

    def test_a_run_goes_the_way_of_each_recording(self):
        """A machine of each recording, but of the broken order, answers what the kernel answered."""
        answers = {"async-fails": "EIO", "noirq-fails": "EIO", "platform-begin": "ENODEV", "platform-prepare": "EIO", "platform-prepare_late": "EBUSY",
                   "soft-unguarded": "0", "order": "0", "slow-async": "0", "wont-freeze-user": "EBUSY", "irq-suspend-async": "EBUSY",
                   "g10-autosleep-off-while-attempt": "EBUSY", "at-n1": "EBUSY", "at-cpu2": "EBUSY", "two-cycles": "0"}
        for name, answer in answers.items():
            with self.subTest(name):
                machine, _, told = self.make(*self.words(name))
                self.assertNotIn("another way", told)
                log = self.run_of(machine)
                if name not in ("platform-begin", "platform-prepare", "platform-prepare_late"):  # (their errors are in no input)
                    self.assertIn(f"over 1 {answer}\n", log)
        self.assertIn("over 2 EBUSY\n", log)

    def test_a_failure(self):
        machine, _, _ = self.make(*self.words("noirq-fails"))
        answer = {"what": "device", "name": "d5", "phase": "noirq", "attempt": 1, "ret": "EIO"}
        self.assertEqual((machine["answers"], [device["name"] for device in machine["devices"]]), ([answer], PREPARED))
        self.assertIn("end noirq d5 EIO", self.run_of(machine))

    def test_more_steps_than_a_file_may_have(self):
        """Of two attempts the last one is kept, where the turns of both are too many."""
        with mock.patch("julampok.follow.pacing.MOST_STEPS", 1500):
            machine, _, told = self.make(*self.words("two-cycles"))
        self.assertIn("2 attempts, of which the file has the last 1", told)
        log = self.run_of(machine)
        self.assertIn("event key", log)
        self.assertEqual(re.findall("over .*", log), ["over 1 EBUSY"])

    def test_a_broken_order(self):
        self.refuse("order-broken.trace.gz:490: ctl (dpmt) began its callback of suspend; disk", *self.words("order-broken"))

    def test_a_report_of_trace_cmd(self):
        """Without flags, with more space, a head, other events, and a loss before the attempt."""
        text = (SAMPLES / "noirq-fails.trace").read_text()
        for event in ("suspend_resume", "device_pm_callback_start", "device_pm_callback_end"):
            text = text.replace(" .....        ", "   ").replace(f": {event}: ", f": {event}:    ")
        head = "cpus=2\nCPU 3 is empty\nCPU:1 [LOST 4 EVENTS]\n          <idle>-0     [001]   141: cpu_idle:             state=1 cpu_id=1\n"
        plain, _, _ = self.make("--trace", SAMPLES / "noirq-fails.trace")
        self.assertEqual(self.make("--trace", self.write("report", head + text))[0], plain | {"cpus": 2})

    def test_a_branch(self):
        links = "--links", SAMPLES / "s3.links"
        machine, _, _ = self.make(*links, "--branch", "d5", SAMPLES / "s3.devices")
        self.assertEqual({device["name"] for device in machine["devices"]}, {"d5", "d6", "d3", "d7", "d0"})
        machine, _, _ = self.make("--trace", SAMPLES / "s3.trace", "--branch", "platform/i8042", "--devices", SAMPLES / "s3.devices")
        self.assertEqual(len(machine["devices"]), 8)
        self.run_of(machine)

    def test_one_of_two_devices_of_a_name(self):
        """Of the two PNP0103:00 a branch has the one below 'platform'."""
        machine, table, _ = self.make("--trace", SAMPLES / "s3.trace", "--branch", "platform", SAMPLES / "s3.devices")
        self.assertEqual(len(machine["devices"]), 16)
        self.assertIn("pnp0103.00\tPNP0103:00\tplatform\tplatform\tplatform/PNP0103:00\n", table)


class MadeTraces(Scratch):
    """Traces of a hub and its camera."""

    def cycle(self, suspend, rest=""):
        """A whole attempt of which the suspend phase is given."""
        say = lambda event, said: f"       w-10    [000] .....   1.200000: {event}: {said}\n"
        text = HEAD.format(1, 1)
        for device, parent in (("hub", "none"), ("Cam:1", "hub")):
            text += say("device_pm_callback_start", f"usb {device}, parent: {parent}, [suspend]") + say("device_pm_callback_end", f"usb {device}, err=0")
        text += say("suspend_resume", "dpm_prepare[2] end") + say("suspend_resume", "dpm_suspend[2] begin") + suspend
        text += say("suspend_resume", "dpm_suspend[2] end") + rest + say("suspend_resume", "dpm_resume[16] begin")
        text += say("suspend_resume", "dpm_resume[16] end") + say("suspend_resume", "dpm_complete[16] begin")
        return text + say("suspend_resume", "dpm_complete[16] end") + say("suspend_resume", "thaw_processes[0] end")

    CALLBACK = """\
       w-10    [000] .....   1.300000: device_pm_callback_start: usb Cam:1, parent: hub, bus [suspend]
{}       w-10    [000] .....   1.400000: device_pm_callback_end: usb Cam:1, err={}
"""
    START = "       w-10    [000] d..1.   1.310000: wakeup_source_activate: Cam:1 state=0x1\n"
    STOP = "  <idle>-0     [001] d.s..   1.360000: wakeup_source_deactivate: Cam:1 state=0x10000\n"
    LATER = "  <idle>-0     [001] d.s..   1.460000: wakeup_source_deactivate: Cam:1 state=0x10000\n"

    def test_reports(self):
        """What a callback reports in its own task is the callback's."""
        machine, _, _ = self.make("--trace", self.write("t", self.cycle(self.CALLBACK.format(self.START + self.STOP, 0))))
        answer, = [answer for answer in machine["answers"] if "reports" in answer]
        self.assertEqual((answer["name"], answer["phase"]), ("cam.1", "suspend"))
        self.assertEqual({report["source"] for report in answer["reports"]}, {"cam.1"})

    def test_a_driver_that_changes(self):
        """The camera has another driver in the second cycle; two devices of one name and parent in one cycle are two."""
        cycle = self.cycle(self.CALLBACK.format("", 0))
        machine, _, _ = self.make("--trace", self.write("t", cycle + cycle.replace(" usb Cam", " uvc Cam")))
        self.assertEqual([device["name"] for device in machine["devices"]], ["hub", "cam.1"])
        first, _, _ = cycle.rpartition("       w-10    [000] .....   1.200000: suspend_resume: dpm_prepare[2] end")
        pair = [line for line in first.splitlines(keepends=True) if "Cam:1" in line]
        both = first + "".join(pair).replace(" usb Cam", " hid Cam") + cycle[len(first):]
        machine, _, _ = self.make("--trace", self.write("t", both))
        self.assertEqual([device["name"] for device in machine["devices"]], ["hub", "cam.1", "cam.1-2"])

    def test_an_error_that_machine_files_do_not_have(self):
        machine, table, told = self.make("--trace", self.write("t", self.cycle(self.CALLBACK.format("", -110))))
        answer, = [answer for answer in machine["answers"] if answer["name"] == "cam.1" and answer["phase"] == "suspend"]
        self.assertEqual(answer["ret"], "EIO")
        self.assertIn("-110", table)

    def test_names(self):
        long = "a" * 40
        machine, table, _ = self.make("--devices", self.write("l", f"/sys/devices/{long}x\n/sys/devices/{long}y\n/sys/devices/platform/Fixed MDIO bus.0 async=disabled wakeup=\n"))
        self.assertEqual([device["name"] for device in machine["devices"]], ["a" * 32, "a" * 30 + "-2", "fixed-mdio-bus.0"])
        self.assertIn(f"{'a' * 30}-2\t{long}y\tnone\t-\t{long}y\n", table)


class Trees(Scratch):
    FILES = {
        "devices/system/cpu/online": "0-2,5\n", "devices/system/cpu/power/async": "disabled\n",
        "devices/system/cpu/cpu0/power/async": "disabled\n", "devices/pci0/power/async": "enabled\n",
        "devices/pci0/nic/power/async": "enabled\n", "devices/pci0/nic/power/wakeup": "enabled\n",
        "devices/pci0/nic/power/runtime_status": "suspended\n", "devices/pci0/nic/wakeup/wakeup3/name": "nic\n",
        "devices/pci0/phy10/power/async": "disabled\n", "devices/pci0/phy9/power/async": "disabled\n",
        "devices/pci0/phy9/net/eth0/power/async": "disabled\n", "devices/virtual/devlink/a--b/status": "dormant\n",
        "devices/virtual/devlink/a--b/sync_state_only": "0\n", "devices/virtual/devlink/b--c/sync_state_only": "1\n",
        "devices/virtual/devlink/d--e/status": "active\n",
    }
    LINKS = {
        "devices/virtual/devlink/a--b/supplier": "../../../pci0/phy9", "devices/virtual/devlink/a--b/consumer": "../../../pci0/nic",
        "devices/virtual/devlink/b--c/supplier": "../../../pci0/nic", "devices/virtual/devlink/b--c/consumer": "../../../pci0/phy9",
        "devices/virtual/devlink/d--e/supplier": "../../../pci0/nic", "devices/virtual/devlink/d--e/consumer": "../../../pci0/phy9",
        "devices/pci0/nic/driver": "../../../bus/pci/drivers/e1000e", "devices/pci0/nic/subsystem": "../../../bus/pci",
    }

    def setUp(self):
        super().setUp()
        for path, text in self.FILES.items():
            self.write(f"sys/{path}", text)
        for path, target in self.LINKS.items():
            (self.at / "sys" / path).symlink_to(target)

    def expect(self, where):
        machine, table, told = self.make(where)
        names = [device["name"] for device in machine["devices"]]
        self.assertEqual(names, ["pci0", "nic", "phy9", "eth0", "phy10", "cpu", "cpu0"])
        self.assertEqual(machine["devices"][1], {"name": "nic", "parent": "pci0", "async": True, "wakeup": True, "runtime": "suspended"})
        self.assertEqual((machine["devices"][3]["parent"], machine["devices"][6]), ("phy9", {"name": "cpu0"}))
        self.assertEqual(machine["links"], [{"supplier": "phy9", "consumer": "nic", "state": "dormant"}])
        self.assertEqual((machine["version"], machine["cpus"], machine["sources"]), (2, 4, ["nic"]))
        self.assertIn("nic\tnic\tpci0\te1000e\tpci0/nic\n", table)
        self.assertIn("b--c orders nothing", told)
        self.assertIn("link from nic to phy9 would close a cycle", told)

    def test_a_folder(self):
        self.expect(self.at / "sys")

    def test_a_tar(self):
        for name in ("sys", ".", "copy/sys"):
            with tarfile.open(self.at / "s.tar", "w:gz") as tar:
                tar.add(self.at / "sys", name.removeprefix("copy/"))
            self.expect(self.at / "s.tar")

    def test_links_and_sources_of_classes(self):
        """Folders in class/ that are no links to devices, and a supplier that only its consumer tells."""
        self.write("sys/class/wakeup/wakeup7/name", "lid\n")
        (self.at / "sys/class/wakeup/wakeup3").symlink_to("../../devices/pci0/nic/wakeup/wakeup3")
        self.write("sys/class/devlink/x--y/status", "active\n")
        for end, path in (("supplier", "system/cpu/cpu0"), ("consumer", "pci0/phy10")):
            (self.at / "sys/class/devlink/x--y" / end).symlink_to(f"../../../devices/{path}")
        (self.at / "sys/devices/pci0/phy10/supplier:net:eth0").symlink_to("../../virtual/devlink/net:eth0--pci:phy10")
        (self.at / "sys/devices/pci0/phy10/supplier:net:eth7").symlink_to("../../virtual/devlink/net:eth7--pci:phy10")
        (self.at / "sys/devices/pci0/nic/supplier:pci:phy9").symlink_to("../../virtual/devlink/a--b")
        with tarfile.open(self.at / "s.tar", "w") as tar:
            tar.add(self.at / "sys", "sys")
        for where in (self.at / "sys", self.at / "s.tar"):
            machine, _, told = self.make(where)
            self.assertEqual(machine["sources"], ["nic", "lid"])
            ends = [(link["supplier"], link["consumer"]) for link in machine["links"]]
            self.assertEqual(ends, [("phy9", "nic"), ("cpu0", "phy10"), ("eth0", "phy10")])
            self.assertIn("pci0/phy10/supplier:net:eth7: 0 devices have that name", told)

    def test_pm_async(self):
        self.write("sys/power/pm_async", "0\n")
        machine, _, told = self.make(self.at / "sys")
        self.assertEqual([device for device in machine["devices"] if "async" in device], [])
        self.assertIn("pm_async is 0", told)

    @unittest.skipUnless(os.geteuid() == 0, "gives up root's rights")
    def test_a_tree_without_permissions(self):
        os.chmod(self.at, 0o755)
        for path, mode in (("devices/pci0/nic", 0o700), ("devices/pci0/nic/power/async", 0o600)):
            os.chmod(self.at / "sys" / path, mode)
            os.seteuid(65534)
            try:
                with self.assertRaisesRegex(CannotError, f"sys/{path}: Permission denied"):
                    tree.read_machine(str(self.at / "sys"))
            finally:
                os.seteuid(0)
            os.chmod(self.at / "sys" / path, 0o755)


class Refusals(Scratch):
    def test_cut_traces(self):
        lines = (SAMPLES / "noirq-fails.trace").read_text().splitlines(keepends=True)
        cut = lambda text: ("--trace", self.write("cut.trace", text))
        self.refuse("cut.trace:30: the trace ends inside its only attempt: the callback of line 30", *cut("".join(lines[:30])))
        self.refuse("cut.trace:49: the trace ends inside its only attempt: dpm_suspend_late of line 43 has no end", *cut("".join(lines[:49])))
        self.refuse("cut.trace:1: the trace begins inside an attempt", *cut("".join(lines[8:])))
        self.refuse("cut.trace:3: no line of a trace: 'hello'", *cut("".join(lines[:2]) + "hello\n"))
        self.refuse("cut.trace:3: the trace has lost events", *cut("".join(lines[:2]) + "CPU:1 [LOST 12 EVENTS]\n"))
        self.refuse("cut.trace: is empty", *cut(""))

    def test_each_cut(self):
        """Cut behind any line from the freeze to the end of complete a trace is refused, by its last line."""
        lines = (SAMPLES / "noirq-fails.trace").read_text().splitlines(keepends=True)
        for count in range(4, 132):
            self.refuse(f"cut.trace:{count}: the trace ends inside its only attempt", "--trace", self.write("cut.trace", "".join(lines[:count])))

    def test_no_trees(self):
        self.refuse("No such file or directory", self.at / "nothing")
        self.refuse("no folder 'devices', so this is no /sys", self.at)
        self.refuse("l:2: no folder of a device: 'x'", self.write("l", "/sys/devices/a\nx\n"))
        self.refuse("l: is empty", self.write("l", ""))
        self.refuse("no device d9", "--branch", "d9", SAMPLES / "s3.devices")
        self.refuse("2 devices are named PNP0103:00: give the path", "--branch", "PNP0103:00", SAMPLES / "s3.devices")
        self.refuse("l:1: no link", "--links", self.write("l", "a b c\n"), SAMPLES / "s3.devices")
        many = self.write("many", "".join(f"/sys/devices/d{number}\n" for number in range(1001)))
        self.refuse("1001 devices, of which a machine file has at most 1000: ask for a branch", many)
        self.refuse("give one of them", "--devices", many, SAMPLES / "s3.devices")
        self.refuse("wants SYS", "--links", SAMPLES / "s3.links")

    def test_the_writer_of_a_tree(self):
        machine, _, _ = self.make("--writer", "--links", SAMPLES / "s3.links", SAMPLES / "s3.devices")
        self.assertEqual(sum("async" in device for device in machine["devices"]), 9)
        self.assertIn("over 1 0", self.run_of(machine))


if __name__ == "__main__":
    unittest.main()
