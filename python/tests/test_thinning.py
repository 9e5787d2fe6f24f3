"""Tests of what is left out of a machine with too many devices: the waits between those that stay are the same."""

import pathlib
import random
import sys
import unittest

sys.path.insert(0, str(pathlib.Path(__file__).resolve().parents[1]))

import recordings
from julampok.errors import CannotError
from julampok.kernel.reading import read_inputs
from julampok.kernel.recording import Device, Link
from julampok.kernel.thinning import must_stay, thin


def waits(devices, parents, links):
    """All pairs of devices of which the first has to be up before the second, over any number of others."""
    above = {device: set() for device in devices}
    for device in devices:
        if parents[device] is not None:
            above[device].add(parents[device])
    for link in links:
        if not link.is_dormant:
            above[link.consumer].add(link.supplier)
    found = set()
    for device in devices:
        todo, seen = [device], set()
        while todo:
            fresh = above[todo.pop()] - seen
            seen |= fresh
            todo += fresh
        found |= {(upper, device) for upper in seen}
    return found


class Thinning(unittest.TestCase):
    """Devices by hand and by chance."""

    def make(self, *parents):
        """Devices d0, d1 .. of which each has the number of its parent, or None."""
        devices = []
        for number, parent in enumerate(parents):
            devices.append(Device(f"d{number}", parent=None if parent is None else devices[parent]))
        return devices

    def keeps_waits(self, devices, links, stay, thinned):
        before = waits(devices, {device: device.parent for device in devices}, links)
        after = waits(thinned.devices, thinned.parents, thinned.links)
        kept = set(thinned.devices)
        self.assertEqual({pair for pair in before if kept.issuperset(pair)}, after)
        self.assertLessEqual(stay, kept)
        self.assertEqual([device for device in devices if device in kept], thinned.devices)
        self.assertEqual([device for device in devices if device not in kept], thinned.left_out)

    def test_few_are_left_alone(self):
        devices = self.make(None, 0, 1)
        links = [Link(devices[0], devices[2], True)]
        thinned = thin(devices, links, set(), 3)
        self.assertEqual((thinned.devices, thinned.links, thinned.left_out), (devices, links, []))

    def test_leaves_go_first(self):
        devices = self.make(None, 0, 1, 0, 3)
        thinned = thin(devices, [], {devices[2]}, 4)
        self.assertEqual(thinned.left_out, devices[3:])
        self.assertEqual(thinned.parents[devices[2]], devices[1])

    def test_between(self):
        """A controller, a host without callbacks, its disk, and a link from the host to a user of it."""
        ctl, host, disk, user = devices = self.make(None, 0, 1, None)
        thinned = thin(devices, [Link(host, user)], {ctl, disk, user}, 3)
        self.assertEqual(thinned.devices, [ctl, disk, user])
        self.assertEqual(thinned.parents, {ctl: None, disk: ctl, user: None})
        self.assertEqual([(link.supplier, link.consumer, link.file) for link in thinned.links], [(ctl, user, None)])
        self.assertEqual(thinned.through, {(ctl, disk): (host,), (ctl, user): (host,)})

    def test_a_chain_names_all_between(self):
        devices = self.make(None, 0, 1, 2, 3)
        thinned = thin(devices, [], {devices[0], devices[4]}, 2)
        self.assertEqual(thinned.parents[devices[4]], devices[0])
        self.assertEqual(thinned.through[devices[0], devices[4]], tuple(devices[1:4]))

    def test_dormant_links_carry_nothing(self):
        one, two, three = devices = self.make(None, None, None)
        thinned = thin(devices, [Link(one, two, True), Link(two, three)], {one, three}, 2)
        self.assertEqual((thinned.devices, thinned.links), ([one, three], []))

    def test_too_many_with_callbacks(self):
        devices = self.make(*[None] * 5)
        with self.assertRaises(CannotError) as caught:
            thin(devices, [], set(devices), 4)
        self.assertIn("5 devices have callbacks", str(caught.exception))

    def test_too_many_links(self):
        """Of a device without callbacks between a hundred suppliers and a hundred consumers no file can say the waits."""
        devices = [Device(f"d{number}") for number in range(203)]
        hub, extra = devices[0], devices[1:3]
        links = [Link(device, hub) for device in devices[3:103]] + [Link(hub, device) for device in devices[103:]]
        with self.assertRaises(CannotError) as caught:
            thin(devices, links, set(devices[3:]), 200)
        self.assertIn("links", str(caught.exception))
        self.assertEqual(thin(devices, links, set(devices[3:]), 201).left_out, extra)

    def test_by_chance(self):
        chance = random.Random(4)
        for number in range(150):
            size = chance.randrange(2, 40)
            devices = self.make(*(None if chance.random() < 0.2 or not place else chance.randrange(place) for place in range(size)))
            ends = [sorted(chance.sample(range(size), 2)) for _ in range(chance.randrange(size))]
            links = [Link(devices[one], devices[other], chance.random() < 0.2) for one, other in ends]
            stay = {device for device in devices if chance.random() < 0.4}
            most = chance.randrange(len(stay), size + 1)
            with self.subTest(number):
                thinned = thin(devices, links, stay, most)
                self.assertLessEqual(len(thinned.devices), max(most, len(stay)))
                self.keeps_waits(devices, links, stay, thinned)

    def test_recordings(self):
        """The waits between devices with callbacks are those of the whole list, where these alone are kept."""
        for name in ("order", "irq-suspend-async", "slow-async"):
            recording = read_inputs(**recordings.inputs(name))
            stay = must_stay(recording)
            thinned = thin(recording.devices, recording.links, stay, len(stay))
            with self.subTest(name):
                self.assertEqual(set(thinned.devices), stay)
                self.keeps_waits(recording.devices, recording.links, stay, thinned)

    def test_order_over_a_device_without_callbacks(self):
        """In `order` the port between controller and disk has no callbacks at all."""
        recording = read_inputs(**recordings.inputs("order"))
        stay = must_stay(recording)
        found = {device.name: device for device in recording.devices if device.name in ("ctl", "port", "disk")}
        thinned = thin(recording.devices, recording.links, stay, len(stay))
        self.assertNotIn(found["port"], stay)
        self.assertEqual(thinned.parents[found["disk"]], found["ctl"])
        self.assertEqual(thinned.through[found["ctl"], found["disk"]], (found["port"],))

    def test_many(self):
        """Twenty thousand devices take a moment, not minutes."""
        devices = self.make(None, *(number // 3 for number in range(20000)))
        stay = set(devices[::40])
        thinned = thin(devices, [], stay, 1000)
        self.assertLessEqual(len(thinned.devices), 1000)


if __name__ == "__main__":
    unittest.main()
