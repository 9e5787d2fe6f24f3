"""Whether a device is always down before another: cases worked by hand, and a search through all orders of small machines."""

import itertools
import json
import pathlib
import random
import tempfile
import unittest

from command_tests import EXAMPLES, julampok
from recordings import words
from test_forecast_rules import plan_of

from julampok.forecast import always, logs
from julampok.forecast.machines import first_down
from julampok.forecast.plan import CycleError
from julampok.kernel.recording import Phase
from julampok.second.follow import Follower


def order(name, *more):
    """What `order --json` says of a recording."""
    done = julampok("order", *words(name), *more, "--json")
    assert done.status in (0, 1), done.err
    return done.status, json.loads(done.out)


class Recordings(unittest.TestCase):
    """Devices of a real machine."""

    def test_path_through_a_device_without_callbacks(self):
        status, said = order("order", "disk", "ctl")
        self.assertEqual((status, said["by"]), (0, "parents and links"))
        self.assertEqual(said["path"], [{"device": "ctl", "is": None}, {"device": "port", "is": "child"}, {"device": "disk", "is": "child"}])

    def test_path_by_a_link(self):
        status, said = order("s3", "d6", "d7")
        self.assertEqual((status, said["path"]), (0, [{"device": "d7", "is": None}, {"device": "d6", "is": "consumer"}]))

    def test_by_the_list_alone(self):
        status, said = order("whatif-gpu-sync", "wlan", "gpu")
        self.assertEqual((status, said["by"], said["breaks_if_asynchronous"]), (0, "the list alone", ["wlan"]))
        self.assertEqual((said["link"]["supplier"], said["link"]["consumer"], said["link"]["moves"]), ("gpu", "wlan", ["wlan"]))

    def test_no(self):
        status, said = order("whatif-gpu-sync", "cam", "gpu")
        self.assertEqual((status, said["always"], said["reverse_always_by"]), (1, False, None))
        self.assertFalse(said["link"]["closes_cycle"])
        self.assertGreater(said["link"]["suspend_ms"], 0)

    def test_no_and_never(self):
        status, said = order("whatif-gpu-sync", "gpu", "panel")
        self.assertEqual((status, said["reverse_always_by"]), (1, "parents and links"))
        self.assertEqual(said["link"]["cycle"], ["gpu", "panel"])

    def test_luck(self):
        pairs = order("whatif-gpu-sync", "--luck")[1]["pairs"]
        self.assertIn({"first": "wlan", "second": "gpu", "breaks_if_asynchronous": ["wlan"]}, pairs)
        self.assertFalse([pair for pair in pairs if (pair["first"], pair["second"]) == ("panel", "gpu")])
        of_wlan = order("whatif-gpu-sync", "--luck", "wlan")[1]["pairs"]
        self.assertEqual(of_wlan, [pair for pair in pairs if "wlan" in (pair["first"], pair["second"])])

    def test_words(self):
        for more in ((), ("gpu",), ("gpu", "gpu"), ("gpu", "nobody"), ("a", "b", "c", "d")):
            with self.subTest(more):
                done = julampok("order", *words("whatif-gpu-sync"), *more)
                self.assertEqual((done.status, done.out, done.err.count("\n")), (2, "", 1))


class Machines(unittest.TestCase):
    """Machine files."""

    def test_log_of_the_machine_itself(self):
        machine = EXAMPLES / "order" / "async-links.json"
        names = [device["name"] for device in json.loads(machine.read_text())["devices"]]
        with tempfile.TemporaryDirectory() as folder:
            for number, (first, second) in enumerate(itertools.permutations(names, 2)):
                to = pathlib.Path(folder) / str(number)
                done = julampok("order", machine, first, second, "-o", to)
                with self.subTest(first=first, second=second):
                    if done.status == 2:
                        self.assertIn("always down before", done.err)
                        continue
                    log = (to / "machine.log").read_text()
                    self.assertEqual(first_down(log, first, second), second)
                    self.assertTrue(Follower(json.loads((to / "machine.json").read_text())).accepts(log))


class Search(unittest.TestCase):
    """Small random plans: the answer is yes exactly where no order of turns has the other first."""

    def plan(self, dice):
        count = dice.randint(2, 6)
        parents = [dice.choice([None, *range(device)]) for device in range(count)]
        plan = plan_of(parents, [device for device in range(count) if dice.random() < 0.5])
        for _ in range(dice.randint(0, 3)):
            try:
                plan = plan.with_link(*dice.sample(range(count), 2))
            except CycleError:
                continue
        return plan

    def overtaken(self, plan):
        """The pairs of which the second may begin before the first has ended, by a search through all states of the walk."""
        walk = list(reversed(plan.order))
        found, seen, todo = set(), set(), [(0, frozenset(), frozenset())]  # Place of the walk, begun, ended.
        while todo:
            state = todo.pop()
            if state in seen:
                continue
            seen.add(state)
            place, begun, ended = state
            given = {device for device in walk[:place] if device in plan.asynchronous}
            ready = lambda device: all(other in ended for other, _ in plan.below[device])
            may = {device for device in given - begun if ready(device)}
            is_idle = all(device in ended for device in walk[:place] if device not in plan.asynchronous)
            if place < len(walk) and is_idle:
                if walk[place] in plan.asynchronous:
                    todo.append((place + 1, begun, ended))
                elif ready(walk[place]):
                    may.add(walk[place])
            for device in may:
                found |= {(other, device) for other in walk if other not in ended and other != device}
                todo.append((place + (device not in plan.asynchronous), begun | {device}, ended))
            todo += [(place, begun, ended | {device}) for device in begun - ended]
        return found

    def test_all_orders(self):
        for seed in range(60):
            plan = self.plan(random.Random(seed))
            overtaken = self.overtaken(plan)
            for pair in itertools.permutations(range(len(plan.names)), 2):
                answer = always.ask(plan, *pair)
                with self.subTest(seed=seed, pair=pair):
                    self.assertEqual(answer.is_always, pair not in overtaken)
                    if not answer.is_always:
                        self.check_log(plan, *pair)
                    if answer.by is always.By.LIST:
                        self.check_breaks(plan, answer)

    def check_log(self, plan, first, second):
        names = logs.log_names(plan)
        log = logs.log_of(plan, names, {Phase.SUSPEND: always.other_order(plan, first)})
        self.assertEqual(first_down(log, names[first], names[second]), names[second])
        self.assertTrue(Follower(logs.machine_of(plan, names)).accepts(log))

    def check_breaks(self, plan, answer):
        for number in answer.holders:
            plan = plan.with_flag(number, True)
        self.assertFalse(always.ask(plan, answer.first, answer.second).is_always)


if __name__ == "__main__":
    unittest.main()
