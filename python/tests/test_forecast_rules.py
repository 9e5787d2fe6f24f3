"""The rules of a forecast, by cases worked by hand and by a second writing of a phase as the kernel runs it."""

import random
import unittest

import command_tests  # noqa: F401 (puts the package on the path)

from julampok.forecast.plan import CycleError, Plan, PlanLink, order_after
from julampok.forecast.simulate import longest, simulate


def plan_of(parents, asynchronous=(), links=(), silent=(), order=None):
    """A plan of devices that are numbers; links are pairs of supplier and consumer, or three with True for dormant."""
    links = tuple(PlanLink(*link) for link in links)
    order = tuple(range(len(parents))) if order is None else tuple(order)
    return Plan(tuple(map(str, range(len(parents)))), tuple(parents), links, order, frozenset(asynchronous), frozenset(silent))


class Worked(unittest.TestCase):
    """Small machines."""

    def test_synchronous_ones_come_one_after_the_other(self):
        timing = simulate(plan_of([None, None, None]), True, [1, 2, 4])
        self.assertEqual((timing.begin, timing.total), ([6, 4, 0], 7))

    def test_asynchronous_one_runs_beside(self):
        timing = simulate(plan_of([None, None, None], [1]), True, [1, 9, 4])
        self.assertEqual((timing.begin, timing.total), ([4, 4, 0], 13))

    def test_parent_waits_for_its_child(self):
        timing = simulate(plan_of([None, 0], [0, 1]), True, [1, 9])
        self.assertEqual(timing.begin, [9, 0])

    def test_silent_one_makes_the_walk_wait(self):
        plan = plan_of([None, None, 1, None], [2], silent=[])
        timing = simulate(plan, True, [5, 0, 9, 2])
        self.assertEqual(timing.begin, [11, 11, 2, 0])

    def test_silent_one_above_a_device_waits_on_the_way_up(self):
        plan = plan_of([None, 0, 1, None], [0], silent=[1])
        self.assertEqual(simulate(plan, False, [9, 0, 1, 2]).begin, [0, 9, 9, 10])

    def test_one_that_is_left_alone_does_not_wait_on_the_way_up(self):
        plan = plan_of([None, 0, None], [0], silent=[1])
        self.assertEqual(simulate(plan, False, [9, 0, 2]).begin, [0, 0, 0])
        self.assertEqual(simulate(plan, True, [9, 0, 2]).begin, [2, 2, 0])

    def test_dormant_link_keeps_nobody_waiting(self):
        plan = plan_of([None, None], [0, 1], [(0, 1, True)])
        self.assertEqual(simulate(plan, True, [1, 9]).begin, [0, 0])

    def test_two_passes_on_the_way_up(self):
        plan = plan_of([None, None], [1])
        self.assertEqual(simulate(plan, False, [5, 9]).total, 14)
        self.assertEqual(simulate(plan, False, [5, 9], all_first=True).total, 9)

    def test_asynchronous_child_waits_for_a_parent_in_the_walk(self):
        plan = plan_of([None, None, 1], [2])
        self.assertEqual(simulate(plan, False, [5, 3, 9], all_first=True).begin, [0, 5, 8])

    def test_longest_path(self):
        plan = plan_of([None, 0, None], [1])
        self.assertEqual(longest(simulate(plan, True, [1, 9, 4])), [2, 1, 0])

    def test_link_moves_all_that_hangs_below(self):
        plan = plan_of([None, None, 1, None, None], links=[(1, 3)])
        self.assertEqual(plan.order, (0, 1, 2, 3, 4))
        self.assertEqual(plan.with_link(4, 1).order, (0, 4, 1, 2, 3))
        self.assertEqual(plan.with_link(4, 1).with_link(4, 1).order, (0, 4, 1, 2, 3))

    def test_device_that_is_moved_twice_stands_at_its_last_move(self):
        plan = plan_of([None, None, 1, 1], links=[(3, 2)])
        self.assertEqual(plan.with_link(0, 1).order, (0, 1, 3, 2))

    def test_list_of_a_machine(self):
        self.assertEqual(order_after([None, None, 0, None], [PlanLink(3, 0)]), [1, 3, 0, 2])

    def test_cycles(self):
        plan = plan_of([None, 0, 1])
        for supplier, consumer, path in ((2, 0, [0, 1, 2]), (1, 1, [1])):
            with self.assertRaises(CycleError) as raised:
                plan.with_link(supplier, consumer)
            self.assertEqual(raised.exception.path, path)

    def test_dormant_link_closes_a_cycle(self):
        with self.assertRaises(CycleError):
            plan_of([None, None], links=[(0, 1, True)]).with_link(1, 0)


class Threads:
    """A phase as the kernel runs it: the attempt and workers, of which each waits for completions. An event a step."""

    def __init__(self, plan, is_down, durations, all_first):
        self.plan, self.durations = plan, durations
        self.needs = plan.below if is_down else plan.above
        self.alone = set() if is_down else plan.direct
        self.walk = list(reversed(plan.order)) if is_down else list(plan.order)
        self.all_first = all_first
        self.begun, self.ended = {}, {}

    def may(self, device, now):
        return device in self.alone or all(self.ended.get(other, now + 1) <= now for other, _ in self.needs[device])

    def run(self):
        now, given, left = 0, [], list(self.walk)
        if self.all_first:
            given = [device for device in left if device in self.plan.asynchronous]
            left = [device for device in left if device not in self.plan.asynchronous]
        inside = None
        while left or given or any(end > now for end in self.ended.values()):
            changed = True
            while changed:
                changed = False
                for device in [device for device in given if self.may(device, now)]:
                    given.remove(device)
                    self.start(device, now)
                    changed = True
                if inside is not None and self.ended[inside] <= now:
                    inside, changed = None, True
                if inside is None and left:
                    if left[0] in self.plan.asynchronous:
                        given.append(left.pop(0))
                        changed = True
                    elif self.may(left[0], now):
                        inside = left.pop(0)
                        self.start(inside, now)
                        changed = True
            later = [end for end in self.ended.values() if end > now]
            if not later:
                break
            now = min(later)
        return self.begun, now

    def start(self, device, now):
        self.begun[device], self.ended[device] = now, now + self.durations[device]


class Random(unittest.TestCase):
    """Random machines, by both writings."""

    def plan(self, dice):
        count = dice.randint(1, 12)
        parents = [dice.choice([None, *range(device)]) for device in range(count)]
        plan = plan_of(parents, [device for device in range(count) if dice.random() < 0.5], silent=[d for d in range(count) if dice.random() < 0.3])
        for _ in range(dice.randint(0, 4) if count > 1 else 0):
            try:
                plan = plan.with_link(*dice.sample(range(count), 2))
            except CycleError:
                continue
        return plan

    def test_same_times(self):
        for seed in range(600):
            dice = random.Random(seed)
            plan = self.plan(dice)
            durations = [0 if device in plan.silent else dice.randint(0, 9) for device in range(len(plan.names))]
            is_down, all_first = dice.choice([(True, False), (False, False), (False, True)])
            ours = simulate(plan, is_down, durations, all_first=all_first)
            begun, total = Threads(plan, is_down, durations, all_first).run()
            with self.subTest(seed=seed):
                self.assertEqual(ours.begin, [begun[device] for device in range(len(plan.names))])
                self.assertEqual(ours.total, total)

    def test_parents_and_suppliers_come_first_in_the_list(self):
        for seed in range(300):
            plan = self.plan(random.Random(seed))
            for device in plan.order:
                with self.subTest(seed=seed, device=device):
                    self.assertTrue(all(plan.places[above] < plan.places[device] for above in plan.superiors(device)))


if __name__ == "__main__":
    unittest.main()
