"""Random machine files that are accepted."""

import random

from ..limits import ANSWERED

KINDS = ["user", "user", "user", "kthread", "nofreeze", "irq", "irq"]
LENGTHS = [10, 20, 50, 100, 1000, 20000]  # Few, so that moments fall together.
CALLBACKS = ["suspend", "late", "noirq", "resume_noirq", "early", "resume"]
ONLY_USER = ["read", "save", "state", "autosleep"]
OF_DEVICES = ["runtime", "link", "link", "link_state"]
NOT_IRQ = ["sleep_d", "freeze_point", *OF_DEVICES]
CALLS = ["awake", "relax", "event"]
OPERATIONS = ["read", "save", "state", "state", "autosleep", "sleep", "sleep", "post", "post", "wait"]
OPERATIONS += NOT_IRQ + CALLS + ["event"]


class Maker:
    """Makes random machine files that are accepted."""

    DEVICES = [0, 0, 1, 2, 3, 4]  # How many devices a machine may have.

    def __init__(self, seed):
        self.dice = random.Random(seed)

    def often(self, chance):
        return self.dice.random() < chance

    def pick(self, among):
        return self.dice.choice(among)

    def maybe(self, chance, member, make):
        return {member: make()} if self.often(chance) else {}

    def device(self, number):
        given = {"name": f"d{number}"}
        if number and self.often(0.5):
            given["parent"] = f"d{self.dice.randrange(number)}"
        given |= self.maybe(0.5, "async", lambda: True) | self.maybe(0.15, "wakeup", lambda: True)
        return given | self.maybe(0.5, "runtime", lambda: "suspended")

    def links(self, devices):
        """Links that close no cycle with the parents and one another."""
        links = []
        for _ in range(self.pick([0, 0, 1, 2]) if len(devices) > 1 else 0):
            supplier, consumer = self.dice.sample([d["name"] for d in devices], 2)
            link = {"supplier": supplier, "consumer": consumer}
            depends = supplier in self.dependents(devices, links, consumer)
            links += [] if depends or link in links else [link]
        return [link | self.maybe(0.4, "state", lambda: "dormant") for link in links]

    @staticmethod
    def dependents(devices, links, device):
        """All that depend on a device."""
        found, left = set(), [device]
        while left:
            above = left.pop()
            below = {d["name"] for d in devices if d.get("parent") == above}
            below |= {link["consumer"] for link in links if link["supplier"] == above}
            left += below - found
            found |= below
        return found

    def call(self, source):
        call = self.pick(CALLS)
        event = {"ms": self.pick([0, 0, 10, 20, 50, 100]), "hard": self.often(0.2)} if call == "event" else {}
        return call, {"source": source, **event}

    def operation(self, kind, devices, sources):
        names = [name for name in OPERATIONS if kind == "user" or name not in ONLY_USER]
        names = [name for name in names if kind != "irq" or name not in NOT_IRQ]
        names = [name for name in names if (devices or name not in OF_DEVICES) and (sources or name not in CALLS)]
        name = self.pick(names)
        given = {"op": name} | self.maybe(0.1, "times", lambda: self.dice.randint(2, 4))
        if name in CALLS:
            call, members = self.call(self.pick(sources))
            return given | {"op": call} | members
        if name == "save":
            return given | self.maybe(0.3, "count", lambda: self.pick([0, 1, 2]))
        if name == "state":
            text = self.pick(["mem", "mem", "mem", "mem", "mem\n", "disk"])
            return given | {"text": text} | self.maybe(0.25, "if_saved", lambda: True)
        if name == "autosleep":
            return given | {"text": self.pick(["mem", "mem", "mem\nx", "off", "off\n", "on"])}
        if name in ("sleep", "sleep_d"):
            return given | {"ms": self.pick(LENGTHS)}
        if name in ("post", "wait"):
            return given | {"mark": self.pick("ab")}
        if name in ("link", "link_state"):
            ends = self.ends(name, [device["name"] for device in devices])
            return given | ends | ({"to": self.pick(["active", "dormant"])} if name == "link_state" else {})
        if name == "runtime":
            return given | {"device": self.pick(devices)["name"], "to": self.pick(["active", "suspended"])}
        return given

    def ends(self, name, devices):
        """The ends of a link that a step adds or sets: mostly two devices, and mostly of one of the file's."""
        if name == "link_state" and self.linked and self.often(0.6):
            link = self.pick(self.linked)
            return {"supplier": link["supplier"], "consumer": link["consumer"]}
        two = len(devices) > 1 and self.often(0.9)
        supplier, consumer = self.dice.sample(devices, 2) if two else (self.pick(devices), self.pick(devices))
        return {"supplier": supplier, "consumer": consumer}

    def script(self, number, devices, sources):
        """A script; the first one mostly writes a state, others mostly do something in the midst of that."""
        kind = self.pick(KINDS) if number else "user"
        steps = [self.operation(kind, devices, sources) for _ in range(self.dice.randint(1, 6))]
        if number == 0 and self.often(0.6):
            state = {"op": "state", "text": "mem"} | self.maybe(0.3, "if_saved", lambda: True)
            steps = [{"op": "read"}, {"op": "save"}, state, *steps[:2]]
        elif number and sources and self.often(0.5):
            call, members = self.call(self.pick(sources))
            wait = [{"op": "post", "mark": "c", "times": self.dice.randint(1, 30)}] if kind != "user" else []
            steps = [*wait, {"op": call, **members}, *steps[:2]]
        repeat = self.maybe(0.1, "repeat", lambda: 2)
        return {"name": f"a{number}", "kind": kind, "script": steps} | repeat

    def device_answers(self, device, sources):
        name = device["name"]
        if "runtime" in device and self.often(0.8):
            yield {"what": "device", "name": name, "phase": "prepare", "ret": 1}
        elif self.often(0.1):
            error = self.pick([error for error in ANSWERED if error != "EAGAIN"])
            yield {"what": "device", "name": name, "phase": "prepare", "ret": error, "attempt": 1}
        for phase in CALLBACKS:
            if self.often(0.1):
                given = {"what": "device", "name": name, "phase": phase}
                given |= self.maybe(0.6, "ret", lambda: self.pick(ANSWERED))
                if sources and self.often(0.6):
                    calls = [self.call(self.pick(sources)) for _ in range(self.dice.randint(1, 3))]
                    given["reports"] = [{"call": call, **members} for call, members in calls]
                yield given | self.maybe(0.4, "attempt", lambda: self.dice.randint(1, 2))

    def answers(self, tree):
        for device in tree.get("devices", []):
            yield from self.device_answers(device, tree.get("sources", []))
        things = [("syscore", name, 0.2) for name in tree.get("syscore", [])]
        things += [("notifier", x["name"], 0.2) for x in tree.get("notifiers", [])]
        things += [("platform", name, 0.06) for name in ("begin", "prepare", "prepare_late")]
        for what, name, chance in things:
            if self.often(chance):
                yield {"what": what, "name": name, "ret": self.pick(ANSWERED)} | self.maybe(0.4, "attempt", lambda: 1)

    def machine(self):
        tree = {"version": 2} | self.maybe(0.5, "alarm_ms", lambda: self.pick([10, 50, 100, 1000]))
        tree |= self.maybe(0.3, "cpus", lambda: self.dice.randint(2, 3))
        tree |= self.maybe(0.5, "auto_cycles", lambda: self.dice.randint(1, 3))
        devices = [self.device(number) for number in range(self.pick(self.DEVICES))]
        sources = ["s0", "s1"][: self.dice.randint(0, 2)]
        self.linked = self.links(devices)
        tree |= {"devices": devices, "links": self.linked, "sources": sources}
        tree |= self.maybe(0.25, "syscore", lambda: ["t1", "t2"][: self.dice.randint(1, 2)])
        priorities = [self.pick([0, 0, 5, -5]) for _ in range(self.pick([0, 0, 0, 1, 2, 3]))]
        tree["notifiers"] = [{"name": f"n{at}", "priority": priority} for at, priority in enumerate(priorities)]
        scripts = range(self.pick([1, 2, 2, 3, 3, 4]))
        tree["actors"] = [self.script(number, devices, sources) for number in scripts]
        tree["answers"] = list(self.answers(tree))
        return tree
