"""A machine as a run and the rules of a log ask of it: the event word, the order of devices, and what callbacks answer."""

from ..limits import VISIBLE

DOWN = {"suspend": "resume", "late": "early", "noirq": "resume_noirq"}  # Each phase on the way down, and its mirror.
UP = {up: down for down, up in DOWN.items()}
STEPS = ("start", "finish", "hard")  # Steps on the event word.
NOTES = ("awake", "relax", "event", "expire")  # Calls on a source.


class Machine:
    """Time, the event word, devices with their links as they stand now, and the answers of the attempt under way."""

    def __init__(self, tree):
        self.tree, self.attempts = tree, 0
        self.time = self.inpr = self.count = self.hard = 0
        self.set_devices(tree.get("devices", []), tree.get("links", []))
        self.answers = {(a["what"], a["name"], a.get("phase"), a.get("attempt")): a for a in tree.get("answers", [])}

    def entry(self, who, body):
        """The line of an entry that is made now."""
        return f"{self.time} {self.inpr}/{self.count}/{self.hard} {who} {body}"

    def position(self):
        """How many steps were made on the event word."""
        return self.inpr + 2 * self.count + self.hard

    def visible(self):
        """The count that a task sees."""
        return self.count % VISIBLE

    def answer(self, what, name, phase=None):
        """What the callback of a thing returns and reports in this attempt."""
        own = self.answers.get((what, name, phase, self.attempts))
        found = own or self.answers.get((what, name, phase, None)) or {}
        return str(found.get("ret", 0)), found.get("reports", [])

    # ---- devices and links

    def set_devices(self, devices, links):
        self.names = [d["name"] for d in devices]
        self.devices = {d["name"]: d for d in devices}
        self.order = list(self.names)
        self.offspring = {d: [] for d in self.names}
        for d in devices:
            if "parent" in d:
                self.offspring[d["parent"]].append(d["name"])
        self.links = {}  # Whether the link of a supplier and a consumer is active, the oldest first.
        self.consumers, self.suppliers = {}, {}  # Of each device, by links of any state, the oldest first.
        for link in links:
            self.add_link(link["supplier"], link["consumer"], link.get("state", "active") == "active")

    def add_link(self, supplier, consumer, active):
        self.links[supplier, consumer] = active
        self.consumers.setdefault(supplier, []).append(consumer)
        self.suppliers.setdefault(consumer, []).append(supplier)
        last = self.moved(consumer)
        moved = set(last)
        self.order = [d for d in self.order if d not in moved] + last

    def is_async(self, d):
        return self.devices[d].get("async", False)

    def children(self, d):
        return self.offspring[d]

    def below(self, d):
        """The devices that d waits for as it goes down: dormant links do not count."""
        consumers = self.consumers.get(d)
        return self.offspring[d] + [to for to in consumers if self.links[d, to]] if consumers else self.offspring[d]

    def above(self, d):
        """The devices that d waits for as it comes up."""
        parent = self.devices[d].get("parent")
        suppliers = [of for of in self.suppliers.get(d, ()) if self.links[of, d]]
        return suppliers if parent is None else [parent, *suppliers]

    def moved(self, d):
        """The device and all that hang below it, in the order that they have at the tail.

        Each goes there with its children first, then its consumers, and whoever goes more than once stands at its last move.
        So from the end each stands behind what was met last below it.
        """
        found, seen, todo = [], {d}, [(d, self.hanging(d))]
        while todo:
            device, left = todo[-1]
            below = next((one for one in left if one not in seen), None)
            if below is None:
                found.append(device)
                todo.pop()
            else:
                seen.add(below)
                todo.append((below, self.hanging(below)))
        return found[::-1]

    def hanging(self, d):
        """What hangs right below a device, by parents and links of any state, the last first."""
        return reversed(self.offspring[d] + self.consumers.get(d, []))
