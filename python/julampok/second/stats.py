"""The statistics of a log and the longest chain of devices at its end: a second writing, from the log's text alone.

A chain is a list of devices, each right below the one before: its child, or its consumer by a link that is active at
the log's end. A device's level is the length of the longest chain that ends with it.
"""

from ..limits import MOST_LINKS

COUNTS = "success fail failed_freeze failed_prepare failed_suspend failed_suspend_late failed_suspend_noirq".split()
COUNTS += "failed_resume failed_resume_early failed_resume_noirq".split()
DOWN = {"prepare": "failed_prepare", "suspend": "failed_suspend"}
DOWN |= {"late": "failed_suspend_late", "noirq": "failed_suspend_noirq"}
UP = {"resume": "failed_resume", "early": "failed_resume_early", "resume_noirq": "failed_resume_noirq"}


class BadLinks(Exception):
    """The links at a log's end are too many, or close a cycle."""


def entries(log):
    """The words of each entry, without its time, the event word and its actor."""
    for line in log.splitlines():
        words = line.split(" ")
        if words[0].isdigit():
            yield words[3:]


def is_error(answer):
    return answer not in ("0", "1")


class Counts:
    """What a log counts of its attempts, and its last failures, the newest first."""

    def __init__(self, log):
        self.counts = dict.fromkeys(COUNTS, 0)
        self.devices, self.errors = [], []
        for verb, *rest in entries(log):
            self.note(verb, rest)

    def note(self, verb, rest):
        failed = bool(rest) and is_error(rest[-1])
        if verb == "over":
            self.counts["fail" if failed else "success"] += 1
            self.errors[:0] = rest[-1:] if failed else []
        elif verb == "froze":
            self.counts["failed_freeze"] += rest[1] != "0"
        elif verb == "done" and failed and rest[0] in DOWN:
            self.counts[DOWN[rest[0]]] += 1
        elif verb == "prepare" and failed:
            self.devices.insert(0, (rest[0], "prepare", rest[1]))
        elif verb == "end" and failed:
            self.devices.insert(0, (rest[1], rest[0], rest[2]))
            if rest[0] in UP:
                self.counts[UP[rest[0]]] += 1

    def lines(self):
        lines = [f"{name} {number}" for name, number in self.counts.items()]
        lines += [f"last_failed_dev {device} {phase} {error}" for device, phase, error in self.devices[:2]]
        return lines + [f"last_failed_errno {error}" for error in self.errors[:2]]


class Chains:
    """The devices and links at a log's end."""

    def __init__(self, tree, log):
        devices = tree.get("devices", [])
        self.names = [device["name"] for device in devices]
        self.parents = {device["name"]: device.get("parent") for device in devices}
        self.active = {}
        for link in tree.get("links", []):
            self.add(link["supplier"], link["consumer"], link.get("state", "active") == "active")
        states = {}
        for verb, *rest in entries(log):
            if verb == "link" and rest[2] == "0":
                self.add(rest[0], rest[1], True)
            elif verb == "link_state" and rest[3] == "0":
                states[rest[0], rest[1]] = rest[2] == "active"
        self.active |= {ends: active for ends, active in states.items() if ends in self.active}

    def add(self, supplier, consumer, active):
        """Adds a link that does not stand yet."""
        if len(self.active) >= MOST_LINKS:
            raise BadLinks("links")
        if (supplier, consumer) in self.active:
            return
        if self.depends(supplier, consumer):
            raise BadLinks("cycle")
        self.active[supplier, consumer] = active

    def depends(self, device, on):
        """Whether a device is another or depends on it, by parents and all links."""
        seen, left = set(), [device]
        while left:
            found = left.pop()
            if found == on:
                return True
            if found is not None and found not in seen:
                seen.add(found)
                left += [self.parents[found]] + [s for s, c in self.active if c == found]
        return False

    def above(self, device):
        """The devices right above one: its parent, and its suppliers by the links that are active."""
        suppliers = [s for (s, c), active in self.active.items() if c == device and active]
        return {name for name in [self.parents[device], *suppliers] if name is not None}

    def levels(self):
        """The level of each device."""
        above = {name: self.above(name) for name in self.names}
        levels = {}
        while len(levels) < len(self.names):
            ready = [name for name in self.names if name not in levels and above[name] <= set(levels)]
            levels |= {name: 1 + max((levels[other] for other in above[name]), default=0) for name in ready}
        return levels

    def longest(self, levels):
        """The longest chain; of several the one whose end, and then each one before, was registered first."""
        top = max(levels.values(), default=0)
        chain = [name for name in self.names if levels[name] == top][:1]
        while chain and levels[chain[0]] > 1:
            above = self.above(chain[0])
            chain.insert(0, next(x for x in self.names if x in above and levels[x] == levels[chain[0]] - 1))
        return chain

    def lines(self):
        levels = self.levels()
        chain = self.longest(levels)
        return [" ".join(["chain", str(len(chain)), *chain])] + [f"level {name} {levels[name]}" for name in self.names]


def stats(tree, log):
    """What is told of a machine's log: its counts, the last failures, the longest chain and all levels."""
    chains = Chains(tree, log)
    return "".join(f"{line}\n" for line in Counts(log).lines() + chains.lines())
