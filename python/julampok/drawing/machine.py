"""What a picture needs of a machine: its devices in their order, and what hangs below and above each."""

import bisect

from ..json_text import NoJson, read_json
from .reading import Refused

DEVICE_FIELDS = ("device", "supplier", "consumer")


class NoMachine(Exception):
    """The bytes are no machine file; `line` is that of what cannot be read, if one is to blame."""

    def __init__(self, why, line=None):
        super().__init__(why)
        self.line = line


class Devices:
    """Devices in their order, as links come in and change.

    Without a machine file nothing is known of parents, and of links only what the log tells.
    """

    def __init__(self, names):
        self.order, self.known = list(names), False
        self.depth = dict.fromkeys(self.order, 0)
        self.parents = {}
        self.hung = {d: [] for d in self.order}  # Children, then consumers, those of dormant links among them.
        self.below = {d: [] for d in self.order}  # For these, and for those above, a device waits.
        self.above = {d: [] for d in self.order}
        self.active = set()
        self.about = dict.fromkeys(self.order, "")
        self.orders, self.moves = [], []  # The orders that were, and the entries that ended each.

    def tail(self, device):
        """The device and all that hang below it, each at the last of its places: children first, then consumers."""
        found, entered, stack = [], {device}, [(device, reversed(self.hung[device]))]
        while stack:
            name, rest = stack[-1]
            below = next((below for below in rest if below not in entered), None)
            if below is None:
                stack.pop()
                found.append(name)
            else:
                entered.add(below)
                stack.append((below, reversed(self.hung[below])))
        return found[::-1]

    def child(self, parent, device):
        self.hung[parent].append(device)
        self.below[parent].append(device)
        self.above[device].append(parent)
        self.depth[device] = self.depth[parent] + 1
        self.parents[device] = parent

    def link(self, supplier, consumer, is_active=True):
        self.hung[supplier].append(consumer)
        self.set_active(supplier, consumer, is_active)
        tail = self.tail(consumer)
        moved = set(tail)
        self.order = [device for device in self.order if device not in moved] + tail

    def set_active(self, supplier, consumer, is_active):
        """Notes that a link is active, or dormant."""
        link = supplier, consumer
        if is_active and link not in self.active:
            self.active.add(link)
            self.below[supplier].append(consumer)
            self.above[consumer].append(supplier)
        elif not is_active and link in self.active:
            self.active.remove(link)
            self.below[supplier].remove(consumer)
            self.above[consumer].remove(supplier)

    def see(self, place, entry):
        """Follows the links that tasks add and change. Devices known by the log alone stay where prepare took them."""
        if entry["supplier"] is None or entry["answer"] != "0":
            return
        supplier, consumer = entry["supplier"], entry["consumer"]
        if entry.kind == "link":
            self.about[consumer] += f"; needs {supplier} from line {entry.line} on"
        if entry.kind == "link" and self.known:
            self.orders.append(self.order)
            self.moves.append(place)
            self.link(supplier, consumer)
        else:
            self.set_active(supplier, consumer, entry.kind != "link_dormant")

    def order_at(self, place):
        """The order in which an entry finds the devices."""
        at = bisect.bisect_left(self.moves, place)
        return self.orders[at] if at < len(self.orders) else self.order


def devices_of(tree):
    """The devices of a machine: registered in the file's order, then moved by each link."""
    given = tree.get("devices", [])
    devices = Devices(device["name"] for device in given)
    devices.known = True
    for device in given:
        name, parent = device["name"], device.get("parent")
        if parent is not None:
            devices.child(parent, name)
            devices.about[name] = f"; child of {parent}"
        devices.about[name] += "; asynchronous" if device.get("async") else ""
        devices.about[name] += "; may wake the machine" if device.get("wakeup") else ""
    for link in tree.get("links", []):
        supplier, consumer, is_active = link["supplier"], link["consumer"], link.get("state") != "dormant"
        devices.link(supplier, consumer, is_active)
        devices.about[consumer] += f"; needs {supplier}" + (", dormant at first" if not is_active else "")
    return devices


def devices_seen(log):
    """The devices of a log alone: prepare goes through them in their order."""
    seen = {entry["device"]: None for entry in log.entries if entry.kind == "prepare"}
    for entry in log.entries:
        seen |= {entry[field]: None for field in DEVICE_FIELDS if entry[field]}
    return Devices(seen)


def refuse_others(tree, log):
    """Refuses a log with names that the machine has not."""
    labels = {("irq:" if actor["kind"] == "irq" else "task:") + actor["name"] for actor in tree.get("actors", [])}
    names = dict.fromkeys(DEVICE_FIELDS, {device["name"] for device in tree.get("devices", [])})
    names["source"] = {*tree.get("sources", []), "autosleep"}
    for entry in log.entries:
        if entry.actor.startswith(("task:", "irq:")) and entry.actor not in labels:
            raise Refused(entry.line, f"the machine has no {entry.actor}")
        for field, known in names.items():
            if entry[field] is not None and entry[field] not in known:
                raise Refused(entry.line, f"the machine has no {field} {entry[field]}")
    refuse_cut(labels, log)


def refuse_cut(labels, log):
    """Refuses a log that lacks the end of a script."""
    over = {entry.actor for entry in log.entries if entry.kind == "exit"} | set(log.stuck)
    if missing := labels - over:
        lines = len(log.entries) + len(log.sources) + len(log.stuck) + log.finished
        raise Refused(lines + 1, f"the log is cut off: it has no end of {min(missing)}")


def read_machine(data, log):
    """The devices of the machine file, of which the log has to be."""
    try:
        tree = read_json(data if isinstance(data, bytes) else data.encode())
        devices = devices_of(tree)
        refuse_others(tree, log)
    except NoJson as refused:
        raise NoMachine(f"this is no machine file: column {refused.column}: {refused.why}", refused.line) from None
    except (ValueError, KeyError, TypeError, AttributeError, RecursionError):
        raise NoMachine("this is no machine file") from None
    return devices
