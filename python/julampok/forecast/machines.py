"""The plan of a machine file, and runs of it whose turns are chosen."""

from __future__ import annotations


from julampok.kernel.recording import Device
from julampok.program import read_machine_json, refusal
from julampok.second.rules import first_broken
from julampok.second.run import Run
from julampok.second.things import SourceFull

from .plan import Plan, PlanLink, order_after

MOST_CHOSEN = 250  # A run with chosen turns asks each device at each turn; larger machines are not run so.


def is_machine(data: bytes) -> bool:
    """Whether the bytes are meant as a machine file, not as a trace."""
    return data.lstrip()[:1] == b"{"


def read_machine(data: bytes, file: str) -> dict:
    """The machine of a file that keeps the rules of files. Raises CannotError."""
    tree = read_machine_json(data, file)
    if (broken := first_broken(tree)) is not None:
        raise refusal(f"machine: rule {broken[0]}: {broken[1]}", data, file)
    return tree


def plan_of(tree: dict) -> tuple[Plan, list[Device]]:
    """The plan of a machine as its first attempt finds it, and its devices."""
    given = tree.get("devices", [])
    numbers = {device["name"]: number for number, device in enumerate(given)}
    parents = tuple(numbers.get(device.get("parent")) for device in given)
    links = tuple(PlanLink(numbers[link["supplier"]], numbers[link["consumer"]], link.get("state") == "dormant") for link in tree.get("links", []))
    devices = [Device(device["name"], is_async=device.get("async", False), may_wake=device.get("wakeup", False)) for device in given]
    for device, parent in zip(devices, parents):
        device.parent = None if parent is None else devices[parent]
    flags = frozenset(number for number, device in enumerate(devices) if device.is_async)
    names = tuple(device.name for device in devices)
    return Plan(names, parents, links, tuple(order_after(parents, links)), flags, direct_candidates(tree, numbers)), devices


def direct_candidates(tree: dict, numbers: dict[str, int]) -> frozenset[int]:
    """The devices that the first attempt leaves alone if it does so with all below them."""
    asked = {}
    for answer in tree.get("answers", []):
        if (answer["what"], answer.get("phase")) == ("device", "prepare") and answer.get("attempt") in (None, 1):
            is_own = answer.get("attempt") == 1
            if is_own or answer["name"] not in asked:
                asked[answer["name"]] = answer.get("ret", 0)
    resting = {device["name"] for device in tree.get("devices", []) if device.get("runtime") == "suspended" and not device.get("wakeup")}
    return frozenset(numbers[name] for name, ret in asked.items() if ret == 1 and name in resting)


class Chosen(Run):
    """A machine under way in which some jobs take a turn only where no other has anything to do, the last of them last."""

    def __init__(self, tree: dict, last: list[str]):
        super().__init__(tree)
        labels = [task.label for task in self.tasks] + ["auto"] + [f"dev:{d}" for d in self.names if self.is_async(d)]
        labels += [f"timer:{source.name}" for source in self.sources]
        rank = {label: number for number, label in enumerate(last)}
        self.ranked = [job for _, job in sorted(zip(labels, self.jobs), key=lambda pair: rank.get(pair[0], -1))]

    def run(self):
        """The log's text, and whether it is stuck."""
        while True:
            while any(next(job) for job in self.ranked):
                pass
            pending = list(self.times())
            if self.is_over() or not pending:
                return self.end()
            self.time = min(pending)
            self.put("time", "jump")


def chosen_log(tree: dict, first: str, second: str) -> str | None:
    """A log of the machine in which the second is down before the first; None where none was found.

    The attempt's own actor and the first come last, so that all that may overtake the first does.
    """
    if len(tree.get("devices", [])) > MOST_CHOSEN:
        return None
    tasks = [f"task:{actor['name']}" for actor in tree.get("actors", []) if actor["kind"] == "user"]
    try:
        text, _ = Chosen(tree, [*tasks, "auto", f"dev:{first}"]).run()
    except SourceFull:
        return None
    return text if first_down(text, first, second) == second else None


def first_down(text: str, first: str, second: str) -> str | None:
    """Which of two devices ended its suspend before the other began, in the first attempt that has both; None for neither."""
    found: dict[str, int] = {}
    for line in text.splitlines():
        words = line.split(" ")[3:]
        if words[:2] in (["begin", "suspend"], ["end", "suspend"]) and words[2] in (first, second):
            found.setdefault(f"{words[0]} {words[2]}", len(found))
        if words[:2] == ["done", "suspend"]:
            if len(found) == 4:
                break
            found.clear()
    if len(found) < 4:
        return None
    pairs = ((first, second), (second, first))
    return next((one for one, other in pairs if found[f"end {one}"] < found[f"begin {other}"]), None)
