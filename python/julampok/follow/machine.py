"""The machine file of a recording that was followed, and the table of its names."""

from __future__ import annotations

from ..kernel.machine import written as text_of
from ..kernel.names import Row, write_table
from ..kernel.recording import Phase
from ..limits import MOST
from .attempt import CORE, REFUSER, TEST_STEP
from .follower import Follower
from .journal import AUTOSLEEP


def machine_of(follower: Follower) -> dict:
    """The machine file, as a tree of JSON."""
    kin, names = follower.kin, follower.names
    links = [as_link(names, link) for link in follower.links]
    is_new = any("state" in link for link in links) or any(follower.changes)
    direct = {key[1] for key, answer in follower.answers.items() if key[0] == "device" and key[2] == Phase.PREPARE and answer.get("ret") == 1}
    file = {"version": 2 if is_new else 1, "cpus": follower.cpus}
    if follower.planner.autos:
        file["auto_cycles"] = len(follower.planner.autos) + follower.idle_runs
    file["devices"] = [as_device(follower, number, name in direct) for number, name in enumerate(names)]
    file["links"] = links
    file["syscore"] = [TEST_STEP, CORE] if follower.has_test_step else [CORE]
    file["notifiers"] = [{"name": REFUSER}] if follower.has_refuser else []
    file["sources"] = [source.name for name, source in follower.journal.sources.items() if name != AUTOSLEEP]
    file["actors"] = [{"name": script.name, "kind": script.kind, "script": script.steps} for script in follower.journal.scripts]
    file["answers"] = answers_of(follower)
    return {member: value for member, value in file.items() if value != []}


def as_device(follower: Follower, number: int, is_direct: bool) -> dict:
    """A device of the file."""
    kin, device = follower.kin, follower.kin.devices[number]
    found = {"name": follower.names[number]}
    if kin.parents[number] is not None:
        found["parent"] = follower.names[kin.parents[number]]
    if kin.is_async[number]:
        found["async"] = True
    if device.may_wake:
        found["wakeup"] = True
    if device.is_suspended or is_direct:
        found["runtime"] = "suspended"
    return found


def as_link(names: list[str], link: dict) -> dict:
    """A link of the file."""
    found = {"supplier": names[link["supplier"]], "consumer": names[link["consumer"]]}
    return found | ({"state": "dormant"} if link["is_dormant"] else {})


def answers_of(follower: Follower) -> list[dict]:
    """The answers of the file. One that stands in most attempts is written once for all, and the others by their attempts."""
    numbers = [plan.number for plan in follower.plans]
    things: dict[tuple, dict[int, dict]] = {}
    for (what, name, phase, number), answer in follower.answers.items():
        things.setdefault((what, name, phase), {})[number] = answer
    found = []
    for (what, name, phase), by_number in things.items():
        head = {"what": what, "name": name} | ({"phase": phase.value} if phase else {})
        if phase == Phase.PREPARE and len(by_number) > len(numbers) / 2 and all(answer.get("ret") == 1 for answer in by_number.values()):
            found.append(head | {"ret": 1})
            found += [head | {"attempt": number, "ret": 0} for number in numbers if number not in by_number]
        else:
            found += [head | {"attempt": number} | answer for number, answer in by_number.items()]
    return found


def written(file: dict) -> bytes:
    """The bytes of a machine file."""
    return text_of(file).encode()


def table_of(follower: Follower) -> bytes:
    """The table of names: a row for each device and source, then errors and tasks that machine files spell otherwise."""
    kin = follower.kin
    rows = [Row(name, device.name, device.parent.name if device.parent else None, device.driver, device.path)
            for name, device in zip(follower.names, kin.devices)]
    sources = {name: source.name for name, source in follower.journal.sources.items() if name != AUTOSLEEP}
    text = write_table(rows, sources)
    for one in follower.foreign:
        text += f"# error {one.number} of {one.device.shown} in {one.phase} of attempt {one.attempt}, line {one.line} of the trace: written as EIO\n"
    for (kind, real), script in follower.planner.scripts.items():
        if script.name != real and not real.startswith("refuser "):
            text += f"# {'interrupt line of the source' if kind == 'irq' else 'task'} {real}: written as {script.name}\n"
    return text.encode("utf-8", "surrogateescape")


def fits(file: dict) -> str:
    """Why a machine file would be refused for its size; "" where it is not."""
    for member, most in MOST.items():
        if len(file.get(member, [])) > most:
            return f"{len(file[member])} {member}, and a machine file has at most {most}"
    return ""
