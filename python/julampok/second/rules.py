"""The rules of machine files, and how an accepted file's machine is written: a second writing of both."""

import collections
import json
import re

from ..limits import ALARM_MS, ANSWERED, AUTO_CYCLES, ERRORS, LONGEST_MS, MOST, MOST_CPUS, MOST_LINKS, MOST_OF_ONE, MOST_REPORTS
from ..limits import MOST_SEEN, MOST_STEPS, MOST_TIMES, WORD

MEMBERS = "version alarm_ms cpus auto_cycles devices links syscore notifiers sources actors answers".split()
LISTS = list(MOST)
RANGES = {"alarm_ms": (1, LONGEST_MS), "cpus": (1, MOST_CPUS), "auto_cycles": (1, 1000)}
NAME = re.compile(r"[a-z0-9_.\-]{1,32}\Z")
PHASES = "prepare suspend late noirq resume_noirq early resume".split()
PLATFORM = ["begin", "prepare", "prepare_late"]


# ---- the form of values


def number(least, most):
    return lambda value: type(value) is int and least <= value <= most


def word(*words):
    return lambda value: isinstance(value, str) and value in words


def text(value):
    return isinstance(value, str)


def short_text(value):
    return text(value) and len(value.encode()) <= 32


def truth(value):
    return isinstance(value, bool)


def name(value):
    return text(value) and bool(NAME.match(value))


def is_list(value):
    return isinstance(value, list)


def is_object(value, required, optional):
    """An object with the required members and no others than these, each in form."""
    return (
        isinstance(value, dict)
        and set(required) <= set(value) <= set(required) | set(optional)
        and all(test(value[member]) for member, test in (required | optional).items() if member in value)
    )


def report(value):
    plain = is_object(value, {"call": word("awake", "relax"), "source": text}, {})
    event = {"ms": number(0, LONGEST_MS), "hard": truth}
    return plain or is_object(value, {"call": word("event"), "source": text}, event)


def ret(value):
    return number(0, 1)(value) or word(*ERRORS)(value)


STATUS = word("active", "suspended")
STATE = word("active", "dormant")
DEVICE = {"parent": text, "async": truth, "wakeup": truth, "runtime": STATUS}
KIND = word("user", "kthread", "nofreeze", "irq")
THING = word("device", "syscore", "notifier", "platform")
ANSWER = {
    "phase": word(*PHASES),
    "attempt": number(1, 1000),
    "ret": ret,
    "reports": lambda value: is_list(value) and all(map(report, value)),
}
ENDS = {"supplier": text, "consumer": text}
ITEMS = {
    "devices": lambda value: is_object(value, {"name": text}, DEVICE),
    "links": lambda value: is_object(value, ENDS, {"state": STATE}),
    "syscore": text,
    "notifiers": lambda value: is_object(value, {"name": text}, {"priority": number(-1000, 1000)}),
    "sources": text,
    "actors": lambda value: is_object(value, {"name": text, "kind": KIND}, {"repeat": number(1, 1000), "script": is_list}),
    "answers": lambda value: is_object(value, {"what": THING, "name": text}, ANSWER),
}

# Each operation: what it must have, what it may have, and whether users alone, tasks or all make it.
OPERATIONS = {
    "read": ({}, {}, "user"),
    "save": ({}, {"count": number(0, WORD)}, "user"),
    "state": ({"text": short_text}, {"if_saved": truth}, "user"),
    "autosleep": ({"text": short_text}, {}, "user"),
    "sleep": ({"ms": number(1, LONGEST_MS)}, {}, "all"),
    "sleep_d": ({"ms": number(1, LONGEST_MS)}, {}, "task"),
    "freeze_point": ({}, {}, "task"),
    "post": ({"mark": name}, {}, "all"),
    "wait": ({"mark": name}, {}, "all"),
    "runtime": ({"device": text, "to": STATUS}, {}, "task"),
    "link": (ENDS, {}, "task"),
    "link_state": (ENDS | {"to": STATE}, {}, "task"),
    "awake": ({"source": text}, {}, "all"),
    "relax": ({"source": text}, {}, "all"),
    "event": ({"source": text}, {"ms": number(0, LONGEST_MS), "hard": truth}, "all"),
}


# What files of version 2 alone may have.
CHANGES = ["link", "link_state"]


def operation(value, version):
    if not isinstance(value, dict) or not word(*OPERATIONS)(value.get("op")):
        return False
    if version == 1 and value["op"] in CHANGES:
        return False
    required, optional, _ = OPERATIONS[value["op"]]
    return is_object(value, {"op": text} | required, {"times": number(1, MOST_TIMES)} | optional)


# ---- the rules


def at(member, place):
    return f"{member}[{place}]"


def first_not(member, items, test):
    """The place of the first item that does not pass."""
    return next((at(member, place) for place, item in enumerate(items) if not test(item)), None)


def first_again(member, keys, taken=()):
    """The place of the first key that is taken, or was there before."""
    seen = set(taken)
    for place, key in enumerate(keys):
        if key in seen:
            return at(member, place)
        seen.add(key)
    return None


def first_late_parent(devices):
    """The place of the first device whose parent does not stand before it."""
    seen = set()
    for place, device in enumerate(devices):
        if "parent" in device and device["parent"] not in seen:
            return at("devices", place)
        seen.add(device["name"])
    return None


def hanging(devices, links):
    """Of each device what hangs right below it, by parents and links."""
    below = {device["name"]: [] for device in devices}
    for device in devices:
        if "parent" in device:
            below[device["parent"]].append(device["name"])
    for link in links:
        below[link["supplier"]].append(link["consumer"])
    return below


def has_cycle(devices, links):
    """Whether somebody depends on itself, by parents and links."""
    below = hanging(devices, links)
    above = collections.Counter(one for those in below.values() for one in those)
    free, gone = [name for name in below if not above[name]], 0
    while free:
        gone += 1
        for one in below[free.pop()]:
            above[one] -= 1
            if not above[one]:
                free.append(one)
    return gone < len(below)


def first_in_cycle(devices, links):
    """The place of the first link that closes a cycle with those before it: found by halving, since later ones open none."""
    if not has_cycle(devices, links):
        return None
    good, bad = 0, len(links)  # So many links have no cycle, and so many have one.
    while bad - good > 1:
        middle = (good + bad) // 2
        good, bad = (good, middle) if has_cycle(devices, links[:middle]) else (middle, bad)
    return at("links", bad - 1)


def form_rules(file):
    yield 2, None if isinstance(file, dict) and set(file) <= set(MEMBERS) else "top"
    yield 3, None if number(1, 2)(file.get("version")) else "version"
    forms = {member: number(*RANGES[member]) if member in RANGES else is_list for member in MEMBERS[1:]}
    yield 4, next((member for member, test in forms.items() if member in file and not test(file[member])), None)
    lists = [(member, file.get(member, [])) for member in LISTS]
    too_new = lambda member, item: file["version"] == 1 and member == "links" and "state" in item
    in_form = lambda member: lambda item: ITEMS[member](item) and not too_new(member, item)
    places = (first_not(member, items, in_form(member)) for member, items in lists)
    yield 5, next(filter(None, places), None)
    yield 6, next((member for member, items in lists if len(items) > MOST[member]), None)
    named = ("name", "parent", "supplier", "consumer")
    names_of = lambda item: [item] if text(item) else [item[member] for member in named if member in item]
    places = (first_not(member, items, lambda item: all(map(name, names_of(item)))) for member, items in lists)
    yield 7, next(filter(None, places), None)


def thing_rules(file):
    devices, links = file.get("devices", []), file.get("links", [])
    names = {device["name"] for device in devices}
    yield 8, first_again("devices", [device["name"] for device in devices])
    yield 9, first_late_parent(devices)
    yield 10, first_not("links", links, lambda link: link["supplier"] in names and link["consumer"] in names)
    ends = [(link["supplier"], link["consumer"]) for link in links]
    yield 11, first_again("links", ends, {(name, name) for name in names})
    yield 12, first_in_cycle(devices, links)
    notifiers = [notifier["name"] for notifier in file.get("notifiers", [])]
    yield 13, first_again("syscore", file.get("syscore", [])) or first_again("notifiers", notifiers)
    yield 14, first_again("sources", file.get("sources", []), {"autosleep"})
    yield 15, first_again("actors", [actor["name"] for actor in file.get("actors", [])])


def operations_of(file):
    for number_of, actor in enumerate(file.get("actors", [])):
        for place, found in enumerate(actor.get("script", [])):
            yield f"actors[{number_of}].script[{place}]", actor, found


def is_allowed(actor, found):
    return OPERATIONS[found["op"]][2] in {"user": ("user", "task", "all"), "irq": ("all",)}.get(actor["kind"], ("task", "all"))


def script_rules(file):
    sources, devices = {None, *file.get("sources", [])}, {None, *(device["name"] for device in file.get("devices", []))}
    first = lambda test: next((place for place, actor, found in operations_of(file) if not test(actor, found)), None)
    yield 16, first(lambda actor, found: operation(found, file["version"]))
    yield 17, first(is_allowed)
    reports = lambda answer: all(found["source"] in sources for found in answer.get("reports", []))
    unknown = first(lambda actor, found: found.get("source") in sources)
    yield 18, unknown or first_not("answers", file.get("answers", []), reports)
    ends = ("device", "supplier", "consumer")
    yield 19, first(lambda actor, found: all(found.get(end) in devices for end in ends))


def answer_rules(file):
    answers = file.get("answers", [])
    names = lambda member: {item["name"] for item in file.get(member, [])}
    things = {"device": names("devices"), "syscore": set(file.get("syscore", [])), "notifier": names("notifiers"), "platform": PLATFORM}
    is_device = lambda answer: answer["what"] == "device"
    is_prepare = lambda answer: is_device(answer) and answer["phase"] == "prepare"
    there = lambda answer: answer["name"] in things[answer["what"]] and ("phase" in answer) == is_device(answer)
    yield 20, first_not("answers", answers, there)
    allowed = lambda answer: [0, 1, *set(ANSWERED) - {"EAGAIN"}] if is_prepare(answer) else [0, *ANSWERED]
    yield 21, first_not("answers", answers, lambda answer: answer.get("ret", 0) in allowed(answer))
    most = lambda answer: MOST_OF_ONE if is_device(answer) and not is_prepare(answer) else 0
    yield 22, first_not("answers", answers, lambda answer: len(answer.get("reports", [])) <= most(answer))
    yield 23, first_again("answers", [tuple(map(answer.get, ("what", "name", "phase", "attempt"))) for answer in answers])


def amount_rules(file):
    steps = lambda *ops: sum(
        actor.get("repeat", 1) * found.get("times", 1) for _, actor, found in operations_of(file) if found["op"] in ops
    )
    attempts = steps("state") + (file.get("auto_cycles", AUTO_CYCLES) if steps("autosleep") else 0)
    too_long = steps(*OPERATIONS) > MOST_STEPS or attempts * (len(file.get("devices", [])) + 50) > MOST_SEEN
    too_linked = len(file.get("links", [])) + steps("link") > MOST_LINKS
    reports = sum(len(answer.get("reports", [])) for answer in file.get("answers", []))
    yield 24, "actors" if too_long or too_linked else "answers" if reports > MOST_REPORTS else None


def first_broken(file):
    """The first rule that is broken, and its place; nothing where all hold."""
    for rules in (form_rules, thing_rules, script_rules, answer_rules, amount_rules):
        for rule, place in rules(file):
            if place is not None:
                return rule, place
    return None


# ---- how an accepted file's machine is written


def without(value, **defaults):
    return {member: found for member, found in value.items() if member not in defaults or found != defaults[member]}


def without_defaults(file):
    operations = lambda script: [
        without(found, times=1, if_saved=False, hard=False, **({"ms": 0} if found["op"] == "event" else {})) for found in script
    ]
    kept = {
        "devices": lambda item: without(item, wakeup=False, runtime="active", **{"async": False}),
        "links": lambda item: without(item, state="active"),
        "notifiers": lambda item: without(item, priority=0),
        "actors": lambda item: without(item | {"script": operations(item.get("script", []))}, repeat=1, script=[]),
        "answers": lambda item: without(
            item | {"reports": [without(found, ms=0, hard=False) for found in item.get("reports", [])]}, ret=0, reports=[]
        ),
    }
    parts = {member: [kept[member](item) for item in file[member]] for member in kept if member in file}
    empty = {member: [] for member in LISTS}
    return without(file | parts | {"version": 2}, alarm_ms=ALARM_MS, cpus=1, auto_cycles=AUTO_CYCLES, **empty)


def compact(value, sort_keys=False):
    return json.dumps(value, sort_keys=sort_keys, separators=(",", ":"))
