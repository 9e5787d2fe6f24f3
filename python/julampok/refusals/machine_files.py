"""Explains why a machine file is refused: what is wrong at the place, the nearest that exists, the path of a cycle."""

import collections
import re

from ..json_text import NoJson, decoded, read_json
from ..limits import ANSWERED, AUTO_CYCLES, MOST, MOST_INPUT, MOST_LINKS, MOST_OF_ONE, MOST_REPORTS, MOST_SEEN, MOST_STEPS
from ..second import rules
from .forms import ELEMENTS, TOP, Form, kind_of, member_points, name_points, object_points, operation_points
from .points import Point, arrows, Told, located, near_words, numbered, quoted, shown_line

RULES = {
    1: "The file is no JSON that the program reads.",
    2: "The file has to be one object, and has no members but those of a machine file.",
    3: "The file has a 'version', which is 1 or 2.",
    4: "Every member beside 'version' is a list, or a number in its range.",
    5: "Every element of a list has the members that it must have and no unknown ones, each of its type, range and words.",
    6: "No list is longer than a machine may have.",
    7: "A name has 1 to 32 small letters, digits, '_', '.' and '-'.",
    8: "No two devices have one name.",
    9: "A parent is a device that stands before its child in the list.",
    10: "The supplier and the consumer of a link are devices of the file.",
    11: "A link joins two different devices, and no link stands twice.",
    12: "No link closes a cycle with the parents and the links before it.",
    13: "No two steps of the core, and no two notifiers, have one name.",
    14: "No two sources have one name, and none is called 'autosleep', which is the kernel's own.",
    15: "No two actors have one name.",
    16: "Each operation is one of the file's version, with its own members in form.",
    17: "An operation is one that its actor's kind may make.",
    18: "Each source that an operation or a report names is one of the file.",
    19: "Each device that an operation names is one of the file.",
    20: "Each answer is of a thing that the file has, with a phase if and only if that is a device.",
    21: "What an answer returns is something that its thing may return.",
    22: "Only a device reports events, in a phase other than 'prepare', and at most 16 of them.",
    23: "No two answers are of the same thing, phase and attempt.",
    24: "All together is bounded: 200,000 steps, 10,000 reports, 4,000 links with those of scripts, and attempts times devices and 50.",
}
PLACE = re.compile(r"([a-z_]+)(?:\[(\d+)\])?")


THINGS = {"device": "device", "syscore": "step of the core", "notifier": "notifier", "platform": "step of the platform"}
ANYTHING = dict.fromkeys(rules.MEMBERS, Form(lambda value: True, "anything"))


class NoSuchPlace(Exception):
    """The file has no such place, or keeps the rule there."""


def path_of(place):
    """A place as the program names it, as 'actors[0].script[2]', as a path of members and numbers."""
    path = []
    for part in [] if place in ("top", "json") else place.split("."):
        found = PLACE.fullmatch(part)
        if found is None:
            raise NoSuchPlace(f"no place of a machine file: {place}")
        path += [found[1]] + ([int(found[2])] if found[2] else [])
    return tuple(path)


def first_broken(data):
    """The first rule that the bytes of a file break, with its place as the program names it; None where they break none."""
    try:
        return rules.first_broken(read_json(data))
    except NoJson:
        return 1, "json"


def explained(data):
    """Why the bytes of a file are refused; None where they are not."""
    if len(data) > MOST_INPUT:
        return Told(f"A machine file has at most {MOST_INPUT:,} bytes, and this one has {len(data):,}.", [])
    try:
        tree, text = read_json(data), decoded(data)
    except NoJson as wrong:
        return Told(f"Rule 1, at json. {RULES[1]}", [json_sentence(data, wrong)])
    broken = rules.first_broken(tree)
    if broken is None:
        return None
    rule, place = broken
    return Told(f"Rule {rule}, at {place}. {RULES[rule]}", located(text, points(tree, rule, place)))


def json_sentence(data, wrong):
    """What is wrong with JSON, and its line."""
    text = data.decode("utf-8", "replace")
    lines = text.split("\n")
    begin = sum(len(line) + 1 for line in lines[:wrong.line - 1]) + wrong.column - 1
    return wrong.line, wrong.column, wrong.why, shown_line(text, min(begin, len(text)), begin + 1) if text else []


def points(tree, rule, place):
    """What is wrong at a place of a file, which breaks that rule there."""
    return OF_RULE[rule](tree, path_of(place))


def value_at(tree, path):
    """The value that stands at a path."""
    for key in path:
        tree = tree[key]
    return tree


def named_at(member, at):
    """How a sentence names an element."""
    return f"{member}[{at}]"


def top_points(tree, path):
    """Rule 2: members that a machine file has not."""
    if not isinstance(tree, dict):
        return [Point(f"the file is {kind_of(tree)}, and has to be an object", ())]
    found = object_points({member: 0 for member in tree}, {}, ANYTHING, (), "a machine file")
    schema = "; an editor finds the schema by its settings"
    return [Point(point.text.split(";")[0] + schema, point.path, True) if point.path == ("$schema",) else point for point in found]


def member_at_top(tree, path):
    """Rules 3 and 4: a member that lacks, or has another form."""
    member = path[0]
    if member not in tree:
        return [Point(f"the file has no '{member}'; write \"version\": 1, or 2 for links that are dormant or that scripts change", ())]
    return member_points(member, TOP[member], tree[member], path)


def element_points(tree, path):
    """Rule 5: what keeps an element from its form."""
    member, value = path[0], value_at(tree, path)
    what, required, optional = ELEMENTS[member]
    if required is None:
        return [Point(f"{what} is a text, its name, and this is {kind_of(value)}", path)]
    if member == "answers" and isinstance(value, dict) and not isinstance(value.get("name"), str) and value.get("what") == "platform":
        return [*object_points(value, required, optional, path, what), Point("'name' of the platform is 'begin', 'prepare' or 'prepare_late'", path)]
    found = object_points(value, required, optional, path, what)
    if not found and member == "links":
        found = [Point("'state' is a member of links in files of version 2, and this file says version 1", (*path, "state"), True)]
    return found


def length_points(tree, path):
    """Rule 6: the first element too many."""
    member = path[0]
    most, count = MOST[member], len(tree[member])
    return [Point(f"'{member}' has {count:,} elements, and may have {most:,}; this is the first too many", (member, most))]


def misspelled(tree, path):
    """Rule 7: the letter that no name has."""
    value = value_at(tree, path)
    if isinstance(value, str):
        return name_points(value, path)
    return [point for member in ("name", "parent", "supplier", "consumer") if member in value
            for point in name_points(value[member], (*path, member))]


def name_of(item):
    """The name of an element, which may be the element itself."""
    return item if isinstance(item, str) else item["name"]


def same_name(tree, path):
    """Rules 8 and 13 to 15: who has the name already."""
    member, at = path
    name = name_of(tree[member][at])
    own = path if isinstance(tree[member][at], str) else (*path, "name")
    if member == "sources" and name == "autosleep":
        return [Point("'autosleep' is the source of the autosleep work, which is always there; another name is wanted", own)]
    first = next(place for place, item in enumerate(tree[member]) if name_of(item) == name)
    other = (member, first) if isinstance(tree[member][first], str) else (member, first, "name")
    return [Point(f"the name '{name}' is taken by {named_at(member, first)}", own), Point(f"{named_at(member, first)} has it", other)]


def parent_points(tree, path):
    """Rule 9: where the parent stands, or the nearest device."""
    at, devices = path[1], tree["devices"]
    parent, name = devices[at]["parent"], devices[at]["name"]
    later = next((place for place, device in enumerate(devices) if device["name"] == parent), None)
    own = (*path, "parent")
    if later is None:
        return [Point(f"no device has the name '{parent}'{near_words(parent, [device['name'] for device in devices if device['name'] != name])}", own)]
    if later == at:
        return [Point(f"'{name}' is said to be its own parent", own)]
    return [Point(f"the parent '{parent}' stands behind its child '{name}', at {named_at('devices', later)}", own),
            Point(f"'{parent}' has to stand before {named_at('devices', at)}", ("devices", later, "name"))]


def device_names(tree):
    """The names of all devices."""
    return [device["name"] for device in tree.get("devices", [])]


def end_points(tree, path):
    """Rule 10: which end is no device, and the nearest."""
    link, names = value_at(tree, path), device_names(tree)
    known = set(names)
    return [Point(f"the {end} '{link[end]}' is no device{near_words(link[end], names)}", (*path, end))
            for end in ("supplier", "consumer") if link[end] not in known]


def link_points(tree, path):
    """Rule 11: the link that stands already."""
    link = value_at(tree, path)
    if link["supplier"] == link["consumer"]:
        return [Point(f"the link joins '{link['supplier']}' with itself", path)]
    ends = lambda one: (one["supplier"], one["consumer"])
    first = next(place for place, one in enumerate(tree["links"]) if ends(one) == ends(link))
    return [Point(f"this link is {named_at('links', first)} again", path), Point("the first one", ("links", first))]


def cycle_points(tree, path):
    """The way from the consumer of a link down to its supplier, by parents and the links before it."""
    devices, links = tree["devices"], tree["links"]
    below = collections.defaultdict(list)
    for at, device in enumerate(devices):
        if "parent" in device:
            below[device["parent"]].append((device["name"], ("devices", at), "the parent"))
    for at, link in enumerate(links[:path[1]]):
        below[link["supplier"]].append((link["consumer"], ("links", at), "a supplier"))
    link = value_at(tree, path)
    steps = way(below, link["consumer"], link["supplier"])
    names = [link["supplier"], link["consumer"], *(step[1] for step in steps)]
    found = [Point(f"the link closes a cycle: {arrows(names)}; each has to go down after the next one", path)]
    for upper, lower, place, what in steps:
        found.append(Point(f"'{upper}' is {what} of '{lower}'", place))
    return found


def way(below, begin, end):
    """The shortest way down: (upper, lower, path of the file, what the upper is of the lower)."""
    came, todo = {begin: None}, collections.deque([begin])
    while todo and end not in came:
        upper = todo.popleft()
        for lower, place, what in below[upper]:
            if lower not in came:
                came[lower] = (upper, lower, place, what)
                todo.append(lower)
    steps, at = [], end
    while came.get(at):
        steps.append(came[at])
        at = came[at][0]
    return steps[::-1]


def operation_at(tree, path):
    """Rule 16: what keeps an operation from its form."""
    return operation_points(value_at(tree, path), tree["version"], path)


WHO = {"user": "only tasks of user space ('user')", "task": "only tasks, not interrupt lines ('irq')"}


def kind_points(tree, path):
    """Rule 17: which operations the kind of an actor may make."""
    step, actor = value_at(tree, path), tree["actors"][path[1]]
    may = [op for op in rules.OPERATIONS if rules.is_allowed(actor, {"op": op}) and (tree["version"] == 2 or op not in rules.CHANGES)]
    text = f"'{actor['name']}' is of the kind '{actor['kind']}', and {WHO[rules.OPERATIONS[step['op']][2]]} may {step['op']!r}"
    return [Point(f"{text}; its kind may {quoted(may)}", (*path, "op")), Point(f"the kind of '{actor['name']}'", ("actors", path[1], "kind"))]


def source_points(tree, path):
    """Rule 18: the source that is not there, and the nearest."""
    value, sources = value_at(tree, path), tree.get("sources", [])
    known = set(sources)
    if path[0] == "actors":
        places = [((*path, "source"), value["source"])]
    else:
        places = [((*path, "reports", at, "source"), one["source"]) for at, one in enumerate(value["reports"]) if one["source"] not in known]
    own = lambda name: "; no script calls the source of the autosleep work" if name == "autosleep" else near_words(name, sources)
    return [Point(f"the file has no source '{name}'{own(name)}", place) for place, name in places]


def device_points(tree, path):
    """Rule 19: the device that is not there, and the nearest."""
    value, names = value_at(tree, path), device_names(tree)
    known = set(names)
    return [Point(f"the file has no device '{value[end]}'{near_words(value[end], names)}", (*path, end))
            for end in ("device", "supplier", "consumer") if end in value and value[end] not in known]


def thing_points(tree, path):
    """Rule 20: the thing that is not there, and the nearest; or a phase too many or too few."""
    answer = value_at(tree, path)
    names = {"device": device_names(tree), "syscore": tree.get("syscore", []), "platform": rules.PLATFORM,
             "notifier": [one["name"] for one in tree.get("notifiers", [])]}[answer["what"]]
    found = []
    if answer["name"] not in names:
        found.append(Point(f"there is no {THINGS[answer['what']]} '{answer['name']}'{near_words(answer['name'], names)}", (*path, "name")))
    if answer["what"] == "device" and "phase" not in answer:
        found.append(Point(f"an answer of a device lacks its member 'phase', {quoted(rules.PHASES)}", path))
    if answer["what"] != "device" and "phase" in answer:
        found.append(Point(f"an answer of a {THINGS[answer['what']]} has no 'phase'; only devices have phases", (*path, "phase"), True))
    return found


def ret_points(tree, path):
    """Rule 21: what the thing may return."""
    answer = value_at(tree, path)
    is_prepare = answer.get("phase") == "prepare"
    may = [*(error for error in ANSWERED if error != "EAGAIN"), *([] if is_prepare else ["EAGAIN"])]
    where = "a device's prepare" if is_prepare else f"a {THINGS[answer['what']]}" + (f" in {answer['phase']}" if "phase" in answer else "")
    return [Point(f"{where} may return 0{', 1' if is_prepare else ''}, {quoted(may)}, and not {answer['ret']!r}", (*path, "ret"))]


def report_points(tree, path):
    """Rule 22: who may report, and how often."""
    answer = value_at(tree, path)
    count = len(answer["reports"])
    if answer["what"] != "device":
        text = f"a {THINGS[answer['what']]} reports no events; only a device's callback does"
    elif answer["phase"] == "prepare":
        text = "a callback reports no events in 'prepare'"
    else:
        return [Point(f"this callback has {numbered(count, 'report')}, and may have {MOST_OF_ONE}", (*path, "reports", MOST_OF_ONE))]
    return [Point(text, (*path, "reports"), True)]


def same_answer(tree, path):
    """Rule 23: the answer that stands already."""
    key = lambda answer: tuple(map(answer.get, ("what", "name", "phase", "attempt")))
    own = value_at(tree, path)
    first = next(place for place, answer in enumerate(tree["answers"]) if key(answer) == key(own))
    of = " ".join(str(part) for part in key(own)[:3] if part is not None)
    when = f"attempt {own['attempt']}" if "attempt" in own else "all attempts that have no answer of their own"
    return [Point(f"this is a second answer of {of} for {when}", path), Point(f"the first one, {named_at('answers', first)}", ("answers", first))]


def amount_points(tree, path):
    """Which bound the whole passes, and by what."""
    if path[0] == "answers":
        count = sum(len(answer.get("reports", [])) for answer in tree["answers"])
        return [Point(f"the answers have {numbered(count, 'report')} together, and may have {MOST_REPORTS:,}", path)]
    steps = lambda actor, *ops: actor.get("repeat", 1) * sum(one.get("times", 1) for one in actor.get("script", []) if one["op"] in ops)
    total = lambda *ops: sum(steps(actor, *ops) for actor in tree.get("actors", []))
    found, every, devices = [], total(*rules.OPERATIONS), len(tree.get("devices", []))
    if every > MOST_STEPS:
        found.append(Point(f"the scripts make {numbered(every, 'step')} together, repeats and times counted, and may make {MOST_STEPS:,}", path))
        at = max(range(len(tree["actors"])), key=lambda place: steps(tree["actors"][place], *rules.OPERATIONS))
        most = tree["actors"][at]
        found.append(Point(f"'{most['name']}' makes the most, {steps(most, *rules.OPERATIONS):,}", ("actors", at)))
    cycles = tree.get("auto_cycles", AUTO_CYCLES) if total("autosleep") else 0
    attempts = total("state") + cycles
    if attempts * (devices + 50) > MOST_SEEN:
        by = f"{total('state'):,} by 'state'" + (f" and {cycles:,} of autosleep ('auto_cycles')" if cycles else "")
        found.append(Point(f"{numbered(attempts, 'attempt')} may be begun, {by}; times {numbered(devices, 'device')} and 50 that is "
                           f"{attempts * (devices + 50):,}, and may be {MOST_SEEN:,}", path))
    links = len(tree.get("links", [])) + total("link")
    if links > MOST_LINKS:
        found.append(Point(f"{numbered(len(tree.get('links', [])), 'link')} of the file and {total('link'):,} of scripts are {links:,}, and may be {MOST_LINKS:,}", path))
    return found


OF_RULE = {
    2: top_points, 3: member_at_top, 4: member_at_top, 5: element_points, 6: length_points, 7: misspelled, 8: same_name,
    9: parent_points, 10: end_points, 11: link_points, 12: cycle_points, 13: same_name, 14: same_name, 15: same_name,
    16: operation_at, 17: kind_points, 18: source_points, 19: device_points, 20: thing_points, 21: ret_points,
    22: report_points, 23: same_answer, 24: amount_points,
}
