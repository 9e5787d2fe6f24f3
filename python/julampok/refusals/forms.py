"""The form of each member of a machine file: what it has to be, in words, with the test of it."""

import dataclasses
import itertools

from ..limits import ANSWERED, ERRORS, LONGEST_MS, MOST_CPUS, MOST_TIMES, WORD
from ..second.rules import CHANGES, LISTS, OPERATIONS, PHASES, is_list, number, report, short_text, text, truth, word
from .points import MOST, Point, cut, near_words, nearest, quoted, shown


@dataclasses.dataclass
class Form:
    """What a value has to be."""

    test: object
    says: str
    choices: tuple = ()


def one_of(*words):
    """The form of a text that is one of these."""
    return Form(word(*words), quoted(words), words)


def from_to(least, most):
    """The form of a whole number in a range."""
    return Form(number(least, most), f"a whole number from {least:,} to {most:,}")


TEXT, TRUTH, LIST = Form(text, "a text"), Form(truth, "true or false"), Form(is_list, "a list")
LENGTH = Form(short_text, "a text of at most 32 bytes")
STATUS, STATE, MS = one_of("active", "suspended"), one_of("active", "dormant"), from_to(0, LONGEST_MS)
RET = Form(lambda value: number(0, 1)(value) or word(*ERRORS)(value), f"0, 1, or the name of an error as {quoted(ANSWERED)}", tuple(ERRORS))
REPORTS = Form(lambda value: is_list(value) and all(map(report, value)), "a list of calls on sources")
ENDS = {"supplier": TEXT, "consumer": TEXT}
TOP = {"version": from_to(1, 2), "alarm_ms": from_to(1, LONGEST_MS), "cpus": from_to(1, MOST_CPUS), "auto_cycles": from_to(1, 1000)}
TOP |= dict.fromkeys(LISTS, LIST)
# Of each list what its elements are called, which members they must have, and which they may have.
ELEMENTS = {
    "devices": ("a device", {"name": TEXT}, {"parent": TEXT, "async": TRUTH, "wakeup": TRUTH, "runtime": STATUS}),
    "links": ("a link", ENDS, {"state": STATE}),
    "syscore": ("a step of the core", None, None),
    "notifiers": ("a notifier", {"name": TEXT}, {"priority": from_to(-1000, 1000)}),
    "sources": ("a source", None, None),
    "actors": ("an actor", {"name": TEXT, "kind": one_of("user", "kthread", "nofreeze", "irq")},
               {"repeat": from_to(1, 1000), "script": LIST}),
    "answers": ("an answer", {"what": one_of("device", "syscore", "notifier", "platform"), "name": TEXT},
                {"phase": one_of(*PHASES), "attempt": from_to(1, 1000), "ret": RET, "reports": REPORTS}),
}
CALL = one_of("awake", "relax", "event")
# Members of operations by their names; those that differ from one operation to the other are found by both.
OF_OPERATIONS = {
    "op": one_of(*OPERATIONS), "times": from_to(1, MOST_TIMES), "text": LENGTH, "if_saved": TRUTH, "count": from_to(0, WORD),
    "ms": from_to(1, LONGEST_MS), "mark": TEXT, "device": TEXT, "to": STATUS, "source": TEXT, "hard": TRUTH, **ENDS,
    ("event", "ms"): MS, ("link_state", "to"): STATE,
}


def operation_form(op):
    """The members that an operation must have, and those that it may have."""
    form = lambda member: OF_OPERATIONS.get((op, member)) or OF_OPERATIONS[member]
    required, optional, _ = OPERATIONS[op]
    return {member: form(member) for member in ("op", *required)}, {member: form(member) for member in (*optional, "times")}


def kind_of(value):
    """What sort of value it is."""
    if value is None or isinstance(value, bool):
        return shown(value)
    return {dict: "an object", list: "a list", str: "a text"}.get(type(value), "a number")


def object_points(value, required, optional, path, what):
    """Each thing that is wrong with an object: members that it has not, may not have, or that have another form."""
    if not isinstance(value, dict):
        return [Point(f"{what} has to be an object, and this is {kind_of(value)}", path)]
    known = required | optional
    unknown = itertools.islice((member for member in value if member not in known), MOST)
    found = [Point(f"{what} has no member '{cut(member)}'{near_words(member, known)}", (*path, member), True) for member in unknown]
    found += [Point(f"{what} lacks its member '{member}', {form.says}", path) for member, form in required.items() if member not in value]
    for member, form in known.items():
        if member in value and not form.test(value[member]):
            found += member_points(member, form, value[member], (*path, member))
    return found


def member_points(member, form, value, path):
    """What is wrong with a member's value."""
    if member == "reports" and isinstance(value, list):
        return [point for at, one in enumerate(value) if not report(one) for point in report_points(one, (*path, at))]
    is_near = form.choices and isinstance(value, str) and nearest(value, list(form.choices))
    near = near_words(value, form.choices) if is_near else ""
    return [Point(f"'{member}' has to be {form.says}, and is {shown(value)}{near}{why_no_number(form, value)}", path)]


def why_no_number(form, value):
    """What keeps a number from being a whole one."""
    if isinstance(value, float) and "whole number" in form.says:
        return ", which has a fraction, an exponent or a sign, or too many digits"
    if isinstance(value, str) and value.lstrip("-").isdigit() and "whole number" in form.says:
        return "; a number stands without quotes"
    if isinstance(value, str) and value in ("true", "false") and form is TRUTH:
        return "; it stands without quotes"
    return ""


def report_points(value, path):
    """What is wrong with a report."""
    members = {"call": CALL, "source": TEXT}
    optional = {"ms": MS, "hard": TRUTH} if isinstance(value, dict) and value.get("call") not in ("awake", "relax") else {}
    return object_points(value, members, optional, path, "a report")


def operation_points(value, version, path):
    """What is wrong with an operation."""
    if not isinstance(value, dict):
        return [Point(f"an operation has to be an object, and this is {kind_of(value)}", path)]
    op = value.get("op")
    if "op" not in value:
        return [Point("an operation lacks its member 'op', which says what is done", path)]
    if not isinstance(op, str) or op not in OPERATIONS:
        near = near_words(op, OPERATIONS) or f"; the operations are {quoted(OPERATIONS, 'and')}"
        return [Point(f"there is no operation {shown(op).removeprefix('the text ')}{near}", (*path, "op"))]
    if version == 1 and op in CHANGES:
        return [Point(f"'{op}' is an operation of files of version 2, and this file says version 1", (*path, "op"))]
    found = object_points(value, *operation_form(op), path, f"the operation '{op}'")
    mark = value.get("mark")
    if "mark" in value and isinstance(mark, str) and OPERATIONS[op][0].get("mark"):
        found += name_points(mark, (*path, "mark"))
    return found


LETTERS = "abcdefghijklmnopqrstuvwxyz0123456789_.-"


def name_points(name, path):
    """What keeps a text from being a name: its length, and the first letter that no name has."""
    if not name:
        return [Point("a name has at least one letter, and this one has none", path)]
    wrong = next((at for at, letter in enumerate(name) if letter not in LETTERS), None)
    if wrong is None:
        return [] if len(name) <= 32 else [Point(f"a name has at most 32 letters, and {name[:40]!r} has {len(name)}", path)]
    right = "".join(letter if letter in LETTERS else "-" for letter in name.lower())[:32]
    text = f"the letter {name[wrong]!r} stands in no name: small letters, digits, '_', '.' and '-' do"
    return [Point(f"{text}; '{right}' would be one", path, letter=wrong)]
