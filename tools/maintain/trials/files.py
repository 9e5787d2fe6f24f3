"""Random machine files, most of them nearly right, and what a run of each has to write.

One value of a file is exchanged, one byte is changed, a member has its default or a value just beside it. What is accepted is
written down a second time in `julampok.second.rules`, and what a run is in `julampok.second.run`. Neither shares anything with
the program, its definitions or its libraries but the rules in docs/FORMATS.md and docs/BEHAVIOUR.md.
"""

import json

from julampok.second.maker import Maker
from julampok.second.rules import first_broken
from julampok.second.run import Run
from julampok.second.things import SourceFull
from maintain.trials.programs import answer

LABELS = {0: "finish", 3: "are refused", 6: "are stuck", 7: "fill a source"}

# ---- what is expected


def whole(text):
    """A whole number, or a float where no 64 bits hold it."""
    number = int(text)
    return number if text != "-0" and -(2**63) <= number < 2**64 else float(number)


def no_constant(_):
    """Refuses the words that Python reads as numbers beside JSON."""
    raise ValueError


def refused(rule, place):
    """The status, the output and what is said on standard error where a file breaks that rule first, and there."""
    return 3, b"", f"machine: rule {rule}: {place}\n".encode()


def expected(text):
    """The status, the output and what is said on standard error."""
    try:
        tree = json.loads(text.decode("utf-8"), parse_int=whole, parse_constant=no_constant)
    except (ValueError, RecursionError):
        return refused(1, "json")
    broken = first_broken(tree)
    if broken is not None:
        return refused(*broken)
    try:
        log, stuck = Run(tree).run()
    except SourceFull as full:
        return 7, b"", f"source full: {full}\n".encode()
    return (6 if stuck else 0), log.encode(), b""


# ---- random files

WRONG = [None, 0, 1, -1, 1.0, 1.5, True, False, "", [], {}, "x", [1], 2**64, "mem", "user"]
OPTIONAL = {"times": 1, "if_saved": False, "ms": 0, "hard": False}
# What no operation may have, or not this one, with the right values between.
BESIDE = {
    "op": ["event", "Event", "events", "read", "activate", "sleep", "post", None],
    "times": [1, 0, 2, -1, 1.0, True, None],
    "ms": [0, 1, -1, 0.0, False, "0", None],
    "hard": [False, True, 0, "false", None],
    "text": ["mem", "", "mem\n", None],
    "if_saved": [False, True],
    "to": ["active", "suspended", "dormant", "Active", None],
    "state": ["active", "dormant"],
    "count": [0],
    "name": ["lid"],
}
# Members of a machine at the ends of what they may be, and past them.
ENDS = [
    ("auto_cycles", 0), ("auto_cycles", 1), ("alarm_ms", 0), ("alarm_ms", 86_400_000), ("cpus", 64), ("cpus", 65),
    ("sources", ["a", "a"]), ("actors", []), ("actors", [{"name": "k", "kind": "irq"}]),
]
# Ways to fill a source, or nearly.
FILLING = [
    {"op": "event", "times": 20_000}, {"op": "event", "times": 19_999}, {"op": "event", "hard": True, "times": 15_000},
    {"op": "awake", "times": 60_000}, {"op": "relax", "times": 59_996}, {"op": "relax", "times": 59_997},
]
# Other spellings of a member. Some spell the same, since of equal members the last counts.
SPELLINGS = {
    b'"version": 2': [b'7, "version": 2', b"2.0", b"02", b"2e0", b"-2", b"2 ", b'2, "version": 7', b"1", b"3"],
    b'"ms": 0': [b'7, "ms": 0', b"0.0", b"00", b"0e0", b"-0", b"0 ", b'0, "ms": 7'],
    b'"hard": false': [b'true, "hard": false', b'false, "hard": true', b"False", b"fals"],
    b'"op": "event"': [b'"read", "op": "event"', b'"event", "op": "read"', b'"\\u0065vent"'],
}
NAMES = ["", "A", "a b", "é", "autosleep", "a/b", "\0", "z" * 32, "z" * 33]


class Files(Maker):
    """Random machine files."""

    DEVICES = [0, 1, 2, 3, 6, 12]

    def name(self):
        """A name, now and then one that is refused."""
        if self.often(0.01):
            return self.pick(NAMES)
        return "".join(self.pick("abcz09_.-") for _ in range(self.dice.randint(2, 5)))

    def machine_of_names(self):
        """A machine with names of its own; now and then one that fills a source."""
        tree = self.machine()
        if tree["sources"] and self.often(0.005):
            source = self.pick(tree["sources"])
            self.pick(tree["actors"]).setdefault("script", []).append(self.pick(FILLING) | {"source": source})
        shorts = [f"{letter}{number}" for letter in "adtns" for number in range(12)]
        return self.renamed(tree, {short: self.name() + short for short in shorts if self.often(0.5)})

    def renamed(self, value, names):
        """The same with other names."""
        if isinstance(value, list):
            return [self.renamed(item, names) for item in value]
        if isinstance(value, dict):
            return {member: self.renamed(item, names) for member, item in value.items()}
        return names.get(value, value) if isinstance(value, str) else value

    def mixed(self, value):
        """The same with the members of each object in some order."""
        if isinstance(value, list):
            return [self.mixed(item) for item in value]
        if not isinstance(value, dict):
            return value
        return {member: self.mixed(value[member]) for member in self.dice.sample(list(value), len(value))}

    def places(self, value):
        """Each place of a tree, as its holder and its key."""
        keys = list(value) if isinstance(value, dict) else range(len(value)) if isinstance(value, list) else []
        for key in keys:
            yield value, key
            yield from self.places(value[key])

    def spoil(self, tree):
        """Takes something out, or puts something else in its place, or something more beside it."""
        holder, key = self.pick(list(self.places(tree)))
        if self.often(0.3):
            del holder[key]
        elif self.often(0.5) or isinstance(holder, list):
            holder[key] = self.pick(WRONG)
        else:
            members = [self.name(), *"count text times repeat if_saved source ms hard reports async state to".split()]
            holder[self.pick(members)] = self.pick(WRONG)

    def spoil_bytes(self, text):
        """Changes, takes out or puts in one byte."""
        place = self.dice.randrange(len(text))
        byte = bytes([self.pick(b'{}[]",:0 \n-e.') if self.often(0.7) else self.dice.randrange(256)])
        return text[:place] + self.pick([b"", byte]) + text[place + self.pick([0, 1]):]

    def spell(self, text):
        """Spells one member in another way, wherever it stands."""
        member = self.pick([member for member in SPELLINGS if member in text] or list(SPELLINGS))
        name = member.split(b" ")[0]
        return text.replace(member, name + b" " + self.pick(SPELLINGS[member]))

    def text(self):
        """The bytes of a file."""
        tree = self.machine_of_names()
        if self.often(0.1):
            tree["version"] = 1
        script = self.pick(tree["actors"])["script"]
        if script and self.often(0.1):
            member = self.pick(list(BESIDE))
            self.pick(script)[member] = self.pick(BESIDE[member])
        if self.often(0.05):
            member, value = self.pick(ENDS)
            tree[member] = value
        if self.often(0.2):
            self.spoil(tree)
        if self.often(0.3):
            tree = self.mixed(tree)
        text = json.dumps(tree, ensure_ascii=self.often(0.5), indent=self.pick([None, 1])).encode()
        if self.often(0.08):
            text = self.spoil_bytes(text)
        if self.often(0.08):
            text = self.spell(text)
        return text


def texts(given):
    """The bytes of random machine files."""
    files = Files(given.seed)
    return (files.text() for _ in range(given.count))


def ran(text, given):
    """What the program does with a file."""
    return answer(given.program, ["run", "--workers", "1"], text)
