"""The rules of a log, each by itself, held beside the second writing of a run."""

from .copies import broken_copies
from .follow import Follower
from .place import Entry
from .rules_kept import Kept


def first_broken(tree, lines):
    """The first line, from 0, that breaks a rule, and the rules that it breaks."""
    place = Kept(tree)
    for at, line in enumerate(lines):
        e = Entry(line)
        broken = place.breaks(e)
        if broken:
            return at, broken
        place.step(e)
    return None, []


def first_illegal(tree, lines):
    """The first line, from 0, that its actor does not make next."""
    run = Follower(tree)
    return next((at for at, line in enumerate(lines) if not run.allows(line)), None)


# ---- the rule that speaks of a field

# The least rule that a line may break where the word at that place is exchanged for another in form.
SPOKEN = {
    8: "read 4, save 4, save 5, state 4, saved 4, unsaved 4",
    7: "attempt 4, attempt 6, over 4",
    15: "over 5, done 5",
    17: "sleep 4, sleep_d 4, post 4, got 4, after 4, autosleep 5",
    11: "runtime 6",
    2: "link 6, link_state 7",
    14: "freeze 4, thaw 4, notify 6, platform 5, syscore 6",
    13: "froze 5, froze 6, froze 7, froze 8",
    9: "prepare 4, prepare 5, complete 4, schedule 4, schedule 5, end 6, done 4",
    10: "skip 6",
    18: "wake 4",
}
EITHER = {
    (11, 17): "runtime 4, runtime 5",
    (2, 17): "link 4, link 5, link_state 4, link_state 5, link_state 6",
    (8, 17): "autosleep 4",
    (13, 14): "froze 4",
    (12, 14): "notify 4, platform 4, cpu 4, cpu 5, irqs 4, syscore 4, syscore 5",
    (9, 17): "begin 4, begin 5, end 4, end 5, event 5, event 6",
    (10, 17): "skip 4, skip 5",
}
FIELDS = {field: {rule} for rule, fields in SPOKEN.items() for field in fields.split(", ")}
FIELDS |= {field: set(rules) for rules, fields in EITHER.items() for field in fields.split(", ")}


def may_break(line, copy):
    """The least rules that a line with one word changed may break, where the rules say which."""
    one, two = line.split(" "), copy.split(" ")
    if len(one) != len(two):
        return None
    at = next(place for place, (a, b) in enumerate(zip(one, two)) if a != b)
    if at < 2:
        return {18} if at == 0 and one[3] == "jump" else {4}
    return FIELDS.get(f"{one[3]} {at}")


# ---- all


class Trial:
    """What was tried so far, and what differed."""

    def __init__(self):
        self.lines = self.copies = self.fields = self.differ = 0

    def differs(self, said, lines):
        self.differ += 1
        if self.differ < 6:
            print(said)
            print("".join(f"  {line}\n" for line in lines), end="")

    def log(self, dice, tree, lines):
        """A log, and broken copies of it."""
        self.lines += len(lines)
        for how, at, copy in [("whole", 0, lines), *broken_copies(dice, tree, lines)]:
            self.copies += 1
            (line, broken), second = first_broken(tree, copy), first_illegal(tree, copy)
            if line != second:
                place = min(found for found in (line, second) if found is not None)
                said = f"{how} at {at}: the rules say {line} {broken}, the second writing {second}"
                self.differs(said, copy[max(0, place - 3) : place + 3])
            fields = may_break(lines[at], copy[at]) if how == "change" and line == at else None
            self.fields += fields is not None
            if fields is not None and broken[0] not in fields:
                self.differs(f"rule {broken[0]}, not one of {fields}", [lines[at], copy[at]])
