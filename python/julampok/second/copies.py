"""Logs that are broken at one place."""

import re


def entries_of(text):
    return [line for line in text.splitlines() if line[:1].isdigit()]


def renumbered(lines):
    """The lines with the times and the words of their places."""
    time = inpr = count = hard = 0
    for line in lines:
        at, _, rest = line.split(" ", 2)
        words = rest.split(" ")
        time = int(at) if words[1] == "jump" else time
        yield f"{time} {inpr}/{count}/{hard} {rest}"
        inpr += {"start": 1, "finish": -1}.get(words[1], 0)
        count += words[1] == "finish"
        hard += words[1] == "hard"


def changed(dice, line, others):
    """A line with one of its words exchanged for one that stands elsewhere, or for another number."""
    words = line.split(" ")
    at = dice.randrange(len(words))
    if words[at].isdigit() and dice.random() < 0.5:
        words[at] = str(max(0, int(words[at]) + dice.choice([-1, 1, 10])))
    elif at == 1:
        numbers = words[1].split("/")
        one = dice.randrange(3)
        numbers[one] = str(int(numbers[one]) + 1)
        words[1] = "/".join(numbers)
    else:
        words[at] = dice.choice([other.split(" ")[at] for other in others if len(other.split(" ")) > at])
    return " ".join(words)


# What an entry says, of whatever names.
FORM = re.compile(
    r"frozen|read (wait|EINTR|\d+)|save \d+ (wait|ok|EINTR|EBUSY|EINVAL)|state (wait|unsaved|EINTR|EBUSY|EINVAL)|"
    r"autosleep (EINVAL|set mem|set off|done)|sleep(_d)? \d+|slept|pass|post \w+|got \w+|exit|"
    r"runtime \w+ (active|suspended) (0|EACCES|EAGAIN)|link \w+ \w+ (0|EBUSY|EINVAL)|link_state \w+ \w+ (active|dormant) (0|EBUSY|ENODEV)|"
    r"(awake|relax|expire|start|finish|hard) \w+|event \w+ \d+ (soft|hard)|run|saved \d+|unsaved \d+|after (busy|\d+)|again|off|jump|"
    r"attempt \d+ (plain|guarded \d+)|over \d+ (0|E\w+)|notify \w+ (post|prepare (0|E\w+))|freeze (user|kernel)|"
    r"froze (user|kernel) (0|EBUSY (timeout|wakeup) \d+ \w+)|thaw (kernel|all)|platform (begin|prepare|prepare_late) (0|E\w+)|"
    r"platform (recover|wake|finish|end)|prepare \w+ (0|1|E\w+)|complete \w+|schedule @ \w+|begin @ \w+|end @ \w+ (0|E\w+)|"
    r"skip @ \w+ (error|pending|direct)|done (@|prepare|complete) (0|E\w+)|cpu (off|on|EBUSY) \d+|irqs (off|on)|syscore check (0|EBUSY)|"
    r"syscore suspend \w+ (0|E\w+)|syscore resume \w+|enter( EBUSY)?|wake (event|alarm)|clear".replace(
        "@", "(suspend|late|noirq|resume_noirq|early|resume)"
    )
)


def is_in_form(tree, line):
    """A line that the grammar has, of things that the machine has."""
    time, numbers, who, body = line.split(" ", 3)
    words = body.split(" ")
    if not re.fullmatch(r"\d+", time) or not FORM.fullmatch(body):
        return False
    sources, devices = [*tree["sources"], "autosleep"], [d["name"] for d in tree["devices"]]
    tasks = [("irq:" if a["kind"] == "irq" else "task:") + a["name"] for a in tree["actors"]]
    there = who in [*tasks, "auto", "time", *(f"dev:{d}" for d in devices), *(f"timer:{s}" for s in sources)]
    named = {"prepare": [words[1:2]], "complete": [words[1:2]], "runtime": [words[1:2]], "link": [words[1:2], words[2:3]]}
    named |= {"link_state": named["link"]} | dict.fromkeys(("schedule", "begin", "end", "skip"), [words[2:3]])
    there = there and all(name[0] in devices for name in named.get(words[0], []) if name)
    if words[0] in ("awake", "relax", "expire", "start", "finish", "hard", "event"):
        there = there and words[1] in sources
    if words[0] == "notify":
        there = there and words[1] in [x["name"] for x in tree["notifiers"]]
    if words[:2] in (["syscore", "suspend"], ["syscore", "resume"]):
        there = there and words[2] in tree.get("syscore", [])
    if words[0] in ("post", "got"):
        there = there and any(step.get("mark") == words[1] for a in tree["actors"] for step in a["script"])
    if words[0] == "cpu":
        there = there and int(words[2]) < 64
    return there


def broken_copies(dice, tree, lines):
    """Copies of a log that are broken at one place, each with what was done, and the place of a change."""
    for how in ("drop", "double", "move", "change", "change", "change", "change"):
        at, copy = dice.randrange(len(lines)), list(lines)
        if how == "drop":
            copy.pop(at)
        elif how == "double":
            copy.insert(at, lines[at])
        elif how == "move":
            copy.insert(dice.randrange(len(lines)), copy.pop(at))
        else:
            copy[at] = changed(dice, lines[at], lines)
            if copy[at] == lines[at] or not is_in_form(tree, copy[at]):
                continue
        if how != "change" and dice.random() < 0.7:
            copy = list(renumbered(copy))
        yield how, at, copy
