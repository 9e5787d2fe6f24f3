"""The grammar of a log's lines, of a machine's own names: a second writing from the table of entries.

A line is told to be one that some log of the machine may have somewhere, whoever its actor is; whether it may stand
where it stands is a matter of the rules.
"""

import re

from ..limits import ERRORS

WORD32, WORD64 = 1 << 32, 1 << 64
NUMBER = r"(?:0|[1-9]\d{0,19})"
ERROR = f"(?:{'|'.join(ERRORS)})"
ANSWER = f"(?:0|{ERROR})"
PHASE = "(?:prepare|suspend|late|noirq|resume_noirq|early|resume|complete)"
# What entries say: <n> is a number of 32 bits, <t> a time, <d> a device, <s> a source, <x> a notifier, <c> a step of the
# core, <m> a mark, <a> a script's name, <r> an answer, <e> an error, <p> a phase.
FORMS = """frozen|exit|pass|slept|run|again|off|jump|clear|enter|enter EBUSY|irqs off|irqs on
read wait|read EINTR|read <n>|save <n> wait|save <n> ok|save <n> <e>|state wait|state unsaved|state <e>
autosleep EINVAL|autosleep set mem|autosleep set off|autosleep done|sleep <t>|sleep_d <t>|post <m>|got <m>
runtime <d> active <r>|runtime <d> suspended <r>|link <d> <d> <r>|link_state <d> <d> active <r>|link_state <d> <d> dormant <r>
saved <n>|unsaved <n>|after busy|after <n>
awake <s>|relax <s>|expire <s>|start <s>|finish <s>|hard <s>|event <s> <n> soft|event <s> <n> hard
attempt <n> plain|attempt <n> guarded <n>|over <n> <r>|notify <x> post|notify <x> prepare <r>
freeze user|freeze kernel|froze user 0|froze kernel 0|thaw kernel|thaw all
froze user EBUSY timeout <n> <a>|froze user EBUSY wakeup <n> <a>|froze kernel EBUSY timeout <n> <a>|froze kernel EBUSY wakeup <n> <a>
platform begin <r>|platform prepare <r>|platform prepare_late <r>|platform recover|platform wake|platform finish|platform end
prepare <d> <r>|prepare <d> 1|complete <d>|schedule <p> <d>|begin <p> <d>|end <p> <d> <r>|done <p> <r>
skip <p> <d> error|skip <p> <d> pending|skip <p> <d> direct
cpu off <n>|cpu on <n>|cpu EBUSY <n>|syscore check <r>|syscore suspend <c> <r>|syscore resume <c>|wake event|wake alarm"""
NAME = r"([a-z0-9_.-]{1,32})"
SPELLED = {"n": f"({NUMBER})", "t": f"({NUMBER})", "r": ANSWER, "e": ERROR, "p": PHASE} | dict.fromkeys("dsxcma", NAME)
FIELD = re.compile("<(.)>")
HEAD = re.compile(rf"({NUMBER}) ({NUMBER})/({NUMBER})/({NUMBER}) (\S+) (.+)")
SOURCE = re.compile(rf"source {NAME}" + f" ({NUMBER})" * 7)


def compiled():
    """For each first word the forms that begin with it: an expression, and what each of its groups is."""
    found = {}
    for form in re.split(r"[|\n]", FORMS):
        expression = FIELD.sub(lambda field: SPELLED[field[1]], form)
        kinds = [kind for kind in FIELD.findall(form) if SPELLED[kind].startswith("(") and kind not in "rep"]
        found.setdefault(form.split(" ")[0], []).append((re.compile(expression), kinds))
    return found


COMPILED = compiled()


class Grammar:
    """The lines that a log of a machine may have."""

    def __init__(self, tree):
        named = lambda member: {item["name"] for item in tree.get(member, [])}
        scripts = tree.get("actors", [])
        marks = {step["mark"] for script in scripts for step in script.get("script", []) if "mark" in step}
        sources = [*tree.get("sources", []), "autosleep"]
        self.sources = sources
        self.names = {"d": named("devices"), "s": set(sources), "x": named("notifiers"), "c": set(tree.get("syscore", [])),
                      "m": marks, "a": named("actors")}
        self.scripts = {("irq:" if script["kind"] == "irq" else "task:") + script["name"] for script in scripts}
        devices, timers = (f"dev:{name}" for name in self.names["d"]), (f"timer:{name}" for name in sources)
        self.actors = {*self.scripts, "auto", "time", *devices, *timers}
        self.known = {}  # What was said before, and whether it is in form: most is said often.

    def is_entry(self, line):
        """Whether the line is an entry of the machine."""
        found = HEAD.fullmatch(line)
        if found is None or found[5] not in self.actors:
            return False
        said = found[6]
        known = self.known.get(said)
        if known is None:
            known = self.known[said] = self.is_said(said)
        return known and int(found[1]) < WORD64 and all(int(number) < WORD32 for number in found.group(2, 3, 4))

    def is_said(self, said):
        """Whether an entry may say this."""
        for expression, kinds in COMPILED.get(said.partition(" ")[0], []):
            found = expression.fullmatch(said)
            if found is not None and all(map(self.is_field, kinds, found.groups())):
                return True
        return False

    def is_field(self, kind, text):
        """Whether the machine has a thing of that name, or a number is in its range."""
        if kind in self.names:
            return text in self.names[kind]
        return int(text) < (WORD64 if kind == "t" else WORD32)

    def is_source(self, name, line):
        """Whether the line is one of the statistics of that source."""
        found = SOURCE.fullmatch(line)
        if found is None or found[1] != name:
            return False
        counts, times = found.groups()[1:4], found.groups()[4:]
        return all(int(number) < WORD32 for number in counts) and all(int(number) < WORD64 for number in times)

    def is_stuck(self, line):
        """Whether the line says that a script goes no further."""
        words = line.split(" ")
        if len(words) < 3 or words[0] != "stuck" or words[1] not in self.scripts:
            return False
        return words[2:] == ["read"] or (words[2] == "mark" and len(words) == 4 and words[3] in self.names["m"])

    def split(self, text):
        """The entries, the lines behind them, and the first line that the grammar has not, from 1, or None."""
        lines = text.split("\n")
        rest = lines.pop()
        count = next((at for at, line in enumerate(lines) if not self.is_entry(line)), len(lines))
        entries, tail = lines[:count], lines[count:]
        bad = self.first_bad_behind(tail)
        if bad is None and rest:
            bad = len(tail)
        return entries, tail, None if bad is None else count + bad + 1

    def first_bad_behind(self, tail):
        """The first line behind the entries, from 0, that may not stand there, or that is missing."""
        for at, name in enumerate(self.sources):
            if at >= len(tail) or not self.is_source(name, tail[at]):
                return at
        at = len(self.sources)
        ends = tail[at:]
        if ends[:1] == ["finished"]:
            return at + 1 if len(ends) > 1 else None
        wrong = next((place for place, line in enumerate(ends) if not self.is_stuck(line)), None)
        return at if not ends else None if wrong is None else at + wrong
