"""The rules of a log on random logs and broken copies, against their second writing in Python.

Of each copy the first line that breaks a rule, and of each log some lines that break none, have to break in crates/rule_definitions
just the rules that `julampok.second.rules_kept` names there: each is a law that the prover has to close. A step of the word is
left out, since one rule of it asks for every source. The laws stand in a crate of the clone, rule_laws.
"""

import json
import random

from julampok.second.copies import broken_copies, entries_of
from julampok.second.maker import Maker
from julampok.second.merged import Interleaved
from julampok.second.place import Entry
from julampok.second.run import Run
from julampok.second.trial import first_broken
from maintain.trials import clones
from maintain.worked import modules
from maintain.worked.entries import entry_term
from maintain.worked.machine import Machine

LEAST, MOST = 8, 70  # How many entries a log has.
A_MODULE = 25  # Logs in a module of specs/.
GOOD = 2  # How many lines of a log that break no rule are asked for.
NAME, LIBRARIES, KEPT = "rule_laws", ["sleep_base", "phase_table", "sleep_model", "rule_definitions"], ["Rules", "Terms"]

HEAD = """\
//! The rules of a log tried on random lines.
#![tactic(auto)]

ghost use Rattle.std.specs.Prelude.{[], ◌∷◌};
ghost use Rattle.law_trials.specs.Rules.{HoldsAt, BreaksJust};
"""


class Judged:
    """A machine, the front of a log up to one line, and the rules that this line breaks."""

    def __init__(self, name, tree, lines, rules):
        self.name, self.lines, self.rules = name, lines, rules
        self.machine = Machine(tree)

    def pieces(self):
        """The definitions of the machine and of the entries."""
        yield f"-- a random machine\nabbrev pub {self.name}_machine : Machine\n{self.name}_machine = {self.machine.term()}\n"
        items = [entry_term(self.machine, line) for line in self.lines]
        yield modules.list_text(f"{self.name}_entries", "its entries up to one that is judged", items)

    def law(self):
        """The law that the line breaks just these rules."""
        rules = " ∷ ".join([*map(str, self.rules), "[]"])
        at = len(self.lines) - 1
        return f"""
pub fn {self.name}_is_judged()
    ensures {{ HoldsAt (BreaksJust ({rules})) {self.name}_machine {at} {self.name}_entries }}
{{}}
"""


def fronts(dice, tree, lines):
    """Fronts of a log and of broken copies, each with the rules that its last line breaks."""
    yield from ((lines[: at + 1], []) for at in dice.sample(range(len(lines)), GOOD))
    for _, _, copy in broken_copies(dice, tree, lines):
        at, rules = first_broken(tree, copy)
        if rules:
            yield copy[: at + 1], rules


def batches(given):
    """Lines of random logs and of broken copies, each with the rules that it breaks: one batch."""
    maker, dice, found = Maker(given.seed), random.Random(given.seed), []
    for number in range(given.count):
        tree = maker.machine()
        lines = entries_of((Interleaved(tree, number) if number % 2 else Run(tree)).run()[0])
        for front, rules in fronts(dice, tree, lines) if LEAST <= len(lines) <= MOST else ():
            if Entry(front[-1]).part != "step":
                found.append(Judged(f"line_{len(found)}", json.loads(json.dumps(tree)), front, rules))
    if found:
        yield found


def files_of(found):
    """The files of the crate, by their paths in it."""
    files, names, uses = clones.specs_of(*KEPT), list(KEPT), []
    for first in range(0, len(found), A_MODULE):
        own, name = found[first : first + A_MODULE], f"Tried{first // A_MODULE}"
        text = modules.module_text("Random machines and lines.", [text for one in own for text in one.pieces()])
        files[f"specs/{name}.antt"] = text
        used = ", ".join(f"{one.name}_machine, {one.name}_entries" for one in own)
        uses.append(f"ghost use Rattle.law_trials.specs.{name}.{{{used}}};\n")
        names.append(name)
    files["specs/Lib.antt"] = clones.listing(names)
    return clones.renamed(files | {"src/lib.rt": "".join([HEAD, *uses, *(one.law() for one in found)])}, NAME)


def wanted(found, given):
    """No law stays open."""
    return []


def open_laws(found, given):
    """The laws that stay open, or what the check says."""
    crate = clones.crate_in(given.folder, NAME, LIBRARIES, files_of(found))
    return clones.told(*clones.open_laws(crate, r"(line_\d+)_is_judged"))


def show(found, given):
    """The lines, each with the rules that it has to break and with those before it."""
    return "\n".join("\n  ".join([f"{one.name}: {one.rules}", *one.lines[-4:]]) for one in found)


def label(found, wanted, given):
    """How many lines the laws are of."""
    return {"lines": len(found), "break a rule": sum(bool(one.rules) for one in found)}
