"""The definitions of sleep on random machines, against the second writing of a run.

For each machine the log that `julampok.second.run` writes has to be what the definitions alone make, with the same statistics
and the same end, and each source has to have as many places: each is a law that the prover has to close. With --interleaved
the log is a merged one of `julampok.second.merged`: it has to be legal, to have its end, and to be what the journal and the
histories are merged to. The laws stand in a crate of the clone, definition_laws. Sixty machines take about a minute, once its
libraries are checked.
"""

import json
from dataclasses import dataclass

from julampok.limits import AUTO_CYCLES
from julampok.second.maker import Maker
from julampok.second.merged import Interleaved
from julampok.second.run import Run
from maintain.trials import clones
from maintain.worked import modules
from maintain.worked.entries import entry_term
from maintain.worked.laws import ghost_uses
from maintain.worked.logs import Worked
from maintain.worked.terms import listed

LEAST, MOST = 12, 100  # How many entries a log has.
A_MODULE = 25  # Logs in a module of specs/.


def call_places(given):
    """How many entries a call may make, its expiry included."""
    if (given.get("call") or given["op"]) != "event":
        return 2
    return (4 if given.get("ms", 0) else 3) + given.get("hard", False)


def most_attempts(tree):
    """How many attempts may be begun."""
    made = [(step["op"], step.get("times", 1) * a.get("repeat", 1)) for a in tree["actors"] for step in a["script"]]
    cycles = tree.get("auto_cycles", AUTO_CYCLES) if any(op == "autosleep" for op, _ in made) else 0
    return sum(times for op, times in made if op == "state") + cycles


def places_of_step(step, source):
    """How many places of a source's history a step needs each time that it is made."""
    return (call_places(step) if step.get("source") == source else 0) + 4 * (step["op"] == source == "autosleep")


def places_of_scripts(tree, source):
    """How many places of a source's history the scripts may need."""
    steps = [(step, step.get("times", 1) * actor.get("repeat", 1)) for actor in tree["actors"] for step in actor["script"]]
    return sum(times * places_of_step(step, source) for step, times in steps)


def places_of_answers(tree, source):
    """How many places of a source's history the reports of callbacks may need.

    In each attempt a callback's own answer for that attempt counts, else its general one.
    """
    answers, total = tree.get("answers", []), 0
    things = [(a["what"], a["name"], a.get("phase"), a.get("attempt")) for a in answers]
    needed = [sum(call_places(report) for report in a.get("reports", []) if report["source"] == source) for a in answers]
    for number in range(1, most_attempts(tree) + 1):
        own = [(*thing[:3], number) for thing in things]
        counts = [thing == one or (thing[3] is None and one not in things) for thing, one in zip(things, own)]
        total += sum(places for places, is_given in zip(needed, counts) if is_given)
    return total


def places_of(tree, source):
    """How many places a source's history may need."""
    return places_of_scripts(tree, source) + places_of_answers(tree, source)


@dataclass(frozen=True)
class Batch:
    """The logs whose laws are tried at once, and whether they are merged ones."""

    logs: list
    is_merged: bool


def add_arguments(parser):
    """Which kind of log is tried."""
    parser.add_argument("--interleaved", action="store_true", help="merged logs of several workers in place of those of one")


def log_of(tree, number, is_merged):
    """A machine's log as the crate's definitions have it."""
    run = Interleaved(tree, number) if is_merged else Run(tree)
    text, _ = run.run()
    log = Worked(f"Tried{number // A_MODULE}", f"machine_{number}", json.dumps(tree), tree, text)
    log.events = getattr(run, "events", [])
    return log


def batches(given):
    """Random machines and their logs, most of them with an attempt: one batch."""
    maker, logs = Maker(given.seed), []
    while len(logs) < given.count:
        log = log_of(maker.machine(), len(logs), given.interleaved)
        if LEAST <= len(log.lines) <= MOST and (" attempt " in log.text or maker.often(0.4)):
            logs.append(log)
    yield Batch(logs, given.interleaved)


def merged_law(log):
    """What has to hold of a merged log."""
    machine, end = f"{log.name}_machine", "IsStuckLog" if log.stuck else "IsFinishedLog"
    return f"""
pub fn {log.name}_is_made()
    ensures legal {{ IsLegalLog {machine} {log.name} }}
    ensures ends {{ {end} {machine} {log.name} }}
    ensures merged {{ Merges {machine} {log.name}_stamped {log.name}_entries }}
{{}}
"""


def stamped(log):
    """The entries of a merged log as they were made, with their ticks."""
    items = [f"ticked {event[2]} ({entry_term(log.machine, event[-1])})" for event in log.events] + ["[]"]
    listed = "\n    ∷ ".join(items)
    name = f"{log.name}_stamped"
    return f"-- its entries as they were made\nabbrev pub {name} : List JournalEntry\n{name} =\n    {listed}\n"


def law(log):
    """What the definitions have to make of a machine."""
    machine, end = f"{log.name}_machine", "IsStuckLog" if log.stuck else "IsFinishedLog"
    m = log.machine
    places = listed([str(places_of(m.tree, source)) for source in m.sources])
    return f"""
pub fn {log.name}_is_made()
    ensures made {{ one_worker {machine} {len(log.lines) + 1} ≡ {log.name}_entries }}
    ensures stats {{ {log.name}.stats ≡ stats_of {machine} (reverse {log.name}_entries) }}
    ensures ends {{ {end} {machine} {log.name} }}
    ensures places {{ map (places {machine}) (range_with_len 0 {len(m.sources)}) ≡ {places} }}
{{}}
"""


LAWS_HEAD = """\
//! The definitions tried on random machines.
#![tactic(auto)]

ghost use Rattle.std.specs.List.{range_with_len};
ghost use Rattle.std.specs.Prelude.{[], ◌∷◌, ◌≡◌, map, reverse};
ghost use Rattle.sleep_model.specs.Legal.{IsLegalLog, IsFinishedLog, IsStuckLog, stats_of};
ghost use Rattle.sleep_model.specs.Places.{places};
ghost use Rattle.law_trials.specs.Merging.{Merges};
ghost use Rattle.law_trials.specs.Rounds.{one_worker};
"""
NAME, LIBRARIES, KEPT = "definition_laws", ["sleep_base", "phase_table", "sleep_model"], ["Merging", "Rounds", "Terms"]
STAMPED = """\
use Rattle.sleep_model.specs.declared.entry.JournalEntry.{JournalEntry}
use Rattle.law_trials.specs.Merging.{ticked}
"""


def files_of(batch):
    """The files of the crate, by their paths in it."""
    files, names = clones.specs_of(*KEPT), sorted({log.module for log in batch.logs})
    for name in names:
        own = [log for log in batch.logs if log.module == name]
        texts = [text for log in own for text in [*modules.pieces(log), *([stamped(log)] if batch.is_merged else [])]]
        files[f"specs/{name}.antt"] = modules.module_text("Random machines and their logs.", texts, STAMPED if batch.is_merged else "")
    files["specs/Lib.antt"] = clones.listing([*KEPT, *names])
    endings = ["_machine", "", "_entries", *(["_stamped"] if batch.is_merged else [])]
    texts = [LAWS_HEAD, *ghost_uses(batch.logs, *endings), *map(merged_law if batch.is_merged else law, batch.logs)]
    return clones.renamed(files | {"src/lib.rt": "".join(texts)}, NAME)


def wanted(batch, given):
    """No law stays open."""
    return []


def open_laws(batch, given):
    """The laws that stay open, or what the check says."""
    crate = clones.crate_in(given.folder, NAME, LIBRARIES, files_of(batch))
    return clones.told(*clones.open_laws(crate, r"(machine_\d+)_is_made"))


def show(batch, given):
    """The machines and their logs."""
    return "\n".join(f"{log.name}: {log.says}\n{log.text}" for log in batch.logs)


def label(batch, wanted, given):
    """How many machines the laws are of."""
    return {"machines": len(batch.logs), "entries": sum(len(log.lines) for log in batch.logs)}
