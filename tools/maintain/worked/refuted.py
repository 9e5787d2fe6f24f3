"""The broken logs that a law of sleep refuses, in the crate law_trials."""

from maintain.places import WORKED
from maintain.worked.logs import Worked, machine_of, text_of
from maintain.worked.modules import list_text, module_text

# Each log of tools/worked/broken: its name, the worked log whose machine it has, the law that refuses it, the
# end of the line at which that law fails (the last such line), and what it shows.
REFUTED = [
    ("never_resumed", "parent_and_child", "Owed", "complete c", "No device resumes: each is completed while it is down."),
    ("failed_is_resumed", "asynchronous_callback_fails", "Owed", "schedule resume c", "An asynchronous device whose suspend failed is resumed."),
    ("never_prepared", "parent_and_child", "TakenOnce", "begin suspend c", "A device that was never prepared suspends, resumes and is completed."),
    ("begun_twice", "smallest_attempt", "NotOwedAlready", "platform begin 0", "The platform hears twice that the attempt begins, and once that it ends."),
    ("never_woken", "smallest_attempt", "Restored", "over 1 0", "The attempt is over while the machine sleeps."),
    ("down_in_noirq_alone", "parent_and_child", "EntersDown", "enter", "The devices go down only in noirq, in neither suspend nor late, and the machine enters sleep."),
    ("enters_without_a_freeze", "autosleep", "EntersDown", "enter", "The machine enters sleep while a user task was never asked to freeze."),
]

HEAD = """\
//! Broken logs, each of which one law of sleep refuses at one entry, from the entries before it.
//!
//! `tools/dev worked` writes this file from `tools/worked/broken`.

"""

LAW = """
/// {says}
pub fn {name}_is_refused()
    ensures {{ FailsAt (λ m past k. {law} m past k) {machine}_machine {place} {name}_entries }}
{{}}
"""


def place_of(log, end):
    """The place of the last entry whose line ends so, from 0."""
    return max(at for at, line in enumerate(log.lines) if line.endswith(" " + end))


def uses(modules):
    """The use lines of the laws, the machines and the logs."""
    laws = dict.fromkeys(law for _, _, law, _, _ in REFUTED)
    yield f"ghost use Rattle.sleep_model.specs.Laws.{{{', '.join(laws)}}};\n"
    machines = dict.fromkeys(machine for _, machine, _, _, _ in REFUTED)
    for module in dict.fromkeys(modules[machine] for machine in machines):
        names = [f"{machine}_machine" for machine in machines if modules[machine] == module]
        yield f"ghost use Rattle.law_trials.specs.{module}.{{{', '.join(names)}}};\n"
    yield "ghost use Rattle.law_trials.specs.Breaking.{FailsAt};\n"
    yield f"ghost use Rattle.law_trials.specs.Refuted.{{{', '.join(f'{row[0]}_entries' for row in REFUTED)}}};\n"


def laws(logs, modules):
    """The laws that each of these logs breaks its law."""
    rows = [
        LAW.format(says=says, name=name, law=law, machine=machine, place=place_of(log, end))
        for log, (name, machine, law, end, says) in zip(logs, REFUTED)
    ]
    return "".join([HEAD, *uses(modules), *rows])


def files(modules):
    """The files of the broken logs and of the laws that refuse them, by their paths in the crate.

    modules: the module of each worked log, by its name.
    """
    broken = [Worked("Refuted", name, says, machine_of(machine), text_of(WORKED / "broken" / f"{name}.log"))
              for name, machine, _, _, says in REFUTED]
    texts = [list_text(f"{log.name}_entries", log.comment, log.entries()) for log in broken]
    yield "specs/Refuted.antt", module_text("Entries of broken logs that a law of sleep refuses.", texts)
    yield "src/refuted.rt", laws(broken, modules)
