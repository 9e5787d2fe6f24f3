"""The laws of the worked logs of law_trials: each is legal, can be written, has its end, and is what one worker writes."""

LAWS_HEAD = """\
//! Whole logs that were worked out apart from the program: each is legal for its machine, can be
//! written, and is finished or stuck. `tools/dev worked` writes this file.

ghost use Rattle.sleep_model.specs.Fits.{IsWritable};
ghost use Rattle.sleep_model.specs.Legal.{IsLegalLog, IsFinishedLog};
"""

ROUNDS_HEAD = """\
//! The definitions make each worked log without the program: one worker writes just these entries, if
//! every job in turn makes what is due of it, and time jumps after a round that did nothing.
//! `tools/dev worked` writes this file.

ghost use Rattle.std.specs.Prelude.{◌≡◌};
ghost use Rattle.law_trials.specs.Rounds.{one_worker};
"""


def ghost_uses(logs, *endings):
    """The use lines for values of these logs."""
    for module in dict.fromkeys(log.module for log in logs):
        names = [log.name + ending for log in logs if log.module == module for ending in endings]
        if names:
            yield f"ghost use Rattle.law_trials.specs.{module}.{{{', '.join(names)}}};\n"


def legal_law(log):
    """The law that a log is legal, and finished."""
    return f"""
/// {log.says}
pub fn {log.name}_is_legal()
    ensures legal {{ IsLegalLog {log.name}_machine {log.name} }}
    ensures writable {{ IsWritable {log.name}_machine {log.name} }}
    ensures finished {{ IsFinishedLog {log.name}_machine {log.name} }}
{{}}
"""


def made_law(log):
    """The law that rounds make a log: each round but the last makes an entry, or is followed by a jump."""
    return f"""
/// {log.says}
pub fn {log.name}_is_made()
    ensures {{ one_worker {log.name}_machine {len(log.lines) + 1} ≡ {log.name}_entries }}
{{}}
"""


def files(logs):
    """The files of all laws, by their paths in the crate."""
    yield "src/whole.rt", "".join([LAWS_HEAD, *ghost_uses(logs, "_machine", ""), *map(legal_law, logs)])
    yield "src/rounds.rt", "".join([ROUNDS_HEAD, *ghost_uses(logs, "_machine", "_entries"), *map(made_law, logs)])
