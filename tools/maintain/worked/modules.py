"""Modules of definitions: the values of machines and logs, with the lines that name what they use."""

import re

from julampok.limits import ERRORS

# What a module may use: a word by which it is known in the text, and the line.
MODEL = "Rattle.sleep_model.specs.declared"
USES = [
    ("actor", f"use {MODEL}.entry.Actor.TheVariants as actor"),
    ("froze", f"use {MODEL}.entry.FrozeEnd.TheVariants as froze"),
    ("group", f"use {MODEL}.entry.Group.TheVariants as group"),
    ("kind", f"use {MODEL}.entry.Kind.TheVariants as kind"),
    ("cause", f"use {MODEL}.entry.SkipCause.TheVariants as cause"),
    ("state", f"use {MODEL}.entry.State.TheVariants as state"),
    ("thaw", f"use {MODEL}.entry.Thaw.TheVariants as thaw"),
    ("why", f"use {MODEL}.log.Why.TheVariants as why"),
    ("op", f"use {MODEL}.machine.Op.TheVariants as op"),
    ("down", f"use {MODEL}.machine.PlatDo.TheVariants as down"),
    ("up", f"use {MODEL}.machine.PlatUndo.TheVariants as up"),
    ("call", f"use {MODEL}.machine.SourceCall.TheVariants as call"),
    ("task", f"use {MODEL}.machine.TaskKind.TheVariants as task"),
    ("what", f"use {MODEL}.machine.What.TheVariants as what"),
    ("phase", "use Rattle.phase_table.specs.declared.phase.Phase.TheVariants as phase"),
]
PRELUDE = ["◌++◌", "true", "false", "List", "[]", "◌∷◌", "codes", "pos", "negsuc", "Some", "None"]
TERMS = "entry word device link dormant notifier script once times answer report empty_machine stats unused log_of stuck_log waiting".split()


def list_text(name, comment, items):
    """The definition of a list of entries."""
    body = "".join(f"    {'∷ ' if at else ''}{item}\n" for at, item in enumerate(items + ["[]"]))
    return f"-- {comment}\nabbrev pub {name} : List Entry\n{name} =\n{body}"


def machine_piece(log):
    """The definition of a log's machine."""
    machine = f"{log.name}_machine"
    return f"-- {log.comment}: its machine\nabbrev pub {machine} : Machine\n{machine} = {log.machine.term()}\n"


def entries_piece(log):
    """The definition of a log's entries."""
    return list_text(f"{log.name}_entries", "its entries", log.entries())


def pieces(log):
    """The definitions of a log, a text each."""
    yield machine_piece(log)
    yield entries_piece(log)
    yield f"-- its log\nabbrev pub {log.name} : Log\n{log.name} = {log.end()}\n"


def is_used(word, text):
    """Whether a word stands in a text by itself."""
    return re.search(rf"(?<![\w.]){re.escape(word)}(?!\w)", text) is not None


def uses_of(text):
    """The use lines of a module with that text."""
    signs = {"◌++◌": "++", "◌∷◌": "∷", "[]": "[]"}
    prelude = [word for word in PRELUDE if (signs[word] in text if word in signs else is_used(word, text))]
    yield f"use Rattle.std.specs.Prelude.{{{', '.join(prelude)}}}"
    errors = [name for name in ERRORS if is_used(name, text)]
    if errors:
        yield f"use Rattle.sleep_base.specs.declared.errno.Errno.TheVariants.{{{', '.join(errors)}}}"
    for name, place in [("Entry", "entry.Entry"), ("Log", "log.Log"), ("Machine", "machine.Machine")]:
        if is_used(name, text):
            yield f"use {MODEL}.{place}.{{{name}}}"
    yield from (line for word, line in USES if re.search(rf"(?<![\w.]){word}\.", text))
    yield f"use Rattle.law_trials.specs.Terms.{{{', '.join(name for name in TERMS if is_used(name, text))}}}"


def module_text(says, texts, more=""):
    """The text of a module of specs/ with these definitions, and with these use lines beside those of their words."""
    body = "\n".join(texts)
    uses = "\n".join(uses_of(re.sub(r"^--.*$", "", body, flags=re.M)))
    return f"-- {says}\n{uses}\n{more}\n{body}"
