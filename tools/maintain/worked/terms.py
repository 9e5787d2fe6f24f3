"""Values as terms of the crate law_trials."""

import json

from julampok.limits import ERRORS

WIDTH = 110

PHASES = {
    "prepare": "Prepare",
    "suspend": "Suspend",
    "late": "Late",
    "noirq": "Noirq",
    "syscore": "Syscore",
    "syscore_resume": "SyscoreResume",
    "resume_noirq": "ResumeNoirq",
    "early": "Early",
    "resume": "Resume",
    "complete": "Complete",
}


def optional(value):
    """A value that may be none."""
    return "None" if value is None else f"(Some {value})"


def truth(value):
    """A truth value."""
    return "true" if value else "false"


def codes(text):
    """A text, or a name, as the list of its bytes."""
    return f"codes {json.dumps(text)}"


def whole(number):
    """A number that may be below 0."""
    return f"(pos {number})" if number >= 0 else f"(negsuc {-number - 1})"


def listed(items, indent="      "):
    """A list: on one line where it fits, else an item a line."""
    line = " ∷ ".join(items + ["[]"])
    if len(line) <= WIDTH and "\n" not in line:
        return line
    return f"\n{indent}" + f"\n{indent}∷ ".join(items + ["[]"])


def inner(items, indent="      "):
    """A list as a part of a term."""
    return f"({listed(items, indent)})" if items else "[]"


def phase(name):
    """A phase of devices."""
    return f"phase.{PHASES[name]}"


def answered(word):
    """0, or the name of an error."""
    return "None" if word == "0" else f"(Some {word})"


def number_of(word):
    """0, 1 or an error's name as a number, below 0 for an error."""
    return whole(int(word) if word in ("0", "1") else -ERRORS[word])
