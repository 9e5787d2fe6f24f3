"""What the words of the command line ask for, from the rules on them alone.

`run` and `idle` have one option, the number of workers, as `--workers N` or `--workers=N`. It may stand anywhere behind the
command's name, at most once. A number has no 0 before other digits.
"""

import re

OPTION = "--workers"
WORKERS = (1, 64)
ELSE = 4  # How many workers there are where the words name no number.

# Each command: whether it takes the option, and the ranges of its numbers.
COMMANDS = {
    "run": (True, ()),
    "gen": (False, ((0, 2**64 - 1), (1, 1000))),
    "soak": (False, ((0, 2**64 - 1), (1, 1000))),
    "idle": (True, ((1, 16), (1, 1000), (1, 1000))),
    "check": (False, ()),
    "locks": (False, ()),
    "stats": (False, ()),
}


class NoFormError(Exception):
    """The words are of no form."""


def number_in(word, least, most):
    """The number that a word is. Raises NoFormError."""
    if re.fullmatch("0|[1-9][0-9]*", word, re.ASCII) and least <= int(word) <= most:
        return int(word)
    raise NoFormError(word)


def without_option(words):
    """How many workers the words name, or None, and the words without the option. Raises NoFormError."""
    for at, word in enumerate(words):
        name, equals, number = word.partition("=")
        if name == OPTION:
            if not equals:
                number = "".join(words[at + 1:at + 2])
            return number_in(number, *WORKERS), words[:at] + words[at + (1 if equals else 2):]
    return None, words


def command_of(words):
    """The command's name, its numbers, and for `run` and `idle` how many workers; None where the words are of no form."""
    name, *rest = words or [None]
    if name not in COMMANDS:
        return None
    takes_option, ranges = COMMANDS[name]
    try:
        workers, rest = without_option(rest) if takes_option else (None, rest)
        if len(rest) != len(ranges):
            return None
        numbers = [number_in(word, *bounds) for word, bounds in zip(rest, ranges)]
    except NoFormError:
        return None
    return (name, *numbers, workers or ELSE) if takes_option else (name, *numbers)
