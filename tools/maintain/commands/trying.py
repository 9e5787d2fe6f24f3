"""Tries a subject on random inputs: what is expected of each is compared with what comes of it.

What is expected is worked out by a second writing of the rules in Python (python/julampok/second), which shares nothing with
the program, its definitions or its libraries but the rules in docs/. Where an input differs, the command writes it with both
on standard error, and ends with status 1. Else it prints a line that says how many inputs of each kind were tried.
"""

import argparse
import textwrap

from maintain.trials.subject import add_arguments as add_words
from maintain.trials.subject import try_subject
from maintain.trials.table import SUBJECTS

HELP = "compares the program, its definitions and the second writing on random inputs"
EXAMPLE = "tools/dev try run --seed 7 --count 500"


def add_arguments(parser):
    """The subjects, and the words of each."""
    subjects = parser.add_subparsers(dest="subject", metavar="SUBJECT", required=True)
    for name, subject in SUBJECTS.items():
        text = f"Tries {subject.says}. What is compared with the second writing is given by {subject.by.value}."
        if subject.by.name == "SECOND":
            text = f"Tries {subject.says}. No program is needed."
        text = textwrap.fill(text, 110)
        example = f"example:\n  tools/dev try {name} --seed 2" + (" --folder ../clone" if subject.by.name == "PROVER" else "")
        layout = argparse.RawDescriptionHelpFormatter
        own = subjects.add_parser(
            name, help=subject.says, description=text, epilog=example, formatter_class=layout, allow_abbrev=False)
        add_words(subject, own)


def run(given):
    """Tries the subject."""
    return try_subject(SUBJECTS[given.subject], given)
