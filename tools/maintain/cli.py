"""The commands of `tools/dev`, and how one is chosen.

Statuses: 0 where all is well, 1 where something is not, 2 where it cannot be tried (the words are wrong, or something is missing
or broken), 130 where it was stopped from the keyboard.
"""

import argparse
import importlib
import sys

from julampok.cli import Parser, say
from julampok.errors import CANNOT, CannotError
from julampok.files import silence

HEAD = "Commands for whoever works on this repository."
FOOT = "Statuses: 0 all is well; 1 something is not; 2 it cannot be tried. 'tools/dev COMMAND --help' has more."
# Each command, with its module of the folder commands/.
COMMANDS = {"bench": "bench", "count": "count", "docs": "docs", "edits": "edits", "test": "testing", "try": "trying", "worked": "worked"}


def module_of(name):
    """The module of a command."""
    return importlib.import_module(f"maintain.commands.{COMMANDS[name]}")


def parser_of_all():
    """The parser of `tools/dev`, with one parser for each command."""
    layout = {"formatter_class": argparse.RawDescriptionHelpFormatter, "allow_abbrev": False}
    parser = Parser(prog="tools/dev", description=HEAD, epilog=FOOT, **layout)
    commands = parser.add_subparsers(dest="command", metavar="COMMAND", required=True, parser_class=Parser)
    for name in COMMANDS:
        module = module_of(name)
        example = f"example:\n  {module.EXAMPLE}"
        own = commands.add_parser(name, help=module.HELP, description=module.__doc__, epilog=example, **layout)
        module.add_arguments(own)
    return parser


def main(words=None):
    """Runs the command that the words name, and returns its status."""
    words = sys.argv[1:] if words is None else [str(word) for word in words]
    name = " ".join(["tools/dev", *words[:1]]) if words[:1] and words[0] in COMMANDS else "tools/dev"
    try:
        given = parser_of_all().parse_args(words)
        status = module_of(given.command).run(given)
        sys.stdout.flush()
        return status
    except CannotError as error:
        say(name, error)
        return CANNOT
    except BrokenPipeError:
        silence()
        return 0
    except KeyboardInterrupt:
        silence()
        return 130
