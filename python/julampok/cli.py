"""The words of the command line: each module of the folder commands/ is a command, and nothing else has to name it.

A command is a module with HELP (one line), EXAMPLE (one line), add_arguments(parser) and run(given), which gives the
status 0 (yes) or 1 (no) and raises CannotError for 2. Its docstring is shown by --help.
"""

import argparse
import importlib
import itertools
import os
import pkgutil
import sys
import textwrap
import traceback

from . import commands
from .errors import CANNOT, CannotError
from .files import LATER, STANDARD, say, say_all, silence, write_out
from .progress import Progress

HEAD = "What a machine does that goes to sleep as Linux 6.1 does: run it, check its log, explain and draw it."
FOOT = "Statuses: 0 yes; 1 no; 2 the words are wrong, or an input is missing or broken. 'julampok COMMAND --help' has more."


class Parser(argparse.ArgumentParser):
    """A parser whose refusals are one line, and whose help is written as any output."""

    def print_help(self, file=None):
        """Writes the help where any output goes, so that a closed or full output is told."""
        if file is None and (sys.stdout is None or hasattr(sys.stdout, "buffer")):
            write_out(self.format_help())
        else:
            super().print_help(file)

    def error(self, message):
        raise CannotError(f"{message}; '{self.prog} --help' tells more")


class Words(argparse.HelpFormatter):
    """Fills the sentences of a help to the terminal's width; lines that stand in stay as they are."""

    def _fill_text(self, text, width, indent):
        lines = []
        for stands_in, found in itertools.groupby(text.split("\n"), lambda line: not line or line.startswith(" ")):
            found = list(found)
            lines += found if stands_in else textwrap.wrap(" ".join(found), width)
        return "\n".join(lines)


def command_names():
    """The commands that there are, by their names."""
    return sorted(found.name for found in pkgutil.iter_modules(commands.__path__) if not found.name.startswith("_"))


def module_of(name):
    """The module of a command."""
    return importlib.import_module(f".commands.{name}", __package__)


def version():
    """The number in pyproject.toml, or that of the installed package."""
    import pathlib
    import tomllib
    from importlib import metadata
    file = pathlib.Path(__file__).resolve().parents[2] / "pyproject.toml"
    try:
        project = tomllib.loads(file.read_text())["project"]
    except (OSError, KeyError, ValueError):
        project = {}
    return project["version"] if project.get("name") == "julampok" else metadata.version("julampok")


class Version(argparse.Action):
    """Shows the version, which is looked up only then."""

    def __init__(self, **given):
        super().__init__(nargs=0, **given)

    def __call__(self, parser, *_):
        write_out(f"julampok {version()}\n")
        parser.exit(0)


def parser_for(words):
    """The parser of all commands; only the one that is named is read, where one is."""
    names = command_names()
    parser = Parser(prog="julampok", description=HEAD, epilog=FOOT, formatter_class=Words, allow_abbrev=False)
    parser.add_argument("--version", action=Version, help="shows the version")
    below = parser.add_subparsers(dest="command", metavar="COMMAND", required=True, parser_class=Parser)
    named = next((word for word in words if not word.startswith("-")), None)
    for name in [named] if named in names else names:
        module = module_of(name)
        one = below.add_parser(
            name, help=module.HELP, description=module.__doc__, epilog=f"example:\n  {module.EXAMPLE}",
            formatter_class=Words, allow_abbrev=False)
        module.add_arguments(one)
    return parser


def fault_line(fault):
    """What is said of an error that no command expected."""
    last = traceback.extract_tb(fault.__traceback__)[-1]
    place = f"{os.path.basename(last.filename)}:{last.lineno}"
    return f"a fault of julampok itself, which its maintainers want to know: {type(fault).__name__} at {place}: {fault}"


def main(words=None):
    """Runs the command that the words name, and gives its status."""
    words = sys.argv[1:] if words is None else words
    name = "julampok"
    LATER.clear()
    STANDARD.clear()
    try:
        given = parser_for(words).parse_args(words)
        name = f"julampok {given.command}"
        with Progress(given.command):
            status = module_of(given.command).run(given)
            write_out("")
        say_all()
        return status
    except CannotError as error:
        named = next((word for word in words if not word.startswith("-")), None)
        say(f"julampok {named}" if named in command_names() else "julampok", error)
    except BrokenPipeError:
        silence()
        return 0
    except KeyboardInterrupt:
        silence()
        return 130
    except MemoryError:
        say(name, "want of memory")
    except Exception as fault:
        if os.environ.get("JULAMPOK_TRACEBACK"):
            raise
        say(name, fault_line(fault))
    return CANNOT
