"""A worked log: its machine file and its text, worked out apart from the program."""

import json

from julampok.errors import CannotError
from julampok.files import reason
from maintain.places import WORKED
from maintain.worked.entries import entry_term, stats_term, waiting_term
from maintain.worked.machine import Machine
from maintain.worked.terms import inner


def text_of(path):
    """The text of a worked file. Raises CannotError."""
    try:
        return path.read_text(encoding="utf-8")
    except (OSError, UnicodeDecodeError) as fault:
        raise CannotError(reason(fault), path) from None


def machine_of(name):
    """The machine file of a worked log. Raises CannotError."""
    path = WORKED / f"{name}.json"
    try:
        return json.loads(text_of(path))
    except ValueError as fault:
        raise CannotError(f"is no JSON: {fault}", path) from None


class Worked:
    """A worked log: its machine, its lines, and what it is called."""

    def __init__(self, module, name, says, tree, text):
        self.module, self.name, self.says = module, name, says
        self.machine, self.text = Machine(tree), text
        lines = text.split("\n")[:-1]
        self.stuck = [line for line in lines if line.startswith("stuck ")]
        self.sources = [line for line in lines if line.startswith("source ")]
        self.lines = [line for line in lines if line[0].isdigit()]

    @classmethod
    def read(cls, module, name, says):
        """The log of a row of LOGS."""
        return cls(module, name, says, machine_of(name), text_of(WORKED / f"{name}.log"))

    @property
    def comment(self):
        """What it shows, as a comment line of definitions says it."""
        return self.says[0].lower() + self.says[1:].rstrip(".")

    def entries(self):
        """Its entries as terms."""
        return [entry_term(self.machine, line) for line in self.lines]

    def end(self):
        """The log's term after its entries."""
        stats = inner([stats_term(line) for line in self.sources])
        if not self.stuck:
            return f"log_of {self.name}_entries {stats}"
        waiting = inner([waiting_term(self.machine, line) for line in self.stuck])
        return f"stuck_log {self.name}_entries {stats} {waiting}"
