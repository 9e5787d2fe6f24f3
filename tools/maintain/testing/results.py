"""What came of the tests of a file."""

import json
import unittest
from dataclasses import asdict, dataclass, field


@dataclass
class Results:
    """How many tests passed; those that failed with what they said, and those that were skipped with the reason."""

    passed: int = 0
    failed: dict = field(default_factory=dict)
    skipped: dict = field(default_factory=dict)
    processor: float = 0.0  # Seconds of a processor that they took, with the programs that they ran.

    @property
    def count(self):
        """How many tests there were."""
        return self.passed + len(self.failed) + len(self.skipped)

    def add(self, other):
        """Adds those of another file."""
        self.passed += other.passed
        self.failed |= other.failed
        self.skipped |= other.skipped
        self.processor += other.processor

    def line(self):
        """The line at the end of all."""
        more = f", {len(self.skipped)} skipped" if self.skipped else ""
        return f"{self.passed} passed, {len(self.failed)} failed{more}"

    def write(self):
        """The results as a text that `read` reads."""
        return json.dumps(asdict(self))

    @classmethod
    def read(cls, text):
        """The results of such a text. Raises ValueError or TypeError where it is none."""
        return cls(**json.loads(text))


class Gathered(unittest.TestResult):
    """Gathers results by the names of the tests; a test of which several parts fail counts once."""

    def __init__(self):
        super().__init__()
        self.begun, self.told = set(), Results()

    def startTest(self, test):
        super().startTest(test)
        self.begun.add(test.id())

    def fail(self, test, error):
        """Notes what a test said as it failed."""
        name, text = test.id(), self._exc_info_to_string(error, test)
        self.told.failed[name] = f"{self.told.failed[name]}\n{text}" if name in self.told.failed else text

    def addError(self, test, err):
        super().addError(test, err)
        self.fail(test, err)

    def addFailure(self, test, err):
        super().addFailure(test, err)
        self.fail(test, err)

    def addSubTest(self, test, subtest, err):
        super().addSubTest(test, subtest, err)
        if err is not None:
            name, text = test.id(), f"{subtest.id()}\n{self._exc_info_to_string(err, test)}"
            self.told.failed[name] = f"{self.told.failed[name]}\n{text}" if name in self.told.failed else text

    def addSkip(self, test, reason):
        super().addSkip(test, reason)
        self.told.skipped[test.id()] = reason

    def addUnexpectedSuccess(self, test):
        super().addUnexpectedSuccess(test)
        self.told.failed[test.id()] = "it passed, although it is marked as one that fails"

    def results(self):
        """The results of all tests so far."""
        self.told.skipped = {name: why for name, why in self.told.skipped.items() if name not in self.told.failed}
        self.told.passed = len(self.begun - set(self.told.failed) - set(self.told.skipped))
        return self.told
