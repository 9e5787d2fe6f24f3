"""Who runs a machine and judges a log: the proved program where it is there, else the second writing in Python."""

import dataclasses
import os
import pathlib
import re
import subprocess

from .errors import CannotError, one_line
from .files import looks_like, reason, say_later
from .json_text import NoJson, read_json
from .limits import MOST_INPUT
from .progress import current

BUILT = pathlib.Path(__file__).resolve().parents[2] / "crates" / "sleep_main" / "out" / "sleep_main"
FINISHED, ILLEGAL, STUCK, FULL = 0, 1, 6, 7  # Statuses of the program that are answers.
ANSWER = re.compile(r"legal\n|illegal line (\d+) definition (\d+)\n")
SECOND_SAID = "by the second writing of the rules, which is tested and not proved; --program FILE takes the program"


def add_program(parser):
    """The words that choose who runs or judges."""
    parser.add_argument("--program", metavar="FILE", help="the program, as 'rt run' builds it; else the proved one that is built in this "
                        "clone, else a second writing of the rules in Python, which is tested and not proved")


@dataclasses.dataclass
class Ran:
    """What came of a run: the log, whether it is finished, and what stopped a run that has no log."""

    log: bytes
    is_finished: bool
    failure: str = ""


@dataclasses.dataclass
class Verdict:
    """Whether a log is legal and finished; else its first bad line, and the number of the rule that it breaks."""

    is_legal: bool
    line: int = None
    rule: int = None

    @property
    def text(self):
        """What the program says of it."""
        return "legal" if self.is_legal else f"illegal line {self.line} definition {self.rule}"


def chosen(given):
    """The program that --program names or that is built here, else the second writing. Raises CannotError."""
    if given.program is None:
        return Program(str(BUILT), "the proved program") if os.access(BUILT, os.X_OK) else Second()
    if os.path.isdir(given.program) or not os.access(given.program, os.X_OK):
        raise CannotError("is no program that can be run", given.program)
    return Program(os.path.abspath(given.program), f"the program {given.program}")


def read_machine_json(machine, file):
    """The JSON of a machine file's bytes. Raises CannotError with its line where the program reads none."""
    if len(machine) > MOST_INPUT:
        raise CannotError(f"machine: longer than {MOST_INPUT} bytes", file)
    try:
        return read_json(machine)
    except NoJson as wrong:
        raise CannotError(f"machine: rule 1: json (column {wrong.column}: {wrong.why}{looks_like(machine, 'JSON')})", file, wrong.line) from None


def refusal(said, machine, file):
    """The refusal of a machine file as an error: what the program said, with the line of the place and what is wrong there."""
    from .refusals.machine_files import explained
    told = explained(machine) if said.startswith("machine: rule ") else None
    if told is None or not told.sentences or not told.head.startswith(said.replace("machine: rule ", "Rule ").replace(": ", ", at ", 1)):
        return CannotError(said, file)
    line, _, text, _ = told.sentences[0]
    return CannotError(f"{said}: {text}", file, line)


class Program:
    """The program, by its path; `name` says which it is."""

    def __init__(self, path, name):
        self.path, self.name = path, name

    def ask(self, words, data):
        """The status, the output, and what was said on standard error. Raises CannotError where there is none."""
        try:
            with subprocess.Popen([self.path, *words], stdin=subprocess.PIPE, stdout=subprocess.PIPE, stderr=subprocess.PIPE) as running:
                try:
                    out, err = running.communicate(data)
                except BaseException:
                    running.kill()
                    raise
        except OSError as fault:
            raise CannotError(f"cannot be run: {reason(fault)}", self.path) from None
        said = one_line(err.decode("utf-8", "replace").strip())
        if running.returncode < 0:
            raise CannotError(f"was ended by signal {-running.returncode}", self.path)
        return running.returncode, out, said

    def run(self, machine, file, workers=None):
        """Runs the bytes of a machine file, by one worker unless more are asked for. Raises CannotError."""
        read_machine_json(machine, file)
        status, log, said = self.ask(["run", "--workers", str(workers or 1)], machine)
        if status == FULL:
            return Ran(b"", False, said)
        if status not in (FINISHED, STUCK):
            raise self.refused(status, said, machine, file)
        end = log[log.rfind(b"\n", 0, -1) + 1:]
        if not (end == b"finished\n" if status == FINISHED else end.startswith(b"stuck ")):
            raise CannotError("wrote no log, so it is not the program", self.path)
        return Ran(log, status == FINISHED)

    def check(self, machine, log, file):
        """Judges the bytes of a log by those of its machine file. Raises CannotError where the machine is refused."""
        read_machine_json(machine, file)
        status, said, fault = self.ask(["check"], b" ".join(machine.splitlines()) + b"\n" + log)
        if status not in (FINISHED, ILLEGAL):
            raise self.refused(status, fault, machine, file)
        found = ANSWER.fullmatch(said.decode("utf-8", "replace"))
        if found is None:
            raise CannotError("gave no verdict, so it is not the program", self.path)
        return Verdict(True) if found[1] is None else Verdict(False, int(found[1]), int(found[2]))

    def refused(self, status, said, machine, file):
        """The error that stands for a refusal."""
        if said.startswith("machine: "):
            return refusal(said, machine, file)
        return CannotError(said or f"ended with status {status}", self.path)


class Second:
    """The second writing, which says on standard error that it is that."""

    name = "the second writing"

    def accepted(self, machine, file):
        """The machine of a file that keeps the rules of files. Raises CannotError."""
        from .second.rules import first_broken
        tree = read_machine_json(machine, file)
        broken = first_broken(tree)
        if broken:
            raise refusal(f"machine: rule {broken[0]}: {broken[1]}", machine, file)
        return tree

    def run(self, machine, file, workers=None):
        """Runs the bytes of a machine file, as one worker does. Raises CannotError."""
        from .second.run import Run
        from .second.things import SourceFull
        if workers is not None:
            raise CannotError("--workers wants the program, which --program FILE names")
        machine_run = Run(self.accepted(machine, file))
        try:
            text, is_stuck = machine_run.run(current())
        except SourceFull as full:
            return Ran(b"", False, f"source full: {full}")
        self.tell("the log is")
        return Ran(text.encode(), not is_stuck)

    def check(self, machine, log, file):
        """Judges the bytes of a log by those of its machine file. Raises CannotError where the machine is refused."""
        from .second.judge import judged
        found = judged(self.accepted(machine, file), log.decode("utf-8", "replace"), current())
        self.tell("judged")
        return Verdict(True) if found is None else Verdict(False, *found)

    def tell(self, what):
        """Says once who it was, after the work."""
        if not self.is_told:
            self.is_told = True
            say_later("julampok", f"{what} {SECOND_SAID}")

    is_told = False
