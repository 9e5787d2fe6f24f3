"""Counts the instructions of runs by one worker, and prints them as rows of the table of docs/SPEED.md.

Each machine is a file that has the name of a row, as c_same.json or c_same.v1.json. Valgrind's callgrind counts; it counts the same
on each run and host. The row's other number is of a plain program written for speed, as the page has it. With --write the page's
rows are written anew. Ends with status 1 where a run needs more times that program's instructions than --most says.
"""

import pathlib
import re
import shutil
import subprocess

from julampok.errors import CannotError
from julampok.files import write_all
from maintain.places import DOCS
from maintain.trials.subject import add_program, find_program

HELP = "counts the instructions of runs, as docs/SPEED.md has them"
EXAMPLE = "tools/dev count c_same.v1.json g_sync_100.v1.json"
PAGE = DOCS / "SPEED.md"
ROW = re.compile(r"^(\w+) +([\d.]+) +([\d.]+) +([\d.]+)$", re.M)
COUNTED = re.compile(r"Collected : (\d+)")


def add_arguments(parser):
    """The words of the command."""
    parser.add_argument("files", metavar="FILE", nargs="+", type=pathlib.Path, help="a machine file with the name of a row")
    add_program(parser)
    parser.add_argument("--write", action="store_true", help="writes the counts into docs/SPEED.md")
    parser.add_argument("--most", type=float, default=float("inf"), help="how many times the other program's instructions a run may need")


def digits(number):
    """A number of millions in four digits, or all before the point."""
    return f"{number:.{max(4 - len(str(int(number))), 0)}f}"


def row_of(name, ours, other):
    """A row of the table, of two numbers of millions."""
    return f"{name:<12} {digits(ours):>7} {digits(other):>6} {ours / other:>6.2f}"


def others():
    """Millions of instructions of the other program, by the names of the rows."""
    return {name: float(other) for name, _, other, _ in ROW.findall(PAGE.read_text())}


def millions(program, path):
    """Millions of instructions of a run. Raises CannotError where it cannot be counted."""
    if not shutil.which("valgrind"):
        raise CannotError("valgrind is not there, which counts")
    words = ["valgrind", "--tool=callgrind", "--callgrind-out-file=/dev/null", program, "run", "--workers", "1"]
    try:
        data = path.read_bytes()
    except OSError as fault:
        raise CannotError(fault.strerror, path) from None
    done = subprocess.run(words, input=data, stdout=subprocess.DEVNULL, stderr=subprocess.PIPE)
    found = COUNTED.search(done.stderr.decode(errors="replace"))
    if done.returncode not in (0, 6) or not found:
        raise CannotError("the program does not run it", path)
    return int(found[1]) / 1e6


def run(given):
    """Counts the runs that are named."""
    find_program(given)
    known, rows, good = others(), {}, True
    for path in given.files:
        name = path.name.split(".")[0]
        if name not in known:
            raise CannotError(f"no row of docs/SPEED.md is called {name}", path)
        ours = millions(given.program, path)
        rows[name] = row_of(name, ours, known[name])
        good = good and ours <= given.most * known[name]
        print(rows[name], flush=True)
    if given.write:
        write_all({PAGE: ROW.sub(lambda found: rows.get(found[1], found[0]), PAGE.read_text())})
    return 0 if good else 1
