"""Runs the tests of both tools, in python/tests and tools/tests, several files at once.

A line on each file says how many tests it has and how long they took; a test that fails is shown with what it said. The last
line is 'N passed, M failed', with ', K skipped' behind it where a test was skipped. Ends with status 1 where one failed, or
where there was none.

--browser tries the shipped pages in headless Chromium, too, if that is there.
"""

import os

from maintain.testing.files import run_files, test_files
from maintain.testing.results import Results
from maintain.trials.subject import whole

HELP = "runs the tests of both tools"
EXAMPLE = "tools/dev test draw why"
MOST_LINES, MOST_LETTERS = 60, 400  # Of what a test that failed said.


def add_arguments(parser):
    """The words of the command."""
    parser.add_argument("names", metavar="NAME", nargs="*", help="only the files whose path has this in it")
    parser.add_argument("--browser", action="store_true", help="opens each shipped page in headless Chromium, too")
    jobs = "how many files at once (default: the processors, %(default)s)"
    parser.add_argument("--jobs", type=whole, default=len(os.sched_getaffinity(0)), help=jobs)


def shown(text):
    """The end of what a test said, and the beginning of each of its lines, shifted to the right."""
    lines = text.strip().splitlines()[-MOST_LINES:]
    return "".join(f"    {line if len(line) <= MOST_LETTERS else line[:MOST_LETTERS] + '..'}\n" for line in lines)


def tell(ran):
    """Prints a line on a file, and what its tests said that failed or were skipped."""
    results = ran.results
    word = "FAILED" if results.failed else "passed"
    print(f"{word} {ran.name}: {results.line()}, {ran.seconds:.1f} s, {results.processor:.1f} s of a processor", flush=True)
    for name, why in results.skipped.items():
        print(f"  skipped {name}: {why}")
    for name, why in results.failed.items():
        print(f"  failed {name}:\n{shown(why)}", end="")
    if results.failed and ran.printed.strip():
        print(f"  it printed:\n{shown(ran.printed)}", end="", flush=True)


def run(given):
    """Runs the tests of the files that are named."""
    total = Results()
    for ran in run_files(test_files(given.names, given.browser), given.jobs):
        tell(ran)
        total.add(ran.results)
    print(total.line())
    return 1 if total.failed or not total.count else 0
