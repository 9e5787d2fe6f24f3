"""Measures the program: ratios of times, which carry over from one computer to another.

Each row of a bench is a time, how many things it was divided by, and its ratio to another time with the most that it may be.
A time is the processor's, the least of some runs; of `workers` it is the time from start to end. Ends with status 1 where
a ratio is greater than it may be. A busy computer makes ratios wrong.
"""

import argparse
import tempfile

from maintain.bench.clock import RUNS, Clock
from maintain.bench.table import BENCHES, workers
from maintain.trials.subject import add_program, find_program, whole

HELP = "measures the program, by ratios of times"
EXAMPLE = "tools/dev bench attempts links"
UNITS = (("s", 1.0), ("ms", 1e-3), ("us", 1e-6), ("ns", 1e-9))
HEAD = f"{'row':>34} {'of':>9} {'time':>10} {'ratio':>7} {'most':>5}"


def bench_name(text):
    """The name of a bench."""
    if text not in BENCHES:
        raise argparse.ArgumentTypeError(f"no bench {text!r}; there are {', '.join(BENCHES)}")
    return text


def add_arguments(parser):
    """The words of the command."""
    parser.add_argument("names", metavar="NAME", nargs="*", type=bench_name, help=f"of {', '.join(BENCHES)} (default: all)")
    add_program(parser)
    parser.add_argument("--runs", type=whole, default=RUNS, help="of how many runs the least time is taken (default: %(default)s)")
    own = "of `workers`: a machine file in place of its own machines"
    parser.add_argument("--machine", metavar="FILE", action="append", default=[], help=own)


def time_text(seconds):
    """A time with its unit."""
    unit, size = next(((unit, size) for unit, size in UNITS if seconds >= size), UNITS[-1])
    return f"{seconds / size:.3g} {unit}"


def tell(row, clock):
    """Prints a row, and returns whether its ratio is as it may be."""
    each, count = clock.each(row.over)
    least = min(clock.each(spent)[0] for spent in row.under)
    ratio = each / least if least else float("inf")
    most = "-" if row.most is None else f"{row.most:g}"
    is_good = row.most is None or ratio <= row.most
    more = " ".join(filter(None, [row.note(clock), "" if is_good else "TOO MUCH"]))
    print(f"{row.name:>34} {count:>9} {time_text(each):>10} {ratio:>7.2f} {most:>5}  {more}".rstrip(), flush=True)
    return is_good


def run(given):
    """Measures the benches that are named."""
    if given.names != ["recordings"]:
        find_program(given)
    good = True
    with tempfile.TemporaryDirectory() as folder:
        for name in given.names or BENCHES:
            clock = Clock(given.program, folder, given.runs)
            print(f"{name}: {BENCHES[name].__doc__.splitlines()[0]}\n{HEAD}", flush=True)
            rows = workers(given.machine) if name == "workers" else BENCHES[name]()
            good = all([tell(row, clock) for row in rows]) and good
    return 0 if good else 1
