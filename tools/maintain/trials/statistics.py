"""Logs whose statistics are known: worked ones, and random ones of which half are broken.

Of a broken log lines are taken out, exchanged or written twice, so that links may be too many, close a cycle or stand twice.
"""

import json

from julampok.second.run import Run
from julampok.second.stats import Chains
from julampok.second.stats_logs import WORKED, Logs, expected, longest_by_all
from maintain.trials.programs import answer


def pairs(given):
    """Machines and their logs, the worked ones first."""
    yield from ((tree, Run(tree).run()[0]) for tree, _, _ in WORKED)
    logs = Logs(given.seed)
    drawn = (logs.pair() for _ in range(given.count))
    yield from ((tree, log) for tree, log in drawn if log is not None)


def wanted(pair, given):
    """How the command `stats` has to end, by the second writing."""
    status, out, said = expected(*pair)
    return status, out.encode(), said.encode()


def counted(pair, given):
    """What the program's command `stats` tells."""
    return answer(given.program, ["stats"], data_of(pair, given))


def data_of(pair, given):
    """The input of a machine and its log."""
    tree, log = pair
    return f"{json.dumps(tree)}\n{log}".encode()


def label(pair, wanted, given):
    """Whether the links of a log can stand."""
    return "have links that cannot stand" if wanted[0] else "are counted"


# ---- the longest chain of the second writing itself


def chain_by_all(pair, given):
    """The longest chain's length by looking at all chains; None where the links cannot stand."""
    return None if expected(*pair)[0] else longest_by_all(Chains(*pair))


def chain_told(pair, given):
    """The longest chain's length as the second writing tells it; None where the links cannot stand."""
    status, out, _ = expected(*pair)
    if status:
        return None
    return next((int(line.split()[1]) for line in out.splitlines() if line.startswith("chain ")), "no line of a chain")
