"""Logs of a few entries, of which the last is the first bad line, as cases of `check`.

Which rule each breaks stands beside it in tools/worked/fronts.txt.
"""

import json

from maintain.places import WORKED
from maintain.worked.case import judged_case

FRONTS = WORKED / "fronts.txt"


def blocks():
    """Each block of the table, without its comments."""
    for block in FRONTS.read_text().split("\n\n"):
        lines = [line for line in block.splitlines() if not line.startswith("#")]
        if lines:
            yield lines


def cases():
    """A case for each front."""
    for head, *entries in blocks():
        name, rule = head.split(" | ")
        tree = json.loads((WORKED / "machines" / f"{name}.json").read_text())
        still = [f"source {source} 0 0 0 0 0 0 0" for source in [*tree["sources"], "autosleep"]]
        text = "".join(f"{line}\n" for line in [*entries, *still, "finished"])
        machine = json.dumps(tree, separators=(",", ":"))
        yield judged_case(machine.encode(), text.encode(), (len(entries), int(rule)))
