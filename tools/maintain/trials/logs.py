"""Logs and broken copies of them, each with the verdict that a second reading gives: legal, or its first bad line and the rule.

Random machines are run by the second writing, in rounds and interleaved. The verdict is worked out by
`julampok.second.rules_kept` (the entries) and by `julampok.second.follow` (the statistics and the end). A copy has an entry
dropped, doubled, moved or changed in one word, with its times and numbers put right again or not; or a number of a source's
line, the end, or a line that no log has. Worked logs, and inputs that are refused, are tried too.
"""

import json
import random
from dataclasses import dataclass

from julampok.errors import CannotError
from julampok.second.copies import broken_copies, entries_of, is_in_form
from julampok.second.follow import Follower
from julampok.second.maker import Maker
from julampok.second.merged import Interleaved
from julampok.second.run import Run
from julampok.second.things import SourceFull
from julampok.second.trial import first_broken
from maintain.places import WORKED
from maintain.trials.programs import answer

MOST = 250  # How many entries a log has at most, since each is judged by a slow reading.
GRAMMAR, SOURCE, END = 23, 22, 20
NOTHING = {"devices": [], "sources": [], "notifiers": [], "actors": []}

# Inputs that are refused, as pieces and how often each, and what is said of them.
REFUSED = [
    ([], "machine: rule 1: json"),
    ([(b"{}\n", 1)], "machine: rule 3: version"),
    ([(b" ", 16_777_217), (b"\n", 1)], "machine: longer than 16777216 bytes"),
    ([(b"\n", 268_435_457)], "input: longer than 268435456 bytes"),
]


@dataclass(frozen=True)
class Input:
    """What the program reads, and how it has to end: its status and its two outputs."""

    data: bytes
    wanted: tuple


# ---- the second reading


def behind(tree, entries):
    """The lines of the sources behind entries that keep the rules, and whether nothing is left to do."""
    run = Follower(tree)
    if not all(run.allows(line) for line in entries):
        said = "\n".join(entries)
        raise CannotError(f"the two second writings differ: the rules are kept, but not by the run:\n{json.dumps(tree)}\n{said}")
    run.lines = []
    lines = run.end()[0].splitlines()
    return [line for line in lines if line.startswith("source ")], run.is_idle() and run.is_over()


def judged(tree, lines):
    """The first bad line of a log of these lines, from 1, and the least number that it breaks; None for a good log."""
    entries = [line for line in lines if line[:1].isdigit()]
    tail = lines[len(entries):]
    below = next((at for at, line in enumerate(entries) if "/-" in line or " -" in line), None)
    if below is not None:
        return below + 1, GRAMMAR
    at, broken = first_broken(tree, entries)
    if broken:
        return at + 1, broken[0]
    stats, over = behind(tree, entries)
    wrong = next((k for k, line in enumerate(stats) if tail[k] != line), None)
    if wrong is not None:
        return len(entries) + wrong + 1, SOURCE
    good = over and tail[len(stats):] == ["finished"]
    return None if good else (len(entries) + len(stats) + 1, END)


def input_of(tree, lines, verdict):
    """The input of a machine and a log of these lines, of which that verdict is due."""
    said = b"legal\n" if verdict is None else b"illegal line %d definition %d\n" % verdict
    data = json.dumps(tree).encode() + b"\n" + "".join(f"{line}\n" for line in lines).encode()
    return Input(data, (1 if verdict else 0, said, b""))


# ---- broken copies


def counted_wrong(dice, lines):
    """The lines with one number of a source's line changed."""
    copy = list(lines)
    at = dice.choice([at for at, line in enumerate(lines) if line.startswith("source ")])
    words = copy[at].split(" ")
    one = dice.randrange(2, len(words))
    words[one] = str(int(words[one]) + dice.choice([1, 5]))
    copy[at] = " ".join(words)
    return copy


def no_log(dice, lines):
    """Lines that the grammar has not, and the first of them, from 1."""
    at = dice.randrange(len(lines))
    way = dice.randrange(4)
    if way == 0:
        return [*lines[:at], "0 0/0/0 auto fly", *lines[at:]], at + 1
    if way == 1:
        return [*lines, "finished"], len(lines) + 1
    if way == 2:
        return lines[:at], None
    return [*lines[:at], lines[at] + " ", *lines[at + 1:]], at + 1


def stuck_end(tree, lines):
    """The log with an end that says a script waits for ever, or None where the log does not finish or has no script."""
    if lines[-1] != "finished" or not tree["actors"]:
        return None
    script = tree["actors"][0]
    who = ("irq:" if script["kind"] == "irq" else "task:") + script["name"]
    return [*lines[:-1], f"stuck {who} read"]


def copies_of(dice, tree, text):
    """Lines of logs, each with the verdict on them."""
    lines, entries = text.splitlines(), entries_of(text)
    tail = lines[len(entries):]
    yield lines, judged(tree, lines)
    stuck = stuck_end(tree, lines)
    if stuck:
        yield stuck, (len(lines), END)
    wrong = counted_wrong(dice, lines)
    yield wrong, judged(tree, wrong)
    if len(entries) < 4:
        return
    for _, _, copy in broken_copies(dice, tree, entries):
        if all(is_in_form(tree, line) for line in copy):
            yield copy + tail, judged(tree, copy + tail)
    whole, found = no_log(dice, lines)
    if found is not None:
        yield whole, (found, GRAMMAR)


# ---- all


def worked():
    """The worked machines and their logs."""
    for path in sorted(WORKED.glob("*.json")):
        log = path.with_suffix(".log")
        if log.exists():
            yield NOTHING | json.loads(path.read_text()), log.read_text()


def random_logs(given):
    """Random machines with their logs."""
    maker = Maker(given.seed)
    for number in range(given.count):
        tree = maker.machine()
        run = Interleaved(tree, number) if number % 2 else Run(tree)
        try:
            yield tree, run.run()[0]
        except SourceFull:
            continue


def inputs(given):
    """What is refused, then each log and its copies."""
    for pieces, said in REFUSED:
        yield Input(b"".join(piece * times for piece, times in pieces), (3, b"", f"{said}\n".encode()))
    dice = random.Random(given.seed)
    for tree, log in [*worked(), *random_logs(given)]:
        if len(entries_of(log)) <= MOST:
            for lines, verdict in copies_of(dice, tree, log):
                yield input_of(tree, lines, verdict)


def checked(case, given):
    """What the program says of an input."""
    return answer(given.program, ["check"], case.data)


def label(case, wanted, given):
    """Whether a log is legal, or the rule that it breaks."""
    status, said, _ = wanted
    return {0: "are legal", 3: "are refused"}.get(status, f"break rule {int(said.split()[-1]):2}" if status == 1 else "")
