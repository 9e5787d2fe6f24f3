"""Machine files that the reader accepts, or refuses by the first rule that they break, as cases of `run` and `check`.

tools/worked/files.txt has the files that are texts, each behind its answer. A file that is accepted is run by one worker, by
the log of the second writing; where that log is long, it is accepted where `check` judges a log without entries. Bytes that
are no text, deep values, floats and lists at their limits stand here.
"""

import json

from julampok.second.judge import judged
from maintain.places import WORKED
from maintain.trials.files import expected
from maintain.worked.case import Case, judged_case
from maintain.worked.judged import BARE, rows_of

MOST = 200  # How many lines a run's log has at most.
NO_LOG = "finished\n"

# Inputs that are no texts: a byte that no text has, a mark of the order of bytes, a control character in a text, and values
# that nest 127 and 128 deep.
BYTES = [
    (((b"\xff", 1),), 1, "json"),
    (((b"\xef\xbb\xbf{}", 1),), 1, "json"),
    (((b'{"version":1,"sources":["\t"]}', 1),), 1, "json"),
    (((b"[", 127), (b"]", 127)), 2, "top"),
    (((b"[", 128), (b"]", 128)), 1, "json"),
]

# A float is no number of a machine, whichever it is.
FLOATS = ["1.0", "-0.0", "1e0", "0.5", "1.5e-300", "1.7e308", "18446744073709551616"]

# Each list: its name, an item that has form, how many it may have, and the next rule that so many like items break, and where.
LISTS = [
    ("devices", '{"name":"d"}', 1000, 8, "devices[1]"),
    ("links", '{"supplier":"a","consumer":"b"}', 4000, 10, "links[0]"),
    ("syscore", '"t"', 32, 13, "syscore[1]"),
    ("notifiers", '{"name":"n"}', 32, 13, "notifiers[1]"),
    ("sources", '"s"', 255, 14, "sources[1]"),
    ("actors", '{"name":"w","kind":"user"}', 256, 15, "actors[1]"),
    ("answers", '{"what":"syscore","name":"t"}', 10_000, 20, "answers[0]"),
]
# How many reports an answer may have, and how many answers with so many a file may have.
REPORTS, REPORTING = 16, 625
REPORT = b'{"call":"awake","source":"s"}'


def refused(pieces, rule, place):
    """The case of a file that breaks that rule first, and there."""
    return Case(("run",), pieces, 3, err=f"machine: rule {rule}: {place}\n".encode())


def accepted(text):
    """The case of a file that keeps all rules."""
    status, log, said = expected(text)
    if log.count(b"\n") <= MOST:
        return Case(("run", "--workers", "1"), ((text, 1),), status, log, said)
    return judged_case(text, NO_LOG.encode(), judged(BARE | json.loads(text), NO_LOG))


def texts():
    """The cases of the table."""
    for row in rows_of(WORKED / "files.txt"):
        answer, rest = row.split(" ", 1)
        if answer == "kept":
            yield accepted(rest.encode())
        else:
            place, text = rest.split(" ", 1)
            yield refused(((text.encode(), 1),), int(answer), place)


def list_pieces(name, item, count):
    """A file with so many like items in one list."""
    return ((f'{{"version":1,"{name}":['.encode(), 1), (f"{item},".encode(), count - 1), (f"{item}]}}".encode(), 1))


def lists():
    """Lists with as many items as they may have, which break a later rule, and with one more."""
    for name, item, most, rule, place in LISTS:
        yield refused(list_pieces(name, item, most), rule, place)
        yield refused(list_pieces(name, item, most + 1), 6, name)


def reporting(count):
    """A file with so many answers, each of another attempt and with as many reports as it may have."""
    yield b'{"version":1,"devices":[{"name":"d"}],"sources":["s"],"answers":[', 1
    for attempt in range(1, count + 1):
        yield b'{"what":"device","name":"d","phase":"late","attempt":%d,"reports":[' % attempt, 1
        yield REPORT + b",", REPORTS - 1
        yield REPORT + (b"]}," if attempt < count else b"]}]}"), 1


def reports():
    """As many reports as a file may have, and sixteen more."""
    most = tuple(reporting(REPORTING))
    yield Case(("check",), (*most, (f"\n{NO_LOG}".encode(), 1)), 1, b"illegal line 1 definition 23\n")
    yield refused(tuple(reporting(REPORTING + 1)), 24, "answers")


def floats():
    """Files with a float in place of a number."""
    for number in FLOATS:
        yield refused(((f'{{"version":{number}}}'.encode(), 1),), 3, "version")
        yield refused(((f'{{"version":1,"cpus":{number}}}'.encode(), 1),), 4, "cpus")


def cases():
    """A case for each file."""
    yield from texts()
    for pieces, rule, place in BYTES:
        yield refused(pieces, rule, place)
    yield from floats()
    yield from lists()
    yield from reports()
