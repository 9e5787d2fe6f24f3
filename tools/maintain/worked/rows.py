"""The cases of the program as the crate row_trials reads them, and what it has to say of them.

A row has its words, a line each, how its streams behave, the pieces of its input and its number. Of each the program says the
number, the status, how many bytes of the input are left and how long both texts are, and then the texts. Of a long output, or one
that several workers write in an order of their own, it says less: a checksum, or how many lines there are.

tools/worked/words.cases has words that are read only, a line each with what they ask for. Of each the program says that. Calls of
libraries are rows, too: of each the program says its number, and what the call gives.
"""

import zlib

from maintain.places import WORKED
from maintain.worked import formats, fronts, generated, judged, long_logs, reader, runs, tellings, turns, workers
from maintain.worked.part_cases import cut

NAME = "sleep"  # The word before the others: the program's own.


def cases():
    """Every case."""
    for module in (runs, tellings, judged, fronts, reader, generated, workers, long_logs, formats):
        yield from module.cases()


def words_of(case):
    """All words of a case, with the program's own name."""
    return () if case.words is None else (NAME, *case.words)


def row(case, number):
    """A case as it is read."""
    words = words_of(case)
    yield f"words {len(words)}\n".encode()
    yield from (f"{word}\n".encode() for word in words)
    yield from call(case, number)


def call(case, number):
    """A case or a call as it is read, from its streams on."""
    yield from (f"{what} {count}\n".encode() for what, count in case.streams)
    for piece, times in case.pieces:
        if times > 1:
            yield b"repeat %d\n" % times
        if times:
            yield b"input %d\n%s\n" % (len(piece), piece)
    yield f"{case.end} {number}\n".encode()


def told(case):
    """What the line of the report has of its output, and what stands of it after the line."""
    if case.end in ("lines", "rerun"):
        return "lines %d" % case.counts, case.out
    if case.end == "steps":
        return "hard %d wake %d" % case.counts, b""
    if case.end == "sums":
        return f"out {len(case.out)} adler32 {zlib.adler32(case.out)}", b""
    return f"out {len(case.out)}", case.out


def said(case, number):
    """What the program says of it. A gate is passed as its plan says."""
    line, shown = told(case)
    head = f"row {number} status {case.status} left {case.left} {line} err {len(case.err)}\n"
    gate = b"gate passed\n" if "gate" in dict(case.streams) else b""
    return head.encode() + shown + case.err + b"\n" + gate


def called():
    """Every call of a library."""
    for module in (formats, turns):
        yield from module.calls()


def gives(each, number):
    """What is said of a call."""
    return f"call {number} out {len(each.out)}\n".encode() + each.out


def asked():
    """Words that are read only, each with what they ask for."""
    for line in WORKED.joinpath("words.cases").read_text(encoding="utf-8").splitlines():
        if line and not line.startswith("#"):
            call, answer = cut(line)
            yield call.split(" ")[1:], answer


def asks(words, number):
    """Words as they are read."""
    lines = (f"words {len(words)}", *words, f"asks {number}")
    return "".join(f"{line}\n" for line in lines).encode()


def files():
    """The two files of the crate, by their paths in it."""
    every, words, calls = (list(enumerate(each, 1)) for each in (cases(), asked(), called()))
    rows = [piece for number, case in every for piece in row(case, number)]
    made = [piece for number, each in calls for piece in call(each, number)]
    yield "stdin", b"".join([*rows, *(asks(each, number) for number, (each, _) in words), *made])
    outcomes = [said(case, number) for number, case in every]
    answers = [f"asks {number} {answer}\n".encode() for number, (_, answer) in words]
    yield "stdout", b"".join([*outcomes, *answers, *(gives(each, number) for number, each in calls)])
