"""A case of the program: its words, what it reads, how its streams behave, and how it ends."""

from dataclasses import dataclass

CHUNK = 4096  # How many bytes a read or a write takes at most, where a case says nothing else.


@dataclass(frozen=True)
class Case:
    """The words behind the program's name, the pieces of its input, each with how often it stands, and its end.

    `words` is None where there is no word at all, not even the program's name. `streams` has pairs of words and a number, as the
    lines of a row of row_trials: how many bytes a call takes at most, how many standard output takes, which calls fail, which gate
    the workers pass. `end` is the word that ends the row, and says what is told of it; `counts` has the numbers that are told in
    place of the output, of which `out` then has the last line at most.
    """

    words: tuple
    pieces: tuple
    status: int
    out: bytes = b""
    err: bytes = b""
    streams: tuple = ()
    end: str = "row"
    counts: tuple = ()

    @property
    def data(self):
        """The whole input."""
        return b"".join(piece * times for piece, times in self.pieces)

    @property
    def left(self):
        """How many bytes of the input are not read: none where it is read to its end, all where the words ask for none of it."""
        size, streams = sum(len(piece) * times for piece, times in self.pieces), dict(self.streams)
        if self.status == 2 or self.words[0] in ("gen", "soak", "idle"):
            return size
        if self.status == 4:
            return max(0, size - (streams["read fails"] - 1) * streams.get("chunk", CHUNK))
        return 0


@dataclass(frozen=True)
class Call:
    """A call of a library: the word that ends its row, its input in pieces, what it gives, and how the row's streams behave."""

    end: str
    pieces: tuple
    out: bytes
    streams: tuple = ()


def many(byte, count):
    """The pieces of so many of one byte, 256 at a time."""
    return ((byte * 256, count // 256), (byte, count % 256))


def judged_case(tree, text, verdict):
    """The check of a machine's log: legal where the verdict is None, else its first bad line and the rule that this breaks."""
    said = b"legal\n" if verdict is None else b"illegal line %d definition %d\n" % verdict
    return Case(("check",), ((tree + b"\n" + text, 1),), 1 if verdict else 0, said)
