"""The cases of parts: the input of the program part_cases, and what it has to answer.

tools/worked/parts/ has cases that were worked apart from the program: a head for each part that is tried, and a line for each
call, with ` => ` and the answer behind it if the call answers one. Lines that begin with `#` are comments; an empty line ends
a part. Cases that are many are made here, from the words of the rules alone.
"""

from maintain.places import WORKED
from maintain.worked import idle_cases, link_cases

ANSWERS = " => "


def told_parts():
    """Each part of the files: a list of lines, the head first."""
    for path in sorted(WORKED.joinpath("parts").glob("*.cases")):
        for text in path.read_text(encoding="utf-8").split("\n\n"):
            yield [line for line in text.splitlines() if not line.startswith("#")]


def tree_cases():
    """A thousand devices, each below the one before; no more stand, whatever the next one is."""
    names = ["".join(chr(ord("a") + number // place % 10) for place in (100, 10, 1)) for number in range(1000)]
    lines = [f"register {name}{f' {number - 1}' if number else ''} => {number}" for number, name in enumerate(names)]
    refused = [f"register {words} => too many" for words in ("aah 0", "other 1000", "other")]
    yield ["tree", *lines, *refused, "len => 1000", "children 998 => 999", " => 1000"]


def all_parts():
    """Each part with its cases."""
    yield from told_parts()
    yield from link_cases.parts()
    yield from tree_cases()
    yield from idle_cases.parts()


def cut(line):
    """The call of a line and its answer."""
    call, _, answer = line.partition(ANSWERS)
    return call, answer


def files():
    """What the program reads, and what it has to write."""
    asked, answered = [], []
    for head, *lines in all_parts():
        pairs = [cut(line) for line in lines]
        asked.append("\n".join([head, *(call for call, _ in pairs if call)]) + "\n")
        answered.append("\n".join([head, *(answer for _, answer in pairs if answer)]) + "\n\n")
    return {"stdin": "\n".join(asked), "stdout": "".join(answered)}
