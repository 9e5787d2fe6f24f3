"""Makes the data of a page small: the lines of a text share their words, and marks stand in columns of numbers.

The script of the page undoes it, and so does `unpacked` for the tests.
"""

import collections
import json
import re

FIRST = 0x100  # From here on a letter stands for a word of the table.
LAST = 0xD7FF  # Letters behind it have no code of their own in JSON.
PIECE = re.compile(r"[ \t]*[^ \t]+|[ \t]+")
FOREIGN = re.compile(f"[{chr(FIRST)}-\U0010ffff]")


def pieces_of(line):
    """The words of a line, each with the blanks before it."""
    return PIECE.findall(line)


def words_of(lines):
    """The words worth a place in the table, the most frequent first; letters that would be taken for a word need one."""
    counts = collections.Counter()
    for line in lines:
        counts.update(pieces_of(line))
    chosen = [word for word, count in counts.items() if FOREIGN.search(word) or count > 1 and len(word) > 2]
    chosen.sort(key=lambda word: (not FOREIGN.search(word), -counts[word] * len(word)))
    return chosen[: LAST - FIRST + 1]


def packed(lines):
    """A table of words, and the lines in which a letter stands for each word of the table."""
    words = words_of(lines)
    letters = {word: chr(FIRST + place) for place, word in enumerate(words)}
    return {"words": words, "lines": ["".join(letters.get(piece) or FOREIGN.sub("?", piece) for piece in pieces_of(line)) for line in lines]}


def unpacked(pack):
    """The lines that were packed."""
    words = pack["words"]
    return [re.sub(f"[{chr(FIRST)}-{chr(LAST)}]", lambda found: words[ord(found[0]) - FIRST], line) for line in pack["lines"]]


def column(numbers):
    """A column of numbers, in the shortest of three forms: as it is, as runs of equal ones, or as differences."""
    runs = []
    for number in numbers:
        if runs and runs[-2] == number:
            runs[-1] += 1
        else:
            runs += [number, 1]
    steps = [number - before for number, before in zip(numbers, [0, *numbers])]
    return min([numbers, {"runs": runs}, {"steps": steps}], key=lambda form: len(json.dumps(form)))


class Texts:
    """Gives each text a number, the same for the same text. Number 0 is no text."""

    def __init__(self):
        self.numbers = {"": 0}

    def number(self, text):
        return self.numbers.setdefault(text, len(self.numbers))

    @property
    def all(self):
        return list(self.numbers)


def script_json(value):
    """JSON that may stand in a script element: no `<` is in it, so nothing ends the element."""
    text = json.dumps(value, ensure_ascii=False, separators=(",", ":"))
    return text.replace("<", "\\u003c").replace("\u2028", "\\u2028").replace("\u2029", "\\u2029")
