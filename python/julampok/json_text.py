"""Reads JSON as the program does (`serde_json`), and tells where each value stands.

`read_json` is fast and says yes or no; only what it refuses, or what asks for places, is gone through letter by letter.
"""

import json
import math
import re

DEEPEST = 127  # So many lists and objects may stand in each other.
SPACE = re.compile(r"[ \t\r\n]*")
TOKEN = re.compile(
    r'(?P<mark>[{}\[\],:])|(?P<text>"(?:[^"\\\x00-\x1f]++|\\(?:["\\/bfnrt]|u[0-9a-fA-F]{4}))*+")|'
    r"(?P<number>-?(?:0|[1-9]\d*+)(?:\.\d++)?+(?:[eE][+-]?\d++)?+)(?![\w.+-])|(?P<word>true|false|null)(?!\w)")
OPEN_TEXT = re.compile(r'"(?:[^"\\\x00-\x1f]++|\\(?:["\\/bfnrt]|u[0-9a-fA-F]{4}))*+')
HALF = re.compile(r"\\u[dD][89a-fA-F]")
ESCAPE = re.compile(r"\\(?:u([0-9a-fA-F]{4})|.)")
TEXTS = re.compile(r'"(?:[^"\\]++|\\.)*+"', re.S)
FOUND = {"'": "texts stand in double quotes", "/": "JSON has no comments", "#": "JSON has no comments",
         "+": "a number has no '+' before it", ".": "a number begins with a digit"}
WORDS = {"True": "true", "False": "false", "None": "null", "NaN": None, "Infinity": None, "undefined": None, "nan": None}
EXPECTED = {
    "value": "a value", "first": "a value or ']'", "key": "a member's name in double quotes", "first key": "a member's name in double quotes or '}'",
    "colon": "':' behind the member's name", "item end": "',' or ']'", "member end": "',' or '}'", "end": "nothing more",
}


CLOSING = {"first": "]", "item end": "]", "first key": "}", "member end": "}"}


class NoJson(Exception):
    """The bytes are no JSON: the line and the column, both from 1, and what is wrong there."""

    def __init__(self, line, column, why):
        super().__init__(f"line {line}, column {column}: {why}")
        self.line, self.column, self.why = line, column, why


def place_at(text, at):
    """The line and the column of a letter, both from 1."""
    return text.count("\n", 0, at) + 1, at - text.rfind("\n", 0, at)


def fault(text, at, why):
    """The refusal of a letter, by its place in the text."""
    return NoJson(*place_at(text, at), why)


def read_json(data):
    """The value of the bytes. Raises NoJson exactly where `serde_json` refuses them."""
    text = decoded(data)
    try:
        value = json.loads(text, parse_int=whole, parse_float=fraction, parse_constant=refuse)
    except (ValueError, RecursionError):
        for _ in places(text):
            pass
        raise NoJson(1, 1, "this is no JSON") from None
    if HALF.search(text) or not is_flat(text):
        for _ in places(text):
            pass
    return value


def decoded(data):
    """The text of the bytes. Raises NoJson where they are no UTF-8."""
    try:
        return data.decode()
    except UnicodeDecodeError as wrong:
        text = data[:wrong.start].decode()
        raise fault(text, len(text), f"the byte 0x{data[wrong.start]:02x} is no text in UTF-8") from None


def whole(digits):
    """A whole number; one that no whole number of the program holds is a fraction, as there."""
    if digits == "-0" or len(digits) > 20:
        return fraction(digits)
    return int(digits)


def fraction(digits):
    """A number that is no whole one. Raises ValueError where it is too great."""
    value = float(digits)
    if math.isinf(value):
        raise ValueError(digits)
    return value


def refuse(word):
    """Refuses NaN and its like, which are no JSON."""
    raise ValueError(word)


def is_flat(text):
    """Whether nothing is nested too deeply."""
    depth = 0
    for found in re.finditer(r"[\[{]++|[\]}]++", TEXTS.sub('""', text)):
        marks = found.group()
        depth += len(marks) if marks[0] in "[{" else -len(marks)
        if depth > DEEPEST:
            return False
    return True


def places(text):
    """Each value with its path of member names and numbers: (path, begin, end, begin of its member's name or None).

    Raises NoJson at the first letter that JSON does not have there. An element comes before the list or object around it.
    """
    walk = Walk(text)
    while walk.wanted != "end":
        value = walk.step()
        if value is not None:
            yield value
    if walk.at < len(text):
        raise unexpected(text, walk.at, "end", [])


class Walk:
    """A way through a JSON text, a token at a time: what is open, the path to what stands here, and what has to come."""

    def __init__(self, text):
        self.text, self.at = text, SPACE.match(text).end()
        self.opened = []  # The lists and objects around: their first letter, and where it stands.
        self.path, self.keys = [], []  # Of each of them the member or number, and where the member's name stands.
        self.wanted = "value"

    def step(self):
        """Goes past the next token; gives the value that ends there, if one does."""
        found = TOKEN.match(self.text, self.at)
        kind, token = (found.lastgroup, found.group()) if found else (None, None)
        begin, value = self.at, None
        if self.wanted in ("value", "first") and kind in ("text", "number", "word"):
            check_value(self.text, kind, token, self.at)
            value = self.ended(begin, found.end())
        elif self.wanted in ("value", "first") and token in ("{", "["):
            self.open(token)
        elif token is not None and token == CLOSING.get(self.wanted):
            value = self.close(found.end())
        elif not self.between(kind, token):
            raise unexpected(self.text, self.at, self.wanted, self.opened)
        self.at = SPACE.match(self.text, found.end()).end()
        return value

    def between(self, kind, token):
        """Takes a member's name, a colon or a comma where one has to come."""
        if self.wanted in ("key", "first key") and kind == "text":
            check_text(self.text, token, self.at)
            self.path.append(json.loads(token))
            self.keys.append(self.at)
            self.wanted = "colon"
        elif self.wanted == "colon" and token == ":":
            self.wanted = "value"
        elif self.wanted == "item end" and token == ",":
            self.path[-1] += 1
            self.wanted = "value"
        elif self.wanted == "member end" and token == ",":
            self.leave()
            self.wanted = "key"
        else:
            return False
        return True

    def open(self, token):
        """Goes into a list or an object."""
        if len(self.opened) == DEEPEST:
            raise fault(self.text, self.at, f"lists and objects stand more than {DEEPEST} deep in each other")
        self.opened.append((token, self.at))
        self.wanted = "first key" if token == "{" else "first"
        if token == "[":
            self.path.append(0)
            self.keys.append(None)

    def close(self, end):
        """Goes out of a list or an object, which is the value that ends there."""
        if self.wanted != "first key":
            self.leave()
        _, begin = self.opened.pop()
        return self.ended(begin, end)

    def leave(self):
        """Leaves the element or the member that the way stood in."""
        self.path.pop()
        self.keys.pop()

    def ended(self, begin, end):
        """A value that ends here; what has to come behind it."""
        self.wanted = "end" if not self.opened else "member end" if self.opened[-1][0] == "{" else "item end"
        return tuple(self.path), begin, end, self.keys[-1] if self.keys else None


def lone_half(token):
    """The first escape in a text that is half of a letter without its other half; None where there is none."""
    before = None
    for found in ESCAPE.finditer(token):
        half = int(found[1], 16) if found[1] else 0
        if 0xDC00 <= half < 0xE000:
            if before is None or before.end() != found.start():
                return before or found
            before = None
        elif before is not None:
            return before
        elif 0xD800 <= half < 0xDC00:
            before = found
    return before


def check_text(text, token, at):
    """Raises NoJson where an escape is half of a letter and stands alone."""
    found = lone_half(token) if HALF.search(token) else None
    if found is not None:
        raise fault(text, at + found.start(), f"'{found.group()}' is half of a letter and stands alone")


def check_value(text, kind, token, at):
    """Raises NoJson where a text or a number is one that the program does not read."""
    if kind == "text":
        check_text(text, token, at)
    if kind == "number" and math.isinf(float(token)):
        raise fault(text, at, "this number is too great")


def unexpected(text, at, wanted, opened):
    """What is wrong at a letter."""
    if at >= len(text):
        return early_end(text, wanted, opened)
    letter = text[at]
    if letter == '"' and wanted in ("value", "first", "key", "first key"):
        return open_text(text, at)
    if letter == "\ufeff":
        return fault(text, at, "a byte order mark stands before the text; JSON has none")
    word = re.match(r"[\w.+-]{1,40}", text[at:at + 40])
    said = word.group() if word and letter not in "+." else letter
    hint = hint_of(said, letter, wanted, opened)
    return fault(text, at, f"expected {EXPECTED[wanted]}, found {said!r}{'; ' * bool(hint)}{hint}")


def early_end(text, wanted, opened):
    """What is missing at the end of a file."""
    if not text.strip():
        return fault(text, len(text), "the file is empty")
    kind, begin = opened[-1] if opened else ("", 0)
    line, column = place_at(text, begin)
    name = {"{": "object", "[": "list"}.get(kind, "value")
    return fault(text, len(text), f"the file ends inside the {name} that begins in line {line}, column {column}; {EXPECTED[wanted]} is missing")


def hint_of(said, letter, wanted, opened):
    """What may have been meant by what JSON does not have."""
    if re.fullmatch(r"-?0\d+", said):
        return "a number has no 0 before it"
    if said in WORDS:
        return f"JSON spells it '{WORDS[said]}'" if WORDS[said] else "JSON has no such value"
    if wanted in ("key", "first key") and re.match(r"[\w-]", letter):
        return "a member's name stands in double quotes"
    if letter in "}]" and wanted in ("key", "value") and opened:
        return "the ',' before it is one too many"
    return FOUND.get(letter, "the file is one value, and it ended before this" if wanted == "end" else "")


def open_text(text, at):
    """What is wrong in a text that has no end."""
    end = OPEN_TEXT.match(text, at).end()
    if end >= len(text):
        return fault(text, at, "this text has no '\"' at its end")
    if text[end] == "\\":
        escape = text[end:end + 2]
        said = f"'{escape}'" if escape.isprintable() else repr(escape)
        return fault(text, end, f"{said} is no escape of JSON")
    if text[end] == "\n":
        return fault(text, at, "this text has no '\"' before the end of its line")
    return fault(text, end, f"the control character {text[end]!r} stands in a text")
