"""The one way in which a command says that it cannot do what was asked."""

YES, NO, CANNOT = 0, 1, 2


class CannotError(Exception):
    """Words that are wrong, or an input that is missing, broken or cannot be followed: status 2 and one line.

    `file` is the path as the user gave it ('-' is standard input), `line` a number from 1; either may be None.
    """

    def __init__(self, text, file=None, line=None):
        super().__init__(text)
        self.text, self.file, self.line = text, file, line

    def __str__(self):
        """The line without the command's name: FILE:LINE: TEXT, as far as these are known."""
        place = "standard input" if str(self.file) == "-" else str(self.file) if self.file is not None else ""
        if self.line is not None:
            place = f"{place}:{self.line}" if place else f"line {self.line}"
        return one_line(f"{place}: {self.text}" if place else str(self.text))


def one_line(text):
    """The text with letters that would end the line, or change the terminal, written out."""
    return "".join(letter if letter.isprintable() else letter.encode("unicode_escape", "backslashreplace").decode() for letter in text)
