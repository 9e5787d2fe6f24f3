"""The prose of the pages that are written by hand: no sentence has more than thirty words, and no page grows without end.

Tables, headings, pictures and what stands in fences are not prose. What stands between backquotes counts as one word, and so does
a link's text without its target. A list's items are paragraphs of their own. For the length of the pages each word of the file counts,
as `wc -w` counts them.
"""

import re

from maintain.places import DOCS, TOP

MOST = 30  # Words of a sentence.
MADE = ("CRATES.md", "DEFINITIONS.md", "DEFINITIONS_ASIDE.md")  # The pages of docs/ that a tool writes.
README = TOP / "README.md"
OWN = [page for page in sorted(DOCS.glob("*.md")) if page.name not in MADE]
PLAIN = [README, TOP / "examples" / "README.md", *OWN]
BOUNDS = [("docs/ by hand", OWN, 20_000), ("README.md", [README], 850)]  # The words of pages, at most.

FENCE = re.compile(r"^```.*?^```$", re.M | re.S)
ITEM = re.compile(r"^\s*(?:[-*]|\d+\.) ")
ENDED = re.compile(r"(?<=[.!?])\**\s+(?=[A-Z\[`*\d])")


def paragraphs(text):
    """The paragraphs of a page, each with its line's number."""
    blank = FENCE.sub(lambda found: "\n" * found.group().count("\n"), text)
    start, lines = 0, []
    for number, line in enumerate([*blank.split("\n"), ""], 1):
        apart = not line.strip() or line.startswith(("|", "#", "!["))
        if lines and (apart or ITEM.match(line)):
            yield start, " ".join(lines)
            lines = []
        if not apart:
            start = start if lines else number
            lines.append(ITEM.sub("", line, count=1).strip())


def sentences(text):
    """The sentences of a page, each with its paragraph's line and its number of words."""
    for number, paragraph in paragraphs(text):
        plain = re.sub(r"`[^`]*`", "CODE", re.sub(r"\]\([^)]*\)", "]", paragraph))
        for sentence in ENDED.split(plain):
            yield number, sum(1 for word in sentence.split() if re.search(r"\w", word)), sentence


def too_long(page):
    """The sentences of a page that are too long, each with its place."""
    for number, words, sentence in sentences(page.read_text()):
        if words > MOST:
            yield f"{page.relative_to(TOP)}:{number}: a sentence of {words} words: {' '.join(sentence.split()[:6])} .."


def words_in(pages):
    """How many words these pages have together."""
    return sum(len(page.read_text().split()) for page in pages)


def too_many(bounds):
    """What has more words than it may have."""
    for what, pages, most in bounds:
        count = words_in(pages)
        if count > most:
            yield f"{what}: {count} words, and at most {most}"


def all_long():
    """The sentences that are too long, of all pages by hand, and the pages that are."""
    return [what for page in PLAIN for what in too_long(page)] + [*too_many(BOUNDS)]
