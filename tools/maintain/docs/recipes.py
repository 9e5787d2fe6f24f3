"""The recipes of docs/ARCHITECTURE.md: each row names files that are there, and words that stand in each of them.

A recipe is a table below a heading of the chapter "Recipes". One column of it is called "file", one "word". A file of a crate is named
below crates/, any other from the top. A word stands in a file if it is there by itself, or as the beginning of a longer name.
"""

import re

from maintain.places import CRATES, DOCS, TOP

PAGE = DOCS / "ARCHITECTURE.md"
CODE = re.compile(r"`([^`]+)`")


def chapter(text):
    """The lines of the chapter of recipes, each with its number."""
    inside = False
    for number, line in enumerate(text.split("\n"), 1):
        if line.startswith("## "):
            inside = line == "## Recipes"
        elif inside:
            yield number, line


def rows(text):
    """The rows of all tables of the chapter: the line's number, the files, and the words."""
    columns = []
    for number, line in chapter(text):
        cells = [cell.strip() for cell in line.strip("|").split("|")] if line.startswith("|") else []
        if "file" in cells and "word" in cells:
            columns = [cells.index("file"), cells.index("word")]
        elif cells and not set("".join(cells)) <= set("-"):
            yield number, *(CODE.findall(cells[column]) for column in columns)


def text_of(file):
    """The text of a file that a recipe names; None if there is none."""
    for place in (CRATES / file, TOP / file):
        if place.is_file():
            return place.read_text(errors="replace")
    return None


def wrong(files, words):
    """What is wrong with a row."""
    if not files or not words:
        yield "a step that names no file, or no word"
    for file in files:
        text = text_of(file)
        if text is None:
            yield f"no file {file}"
        else:
            yield from (f"no {word} in {file}" for word in words if not re.search(rf"(?<![A-Za-z0-9]){re.escape(word)}", text))


def all_wrong(page=PAGE):
    """What is wrong with the recipes, each with its place."""
    found = [(number, what) for number, files, words in rows(page.read_text()) for what in wrong(files, words)]
    return [f"{page.relative_to(TOP)}:{number}: {what}" for number, what in found]
