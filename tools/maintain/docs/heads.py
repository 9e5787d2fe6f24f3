"""The page of crates, made of crates.txt and of the head of each crate's lib.rt.

docs/CRATES.md has the groups of crates.txt in their order. Each crate has its head, as its author wrote it, what it uses, and the
wrong bodies that its contracts refuse, by the names of their files. A crate without a head is refused.
"""

import re
import textwrap

from julampok.errors import CannotError
from maintain.places import CRATES, DOCS, TOP

HEAD = """# Crates

Each crate with what it is for, in the order of `crates.txt`: a crate uses only crates above it. `tools/dev docs` makes this page of
`crates.txt`, of the head of each crate's `lib.rt`, and of the names of its [wrong bodies](PROMISES.md#wrong-bodies).
[ARCHITECTURE](ARCHITECTURE.md) has the picture and the way of the data.
"""


def groups():
    """The groups of crates.txt: the comment before each, and its crates with what they use."""
    comment, crates = [], []
    for line in (TOP / "crates.txt").read_text().split("\n"):
        if line.startswith("#"):
            if crates:
                yield " ".join(comment), crates
                comment, crates = [], []
            comment.append(line.lstrip("# "))
        elif ":" in line:
            name, _, used = line.partition(":")
            crates.append((name.strip(), used.split()))
        elif not crates:
            comment = []
    yield " ".join(comment), crates


def head(crate):
    """The paragraphs of the comment on top of a crate's code."""
    sources = CRATES / crate / "src"
    source = sources / "lib.rt" if (sources / "lib.rt").is_file() else sources / "main.rt"
    lines = re.match(r"(?://!.*\n)*", source.read_text()).group().splitlines()
    text = "\n".join(line[3:].strip() for line in lines).strip()
    if not text:
        raise CannotError("no head says what the crate is for", source)
    return [" ".join(paragraph.split("\n")) for paragraph in text.split("\n\n")]


def wrapped(text):
    """A paragraph in lines of the width of the other pages."""
    return textwrap.fill(text, 130, break_long_words=False, break_on_hyphens=False)


def named(folder, ending):
    """The names of the files of a folder with that ending, as words."""
    return "; ".join(path.name.removesuffix(ending).replace("_", " ") for path in sorted(folder.glob(f"*{ending}")))


def tried(crate):
    """The wrong bodies of a crate, those in the gate and those set aside, in words."""
    folder = CRATES / crate / "must-fail"
    for what, ending in (("in the gate", ".edit"), ("set aside", ".edit.md")):
        names = named(folder, ending)
        if names:
            yield f"Wrong bodies {what}: {names}."


def entry(crate, used):
    """The lines of a crate."""
    first, *others = head(crate)
    stands = f"Uses {', '.join(f'`{other}`' for other in used)}." if used else "Uses no crate."
    for paragraph in (f"**`{crate}`**: {first}", *others, f"*{' '.join([stands, *tried(crate)])}*"):
        yield f"\n{wrapped(paragraph)}"


def heading(comment):
    """The lines above a group: what stands before the first colon or full stop of its comment is the title."""
    title, rest = re.fullmatch(r"([^:.]*)[:.]?\s*(.*)", comment).groups()
    yield f"## {title}"
    if rest:
        yield f"\n{wrapped(rest[0].upper() + rest[1:])}"


def page():
    """The page, with its file."""
    lines = [HEAD.rstrip("\n")]
    for comment, crates in groups():
        lines += ["", *heading(comment), *(line for crate, used in crates for line in entry(crate, used))]
    return DOCS / "CRATES.md", "\n".join(lines) + "\n"
