"""The names that stand in README.md and docs/: links, anchors, files, crates, definitions, functions and commands.

Where a page says that a name is in a file, the name has to stand there. Each crate uses only crates above it in crates.txt.
"""

import functools
import os
import re

from julampok.cli import command_names
from maintain.places import CRATES, DOCS, TOP

PAGES = [TOP / "README.md", TOP / "examples" / "README.md", TOP / "python" / "tests" / "recordings" / "README.md", *sorted(DOCS.glob("*.md"))]
BUILT = ("out", "__pycache__", ".git")  # Folders whose files are in no page.

LINK = re.compile(r"\]\(([^)\s]+)\)")
CODE = re.compile(r"`([^`\n]+)`")
FILE = re.compile(r"(?:[\w.-]+/)*[\w.-]+\.(?:rt|antt|py|md|json|log|txt|edit)$")
WORD = re.compile(r"[a-z]+(?:_[a-z0-9]+)+$|[A-Z]\w*::\w+$|[A-Z][a-z]+(?:[A-Z][a-z]*)+$")
WITHIN = re.compile(r"((?:`[\w:]+`(?:,\s+|\s+and\s+)?)+)\s+(?:in|of)\s+`([\w./]+)`")
COMMAND = re.compile(r"(tools/dev|\./julampok) ([a-z][\w-]*)")
KERNEL = {"last_failed_step"}  # Names of the kernel that nothing here writes as one word.
ANYWHERE = ("kernel", "drivers", "include")  # Where the files of Linux stand.
SOURCES = (".rt", ".antt", ".py")


@functools.cache
def files():
    """The path of each file of the repository, by its name."""
    found = {}
    for folder, folders, names in os.walk(TOP):
        folders[:] = [name for name in folders if name not in BUILT]
        inside = os.path.relpath(folder, TOP)
        for name in names:
            found.setdefault(name, []).append(os.path.normpath(os.path.join(inside, name)))
    return found


def is_file(named):
    """Whether a file stands somewhere whose path ends so."""
    return any(path == named or path.endswith("/" + named) for path in files().get(os.path.basename(named), []))


@functools.cache
def crates():
    """The names of the crates."""
    return {path.name for path in CRATES.iterdir()}


@functools.cache
def known():
    """Each name that code, definitions, proofs and tools give, and each word of docs/FORMATS.md; tests of tools give none."""
    found = set(re.findall(r"[A-Za-z_]\w*", (DOCS / "FORMATS.md").read_text())) | KERNEL
    paths = [path for listed in files().values() for path in listed]
    for path in paths:
        folder = path.split("/")
        if path.endswith(SOURCES) and folder[0] in ("crates", "tools", "python") and folder[1] != "tests":
            found |= set(re.findall(r"[A-Za-z_][A-Za-z0-9_]*", (TOP / path).read_text(errors="replace")))
    return found


# ---- links


def anchor(heading):
    """The anchor of a heading, as pages of a repository make it."""
    text = re.sub(r"[^\w\- ]", "", heading.strip().lower())
    return text.replace(" ", "-")


@functools.cache
def anchors(path):
    """The anchors of a page."""
    return {anchor(line.lstrip("#")) for line in path.read_text().split("\n") if line.startswith("#")}


def broken_links(page, line):
    """The links of a line that lead nowhere."""
    for link in LINK.findall(line):
        if re.match(r"https?:|mailto:", link):
            continue
        file, _, place = link.partition("#")
        target = page.parent / file if file else page
        if not target.exists():
            yield f"no file {file}"
        elif place and place not in anchors(target):
            yield f"no heading {link}"


# ---- names


def broken_code(code):
    """What is not there of what a page names as code."""
    if FILE.match(code) and "*" not in code and code.upper() != code and code[0] != ".":
        named = code.removeprefix("../")
        if not named.startswith(ANYWHERE) and not is_file(named):
            yield f"no file {code}"
    elif WORD.match(code) and any(word not in known() and word not in crates() for word in re.findall(r"\w+", code)):
        yield f"no name {code}"


def broken_names(page, line):
    """The names of a line that are not there; what stands in square brackets is the kernel's."""
    for code in CODE.findall(re.sub(r"\[[^\]()]*\](?!\()", "", line)):
        yield from broken_code(code)


def file_places():
    """Where a file that a page names may stand."""
    yield from (TOP, DOCS, CRATES / "sleep_model", *sorted(CRATES.iterdir()), CRATES, TOP / "examples")


def texts_at(path):
    """The texts of a file, or of all files of a folder, with the names of its proofs."""
    yield from (proof.stem for proof in path.glob("proofs/**/*.antt"))
    folders = [path / part for part in ("src", "specs")] if (path / "src").exists() else [path]
    for file in [path] if path.is_file() else [file for folder in folders for file in folder.rglob("*.*")]:
        if file.suffix in (*SOURCES, ".json"):
            yield file.read_text(errors="replace")


@functools.cache
def text_of(named):
    """The text of each file of that name, wherever one may stand."""
    return "\n".join(text for place in file_places() if (place / named).exists() for text in texts_at(place / named))


def broken_places(page):
    """The names of a page that do not stand in the file or crate that the page says, each with its line."""
    whole = page.read_text()
    for found in WITHIN.finditer(whole):
        text = text_of(found[2])
        for name in CODE.findall(found[1]) if text else []:
            if not re.search(rf"\b{name.split('::')[-1]}\b", text):
                yield whole.count("\n", 0, found.start()) + 1, f"no {name} in {found[2]}"


def broken_commands(page, line):
    """The commands of a line that neither tool has."""
    from maintain.cli import COMMANDS

    have = {"tools/dev": set(COMMANDS), "./julampok": set(command_names())}
    for tool, command in COMMAND.findall(line):
        if command not in have[tool]:
            yield f"no command {tool} {command}"


# ---- crates


def uses_below():
    """The crates that use one below them in crates.txt."""
    order = []
    for number, line in enumerate((TOP / "crates.txt").read_text().split("\n"), 1):
        crate, colon, used = line.partition(":")
        if colon and not line.startswith("#"):
            order.append(crate.split()[0])
            for other in used.split():
                if other in crates() and other not in order:
                    yield f"crates.txt:{number}: {crate} uses {other}, which stands below"


def order_of_crates():
    """The crates of crates.txt in their order."""
    lines = (TOP / "crates.txt").read_text().split("\n")
    return [line.partition(":")[0].split()[0] for line in lines if ":" in line and not line.startswith("#")]


# ---- all


def broken(page):
    """What is not there of a page, each with its place."""
    lines = enumerate(page.read_text().split("\n"), 1)
    found = [(number, what) for number, line in lines for find in (broken_links, broken_names, broken_commands) for what in find(page, line)]
    yield from (f"{page.relative_to(TOP)}:{number}: {what}" for number, what in found + [*broken_places(page)])


def all_broken():
    """What is not there of any page, and the crates that use one below them."""
    return [what for page in PAGES for what in broken(page)] + [*uses_below()]
