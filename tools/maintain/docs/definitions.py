"""The pages of definitions, made of the comment lines of the crates' specs/.

docs/DEFINITIONS.md has what a reader has to trust, in reading order, and behind it the definitions that a promise comes to.
docs/DEFINITIONS_ASIDE.md has those of the checker's account, and of the tree of devices. A definition without a
comment line, and one that the program's clauses come to and that no section has, are refused.
"""

import re

from julampok.errors import CannotError
from maintain.docs.reached import lines_of, reached
from maintain.docs.sections import ASIDE, ASIDE_HEAD, HEAD, PROGRAM, PROMISED, READING, SECTIONS
from maintain.places import CRATES, DOCS

CITED = re.compile(r" \(((?:own: )?[^()]*(?:\.c|\.h|_|own|struct )[^()]*)\)")


def sentence(comment):
    """A comment line as a sentence of its own, without the kernel's names, which have a column."""
    text = CITED.sub("", comment).replace("|", "\\|")
    if not re.match(r"(d\b|a to z\b)", text):
        text = text[0].upper() + text[1:]
    return text if text.endswith(".") else text + "."


def kernel_of(comment):
    """What of the kernel a comment line cites, as a column shows it."""
    found = CITED.search(comment)
    if not found:
        return ""
    cited = found.group(1)
    return cited if "own" in cited else ", ".join(f"`{name.strip()}`" for name in cited.split(","))


def definitions(path):
    """The names of a module's definitions, and the comment line of each."""
    comment = None
    for line, name in lines_of(path):
        if name:
            if comment is None:
                raise CannotError(f"{name} has no comment line", path)
            yield name, comment
        said = line.lstrip()
        is_comment = said.startswith("-- ") and not said.startswith("-- ----")
        comment = (f"{comment} {said[3:]}" if comment else said[3:]) if is_comment else None


def module_file(crate, module):
    """The file of a module of definitions."""
    return CRATES / crate / "specs" / f"{module}.antt"


def each_of(rows):
    """The definitions of such rows, each as its crate, its module and its name."""
    return [(crate, module, name) for crate, module, names in rows for name in names]


def unlisted():
    """The definitions that the program's clauses come to and that no section has."""
    listed = {(crate, module) for crate, _, _, modules in SECTIONS for module in modules}
    return sorted(one for one in reached(each_of(PROGRAM)) if one[:2] not in listed)


def section(crate, title, kernel, modules, shown):
    """The lines of a section; of its definitions it has those that are shown, all where that is None."""
    found = [(module, *row) for module in modules for row in definitions(module_file(crate, module))]
    rows = [(name, comment) for module, name, comment in found if shown is None or (crate, module, name) in shown]
    names = ", ".join(f"`{module}`" for module in modules)
    wide = kernel != "own" and any(CITED.search(comment) for _, comment in rows)
    yield f"\n## {title}\n"
    yield f"`crates/{crate}/specs`: {names}. Kernel: {kernel}.\n"
    yield "| definition | what it says |" + (" Linux 6.1 |" if wide else "")
    yield "|---|---|" + ("---|" if wide else "")
    for name, comment in rows:
        yield f"| `{name}` | {sentence(comment)} |" + (f" {kernel_of(comment)} |" if wide else "")


def reading():
    """The table of what to read, in order: for each question its definitions, where they stand, and what they say."""
    yield "\n| question | definition | what it says | Linux 6.1 |"
    yield "|---|---|---|---|"
    for question, answers in READING:
        asked = [question]
        for crate, module, name in each_of(answers):
            said = dict(definitions(module_file(crate, module))).get(name)
            if said is None:
                raise CannotError(f"no {name}", module_file(crate, module))
            shown = asked.pop() if asked else ""
            yield f"| {shown} | `{name}` (`{crate}`, `{module}`) | {sentence(said)} | {kernel_of(said)} |"


def page(lines, sections, shown):
    """The text of a page: these lines, and the sections behind them."""
    behind = [line for one in sections for line in section(*one, shown)]
    return "\n".join([*lines, *behind]) + "\n"


def pages():
    """The pages, each with its file."""
    for crate, module, name in unlisted():
        raise CannotError(f"{name} is on no page", module_file(crate, module))
    trusted = [(crate, module, names) for _, answers in READING for crate, module, names in answers]
    shown = reached(each_of([*PROGRAM, *PROMISED, *trusted]))
    yield DOCS / "DEFINITIONS.md", page([HEAD.rstrip("\n"), *reading()], SECTIONS, shown)
    yield DOCS / "DEFINITIONS_ASIDE.md", page([ASIDE_HEAD.rstrip("\n")], ASIDE, None)
