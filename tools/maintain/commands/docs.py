"""Writes the pages that are made of the code; with --check, checks all pages.

docs/DEFINITIONS.md and docs/DEFINITIONS_ASIDE.md are made of the comment lines of the crates' specs/, docs/CRATES.md of crates.txt
and the heads of the crates. --check says which of them is old, which link, file, crate, name or command of a page is not there, which
step of a recipe names a file or a word that is not there, which sentence is too long, and which pages are; it then ends with status 1.
"""

from julampok.files import write_all
from maintain.docs import heads, recipes
from maintain.docs.definitions import pages
from maintain.docs.names import all_broken
from maintain.docs.prose import all_long
from maintain.places import TOP

HELP = "writes the pages that are made of the code, or checks all pages"
EXAMPLE = "tools/dev docs --check"


def add_arguments(parser):
    """The words of the command."""
    parser.add_argument("--check", action="store_true", help="writes nothing, and checks all pages")


def run(given):
    """Writes the pages that are old, or says what is wrong with any page."""
    old = {path: text for path, text in [*pages(), heads.page()] if not path.is_file() or path.read_text() != text}
    if not given.check:
        write_all(old)
        print("".join(f"{path.relative_to(TOP)} is written\n" for path in old), end="")
        return 0
    wrong = [f"{path.relative_to(TOP)}: is old; `tools/dev docs` writes it" for path in old]
    wrong += all_broken() + recipes.all_wrong() + all_long()
    print("".join(f"{what}\n" for what in wrong), end="")
    return 1 if wrong else 0
