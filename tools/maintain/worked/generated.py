"""Generated machines, as cases of `gen`: tools/worked/generated has the file of each seed with so many devices."""

from maintain.places import WORKED
from maintain.worked.case import Case
from maintain.worked.logs import text_of


def cases():
    """A case for each file."""
    for path in sorted((WORKED / "generated").glob("*.json")):
        yield Case(("gen", *path.stem.split("_")), (), 0, text_of(path).encode())
