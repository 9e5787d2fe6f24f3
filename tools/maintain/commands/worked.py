"""Writes the worked logs, and the other worked data, as the crates have them.

tools/worked/ has for each log its machine file NAME.json and its text NAME.log, worked out apart from the program; the table
in tools/maintain/worked/table.py says what each shows. A machine becomes the value that its file spells, an entry a line. What
is written: in crates/law_trials the values of the logs by which laws are tried, a module a subject, the laws that each is legal
and is what one worker writes, and the logs of tools/worked/broken with the laws that refuse them; in crates/row_trials every case
of the whole program, and what the program has to say of each. What a case has to come to stands in tools/worked and in the
tables of tools/maintain/worked, or is told by the second writing in Python; it is never taken from the program.

tools/worked/parts has cases of parts, a call a line with what it answers. With those that are made by a second writing they
become what crates/part_cases reads, and what it has to write.
"""

from julampok.files import write_all
from maintain.places import CRATES
from maintain.worked.files import all_files

HELP = "writes the worked logs and cases as terms, laws and rows of the crates"
EXAMPLE = "tools/dev worked --check"


def add_arguments(parser):
    """The words of the command."""
    parser.add_argument("--check", action="store_true", help="writes nothing; status 1 where a file is not as it would be written")


def run(given):
    """Writes each file that is not as it has to be, or names it."""
    found = {CRATES / path: text for path, text in all_files().items()}
    old = {path: text for path, text in found.items() if not path.is_file() or path.read_bytes() != text}
    if not given.check:
        for path in old:
            path.parent.mkdir(parents=True, exist_ok=True)
        write_all(old)
    for path in old:
        print(f"{path.relative_to(CRATES.parent)} {'is old' if given.check else 'is written'}")
    print(f"{len(old)} of {len(found)} files {'are old' if given.check else 'are written'}")
    return 1 if given.check and old else 0
