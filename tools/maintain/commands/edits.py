"""Tries the wrong bodies that the gate passes over: the prover has to refuse each.

A wrong body is a file crates/NAME/must-fail/X.edit, which `rt ci` tries; where it is called X.edit.md, it is set aside.
This command copies the checkout, gives the files of each crate that are set aside their names back there, and runs
`rt must-fail NAME`. It takes over what `rt check` kept in the checkout; --ci takes what `rt ci` proved before.

A line on each wrong body says what its try came to. One fails that is not refused, that cannot be applied or read
(a BAD EDIT, which `rt ci` lets pass), that was not tried, or that is refused only because a proof file names what it took
away. The last line is 'N passed, M failed'. Ends with status 1 where one failed.
"""

import pathlib
import subprocess
import tempfile

from maintain.edits.copying import copy_of, set_aside, wrong_bodies
from maintain.edits.crates import changed_since, crates_of, with_below
from maintain.edits.outcomes import tried_of
from julampok.errors import CannotError
from maintain.places import TOP

HELP = "tries the wrong bodies that the gate passes over"
EXAMPLE = "tools/dev edits --since origin/main"


def add_arguments(parser):
    """The words of the command."""
    parser.add_argument("names", metavar="NAME", nargs="*", help="a crate")
    parser.add_argument("--since", metavar="COMMIT", help="the crates whose src/ changed since that commit")
    parser.add_argument("--all", action="store_true", help="each crate that has wrong bodies set aside")
    also = "a further wrong body of the one crate"
    parser.add_argument("--also", metavar="FILE", type=pathlib.Path, action="append", default=[], help=also)
    parser.add_argument("--ci", action="store_true", help="by `rt ci NAME`, which begins with what rt ci proved before")
    parser.add_argument("--list", action="store_true", help="only says which would be tried")
    folder = "where the copy is made for a while; on the checkout's file system it takes little room"
    parser.add_argument("--folder", type=pathlib.Path, help=folder)
    checkout = "another checkout than the one that this tool stands in"
    parser.add_argument("--checkout", metavar="FOLDER", type=pathlib.Path, default=TOP, help=checkout)


def chosen(given, uses):
    """The crates that the words name, in the order of crates.txt."""
    if sum([bool(given.names), given.since is not None, given.all]) != 1:
        raise CannotError("name crates, or give one of --since COMMIT and --all")
    unknown = next((name for name in given.names if name not in uses), None)
    if unknown is not None:
        raise CannotError(f"{unknown}: no crate of crates.txt")
    if given.also and len(given.names) != 1:
        raise CannotError("--also wants the name of one crate")
    changed = set(changed_since(given.checkout, uses, given.since)) if given.since is not None else uses
    return [name for name in uses if name in (given.names or changed)]


def ran(copy, name, by_ci):
    """Runs rt on a crate of the copy, and returns its status and what it wrote on standard output."""
    words = ["rt", "ci" if by_ci else "must-fail", name]
    try:
        done = subprocess.run(words, cwd=copy, stdin=subprocess.DEVNULL, stdout=subprocess.PIPE, text=True, errors="replace")
    except OSError as error:
        raise CannotError(f"rt: {error.strerror}; the toolchain's folder bin/ has to stand on PATH") from None
    return done.returncode, done.stdout


def tell(tried):
    """Prints a line on a wrong body, and returns whether it is refused as it has to be."""
    word = "passed" if tried.outcome.is_good else "FAILED"
    print(f"{word} {tried.crate}/{tried.name}: {tried.said}", flush=True)
    return tried.outcome.is_good


def try_crate(copy, name, by_ci):
    """Tries the wrong bodies of a crate, and returns how many are refused, and how many things failed.

    'rt ci NAME' says of the crates below what came of theirs, too, which is passed over.
    """
    wanted = [(name, body) for body in wrong_bodies(copy / "crates" / name)]
    status, output = ran(copy, name, by_ci)
    results = [tell(tried) for tried in tried_of(output, wanted) if tried.crate == name]
    passed, failed = sum(results), len(results) - sum(results)
    if status and not failed:
        failed = 1
        print(f"FAILED {name}: rt ended with status {status}, although it refused each wrong body", flush=True)
    if status and len(results) == failed:
        print("".join(f"  {line}\n" for line in output.splitlines()[-12:]), end="", flush=True)
    return passed, failed


def run(given):
    """Tries the wrong bodies of the crates that the words name."""
    if given.folder is not None and not given.folder.is_dir():
        raise CannotError(f"{given.folder}: no folder")
    uses = crates_of(given.checkout)
    counts = {name: len(set_aside(given.checkout / "crates" / name)) + len(given.also) for name in chosen(given, uses)}
    names = [name for name, count in counts.items() if count]
    for name, count in counts.items():
        if count or given.names:
            print(f"{name}: {count} wrong bodies that the gate passes over", flush=True)
    if given.list:
        return 0
    passed = failed = 0
    if names:
        with tempfile.TemporaryDirectory(prefix="julampok-edits-", dir=given.folder) as room:
            copy = copy_of(given.checkout, room, names, with_below(uses, names), given.also)
            for name in names:
                good, bad = try_crate(copy, name, given.ci)
                passed, failed = passed + good, failed + bad
    print(f"{passed} passed, {failed} failed")
    return 1 if failed else 0
