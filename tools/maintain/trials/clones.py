"""Laws that the prover has to close: a clone of this repository, which gets a crate for them."""

import pathlib
import re
import shutil
import subprocess

from julampok.errors import CannotError
from maintain.places import CRATES, TOP

LAWS = CRATES / "law_trials"


def clone_in(folder):
    """A clone of this repository, which is made where it is not there."""
    folder = pathlib.Path(folder).resolve()
    if not folder.exists():
        done = subprocess.run(["git", "clone", "--quiet", TOP, folder], capture_output=True, text=True)
        if done.returncode:
            raise CannotError(f"cannot be cloned: {done.stderr.strip()}", TOP)
    if not (folder / "crates.txt").is_file() or folder == TOP:
        raise CannotError("is no clone of this repository apart from it", folder)
    return folder


def crate_in(folder, name, libraries, files):
    """A new crate of a clone of this repository, over these libraries and with these files."""
    clone = clone_in(folder)
    crate, listed = clone / "crates" / name, clone / "crates.txt"
    for part in ("src", "specs", "proofs"):
        shutil.rmtree(crate / part, ignore_errors=True)
    for path, text in ({"specs/Lib.antt": "", "proofs/Lib.antt": ""} | files).items():
        (crate / path).parent.mkdir(parents=True, exist_ok=True)
        (crate / path).write_text(text)
    lines = [line for line in listed.read_text().splitlines(keepends=True) if not line.startswith(f"{name}:")]
    listed.write_text("".join([*lines, f"{name}: {' '.join(libraries)}\n"]))
    return crate


def specs_of(*names):
    """The files of specs/ of law_trials with these names, by their paths in a crate."""
    return {f"specs/{name}.antt": (LAWS / "specs" / f"{name}.antt").read_text() for name in names}


def listing(names):
    """The list of a crate's modules of definitions or of proofs."""
    return "".join(f"pub mod {name}\n" for name in names)


def renamed(files, name):
    """The files with another name in place of law_trials."""
    return {path: text.replace("Rattle.law_trials.", f"Rattle.{name}.") for path, text in files.items()}


def check(crate, *words):
    """The status of `rt check` in a crate, and what it says."""
    try:
        ran = subprocess.run(["rt", "check", *words], cwd=crate, capture_output=True, text=True, errors="replace")
    except OSError as error:
        why = f"{error.strerror}; the toolchain's folder bin/ has to stand on PATH"
        raise CannotError(why, "rt") from None
    return ran.returncode, ran.stdout + ran.stderr


def open_laws(crate, law):
    """The names, as the group of `law` finds them, of the laws that stay open in a crate; and what the check says where it fails."""
    status, said = check(crate)
    names = sorted(set(re.findall(f"{crate.name}::{law}: (?!proved)", said)))
    return names, said if status else None


def told(names, said):
    """What came of a check: nothing where each law is closed, else the open ones, or what it says."""
    return names or ([] if said is None else [said])
