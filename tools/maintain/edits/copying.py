"""A copy of the checkout in which the wrong bodies that are set aside have their names back.

A wrong body is a file `crates/NAME/must-fail/X.edit`. One that is set aside is called `X.edit.md`, which the gate passes over.
"""

import os
import pathlib
import shutil
import sys

from julampok.errors import CannotError

ASIDE = ".edit.md"
# What stands in a checkout beside crates/ and is read by rt.
BESIDE = ("crates.txt", "HANDLES")
# What rt keeps of a crate in its folder out/: the library that it built, and what a check proved.
KEPT = ("rlib", "incremental")


def set_aside(folder):
    """The wrong bodies of a crate that are set aside, in order."""
    return sorted((folder / "must-fail").glob(f"*{ASIDE}"))


def wrong_bodies(folder):
    """The names of the wrong bodies of a crate that are tried, in order."""
    return sorted(path.name for path in (folder / "must-fail").glob("*.edit"))


def link_or_copy(one, other):
    """Gives a file a second name, or copies it where the second name would stand in another file system."""
    try:
        os.link(one, other)
    except OSError:
        shutil.copy2(one, other)


def link_proof(one, other):
    """As rt does when it takes over what another copy kept: a check replaces a proof's file, and may write into the others."""
    (link_or_copy if one.endswith(".oantt") else shutil.copy2)(one, other)


def take_kept(checkout, copy, name):
    """Gives the copy what rt kept of a crate in the checkout, and returns whether it could.

    It stays valid in the copy, since rt holds it to the crate's text.
    """
    for kind in KEPT:
        source, target = (top / "crates" / name / "out" / kind for top in (checkout, copy))
        try:
            if source.is_dir():
                shutil.copytree(source, target, symlinks=True, copy_function=link_or_copy if kind == "rlib" else link_proof)
        except (OSError, shutil.Error):
            # Another command may be writing what this one copies.
            shutil.rmtree(target, ignore_errors=True)
            return False
    return True


def give_names_back(folder):
    """Gives each wrong body of a crate that is set aside its name back."""
    for path in set_aside(folder):
        name = path.with_name(path.name.removesuffix(".md"))
        if name.exists():
            raise CannotError(f"{folder.name}: {name.name} stands in must-fail/ beside {path.name}")
        path.rename(name)


def add_bodies(folder, files):
    """Puts further wrong bodies into a crate of the copy."""
    room = folder / "must-fail"
    room.mkdir(exist_ok=True)
    for file in files:
        name = file.name.removesuffix(".md")
        if not name.endswith(".edit") or (room / name).exists():
            raise CannotError(f"{file}: a wrong body is a file X.edit or X.edit.md, and none of {folder.name} has that name")
        try:
            shutil.copyfile(file, room / name)
        except OSError as error:
            raise CannotError(f"{file}: {error.strerror}") from None


def without_out(crates):
    """What leaves out each crate's folder out/, and nothing else of that name."""
    return lambda folder, names: ["out"] if pathlib.Path(folder).parent == crates else []


def copy_files(checkout, copy):
    """Copies what rt reads of a checkout, without what it keeps."""
    try:
        shutil.copytree(checkout / "crates", copy / "crates", symlinks=True, ignore=without_out(checkout / "crates"))
        for name in BESIDE:
            if (checkout / name).exists():
                shutil.copyfile(checkout / name, copy / name)
    except (OSError, shutil.Error) as error:
        raise CannotError(f"{checkout} cannot be copied to {copy}: {error}") from None


def copy_of(checkout, room, names, below, added=()):
    """Copies the checkout's crates to a new folder in room, and returns it.

    names: the crates whose wrong bodies have their names back there, and get those added (paths of files).
    below: the crates of which it takes over what rt kept, so that rt need not prove them again.
    """
    copy = pathlib.Path(room) / "copy"
    copy_files(checkout, copy)
    for name in names:
        give_names_back(copy / "crates" / name)
        add_bodies(copy / "crates" / name, added)
    for name in sorted(below):
        if not take_kept(checkout, copy, name):
            print(f"{name}: what rt kept of it was changed meanwhile, so it is proved again", file=sys.stderr)
    return copy
