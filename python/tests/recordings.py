"""The recordings in the folder recordings/: which files belong together."""

import pathlib

FOLDER = pathlib.Path(__file__).parent / "recordings"
# Recordings of a machine of two test devices, which share one list of devices and have no messages.
SMALL = (
    "at-n1", "at-hard-begin", "at-prepare", "at-hard-prepare_late", "at-cpu2", "at-t1", "line-freeze-user-guarded",
    "g2-wakelock-held", "g3-event-in-attempt", "g9-error-each-time", "g10-autosleep-off-while-attempt")
SIDES = {name: "two" for name in SMALL} | {"noirq-fails": "s3"}  # Whose lists of devices and links they have.


def names():
    """The names of all recordings."""
    return sorted(path.name.removesuffix(".trace.gz") for path in FOLDER.glob("*.trace.gz"))


def file_of(name, ending):
    """A file of a recording as a path; None where it has none."""
    if ending in ("devices", "links"):
        name = SIDES.get(name, name)
    path = FOLDER / f"{name}.{ending}.gz"
    return str(path) if path.exists() else None


def inputs(name, without=()):
    """The files of a recording as the words of `read_inputs`, but for those that are left out."""
    return {ending: file_of(name, ending) for ending in ("trace", "devices", "links", "dmesg") if ending not in without}


def words(name, without=()):
    """The files of a recording as words of a command line."""
    found = inputs(name, without)
    options = [(f"--{ending}", found[ending]) for ending in ("devices", "links", "dmesg") if found.get(ending)]
    return [found["trace"], *(word for option in options for word in option)]
