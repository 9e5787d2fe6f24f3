"""The crates of the repository, and those of them that changed."""

import subprocess

from julampok.errors import CannotError


def crates_of(top):
    """Each crate that crates.txt lists, with the crates of the repository that it uses itself."""
    path = top / "crates.txt"
    try:
        lines = path.read_text(encoding="utf-8").splitlines()
    except (OSError, UnicodeDecodeError) as error:
        raise CannotError(f"{path}: {getattr(error, 'strerror', None) or 'it is not UTF-8'}") from None
    listed = [line.partition(":") for line in lines if line.strip() and not line.lstrip().startswith("#")]
    uses = {head.split()[0]: tail.split() for head, colon, tail in listed if colon and head.split()}
    return {name: [one for one in used if one in uses] for name, used in uses.items()}


def with_below(uses, names):
    """These crates and each crate below one of them, as a set."""
    found, waiting = set(), list(names)
    while waiting:
        name = waiting.pop()
        if name not in found:
            found.add(name)
            waiting.extend(uses[name])
    return found


def git(top, *words):
    """Runs git in the repository, and returns its status, what it printed, and the first line of what it complained of."""
    try:
        ran = subprocess.run(["git", "-C", str(top), *words], capture_output=True, text=True, errors="surrogateescape")
    except OSError as error:
        raise CannotError(f"git: {error.strerror}") from None
    said = ran.stderr.strip().splitlines() or [f"git ended with status {ran.returncode}"]
    return ran.returncode, ran.stdout, said[0]


def paths_of(top, *words):
    """The paths that git lists, each ended by NUL."""
    status, listed, complaint = git(top, *words, "-z", "--", "crates")
    if status:
        raise CannotError(complaint)
    return [path for path in listed.split("\0") if path]


def changed_since(top, uses, text):
    """The crates that crates.txt lists and whose src/ differs from that commit's, uncommitted changes included."""
    status, commit, _ = git(top, "rev-parse", "--verify", "--quiet", "--end-of-options", f"{text}^{{commit}}")
    if status:
        raise CannotError(f"{text}: no commit of that name in {top}")
    paths = paths_of(top, "diff", "--name-only", "--no-renames", commit.strip())
    paths += paths_of(top, "ls-files", "--others", "--exclude-standard")
    parts = [path.split("/") for path in paths]
    changed = {part[1] for part in parts if len(part) > 3 and part[2] == "src"}
    return [name for name in uses if name in changed]
