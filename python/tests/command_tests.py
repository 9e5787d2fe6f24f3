"""What the tests of the tool share: where files stand, and how a command is run."""

import contextlib
import dataclasses
import io
import pathlib
import subprocess
import sys

ROOT = pathlib.Path(__file__).resolve().parents[2]
WORKED = ROOT / "tools" / "worked"
EXAMPLES = ROOT / "examples"
SAMPLES = ROOT / "python" / "tests" / "samples"
if str(ROOT / "python") not in sys.path:
    sys.path.insert(0, str(ROOT / "python"))

from julampok import cli, program  # noqa: E402

# After the gate the proved program is built in the checkout. Tests go by the second writing, unless they name a program.
program.BUILT = ROOT / "crates" / "sleep_main" / "out" / "a program that no test builds"


@dataclasses.dataclass
class Done:
    """How a command ended."""

    status: int
    out: str
    err: str


class Stream(io.TextIOWrapper):
    """Text over bytes that are kept."""

    def __init__(self, data=b""):
        super().__init__(io.BytesIO(data), encoding="utf-8", errors="surrogateescape", newline="", write_through=True)

    def all(self):
        return self.buffer.getvalue().decode("utf-8", "surrogateescape")


def julampok(*words, data=b""):
    """Runs a command in this process, with these bytes as standard input."""
    out, err, old = Stream(), Stream(), sys.stdin
    sys.stdin = Stream(data if isinstance(data, bytes) else data.encode())
    try:
        with contextlib.redirect_stdout(out), contextlib.redirect_stderr(err):
            try:
                status = cli.main([str(word) for word in words])
            except SystemExit as end:
                status = end.code or 0
    finally:
        sys.stdin = old
    return Done(status, out.all(), err.all())


def julampok_apart(*words, **given):
    """Runs a command as a user does, in a process of its own."""
    return subprocess.run([ROOT / "julampok", *map(str, words)], capture_output=True, **given)
