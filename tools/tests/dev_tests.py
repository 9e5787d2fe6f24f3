"""What the tests of the maintainers' tool share: where files stand, and how a command is run."""

import contextlib
import dataclasses
import io
import pathlib
import sys

ROOT = pathlib.Path(__file__).resolve().parents[2]
HERE = ROOT / "tools" / "tests"
WORKED = ROOT / "tools" / "worked"
STAND_IN = HERE / "bin" / "program"  # In the place of the proved program: the second writing.
for folder in (ROOT / "tools", ROOT / "python"):
    if str(folder) not in sys.path:
        sys.path.insert(0, str(folder))

from maintain import cli  # noqa: E402


@dataclasses.dataclass
class Done:
    """How a command ended."""

    status: int
    out: str
    err: str


def dev(*words):
    """Runs a command of `tools/dev` in this process."""
    out, err = io.StringIO(), io.StringIO()
    with contextlib.redirect_stdout(out), contextlib.redirect_stderr(err):
        try:
            status = cli.main(words)
        except SystemExit as end:
            status = end.code or 0
    return Done(status, out.getvalue(), err.getvalue())
