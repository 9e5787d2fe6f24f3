"""Long traces of a real kernel: the recording of a whole cycle, again and again."""

import functools
import gzip
import pathlib

ROOT = pathlib.Path(__file__).resolve().parents[3]
RECORDINGS = ROOT / "python" / "tests" / "recordings"
LINES = 250_000
PLAIN = "import sys\nfor line in sys.stdin: pass"  # A program that reads line by line.


@functools.cache
def long_trace(name="s3"):
    """A trace of at least so many lines, of whole attempts."""
    lines = gzip.decompress((RECORDINGS / f"{name}.trace.gz").read_bytes()).splitlines(keepends=True)
    head = [line for line in lines if line.startswith(b"#")]
    body = lines[len(head):]
    return b"".join(head + body * -(-LINES // len(body)))


def words(command, name="s3"):
    """The words of a command over a trace from standard input, with the lists of its devices and links."""
    lists = {ending: str(RECORDINGS / f"{name}.{ending}.gz") for ending in ("devices", "links")}
    return (command, "-", "--devices", lists["devices"], "--links", lists["links"])
