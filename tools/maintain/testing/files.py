"""Which files have tests, and how they are run: each in a process, as many at once as there are processors."""

import concurrent.futures
import os
import pathlib
import subprocess
import sys
import tempfile
import time
from dataclasses import dataclass

from maintain.places import TOP
from maintain.testing.results import Results

FOLDERS = (TOP / "python" / "tests", TOP / "tools" / "tests")
IN_A_BROWSER = sorted((TOP / "tools" / "tests").glob("browser_*.py"))
LONGEST = 900  # Seconds that the tests of a file may take, also where the computer does other things.


@dataclass(frozen=True)
class Ran:
    """A file of tests, what came of it, what it printed, and how many seconds it took."""

    path: pathlib.Path
    results: Results
    printed: str
    seconds: float

    @property
    def name(self):
        """The file's path in the repository."""
        return os.path.relpath(self.path, TOP)


def test_files(names=(), in_a_browser=False):
    """The files of tests whose paths have one of these names in them, all where there are none; the longest files first."""
    found = [path for folder in FOLDERS for path in folder.rglob("test*.py")] + IN_A_BROWSER * in_a_browser
    chosen = [path for path in found if not names or any(name in os.path.relpath(path, TOP) for name in names)]
    return sorted(chosen, key=lambda path: (-path.stat().st_size, path))


def run_file(path):
    """Runs the tests of a file. One that ends in another way than it should, or takes too long, has failed as a whole."""
    paths = os.pathsep.join(map(str, (TOP / "tools", TOP / "python")))
    env = os.environ | {"PYTHONPATH": paths, "PYTHONDONTWRITEBYTECODE": "1"}
    begun = time.monotonic()
    with tempfile.TemporaryDirectory() as folder:
        told = pathlib.Path(folder, "results")
        words = [sys.executable, "-m", "maintain.testing.child", path, told]
        try:
            streams = {"stdin": subprocess.DEVNULL, "stdout": subprocess.PIPE, "stderr": subprocess.STDOUT}
            done = subprocess.run(words, cwd=TOP, env=env, timeout=LONGEST, text=True, errors="replace", **streams)
            printed, why = done.stdout, f"its process ended with status {done.returncode}"
        except subprocess.TimeoutExpired as late:
            printed, why = (late.stdout or b"").decode(errors="replace"), f"it took more than {LONGEST} seconds"
        try:
            results = Results.read(told.read_text())
        except (OSError, ValueError, TypeError):
            results = Results(failed={os.path.relpath(path, TOP): why})
    return Ran(path, results, printed, time.monotonic() - begun)


def run_files(paths, at_once):
    """Runs the tests of these files, and gives each as it is done."""
    with concurrent.futures.ThreadPoolExecutor(at_once) as pool:
        for future in concurrent.futures.as_completed([pool.submit(run_file, path) for path in paths]):
            yield future.result()
