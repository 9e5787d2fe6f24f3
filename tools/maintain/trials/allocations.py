"""Each allocation of the program fails in turn: a run then ends for want of memory, or just as it ends where none fails.

The program is run over an allocator that fails at one call, built by the C compiler `cc`. With --kit each number is a run of
`rt try --fail-alloc N`, which builds the program anew each time, and takes about half a minute.
"""

import os
import pathlib
import re
import shutil
import subprocess
import tempfile
from dataclasses import dataclass

from julampok.errors import CannotError
from julampok.files import read_bytes
from maintain.places import CRATES, TOP

CRATE = CRATES / "sleep_main"
WORDS = ["run", "--workers", "1"]
NO_MEMORY = (8, b"", b"want of memory\n")
LARGE = 4096  # An example of that many bytes makes more allocations than one wants to fail each in turn.
PATIENCE = 3  # After that many numbers at which nothing failed the sweep ends: a failure may pass unseen.
LONGEST = 60  # Seconds that a run may take.

# malloc and realloc that give nothing at the call with that number, and tell so once by a byte.
FAILING = r"""
#define _GNU_SOURCE
#include <dlfcn.h>
#include <stdlib.h>
#include <unistd.h>

static long left = -1;

static int fails(void)
{
    if (left < 0)
        left = atol(getenv("FAIL_ALLOC"));
    return left > 0 && --left == 0 && write(atoi(getenv("FAIL_TOLD")), "!", 1) == 1;
}

void *malloc(size_t bytes)
{
    static void *(*real)(size_t);
    if (!real)
        real = dlsym(RTLD_NEXT, "malloc");
    return fails() ? NULL : real(bytes);
}

void *realloc(void *old, size_t bytes)
{
    static void *(*real)(void *, size_t);
    if (!real)
        real = dlsym(RTLD_NEXT, "realloc");
    return fails() ? NULL : real(old, bytes);
}
"""


@dataclass(frozen=True)
class End:
    """How the run of a file ended where the allocation of that number failed, and how it ends where none does."""

    file: str
    number: int
    end: tuple
    whole: tuple
    is_reached: bool


def add_arguments(parser):
    """Which files are run, and over what."""
    small = "a machine file (default: the small ones of examples/, and the stored input of sleep_main)"
    parser.add_argument("files", metavar="FILE", nargs="*", help=small)
    parser.add_argument("--kit", action="store_true", help="by `rt try`, which builds the program itself")


def built(folder):
    """The library whose allocator fails."""
    source, library = folder / "failing.c", folder / "failing.so"
    source.write_text(FAILING)
    try:
        done = subprocess.run(["cc", "-O1", "-shared", "-fPIC", "-o", library, source, "-ldl"], capture_output=True, text=True)
    except OSError as error:
        raise CannotError(error.strerror, "cc") from None
    if done.returncode:
        raise CannotError(f"builds no allocator that fails: {done.stderr}", "cc")
    return library


class Shim:
    """Runs the built program over an allocator that fails."""

    def __init__(self, folder, files, program):
        self.files, self.program, self.library = files, program, built(folder)

    def run(self, file, number):
        """The status and both outputs, and whether that allocation was reached."""
        told, tell = os.pipe()
        env = {"LD_PRELOAD": str(self.library), "FAIL_ALLOC": str(number), "FAIL_TOLD": str(tell)}
        words = [self.program, *WORDS]
        with os.fdopen(told, "rb") as pipe:
            try:
                ran = subprocess.run(words, input=self.files[file], capture_output=True, env=env, pass_fds=[tell], timeout=LONGEST)
                end = ran.returncode, ran.stdout, ran.stderr
            except subprocess.TimeoutExpired:
                end = f"it ran for {LONGEST} seconds", b"", b""
            os.close(tell)
            return end, pipe.read() != b""

    def results(self, number):
        """Of each file, how its run ends where that allocation fails; 0 is none."""
        return {file: self.run(file, number) for file in self.files}


class Kit:
    """Runs the program as `rt try` builds it."""

    def __init__(self, folder, files, program):
        self.files, self.folder, self.whole = files, folder / "cases", None
        self.folder.mkdir()
        for name, data in files.items():
            (self.folder / name).write_bytes(data)

    def results(self, number):
        """Of each file, how its run ends where that allocation fails; 0 is none."""
        flags = ["--fail-alloc", str(number)] if number else []
        words = ["rt", "try", "--steps", "1", *flags, "--cases", str(self.folder), "--", *WORDS]
        ran = subprocess.run(words, cwd=CRATE, capture_output=True, stdin=subprocess.DEVNULL)
        ends = self.ends(ran.stdout, ran.stderr)
        if any(file not in ends for file in self.files):
            raise CannotError(f"rt try does not tell how each file ended:\n{ran.stderr.decode(errors='replace')[-2000:]}")
        self.whole = self.whole or ends
        return {file: (ends[file], number > 0 and ends[file] != self.whole[file]) for file in self.files}

    @staticmethod
    def ends(out, err):
        """Each file's status and outputs, taken from those of all."""
        outs = dict(re.findall(rb"^== (.*)\n((?:(?!== ).*\n)*)", out, re.M))
        ends = {}
        for said, name, status in re.findall(rb"((?:(?!case=).*\n)*)case=(\S+) run=ended status=(\d+) .*\n", err):
            said = re.sub(rb"^(?:allocations: .*|interpreter: .*|checked: .*)\n", b"", said, flags=re.M)
            ends[name.decode()] = (int(status), outs.get(name, b""), said)
        return ends


def files_of(given):
    """The bytes of each file by a name of its own."""
    small = [path for path in sorted((TOP / "examples").glob("*/*.json")) if path.stat().st_size < LARGE]
    paths = [pathlib.Path(file) for file in given.files] or [CRATE / "stdin", *small]
    return {f"{number}-{path.name}": read_bytes(path) for number, path in enumerate(paths)}


def ends(given):
    """How each run ends, for one number after the other, until no run makes so many allocations."""
    if given.kit and shutil.which("rt") is None:
        raise CannotError("the toolchain's folder bin/ has to stand on PATH", "rt")
    with tempfile.TemporaryDirectory() as name:
        runner = (Kit if given.kit else Shim)(pathlib.Path(name), files_of(given), given.program)
        whole = {file: end for file, (end, _) in runner.results(0).items()}
        still = 0
        for number in range(1, given.count + 1):
            results = runner.results(number)
            for file, (end, is_reached) in results.items():
                yield End(file, number, end, whole[file], is_reached)
            still = 0 if any(is_reached for _, is_reached in results.values()) else still + 1
            if still == PATIENCE:
                return


def wanted(end, given):
    """A run ends for want of memory, or as if nothing had failed."""
    return NO_MEMORY if end.end == NO_MEMORY else end.whole


def came(end, given):
    """How a run ended."""
    return end.end


def show(end, given):
    """Which allocation failed, and in which file's run."""
    return f"{end.file}, where allocation {end.number} fails"


def label(end, wanted, given):
    """How a run ended."""
    if not end.is_reached:
        return "made fewer allocations"
    return "ended for want of memory" if end.end == NO_MEMORY else "ended as if none had failed"
