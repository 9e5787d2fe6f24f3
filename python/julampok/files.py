"""Reads inputs and writes outputs: '-' is standard input or output, and a new file is whole or is not there."""

import contextlib
import gzip
import io
import os
import pathlib
import re
import shutil
import signal
import sys
import tempfile
import threading
import zlib

from .errors import CannotError, one_line
from .progress import current

GZIP = b"\x1f\x8b"
MOST_READ = 1 << 30  # The bytes of an input, packed or not: what has more is no recording, as /dev/zero is none.
STANDARD = []  # What was read of standard input, which is read once.


def read_bytes(path):
    """The bytes of a file, or of standard input for '-'; unpacked where gzip packed them. Raises CannotError."""
    if str(path) == "-" and STANDARD:
        return STANDARD[0]
    try:
        data = unpacked(read_packed(path))
    except (OSError, EOFError, ValueError, zlib.error) as fault:
        raise CannotError(reason(fault), path) from None
    if str(path) == "-":
        STANDARD.append(data)
    return data


def read_packed(path):
    """The bytes as they stand in a file, or come from standard input."""
    if str(path) != "-":
        with open(path, "rb") as file:
            return whole(file)
    if sys.stdin is None:
        raise ValueError("is closed")
    return whole(sys.stdin.buffer)


def unpacked(data):
    """The bytes that gzip packed, or those that it did not."""
    if not data.startswith(GZIP):
        return data
    try:
        with gzip.GzipFile(fileobj=io.BytesIO(data)) as file:
            return whole(file)
    except (OSError, EOFError, zlib.error) as fault:
        raise ValueError(f"cannot be unpacked: {fault}") from None


def whole(file):
    """All bytes of an open file, of which there may be so many."""
    data = file.read(MOST_READ + 1)
    if len(data) > MOST_READ:
        raise ValueError(f"is longer than {MOST_READ:,} bytes")
    return data


def refuse_twice(machine, log):
    """Raises CannotError where standard input would have to be the machine and its log."""
    if machine == log == "-":
        raise CannotError("standard input can be the machine or the log, not both")


# What a file of another kind begins with.
KINDS = [
    (re.compile(rb"\d+ \d+/\d+/\d+ \S+ \w"), "a log"), (re.compile(rb"# tracer:|cpus=\d+\n|\s*\S.*-\d+ +(\([\d -]+\) +)?\[\d+\]"), "a trace"),
    (re.compile(rb"\s*[\[{]"), "JSON"), (re.compile(rb"\x7fELF|MZ"), "a program"), (re.compile(rb"\x89PNG|\xff\xd8\xff|GIF8"), "a picture"),
    (re.compile(rb"\s*<(!DOCTYPE|html|svg|\?xml)"), "a page"), (re.compile(rb"\x17\x08\x44tracing"), "a trace.dat, of which 'trace-cmd report' makes a trace"),
    (re.compile(rb"#!"), "a script"), (re.compile(rb"(\[ *\d+\.\d+\] |<\d+>)"), "a kernel's messages"),
]


def looks_like(data, but=""):
    """A part of a sentence that says what kind of file the bytes look like; nothing where that is not known, or the kind wanted."""
    found = next((kind for expression, kind in KINDS if expression.match(data[:4096])), None)
    return f"; this looks like {found}" if found and found != but else ""


def reason(fault):
    """What an error of the system says, without its number and the path."""
    return getattr(fault, "strerror", None) or str(fault) or type(fault).__name__


def read_text(path):
    """The text of a file in UTF-8. Raises CannotError with the line of the first byte that is none."""
    data = read_bytes(path)
    try:
        return data.decode()
    except UnicodeDecodeError as fault:
        raise CannotError("is no text in UTF-8", path, data.count(b"\n", 0, fault.start) + 1) from None


def write_out(text):
    """Writes text (or bytes) on standard output, quietly also where nobody reads any more. Raises CannotError."""
    data = as_bytes(text)
    current().erase()
    if sys.stdout is None:
        raise CannotError("is closed", "standard output")
    try:
        sys.stdout.flush()
        sys.stdout.buffer.write(data)
        sys.stdout.buffer.flush()
    except BrokenPipeError:
        silence()
    except (OSError, ValueError) as fault:
        silence()
        raise CannotError(f"cannot be written: {reason(fault)}", "standard output") from None


def say(name, text):
    """Writes one line on standard error; where that is closed nothing can be said."""
    try:
        print(one_line(f"{name}: {text}"), file=sys.stderr, flush=True)
    except (OSError, ValueError, AttributeError):
        pass


LATER = []  # What is said once the command has done its work.


def say_later(name, text):
    """Says one line on standard error after the command's work, and nothing where that fails: then the reason alone is said."""
    LATER.append((name, text))


def say_all():
    """Says what was kept for the end."""
    while LATER:
        say(*LATER.pop(0))


def silence():
    """Standard output takes everything from here on, and nobody reads it."""
    if sys.stdout is not sys.__stdout__:
        return
    try:
        os.dup2(os.open(os.devnull, os.O_WRONLY), 1)
    except OSError:
        pass


def is_same(one, two):
    """Whether two paths lead to one file that is there."""
    try:
        return os.path.samefile(one, two)
    except (OSError, ValueError):
        return False


def refuse_inputs(path, inputs):
    """Raises CannotError where the output has no name, would replace one of the inputs, or has no folder to stand in."""
    if not str(path) or "\0" in str(path):
        raise CannotError(f"no file has the name {str(path)!r}, so it is not written")
    for given in inputs:
        if given is not None and str(given) != "-" and is_same(path, given):
            raise CannotError("is one of the inputs, so it is not written", path)
    if not pathlib.Path(path).absolute().parent.is_dir():
        raise CannotError("cannot be written: its folder is not there", path)


def write_new(path, data, inputs=()):
    """Writes the file as a whole: beside it first, then by a new name. '-' is standard output. Raises CannotError."""
    if str(path) == "-":
        write_out(data)
        return
    write_all({path: data}, inputs)


@contextlib.contextmanager
def ended_tidily():
    """While something is written, the signals that end a process first take away what stands half written.

    Only so long: a process that is forked meanwhile could lose such a signal, and be waited for without end.
    """
    def end(number, _):
        raise SystemExit(128 + number)

    is_first = threading.current_thread() is threading.main_thread()  # No other one takes signals.
    before = {number: signal.getsignal(number) for number in (signal.SIGTERM, signal.SIGHUP)} if is_first else {}
    changed = [number for number, how in before.items() if how == signal.SIG_DFL]
    for number in changed:
        signal.signal(number, end)
    try:
        yield
    finally:
        for number in changed:
            signal.signal(number, signal.SIG_DFL)


@ended_tidily()
def write_all(files, inputs=()):
    """Writes several files, given as {path: data}, all or none: each beside its place, then all by their names."""
    beside = {}
    try:
        for path in files:
            refuse_inputs(path, inputs)
            if pathlib.Path(path).is_dir() or str(path).endswith("/"):
                raise CannotError("is a folder", path)
        for path, data in files.items():
            if is_special(path):
                pathlib.Path(path).write_bytes(as_bytes(data))
            else:
                beside[path] = write_beside(pathlib.Path(path), data)
        for path in list(beside):
            os.replace(beside[path], os.path.realpath(path))
            del beside[path]
    except OSError as fault:
        raise CannotError(f"cannot be written: {reason(fault)}", path) from None
    finally:
        for left in beside.values():
            pathlib.Path(left).unlink(missing_ok=True)


def is_special(path):
    """Whether a device or a pipe stands there, which is written into and never replaced."""
    path = pathlib.Path(path)
    return path.exists() and not path.is_file()


def as_bytes(data):
    """The bytes of data that may be text."""
    return data if isinstance(data, bytes) else data.encode("utf-8", "surrogateescape")


def write_beside(path, data):
    """Writes the data into a new file of the same folder, with the rights that a new file has; gives its path."""
    path = pathlib.Path(os.path.realpath(path))
    number, name = tempfile.mkstemp(prefix=f".{path.name[:80]}.", dir=path.parent)
    try:
        with os.fdopen(number, "wb") as file:
            file.write(as_bytes(data))
            file.flush()
            os.fsync(file.fileno())
        os.chmod(name, path.stat().st_mode & 0o777 if path.exists() else 0o666 & ~mask())
    except BaseException:
        pathlib.Path(name).unlink(missing_ok=True)
        raise
    return name


def mask():
    """The rights that the process takes off new files."""
    found = os.umask(0)
    os.umask(found)
    return found


@ended_tidily()
def write_folder(path, files, inputs=()):
    """Writes a new folder with these files ({name: data}), all or none. Raises CannotError, also where it is there."""
    if str(path) == "-":
        raise CannotError("-o wants the name of a new folder, and standard output is none")
    refuse_inputs(path, inputs)
    path, made = pathlib.Path(path), None
    try:
        if path.exists() and (not path.is_dir() or any(path.iterdir())):
            raise CannotError("is there already; a new folder is written", path)
        made = pathlib.Path(tempfile.mkdtemp(prefix=f".{path.name[:80]}.", dir=path.parent))
        for name, data in files.items():
            (made / name).write_bytes(as_bytes(data))
        made.chmod(0o777 & ~mask())
        made.replace(path)
        made = None
    except OSError as fault:
        raise CannotError(f"cannot be written: {reason(fault)}", path) from None
    finally:
        if made is not None:
            shutil.rmtree(made, ignore_errors=True)
