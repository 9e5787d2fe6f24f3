"""Tries each command with inputs that are missing, empty, cut, binary or of another kind: one line and status 2.

In each row BAD is the place of the bad input. A row names what may be read there all the same, as an empty list of links.
"""

import gzip
import json
import os
import pathlib
import re
import shlex
import signal
import stat
import subprocess
import tempfile
import unittest
import unittest.mock

from command_tests import EXAMPLES, ROOT, WORKED, julampok, julampok_apart
from julampok import cli

BAD = "BAD"
MACHINE, LOG, TRACE = WORKED / "parent_and_child.json", WORKED / "parent_and_child.log", ROOT / "python" / "tests" / "samples" / "s3.trace"
KINDS = ("machine", "log", "trace", "links", "devices", "dmesg", "sys", "page", "subject", "rules")
# The words of each command, with what kind of file is bad there.
ROWS = [
    ("machine", "run", BAD), ("machine", "check", BAD, LOG), ("log", "check", MACHINE, BAD),
    ("log", "explain", BAD), ("machine", "explain", "--machine", BAD, LOG), ("log", "draw", BAD), ("machine", "draw", "--machine", BAD, LOG),
    ("log", "dmesg", BAD), ("machine", "why", BAD), ("machine", "why", "machine: rule 9: devices[1]", BAD), ("log", "why", MACHINE, BAD),
    ("trace", "machine", "--trace", BAD), ("sys", "machine", BAD), ("trace", "replay", BAD), ("sys", "replay", TRACE, BAD),
    ("trace", "times", BAD), ("trace", "diff", TRACE, BAD), ("trace", "report", BAD), ("trace", "order", BAD, "d6", "d5"),
    ("subject", "sweep", BAD), ("trace", "sweep", MACHINE, "--trace", BAD), ("rules", "sweep", MACHINE, "--expect", BAD), ("trace", "diff", BAD, TRACE),
    *[(option, command, TRACE, f"--{option}", BAD) for option in ("devices", "links", "dmesg") for command in ("replay", "times", "report")],
]


def given_files(folder):
    """Bad inputs by their names: bytes in files, a folder, and a path that is not there."""
    whole = {"machine": MACHINE.read_bytes(), "log": LOG.read_bytes(), "trace": TRACE.read_bytes()}
    data = {
        "empty": b"", "binary": bytes(range(256)) * 40, "nul": b"\0" * 5000, "text": b"hello\nworld\n", "newlines": b"\n" * 500,
        "deep": b"[" * 100_000, "deep and closed": b"[" * 200_000 + b"]" * 200_000, "number": b"9" * 100_000, "huge": b'{"version":1,"cpus":1' + b"0" * 50_000 + b"}",
        "no utf-8": b'{"version": 1, "sources": ["\xff\xfe"]}\n', "program": b"\x7fELF\x02\x01\x01" + b"\0" * 999, "long line": b"x" * 1_000_000,
        "cut gzip": gzip.compress(whole["trace"])[:-200], "gzip of nothing": gzip.compress(b""), "png": b"\x89PNG\r\n\x1a\n" + bytes(900),
        "trace.dat": b"\x17\x08\x44tracing6\0\0\x04" + bytes(900), "page": b"<!DOCTYPE html>\n<html></html>\n", "json list": b"[1, 2]\n", "surrogate": b'{"version": 1, "sources": ["\\ud800"]}',
        "cut machine": whole["machine"][:60], "cut log": whole["log"][:700], "cut trace": whole["trace"][:50_000].rsplit(b" ", 1)[0],
        "a machine": whole["machine"], "a log": whole["log"], "a trace": whole["trace"],
    }
    for name, content in data.items():
        path = pathlib.Path(folder, name.replace(" ", "_"))
        path.write_bytes(content)
        yield name, path
    yield "missing", pathlib.Path(folder, "missing")
    inside = pathlib.Path(folder, "a folder")
    inside.mkdir()
    yield "folder", inside


# Which inputs are right for a kind of file, or may be: of a list without a line nothing is wrong, and messages are any text.
RIGHT = {
    "machine": {"a machine"}, "log": {"a log"}, "trace": {"a trace", "cut trace"}, "sys": set(), "devices": {"empty", "newlines", "gzip of nothing"},
    "links": {"empty", "newlines", "gzip of nothing", "json list"}, "dmesg": set(),
    "subject": {"a machine", "a trace", "cut trace"}, "rules": set(),
}
ANY_TEXT = {"dmesg"}


def is_there(command):
    return command in cli.command_names()


class BadInputs(unittest.TestCase):
    def setUp(self):
        self.folder = tempfile.TemporaryDirectory()
        self.files = dict(given_files(self.folder.name))

    def tearDown(self):
        self.folder.cleanup()

    def refused(self, done, words):
        self.assertEqual(done.status, 2, (words, done))
        self.assertEqual(done.err.count("\n"), 1, (words, done))
        self.assertTrue(done.err.startswith(f"julampok {words[0]}: "), (words, done.err))
        self.assertNotIn("Traceback", done.err)
        self.assertNotIn("fault of julampok", done.err)
        self.assertLess(len(done.err), 1000, words)
        if words[0] != "why":
            self.assertEqual(done.out, "", words)

    def test_files(self):
        before = sorted(os.listdir(self.folder.name))
        for kind, *words in ROWS:
            for name, path in self.files.items():
                if name in RIGHT[kind] or not is_there(words[0]) or kind in ANY_TEXT and name not in ("missing", "folder"):
                    continue
                with self.subTest(words=words, name=name):
                    self.refused(julampok(*[path if word is BAD else word for word in words]), words)
        self.assertEqual(sorted(os.listdir(self.folder.name)), before)

    def test_messages_of_any_text(self):
        """A dmesg that tells nothing, or is none, takes nothing away, or is refused in a line."""
        for name, path in self.files.items():
            if is_there("replay"):
                done = julampok("replay", TRACE, "--dmesg", path)
                self.assertIn(done.status, (0, 1, 2), (name, done))
                self.assertNotIn("fault of julampok", done.err)
                if done.status == 2:
                    self.refused(done, ("replay",))

    def test_standard_input(self):
        for words in (("run",), ("check", MACHINE), ("explain",), ("draw",), ("dmesg",), ("run", "-"), ("check", "-", LOG), ("why", "-"), ("why", MACHINE, "-")):
            for name in ("empty", "binary", "cut machine", "cut log", "text"):
                with self.subTest(words=words, name=name):
                    self.refused(julampok(*words, data=self.files[name].read_bytes()), words)

    def test_words(self):
        for name in cli.command_names():
            for words in ((name, "--nothing"), (name, "a", "b", "c", "d", "e", "--nothing=1")):
                self.refused(julampok(*words), words)
        for words in ((), ("nothing",), ("--nothing",), ("run", "--workers", "0", "x"), ("run", "--workers", "1"), ("check",), ("check", "-", "-"), ("why",),
                      ("draw", "--svg", "x", LOG), ("explain", "--machine", "-"), ("draw", "--machine", "-", "-"), ("why", "-", "-")):
            done = julampok(*words)
            self.assertEqual((done.status, done.out, done.err.count("\n")), (2, "", 1), (words, done))

    def test_inputs_without_end(self):
        """What has more bytes than any recording is refused, and not read to its end."""
        for words in (("run", "/dev/zero"), ("replay", "/dev/zero")):
            with unittest.mock.patch("julampok.files.MOST_READ", 100_000):
                self.refused(julampok(*words), words)
        bomb = pathlib.Path(self.folder.name, "bomb")
        bomb.write_bytes(gzip.compress(bytes(300_000)))
        with unittest.mock.patch("julampok.files.MOST_READ", 100_000):
            self.refused(julampok("run", bomb), ("run",))
        bomb.unlink()

    def test_standard_input_in_place_of_a_file(self):
        """'-' gives what the file would."""
        for words in (("order", BAD, "d6", "d5"), ("times", BAD), ("machine", "--trace", BAD)):
            told = julampok(*[TRACE if word is BAD else word for word in words])
            read = julampok(*["-" if word is BAD else word for word in words], data=TRACE.read_bytes())
            self.assertEqual((told.status, told.err.count("\n")), (read.status, read.err.count("\n")), read)

    def test_the_line_of_a_broken_machine(self):
        """Each command that reads a machine file names the line of what is wrong."""
        file = pathlib.Path(self.folder.name, "broken machine")
        for text, line in (('{"version": 1,\n}', 2), ('{"version": 1,\n"devices": [\n{"name": "a", "parent": "b"}]}', 3)):
            file.write_text(text)
            for words in (("run", file), ("check", file, LOG), ("sweep", file), ("order", file, "a", "b")):
                done = julampok(*words)
                self.refused(done, words)
                self.assertIn(f"broken machine:{line}: ", done.err)
        file.unlink()

    def test_programs_that_are_none(self):
        for program in ("/bin/true", "/bin/false", "/bin/cat", "/bin/echo", ROOT, ROOT / "README.md", "/nothing"):
            for words in (("run", "--program", program, MACHINE), ("check", "--program", program, MACHINE, LOG)):
                self.refused(julampok(*words), words)


    def test_what_it_looks_like(self):
        """A file of another kind is told to be that."""
        for words, kind in ((("run", LOG), "a log"), (("run", TRACE), "a trace"), (("explain", MACHINE), "JSON"), (("why", LOG), "a log"),
                            (("check", MACHINE, MACHINE), "JSON"), (("check", LOG, MACHINE), "a log"), (("run", self.files["png"]), "a picture"),
                            (("draw", self.files["program"]), "a program"), (("dmesg", self.files["page"]), "a page")):
            done = julampok(*words)
            self.refused(done, words)
            self.assertIn(f"; this looks like {kind}", done.err)


class Outputs(unittest.TestCase):
    def setUp(self):
        self.folder = tempfile.TemporaryDirectory()
        self.at = pathlib.Path(self.folder.name)

    def tearDown(self):
        self.folder.cleanup()

    def test_an_input_is_kept(self):
        for words in (("run", MACHINE), ("draw", LOG), ("draw", "--machine", MACHINE, LOG)):
            copies = []
            for word in words:
                if isinstance(word, pathlib.Path):
                    copy = self.at / word.name
                    copy.write_bytes(word.read_bytes())
                    copies.append(copy)
            link, hard = self.at / "link", self.at / "hard"
            link.symlink_to(copies[0])
            os.link(copies[0], hard)
            for output in (*copies, link, hard, self.at / "." / copies[0].name):
                done = julampok(*[self.at / word.name if isinstance(word, pathlib.Path) else word for word in words], "-o", output)
                self.assertEqual((done.status, done.err.count("\n")), (2, 1), done)
            self.assertEqual(copies[0].read_bytes(), {"run": MACHINE, "draw": LOG}[words[0]].read_bytes() if len(words) == 2 else MACHINE.read_bytes())
            link.unlink()
            hard.unlink()

    def test_names_that_no_output_has(self):
        """An output without a name, one that names a folder, and a machine file in the place of its table of names."""
        for output in ("", str(self.at / "x") + "/", self.at / "x.names"):
            done = julampok("machine", "--trace", TRACE, "-o", output)
            self.assertEqual((done.status, done.out, done.err.count("\n")), (2, "", 1), done)
            self.assertNotIn("fault of julampok", done.err)
        for output in ("", "-"):
            done = julampok("times", TRACE, "-o", output)
            self.assertEqual((done.status, done.out, done.err.count("\n")), (2, "", 1), done)
        self.assertEqual(os.listdir(self.at), [])

    def test_a_device_has_no_table_beside_it(self):
        os.mkfifo(self.at / "pipe")
        reader = subprocess.Popen(["cat", self.at / "pipe"], stdout=subprocess.PIPE)
        done = julampok("machine", "--trace", TRACE, "-o", self.at / "pipe")
        self.assertEqual((done.status, os.listdir(self.at)), (0, ["pipe"]), done)
        self.assertIn(b'"version": 1', reader.communicate()[0])

    def test_whole_or_not_at_all(self):
        self.assertEqual((julampok("run", MACHINE, "-o", "/dev/null").status, stat.S_ISCHR(os.stat("/dev/null").st_mode)), (0, True))
        for output in (self.at / "no" / "x.log", self.at, "/dev/full", self.at / ("x" * 300)):
            done = julampok("run", MACHINE, "-o", output)
            self.assertEqual((done.status, done.out, done.err.count("\n")), (2, "", 1), done)
        self.assertEqual(os.listdir(self.at), [])
        old = self.at / "old.log"
        old.write_text("old\n")
        old.chmod(0o640)
        self.assertEqual(julampok("run", self.at / "nothing.json", "-o", old).status, 2)
        self.assertEqual(old.read_text(), "old\n")
        self.assertEqual(julampok("run", MACHINE, "-o", old).status, 0)
        self.assertEqual((old.read_text(), old.stat().st_mode & 0o777), (LOG.read_text(), 0o640))
        self.assertEqual(os.listdir(self.at), ["old.log"])

    def test_a_full_disk(self):
        limited = "import resource, signal, sys; signal.signal(signal.SIGXFSZ, signal.SIG_IGN); resource.setrlimit(resource.RLIMIT_FSIZE, (500, 500)); " \
                  "sys.path.insert(0, sys.argv.pop(1)); from julampok.cli import main; sys.exit(main())"
        words = ["python3", "-c", limited, ROOT / "python", "run", MACHINE, "-o", self.at / "x.log"]
        done = subprocess.run(words, capture_output=True, text=True)
        self.assertEqual((done.returncode, done.stderr.count("\n")), (2, 1), done)
        self.assertIn("x.log: cannot be written: File too large", done.stderr)
        self.assertEqual(os.listdir(self.at), [])

    def test_ended_while_it_writes(self):
        """A signal that ends the process leaves the old file, and nothing beside it."""
        # whoever began the tests may have it ignore a hangup (nohup)
        killed = "import os, signal, sys; signal.signal(signal.SIGHUP, signal.SIG_DFL); os.fsync = lambda _: os.kill(os.getpid(), signal.%s); " \
                 "sys.path.insert(0, sys.argv.pop(1)); from julampok.cli import main; sys.exit(main())"
        for name in ("SIGTERM", "SIGHUP", "SIGINT"):
            old = self.at / "x.log"
            old.write_text("old\n")
            done = subprocess.run(["python3", "-c", killed % name, ROOT / "python", "run", MACHINE, "-o", old], capture_output=True, text=True)
            self.assertEqual((done.returncode, done.stderr), (128 + getattr(signal, name), ""), done)
            self.assertEqual((os.listdir(self.at), old.read_text()), (["x.log"], "old\n"))

    def test_signals_are_as_before(self):
        """Only while something is written: processes that sweep makes would lose a signal that ends them."""
        numbers = signal.SIGTERM, signal.SIGHUP
        before = [signal.getsignal(number) for number in numbers]
        for words in (("run", MACHINE, "-o", self.at / "x.log"), ("replay", TRACE, "-o", self.at / "folder"), ("run", MACHINE)):
            julampok(*words)
            self.assertEqual([signal.getsignal(number) for number in numbers], before)

    def test_streams(self):
        """A reader that goes away is no fault; a closed or full output is one."""
        done = subprocess.run(["bash", "-c", f"{ROOT / 'julampok'} draw --help >/dev/full"], capture_output=True)
        self.assertEqual((done.returncode, done.stderr.count(b"\n")), (2, 1), done)
        words = f"{ROOT / 'julampok'} draw {EXAMPLES / 'workers' / 'two-lines-slept.log'}"
        done = subprocess.run(["bash", "-c", f"set -o pipefail; {words} | head -c 10"], capture_output=True)
        self.assertEqual((done.returncode, done.stderr, len(done.stdout)), (0, b"", 10))
        for end, said in ((">&-", b"standard output: is closed"), (">/dev/full", b"standard output: cannot be written: No space left on device")):
            done = subprocess.run(["bash", "-c", f"{words} {end}"], capture_output=True)
            self.assertEqual((done.returncode, done.stderr), (2, b"julampok draw: " + said + b"\n"))
        done = subprocess.run(["bash", "-c", f"{ROOT / 'julampok'} run <&-"], capture_output=True)
        self.assertEqual((done.returncode, done.stderr), (2, b"julampok run: standard input: is closed\n"))
        done = subprocess.run(["bash", "-c", f"{ROOT / 'julampok'} run /nothing 2>&-"], capture_output=True)
        self.assertEqual(done.returncode, 2)


REAL = EXAMPLES / "real"
STOPPED = EXAMPLES / "workers" / "two-lines-stopped.log"
# The words of each command that writes JSON; what it may leave empty is seen by the second of both, where there are two.
ANSWERS = {
    "check": [(MACHINE, LOG)], "why": [(EXAMPLES / "order" / "parent-too-late.json",)], "explain": [(STOPPED,)], "dmesg": [(LOG,)],
    "replay": [(REAL / "irq-suspend-async.trace",), (REAL / "order-broken.trace",)],
    "order": [(REAL / "irq-suspend-async.trace", "mid", "long"), (REAL / "irq-suspend-async.trace", "--luck", "mid", "long")],
    "diff": [(REAL / "irq-suspend-async.trace", REAL / "order.trace")], "sweep": [(MACHINE,)],
    "times": [(REAL / "order.trace", "--best", "1")],
}


def members_of(value):
    """The names of the members of a value of JSON, also of those below it."""
    if isinstance(value, list):
        return {name for one in value for name in members_of(one)}
    if isinstance(value, dict):
        return {name for name in value} | {name for one in value.values() for name in members_of(one)}
    return set()


class Answers(unittest.TestCase):
    def documented(self):
        """The members of each command's answer, as docs/FORMATS.md tells them."""
        text = (ROOT / "docs" / "FORMATS.md").read_text()
        rows = text.split("### Answers for scripts", 1)[1].split("\n## ", 1)[0]
        return {row[1]: set(re.findall("`([a-z_]+)`", row[2])) for row in re.finditer(r"^\| `(\w+)` \| (.*) \|$", rows, re.M)}

    def test_members(self):
        """Each answer is one value, and has the members that the page names."""
        documented = self.documented()
        self.assertEqual(set(documented), set(ANSWERS))
        for command, calls in ANSWERS.items():
            found = set()
            for words in calls:
                done = julampok(command, *words, "--json")
                self.assertIn(done.status, (0, 1), (command, done.err))
                found |= members_of(json.loads(done.out))
            self.assertEqual(documented[command] - found, set(), command)

    def test_who_writes_json(self):
        """The page knows each command that has the option."""
        names = {name for name in cli.command_names() if "--json " in julampok(name, "--help").out}
        self.assertEqual(names, set(ANSWERS))


class Help(unittest.TestCase):
    def test_each_command(self):
        names = cli.command_names()
        for name in names:
            done = julampok(name, "--help")
            self.assertEqual((done.status, done.err), (0, ""))
            self.assertTrue(done.out.startswith(f"usage: julampok {name}"))
            self.assertEqual(done.out.count("\nexample:\n  julampok " + name), 1, name)
        done = julampok("--help")
        self.assertEqual((done.status, done.err), (0, ""))
        for name in names:
            self.assertIn(f"\n    {name}", done.out)

    def test_a_narrow_terminal(self):
        """Sentences of a help are filled to the width; an example stays in a line."""
        with unittest.mock.patch.dict(os.environ, COLUMNS="72"):
            for name in cli.command_names():
                helped = julampok(name, "--help").out
                self.assertEqual([line for line in helped.split("\n") if len(line) > 72 and not line.startswith("  ")], [], name)
                self.assertIn(cli.module_of(name).EXAMPLE, helped)

    def test_version(self):
        number = next(line for line in (ROOT / "pyproject.toml").read_text().split("\n") if line.startswith("version")).split('"')[1]
        self.assertEqual(julampok("--version").out, f"julampok {number}\n")
        apart = subprocess.run(["python3", "-m", "julampok", "--version"], capture_output=True, text=True, env=os.environ | {"PYTHONPATH": str(ROOT / "python")})
        self.assertEqual((apart.returncode, apart.stdout), (0, f"julampok {number}\n"))
        self.assertEqual(julampok_apart("--version").stdout.decode(), f"julampok {number}\n")

    def test_an_older_python(self):
        """What an older Python reads first has no word that it does not know, and says which one is wanted."""
        for file in ("julampok", "python/julampok/__main__.py"):
            text = (ROOT / file).read_text()
            self.assertNotRegex(text, r"\bf\"|:=|match |print ")
            old = text.replace("sys.version_info < (3, 11)", "True", 1)
            done = subprocess.run(["python3", "-c", old], capture_output=True, text=True)
            self.assertEqual((done.returncode, done.stdout, done.stderr.count("\n")), (2, "", 1), done)
            self.assertIn("Python 3.11 or newer is wanted", done.stderr)

    def test_examples_run(self):
        """Each example runs as it stands, at the top of a clone."""
        with tempfile.TemporaryDirectory() as folder:
            for name in cli.command_names():
                words = shlex.split(cli.module_of(name).EXAMPLE)
                words = [os.path.join(folder, word) if before == "-o" else str(ROOT / word) if (ROOT / word).exists() and "/" in word else word
                         for before, word in zip(words, words[1:])]
                done = julampok(*words)
                self.assertIn(done.status, (0, 1), (words, done.err))

    def test_progress(self):
        """On a terminal a command that takes long says so; nothing of it is left."""
        script = ("import io, sys, time; sys.path.insert(0, sys.argv[1]); from julampok import progress; progress.AFTER = 0.05; progress.EVERY = 0.05\n"
                  "class Terminal(io.StringIO):\n    isatty = lambda self: True\n"
                  "sys.stderr = Terminal()\n"
                  "with progress.Progress('run') as found:\n    found.at(1, 4)\n    time.sleep(0.4)\n    print('note', file=sys.stderr)\n"
                  "sys.stdout.write(sys.stderr.getvalue())")
        shown = subprocess.run(["python3", "-c", script, ROOT / "python"], capture_output=True).stdout.decode()
        self.assertIn("\r\x1b[Kjulampok run: 0 s, 25%", shown)
        self.assertRegex(shown, r"\r\x1b\[Knote\n(\r\x1b\[K)?[^\n]*(\r\x1b\[K)?$")
