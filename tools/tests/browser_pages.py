"""Tests of shipped pages in a real browser, headless Chromium: `tools/dev test --browser`.

Each page is opened from its file with no network. The text that stands in it after its script has run is held to what its log or
recording tells, and a screenshot must show more than an empty page. Where there is no Chromium, the tests are skipped and say so.
"""

import html.parser
import pathlib
import re
import shutil
import struct
import subprocess
import tempfile
import unittest
import zlib

from dev_tests import ROOT, WORKED
from julampok.cli import command_names
from maintain.docs.names import files

CHROMIUM = next(filter(None, map(shutil.which, ("chromium", "chromium-browser", "google-chrome", "chrome"))), None)
WORDS = ["--headless", "--no-sandbox", "--disable-gpu", "--hide-scrollbars", "--host-resolver-rules=MAP * ~NOTFOUND", "--enable-logging=stderr", "--v=0"]
SIZE = 1280, 1600
PATIENCE = 120  # Seconds that the browser may take for a page.
LEAST_COLOURS = 8  # A drawn page has more; an empty one has one.
COMPLAINT = re.compile(r"CONSOLE.*(?:Error|Refused|violates)")
RECORDING = ROOT / "python" / "tests" / "samples" / "s3.trace"
# What stands in the page of a worked log, as one reads it in the log.
TOLD = {
    "callback_reports": ["EBUSY", "nic", "pci", "lan", "dpm_suspend"],
    "parent_and_child": ["p", "c", "dpm_prepare", "dpm_resume"],
    "freeze_times_out": ["20000", "freeze_processes"],
}


class Text(html.parser.HTMLParser):
    """The text of a page that a reader sees, without scripts and styles."""

    def __init__(self):
        super().__init__()
        self.parts, self.hidden = [], 0

    def handle_starttag(self, tag, attrs):
        self.hidden += tag in ("script", "style")

    def handle_endtag(self, tag):
        self.hidden -= tag in ("script", "style")

    def handle_data(self, data):
        if not self.hidden:
            self.parts.append(data)


def text_of(page):
    """The text of a page's source."""
    reader = Text()
    reader.feed(page)
    return " ".join(" ".join(reader.parts).split())


def pixels(data):
    """The size of a PNG of 8 bits a channel, and its rows of bytes as they are filtered."""
    width, height, depth, kind = struct.unpack(">IIBB", data[16:26])
    at, packed = 8, b""
    while at < len(data):
        length, name = struct.unpack(">I4s", data[at : at + 8])
        packed += data[at + 8 : at + 8 + length] if name == b"IDAT" else b""
        at += 12 + length
    channels = {2: 3, 6: 4}[kind] * depth // 8
    plain = zlib.decompress(packed)
    return width, height, channels, [plain[row * (width * channels + 1):(row + 1) * (width * channels + 1)] for row in range(height)]


def unfiltered(row, above, channels):
    """A row of a PNG, of its filtered bytes and of the row above."""
    kind, line = row[0], bytearray(row[1:])
    for at in range(len(line)):
        left = line[at - channels] if at >= channels else 0
        up, corner = above[at], above[at - channels] if at >= channels else 0
        near = left + up - corner
        nearest = min((left, up, corner), key=lambda one: abs(near - one))
        line[at] = line[at] + (0, left, up, (left + up) // 2, nearest)[kind] & 255
    return line


def colours(data):
    """How many colours a screenshot has, up to as many as a page must have; and its size."""
    width, height, channels, rows = pixels(data)
    found, above = set(), bytes(width * channels)
    for row in rows:
        above = unfiltered(row, above, channels)
        found |= {bytes(above[at : at + 3]) for at in range(0, len(above), channels)}
        if len(found) >= LEAST_COLOURS:
            break
    return len(found), (width, height)


@unittest.skipIf(CHROMIUM is None, "no Chromium is here; Debian has it as the package chromium")
class Browser(unittest.TestCase):
    """What tests in a browser share: a folder, and how a page is opened and looked at."""

    def setUp(self):
        folder = tempfile.TemporaryDirectory(ignore_cleanup_errors=True)
        self.addCleanup(folder.cleanup)
        self.folder = pathlib.Path(folder.name)

    def browse(self, page, *words):
        """What the browser writes, and what it complains of."""
        own = [f"--user-data-dir={self.folder / 'user'}", f"--window-size={SIZE[0]},{SIZE[1]}", *words, page.as_uri()]
        done = subprocess.run([CHROMIUM, *WORDS, *own], capture_output=True, timeout=PATIENCE)
        self.assertEqual(done.returncode, 0, done.stderr[-2000:])
        complaints = [line for line in done.stderr.decode(errors="replace").splitlines() if COMPLAINT.search(line)]
        self.assertEqual(complaints, [], page.name)
        return done.stdout.decode("utf-8", "replace")

    def look(self, page, told):
        """Opens a page: what is told stands in it, and a picture of it is not empty."""
        text = text_of(self.browse(page, "--virtual-time-budget=5000", "--dump-dom"))
        self.assertEqual([words for words in told if words not in text], [], f"{page.name}: {text[:300]}")
        picture = self.folder / f"{page.stem}.png"
        self.browse(page, "--virtual-time-budget=5000", f"--screenshot={picture}")
        count, size = colours(picture.read_bytes())
        self.assertGreaterEqual(count, LEAST_COLOURS, page.name)
        self.assertEqual(size, SIZE)
        return text

    def julampok(self, *words):
        done = subprocess.run([ROOT / "julampok", *map(str, words)], capture_output=True, text=True)
        self.assertEqual(done.returncode, 0, done.stderr)


class Pages(Browser):
    def test_pages_of_worked_logs(self):
        for name, told in TOLD.items():
            with self.subTest(name):
                page = self.folder / f"{name}.html"
                self.julampok("draw", "--machine", WORKED / f"{name}.json", WORKED / f"{name}.log", "-o", page)
                self.look(page, told)

    def test_a_page_of_a_recording(self):
        """The recording is of a whole cycle, whose devices d0 to d7 are the kernel's own test devices."""
        if "report" not in command_names():
            self.skipTest("no command writes a page of a recording")
        page = self.folder / "recording.html"
        self.julampok("report", RECORDING, "-o", page)
        self.look(page, ["d0", "d3", "d7", "resume"])

    def test_pages_in_the_repository(self):
        """Each page that is kept here shows its own title."""
        kept = [ROOT / path for paths in files().values() for path in paths if path.endswith(".html") and "/tests/" not in path]
        for page in kept:
            with self.subTest(str(page.relative_to(ROOT))):
                title = re.search(r"<title>(.*?)</title>", page.read_text(), re.S)
                self.assertIsNotNone(title)
                self.look(page, [])

    def test_an_empty_page_is_seen(self):
        """The picture of a page with nothing on it is told from others, and so is one whose script fails."""
        page = self.folder / "empty.html"
        page.write_text("<!DOCTYPE html><title>x</title><body></body>")
        with self.assertRaisesRegex(AssertionError, "not greater than or equal to"):
            self.look(page, [])
        page.write_text("<!DOCTYPE html><title>x</title><script>nothing.at.all()</script>")
        with self.assertRaisesRegex(AssertionError, "CONSOLE"):
            self.browse(page, "--virtual-time-budget=5000", "--dump-dom")


if __name__ == "__main__":
    unittest.main()
