"""Tries the hands of pages in headless Chromium: a script at the end of a page clicks and types, and writes what it then sees.

The recordings are of a real kernel; what is expected stands in their README or is read in their traces.
"""

import html
import json
import pathlib
import re
import sys
import unittest

import browser_pages
from dev_tests import ROOT

sys.path.insert(0, str(ROOT / "python" / "tests"))

import recordings  # noqa: E402
from traces import trace_of  # noqa: E402

# What the script may use: what a name's row is, its panel, and what is seen.
TOOLS = """
const chart = () => [...charts.values()][0], panelText = () => document.getElementById("panel").innerText;
const nameOf = (name) => [...document.querySelectorAll(".rows .name")].find((button) => button.firstChild.textContent === name);
const key = (name, on = document.body) => on.dispatchEvent(new KeyboardEvent("keydown", { key: name, bubbles: true, cancelable: true }));
const type = (words) => { search.value = words; search.dispatchEvent(new Event("input")); };
const rowsSeen = () => [...document.querySelectorAll(".rows .row")].filter((row) => row.offsetParent).length;
"""


class Hands(browser_pages.Browser):
    """Pages whose clicks and keys are tried."""

    def seen(self, words, code):
        """What the code gives in a page of report with these words."""
        page = self.folder / "page.html"
        self.julampok("report", *words, "-o", page)
        script = f'<script>{TOOLS}\nwindow.addEventListener("load", () => setTimeout(() => {{ const seen = {{}}; {code}\n'
        script += 'const told = document.body.appendChild(document.createElement("pre")); told.id = "seen"; told.textContent = JSON.stringify(seen); }, 500));</script>'
        page.write_text(page.read_text().replace("</body></html>", script + "</body></html>"))
        drawn = self.browse(page, "--virtual-time-budget=8000", "--dump-dom")
        return json.loads(html.unescape(re.search(r'<pre id="seen">(.*?)</pre>', drawn, re.S)[1]))

    def test_a_click_on_a_stage_zooms_to_it(self):
        """dpm_suspend_late of whatif-gpu-sync takes 31 of 794 ms."""
        seen = self.seen(recordings.words("whatif-gpu-sync"), """
            seen.before = chart().zoom; [...document.querySelectorAll(".strip [data-stage]")].find((one) => one.textContent.startsWith("dpm_suspend_late")).click();
            seen.zoomed = chart().zoom; seen.ticks = document.querySelector(".ticks").innerText; key("0"); seen.whole = chart().zoom;
            key("+"); seen.nearer = chart().zoom;""")
        self.assertEqual((seen["before"], seen["whole"], seen["nearer"]), (1, 1, 2))
        self.assertTrue(15 < seen["zoomed"] < 40, seen)

    def test_a_click_on_a_device_tells_whom_it_waited_for(self):
        """gpu is the parent of panel, so on the way down it waits for panel; its callbacks begin in lines 481 and others."""
        seen = self.seen(recordings.words("whatif-gpu-sync"), """
            nameOf("gpu").click(); seen.gpu = panelText(); seen.ties = document.querySelectorAll(".tie.waits").length;
            key("Escape"); seen.isClosed = document.getElementById("panel").hidden;
            nameOf("gpu").focus(); key("ArrowDown", document.activeElement); seen.next = document.activeElement.firstChild.textContent;""")
        self.assertRegex(seen["gpu"], r"(?s)gpu.*line 481.*It waited.*panel: suspend: waits for its child panel \(dpmt\)")
        self.assertGreater(seen["ties"], 0)
        self.assertTrue(seen["isClosed"])
        self.assertEqual(seen["next"], "disk")

    def test_search_and_silent_devices(self):
        """tty1 has no callback: it is folded until one searches for it."""
        seen = self.seen(recordings.words("whatif-gpu-sync"), """
            seen.before = rowsSeen(); seen.hidden = !nameOf("tty1"); type("tty1 tty"); seen.found = document.getElementById("count").textContent;
            seen.shown = !!nameOf("tty1")?.offsetParent; seen.gpu = !!nameOf("gpu")?.offsetParent; type(""); seen.after = rowsSeen();
            type("no such device"); seen.none = rowsSeen(); type("");
            document.querySelector("[data-fold]").click(); window.dispatchEvent(new Event("beforeprint")); seen.unfolded = rowsSeen();""")
        self.assertEqual((seen["hidden"], seen["shown"], seen["gpu"], seen["none"]), (True, True, False, 0))
        self.assertEqual(seen["before"], seen["after"])
        self.assertGreater(seen["unfolded"], seen["before"] + 150)
        self.assertRegex(seen["found"], r"^\d+ found$")

    def test_anchors_of_lines(self):
        seen = self.seen(recordings.words("irq-suspend"), """
            seen.folded = !document.getElementById("log").open; location.hash = "#L491"; goToHash();
            seen.open = document.getElementById("log").open; seen.line = document.querySelector(".here").nextSibling.textContent;
            location.hash = "#D10"; goToHash(); seen.dmesg = document.querySelector(".here").nextSibling.textContent;""")
        self.assertEqual((seen["folded"], seen["open"]), (True, True))
        self.assertIn("wakeup_source_activate: lid", seen["line"])
        self.assertIn("Wakeup pending, aborting suspend", seen["dmesg"])

    def test_a_thousand_devices(self):
        """Rows far away are made later; all are there in the end, and a page that is printed has all."""
        trace = pathlib.Path(self.folder, "many.trace")
        trace.write_text(trace_of(1000))
        page = self.folder / "page.html"
        self.julampok("report", trace, "-o", page)
        self.assertLess(page.stat().st_size, 3_000_000)
        seen = self.seen((trace,), 'window.dispatchEvent(new Event("beforeprint")); seen.rows = rowsSeen(); seen.marks = document.querySelectorAll(".mark[data-mark]").length;')
        self.assertEqual(seen["rows"], 1000)
        self.assertGreaterEqual(seen["marks"], 8000)


if __name__ == "__main__":
    unittest.main()
