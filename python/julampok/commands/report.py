"""Makes one page of a recorded suspend: what stopped it, whether the kernel kept its own rules, what was slow, what would help.

TRACE is an ftrace of the events power:*, as for replay and times. The page is one file that loads nothing: the verdict first,
then each attempt with its stages, devices and longest path, and the trace with an anchor a line. A click on a stage zooms to it,
a click on a device tells whom it waited for. On top of the rows stand what stopped the attempt and the longest path, with a red
edge; devices without a callback are folded. Keys: / searches devices and drivers, arrows up and down go from row to row, Enter
chooses one, +, -, 0 and arrows left and right zoom and move, Escape closes.

With --perfetto the output is Trace Event JSON in place of the page. Each parent is a group of tracks, one for itself and one for
each device directly below it; attempts, wakeup sources and the rest have groups of their own. An arrow goes from whoever made
another wait, and from an event to the test that found it.
"""

import os

from ..drawing.page import page_html
from ..drawing.perfetto import perfetto
from ..drawing.reporting import report_of
from ..errors import YES
from ..files import refuse_inputs, write_new
from ..kernel.reading import add_input_arguments, inputs_of, read_recording
from ..program import Second, add_program, chosen

HELP = "makes one page of a recorded suspend: what stopped it, what was slow, what would help"
REAL = "examples/real/irq-suspend-async"
EXAMPLE = f"julampok report {REAL}.trace --devices {REAL}.devices --links {REAL}.links --dmesg {REAL}.dmesg -o abort.html"


def add_arguments(parser):
    add_input_arguments(parser)
    add_program(parser)
    parser.add_argument("--perfetto", action="store_true", help="writes Trace Event JSON for Perfetto instead of a page")
    parser.add_argument("-o", dest="output", metavar="FILE", default="-", help="the file to write; else standard output")


def run(given):
    inputs = inputs_of(given)
    if given.output != "-":
        refuse_inputs(given.output, inputs)
    recording = read_recording(given)
    name = "standard input" if given.trace == "-" else os.path.basename(given.trace)
    judge = chosen(given)
    page = report_of(recording, name, None if isinstance(judge, Second) else judge)
    write_new(given.output, (perfetto if given.perfetto else page_html)(page), inputs)
    return YES
