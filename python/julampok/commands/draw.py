"""Draws a log as a page that a browser shows, as one picture, or as tracks.

The page has what stopped an attempt on top, then each attempt with its stages and rows, and the log with an anchor a line. With
the machine file it shows parents and links as well, and who waited for whom. --svg N writes the picture of attempt N alone.
--perfetto writes Trace Event JSON, the format of Perfetto: a group of tracks for each parent, a track for each device, task and
source, and each entry a microsecond.
"""

import os

from ..drawing.drawing import picture_of
from ..drawing.of_log import page_of
from ..drawing.page import page_html
from ..drawing.perfetto import perfetto
from ..errors import YES, CannotError
from ..files import refuse_inputs, write_new
from ..logs import add_log, read_story

HELP = "draws a log as a page for a browser"
EXAMPLE = "julampok draw --machine examples/workers/two-lines.json examples/workers/two-lines-slept.log -o two-lines.html"


def add_arguments(parser):
    parser.add_argument("--machine", metavar="MACHINE", help="the machine file of the log")
    parser.add_argument("--perfetto", action="store_true", help="writes Trace Event JSON for Perfetto instead of a page")
    parser.add_argument("--svg", metavar="N", help="writes the picture of attempt N alone, as SVG")
    parser.add_argument("-o", dest="output", metavar="FILE", default="-", help="the file to write; else standard output")
    add_log(parser)


def run(given):
    if given.output != "-":
        refuse_inputs(given.output, [given.log, given.machine])
    story = read_story(given.log, given.machine)
    if story is None:
        raise CannotError("an empty log", given.log, 1)
    if given.svg is not None:
        drawn = picture_of(given.svg)(story)
    else:
        drawn = (perfetto if given.perfetto else page_html)(page_of(story, os.path.basename(given.log)))
    if drawn is None:
        raise CannotError(f"no attempt {given.svg}", given.log)
    write_new(given.output, drawn, [given.log, given.machine])
    return YES
