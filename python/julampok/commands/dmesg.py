"""Writes what a kernel would show after the run of a log: its messages, wakeup_sources and suspend_stats.

The texts are those of Linux 6.1: the lines of dmesg on the attempts, and the files /sys/kernel/debug/wakeup_sources and
/sys/kernel/debug/suspend_stats, each below a heading, or one alone, without one. With --debug the messages name the wakeup
sources that ended an attempt, as with /sys/power/pm_debug_messages. Times are those of the log; drivers and functions have no
name there.
"""

import json

from ..drawing.kernel import messages, suspend_stats, wakeup_sources
from ..errors import YES, CannotError
from ..files import write_out
from ..logs import add_log, read_story

HELP = "writes what dmesg, wakeup_sources and suspend_stats would show"
EXAMPLE = "julampok dmesg --only dmesg examples/workers/two-lines-stopped.log"
HEADINGS = {
    "wakeup_sources": "/sys/kernel/debug/wakeup_sources", "suspend_stats": "/sys/kernel/debug/suspend_stats",
    "dmesg": "dmesg",
}


def add_arguments(parser):
    parser.add_argument("--only", choices=HEADINGS, help="writes this text alone")
    parser.add_argument("--debug", action="store_true", help="as with /sys/power/pm_debug_messages")
    parser.add_argument("--json", action="store_true", help="writes the texts as the members of a JSON object")
    add_log(parser)


def run(given):
    story = read_story(given.log)
    if story is None:
        raise CannotError("an empty log", given.log, 1)
    texts = texts_of(story, given.debug)
    if given.only:
        texts = {given.only: texts[given.only]}
    if given.json:
        write_out(json.dumps(texts) + "\n")
    elif given.only:
        write_out(texts[given.only])
    else:
        write_out("\n".join(f"==> {HEADINGS[name]} <==\n{text}" for name, text in texts.items()))
    return YES


def texts_of(story, is_debug):
    """The texts of a story, by their names."""
    return {"wakeup_sources": wakeup_sources(story), "suspend_stats": suspend_stats(story), "dmesg": messages(story, is_debug)}
