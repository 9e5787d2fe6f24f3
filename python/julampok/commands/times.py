"""Shows how long suspend and resume took in a kernel's trace, what held them up, and what a change would save.

TRACE is an ftrace of the events power:*; SYS, --devices and --links tell what a trace alone does not. Written are suspend
and resume, each phase, each device with its callbacks, and the longest path: who waited for whom.

--async, --sync and --link ask for a forecast: the measured callbacks over the rules of the order, with that change. A link
moves its consumer, with all that hangs below it, to the end of the kernel's list. --best finds the devices that save most
when each alone is made asynchronous. Forecasts know no buses, no locks and no processors. The phases are held against the
rules first; where these miss one by more than 5 ms a note says so, and the forecast is given as a change.

With -o FOLDER the order of the forecast is written there as a machine file and a log that 'julampok check' can judge.
"""

import json

from ..errors import YES, CannotError
from ..files import write_folder, write_out
from ..forecast import choosing, logs, telling
from ..forecast.forecast import best
from ..forecast.measured import NoTimesError, choose_attempt, measure
from ..kernel.reading import add_input_arguments, read_recording

HELP = "shows what was slow in a kernel's trace, and what a change would save"
EXAMPLE = "julampok times examples/real/whatif-gpu-sync.trace --devices examples/real/whatif-gpu-sync.devices --async gpu --best 3"


def count(text):
    """A number from 1."""
    if not text.isdecimal() or int(text) < 1:
        raise ValueError(text)
    return int(text)


def add_arguments(parser):
    add_input_arguments(parser)
    parser.add_argument("--async", dest="make_async", metavar="DEV", action="append", default=[], help="forecast: DEV is asynchronous")
    parser.add_argument("--sync", dest="make_sync", metavar="DEV", action="append", default=[], help="forecast: DEV is synchronous")
    parser.add_argument("--link", dest="new_links", metavar=("SUPPLIER", "CONSUMER"), nargs=2, action="append", default=[],
                        help="forecast: a device link is added")
    parser.add_argument("--pm-async", type=int, choices=(0, 1), help="forecast: /sys/power/pm_async is this")
    parser.add_argument("--best", metavar="N", type=count, help="the N devices that save most when made asynchronous")
    parser.add_argument("--attempt", metavar="N", type=count, help="the attempt of the trace; else the first that slept")
    parser.add_argument("--all", action="store_true", help="shows also devices and callbacks that took less than a millisecond")
    parser.add_argument("--json", action="store_true", help="writes all as JSON")
    parser.add_argument("-o", dest="folder", metavar="FOLDER", help="writes the forecast's order there: machine, log, table of names")


def run(given):
    recording = read_recording(given)
    try:
        measured = measure(recording, choose_attempt(recording, given.attempt))
    except NoTimesError as refused:
        raise CannotError(str(refused), recording.trace_file, refused.line) from None
    pm_async = None if given.pm_async is None else bool(given.pm_async)
    forecast, assumed = choosing.changed(measured, given.make_async, given.make_sync, given.new_links, pm_async)
    savings = best(measured, given.best) if given.best else None
    if given.folder is not None:
        write_folder(given.folder, order_files(forecast), [recording.trace_file])
    notes = telling.notes_of(recording, forecast, assumed)
    if given.json:
        write_out(json.dumps(telling.as_json(forecast, notes, savings), indent=2) + "\n")
    else:
        write_out(telling.as_text(recording, forecast, notes, savings, given.all))
    return YES


def order_files(forecast):
    """The forecast's order: the machine file, its log, and the table of names. Raises CannotError for too many devices."""
    devices, plan, timings = logs.that_fit(forecast.measured.devices, forecast.plan, forecast.timings)
    names = logs.log_names(plan)
    return {"machine.json": json.dumps(logs.machine_of(plan, names), indent=1) + "\n", "machine.log": logs.log_of(plan, names, timings),
            "machine.names": logs.table_of(devices, names)}
