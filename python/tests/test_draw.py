"""Tries draw: what stands on its pages, and what it refuses.

The logs are the worked ones, and those that the second writing makes of random machines.
"""

import collections
import html.parser
import json
import random
import re
import unittest
import xml.dom.minidom

from command_tests import EXAMPLES, WORKED as FOLDER, julampok
from julampok.second.maker import Maker
from julampok.second.merged import Interleaved
from julampok.second.run import Run
from julampok.drawing import drawing, machine, of_log, packing, page, reading, story

WORKED = sorted(FOLDER.glob("*.log"))
LATER = sorted((EXAMPLES / "later").glob("*.json"))
SEED, MACHINES = 7, 60
# The lines of an event and of the test that found it, or that it woke, as one reads them in the log.
FOUND = {
    "event_stops_a_device": ("found", 26, 29),
    "event_after_save": ("found", 3, 15),
    "event_stops_a_processor": ("found", 30, 33),
    "event_wakes": ("woke", 21, 24),
    "freeze_times_out": ("found", 10, 15),
    "hard_event": ("found", 6, 22),
}
# After this many turns of a line comes an event, between the core's test and the last one, or a read and its save.
RARE = [
    (15, [{"op": "read"}, {"op": "save"}, {"op": "state", "text": "mem"}]),
    (5, [{"op": "autosleep", "text": "mem"}, {"op": "sleep", "ms": 10}, {"op": "autosleep", "text": "off"}]),
]
# In the log of asynchronous_child, the lines of an end and of what waited for it: by parent and child, and by the walk.
WAITED = [(12, 13), (19, 20), (25, 26), (39, 40), (45, 46), (52, 53)]
WALK_WAITED = [(41, 42), (47, 48), (54, 55)]

# A machine whose tasks add and change links, and a log of it: an attempt that the clock ends as it fails to suspend.
LINKED = {
    "version": 2,
    "devices": [{"name": "codec", "async": True}, {"name": "clock", "async": True}, {"name": "fan"}],
    "links": [{"supplier": "clock", "consumer": "fan", "state": "dormant"}],
    "actors": [
        {"name": "udev", "kind": "user", "script": [
            {"op": "link", "supplier": "clock", "consumer": "codec"},
            {"op": "link", "supplier": "codec", "consumer": "clock"},
            {"op": "link_state", "supplier": "clock", "consumer": "codec", "to": "dormant"},
            {"op": "link_state", "supplier": "clock", "consumer": "codec", "to": "active"},
            {"op": "link_state", "supplier": "fan", "consumer": "codec", "to": "active"},
            {"op": "state", "text": "mem"},
        ]},
        {"name": "probe", "kind": "nofreeze", "script": [
            {"op": "link", "supplier": "fan", "consumer": "codec"},
            {"op": "link_state", "supplier": "clock", "consumer": "codec", "to": "dormant"},
        ]},
    ],
    "answers": [{"what": "device", "name": "clock", "phase": "suspend", "ret": "EIO"}],
}
LINKED_LOG = """\
0 0/0/0 task:udev link clock codec 0
0 0/0/0 task:udev link codec clock EINVAL
0 0/0/0 task:udev link_state clock codec dormant 0
0 0/0/0 task:udev link_state clock codec active 0
0 0/0/0 task:udev link_state fan codec active ENODEV
0 0/0/0 task:udev attempt 1 plain
0 0/0/0 task:probe link fan codec EBUSY
0 0/0/0 task:udev freeze user
0 0/0/0 task:probe link_state clock codec dormant EBUSY
0 0/0/0 task:udev froze user 0
0 0/0/0 task:probe exit
0 0/0/0 task:udev freeze kernel
0 0/0/0 task:udev froze kernel 0
0 0/0/0 task:udev platform begin 0
0 0/0/0 task:udev prepare clock 0
0 0/0/0 task:udev prepare fan 0
0 0/0/0 task:udev prepare codec 0
0 0/0/0 task:udev done prepare 0
0 0/0/0 task:udev schedule suspend codec
0 0/0/0 task:udev begin suspend fan
0 0/0/0 task:udev end suspend fan 0
0 0/0/0 task:udev schedule suspend clock
0 0/0/0 dev:codec begin suspend codec
0 0/0/0 dev:codec end suspend codec 0
0 0/0/0 dev:clock begin suspend clock
0 0/0/0 dev:clock end suspend clock EIO
0 0/0/0 task:udev done suspend EIO
0 0/0/0 task:udev platform recover
0 0/0/0 task:udev schedule resume codec
0 0/0/0 task:udev begin resume fan
0 0/0/0 dev:codec begin resume codec
0 0/0/0 task:udev end resume fan 0
0 0/0/0 dev:codec end resume codec 0
0 0/0/0 task:udev done resume 0
0 0/0/0 task:udev complete codec
0 0/0/0 task:udev complete fan
0 0/0/0 task:udev complete clock
0 0/0/0 task:udev done complete 0
0 0/0/0 task:udev platform end
0 0/0/0 task:udev clear
0 0/0/0 task:udev thaw all
0 0/0/0 task:udev over 1 EIO
0 0/0/0 task:udev exit
source autosleep 0 0 0 0 0 0 0
finished
"""
# What joins the devices of each link that it adds, changes, or asks for in vain.
LINKS_JOINED = [
    ("link", "supplier clock, consumer codec: line 1"),
    ("refused", "supplier codec, consumer clock, EINVAL: line 2"),
    ("dormant", "supplier clock, consumer codec: line 3"),
    ("link", "supplier clock, consumer codec: line 4"),
    ("refused", "supplier fan, consumer codec, ENODEV: line 5"),
    ("refused", "supplier fan, consumer codec, EBUSY: line 7"),
    ("refused", "supplier clock, consumer codec, EBUSY: line 9"),
]
LINKS_MARKED = [
    "link", "link bad", "link_dormant", "link_active", "link_active bad", "link bad", "link_dormant bad",
]
NO_LINKS = [
    "task:udev link clock codec", "task:udev link clock 0", "task:udev link clock codec 1",
    "task:udev link clock codec active 0", "task:udev link clock codec EPERM", "task:udev link clock Codec 0",
    "task:udev link  clock codec 0", "task:udev link clock codec 0 ", "task:udev link_state clock codec 0",
    "task:udev link_state clock codec dormant", "task:udev link_state clock codec suspended 0",
    "task:udev link_state clock dormant 0", "task:udev links clock codec 0", "irq:k link clock codec 0",
    "auto link clock codec 0", "dev:codec link_state clock codec active 0", "timer:lid link clock codec 0",
]


class Elements(html.parser.HTMLParser):
    """The elements of pictures that stand for entries."""

    def __init__(self, text):
        super().__init__()
        self.live, self.lines, self.numbers, self.is_title = collections.Counter(), {}, None, False
        self.feed(text)
        self.close()

    def handle_starttag(self, tag, attributes):
        given = dict(attributes)
        if "data-n" in given:
            self.numbers = [int(number) for number in given["data-n"].split()]
            self.live.update(self.numbers)
        self.is_title = tag == "title"

    def handle_endtag(self, tag):
        self.is_title = False
        self.numbers = None if tag == "rect" else self.numbers

    def handle_data(self, text):
        if self.is_title and self.numbers is not None:
            self.lines.update(zip(self.numbers, text.split("\n"), strict=True))


def told_by(text, tree=None):
    """What a log tells, with its machine if given."""
    log = reading.read_log(text.encode())
    devices = machine.devices_seen(log) if tree is None else machine.read_machine(json.dumps(tree), log)
    return story.Story(log, devices)


def draw(text, tree=None):
    """The pictures of a log, one of each section."""
    told = told_by(text, tree)
    return "".join(drawing.Picture(told, *parts).alone("") for parts in told.sections_with_parts())


def form(text, tree=None):
    """The form of the page of a log."""
    return of_log.page_of(told_by(text, tree), "some.log")


def data_of(drawn):
    """The data that a page holds for its script."""
    return json.loads(re.search('<script type="application/json" id="data">(.*?)</script>', drawn, re.S)[1])


def with_late_event(posts, script):
    """A machine with a task, and a line that reports an event after some turns."""
    line = [{"op": "post", "mark": "x", "times": posts}, {"op": "event", "source": "lid"}]
    actors = [{"name": "w", "kind": "user", "script": script}, {"name": "k", "kind": "irq", "script": line}]
    return {"version": 1, "sources": ["lid"], "actors": actors}


def machines_with_logs():
    """Worked, shown and random machines, with their logs."""
    for path in WORKED:
        yield path.stem, json.loads(path.with_suffix(".json").read_text()), path.read_text()
    yield "links", LINKED, LINKED_LOG
    for path in LATER:
        tree = json.loads(path.read_text())
        yield path.stem, tree, Run(tree).run()[0]
    for posts, script in RARE:
        tree = with_late_event(posts, script)
        yield f"event after {posts} posts", tree, Run(tree).run()[0]
    maker = Maker(SEED)
    for number in range(MACHINES):
        tree = maker.machine()
        yield f"machine {number}", tree, Run(tree).run()[0]
        yield f"merged {number}", tree, Interleaved(tree, number).run()[0]


class Pages(unittest.TestCase):
    def check(self, name, text, drawn):
        entries = [line for line in text.split("\n") if line[:1].isdigit()]
        elements = Elements(drawn)
        self.assertEqual(elements.live, collections.Counter(range(1, len(entries) + 1)), name)
        self.assertEqual(elements.lines, dict(enumerate(entries, 1)), name)

    def check_page(self, name, text, made):
        """Each entry is one end of one mark, and the page holds the log whole."""
        marks = [mark for attempt in made.attempts for mark in attempt.marks if not mark.is_span]
        ends = collections.Counter(line for mark in marks for line in {mark.first, mark.last})
        self.assertEqual(ends, collections.Counter(range(1, 1 + sum(line[:1].isdigit() for line in text.split("\n")))), name)
        self.assertEqual("\n".join(packing.unpacked(data_of(page.page_html(made))["log"])) + "\n", text, name)

    def test_every_entry_stands_once_and_every_kind_does(self):
        kinds = set()
        for name, tree, text in machines_with_logs():
            self.check(name, text, draw(text, tree))
            self.check(name, text, draw(text))
            self.check_page(name, text, form(text, tree))
            kinds |= {entry.kind for entry in reading.read_log(text.encode()).entries}
        self.assertEqual(kinds, {kind for forms in reading.SAYS.values() for kind in forms})

    def test_events_are_joined_to_tests(self):
        for name, (what, event, test) in FOUND.items():
            log = reading.read_log((FOLDER / f"{name}.log").read_bytes())
            told = story.Story(log, machine.devices_seen(log))
            made = [(join.what, join.tail + 1, join.head + 1) for join in told.joins if join.what in ("found", "woke")]
            self.assertEqual(made, [(what, event, test)], name)

    def test_the_first_of_many_events_is_joined(self):
        """The same where 65,536 events were registered since the save: the count has 24 bits and does not start again."""
        for name, (what, event, test) in FOUND.items():
            text = (FOLDER / f"{name}.log").read_text()
            log = reading.read_log(re.sub(r"^(\d+ \d+)/1/", r"\1/65536/", text, flags=re.M).encode())
            told = story.Story(log, machine.devices_seen(log))
            made = [(join.what, join.tail + 1, join.head + 1) for join in told.joins if join.what in ("found", "woke")]
            self.assertEqual(made, [(what, event, test)], name)

    def test_waits_are_shown(self):
        path = FOLDER / "asynchronous_child.log"
        text, tree = path.read_text(), json.loads(path.with_suffix(".json").read_text())
        for given, waited in ((tree, WAITED + WALK_WAITED), (None, WALK_WAITED)):
            lines = re.findall(r'"join waits".*?waited for \w+: line (\d+) to line (\d+)<', draw(text, given))
            self.assertEqual(sorted((int(end), int(begin)) for end, begin in lines), sorted(waited))
            ties = [(tie.first, tie.last) for attempt in form(text, given).attempts for tie in attempt.ties if tie.kind == "waits"]
            self.assertEqual(sorted(ties), sorted(waited))

    def test_links_are_joined(self):
        for tree in (LINKED, None):
            drawn = draw(LINKED_LOG, tree)
            joined = re.findall('"join (link|dormant|refused)" [^>]*><title>(.*?)</title>', drawn)
            self.assertEqual(joined, LINKS_JOINED)
            self.assertEqual(re.findall('"mark (link.*?)"', drawn), LINKS_MARKED)

    def test_links_move_devices_and_make_them_wait(self):
        def lanes_and_waits(text):
            drawn = draw(text, LINKED)
            lanes = re.findall(r'"name device" [^>]*>(\w+)<', drawn)
            return lanes, re.findall(r'"join waits".*?(clock waited for \w+): line', drawn)

        moved, lines = ["clock", "fan", "codec"], LINKED_LOG.split("\n")
        self.assertEqual(lanes_and_waits(LINKED_LOG), (moved, ["clock waited for codec"]))
        dormant = LINKED_LOG.replace("codec active 0", "codec dormant 0")
        self.assertEqual(lanes_and_waits(dormant), (moved, []))
        later = "\n".join([*lines[5:42], lines[0], *lines[42:]])
        self.assertEqual(lanes_and_waits(later), (["codec", "clock", "fan"], []))

    def test_tables(self):
        drawn = page.page_html(form((FOLDER / "event_stops_a_device.log").read_text()))
        cells = [re.findall("<td>(.*?)</td>", re.sub("</?a.*?>", "", row)) for row in re.findall("<tr>(<td>.*?)</tr>", drawn)]
        failed = ["dpm_suspend", "skip suspend disk pending (line 29)", "event lid from irq:k (line 26)"]
        self.assertEqual(cells[0][2:8], ["task:w", "guarded by count 0", "stopped: EBUSY", *failed])
        self.assertEqual(cells[1][3:9], ["plain", "slept", "", "", "", "0 to 1000 ms, woken by the alarm"])
        self.assertEqual(cells[2], ["lid", "1", "1", "0", "0", "0", "0", "0"])

    def test_what_stopped_it_stands_on_top(self):
        """In the log line 26 is the event of lid from irq:k, and line 29 the test before disk that finds it."""
        path = FOLDER / "event_stops_a_device.log"
        made = form(path.read_text(), json.loads(path.with_suffix(".json").read_text()))
        attempts = data_of(page.page_html(made))["attempts"]
        texts, rows = packing.unpacked(data_of(page.page_html(made))["texts"]), [row.name for row in made.rows]
        title, top, is_folded, *_ = attempts[0]["groups"][0]
        self.assertEqual((texts[title], [rows[number] for number in top], is_folded), ("What stopped it, with its parents", ["disk", "irq:k", "lid"], 0))
        drawn = page.page_html(made)
        self.assertRegex(drawn, '<details class="attempt bad" id="attempt-1" open>')
        self.assertRegex(drawn, '<details class="attempt good" id="attempt-2">')
        self.assertIn('<a href="#L26">line 26</a>', drawn)

class Refusals(unittest.TestCase):
    def refused(self, text, tree=None):
        with self.assertRaises(reading.Refused) as caught:
            told_by(text, tree)
        return int(re.match(r"line (\d+): ", str(caught.exception))[1])

    def test_a_log_that_is_cut_off(self):
        for name in ("smallest_attempt", "event_wakes", "stuck_mark"):
            text = (FOLDER / f"{name}.log").read_text()
            for length in range(1, len(text)):
                cut = text[:length]
                self.assertEqual(self.refused(cut), cut.count("\n") + 1, (name, length))

    def test_a_line_that_is_none(self):
        lines = (FOLDER / "laptop.log").read_text().split("\n")[:-1]
        dice = random.Random(SEED)
        for wrong in ("", "x", "0 0/0/0 task:w reed 0", "00 0/0/0 task:w exit", "0 0/0/0 dev:w exit", "finished", " "):
            place = dice.randrange(len(lines) - 4)
            self.assertEqual(self.refused("\n".join([*lines[:place], wrong, *lines[place:]]) + "\n"), place + 1, wrong)
        self.assertEqual(self.refused("\n".join([*lines, "finished"]) + "\n"), len(lines) + 1)

    def test_a_line_that_is_no_link(self):
        lines = LINKED_LOG.split("\n")
        for wrong in NO_LINKS:
            for place in (3, 8):
                text = "\n".join([*lines[:place], f"0 0/0/0 {wrong}", *lines[place:]])
                self.assertEqual(self.refused(text), place + 1, wrong)

    def test_entries_that_have_no_beginning(self):
        end = "source autosleep 0 0 0 0 0 0 0\nfinished\n"
        for said in ("over 1 0", "clear", "end suspend d 0", "finish autosleep"):
            self.assertEqual(self.refused(f"0 0/0/0 task:w {said}\n0 0/0/0 task:w exit\n{end}"), 1, said)

    def test_a_log_of_another_machine(self):
        text = (FOLDER / "event_wakes.log").read_text()
        self.assertEqual(self.refused(text, {"version": 1}), 1)
        self.assertEqual(self.refused(LINKED_LOG.replace("link fan codec", "link fan rotor"), LINKED), 7)
        self.assertEqual(self.refused(LINKED_LOG.replace("state fan codec", "state rotor codec"), LINKED), 5)
        with self.assertRaises(machine.NoMachine):
            told_by(text, [])
        file = WORKED[0].with_suffix(".json").read_text()
        log = reading.read_log(WORKED[0].read_bytes())
        for other, line in ((file.encode("utf-16"), 1), (b"\xef\xbb\xbf" + file.encode(), 1), (b'{"version": 1,\n x}', 2)):
            with self.assertRaises(machine.NoMachine) as caught:
                machine.read_machine(other, log)
            self.assertEqual(caught.exception.line, line)

    def test_a_script_whose_end_is_cut_off(self):
        waits = [{"name": name, "kind": "user", "script": [{"op": "wait", "mark": "a"}]} for name in "wv"]
        tree = {"version": 1, "actors": waits}
        text = Run(tree).run()[0]
        told_by(text, tree)
        self.assertEqual(self.refused(text[:text.rindex("stuck")], tree), text.count("\n"))

    def run_it(self, *words, given=b""):
        done = julampok("draw", *words, data=given)
        return done.status, done.out, done.err

    def test_a_picture_alone(self):
        log = EXAMPLES / "workers" / "two-lines-stopped.log"
        status, drawn, told = self.run_it("--svg", "1", log)
        self.assertEqual((status, told), (0, ""))
        titles = xml.dom.minidom.parseString(drawn).getElementsByTagName("title")
        said = {line for title in titles for line in title.firstChild.data.split("\n")}
        lines = log.read_text().split("\n")
        first, last = (next(at for at, line in enumerate(lines) if f" {verb} 1 " in line) for verb in ("attempt", "over"))
        self.assertEqual([line for line in lines[first : last + 1] if line not in said], [])
        self.assertEqual(self.run_it("--svg", "9", log), (2, "", f"julampok draw: {log}: no attempt 9\n"))

    def test_the_command(self):
        log = WORKED[0].read_bytes()
        status, drawn, told = self.run_it(WORKED[0], "--machine", WORKED[0].with_suffix(".json"))
        self.assertEqual((status, told), (0, ""))
        self.assertIn("</html>", drawn)
        self.assertEqual(self.run_it(given=log)[0], 0)
        status, drawn, told = self.run_it(given=log[:-20])
        self.assertEqual((status, drawn), (2, ""))
        self.assertRegex(told, r"^julampok draw: standard input:\d+: the log is cut off")
        self.assertEqual(self.run_it("--machine", WORKED[0], WORKED[0])[0], 2)
        self.assertEqual(self.run_it(FOLDER / "none.log")[0], 2)
        status, drawn, told = self.run_it()
        self.assertEqual((status, drawn, told), (2, "", "julampok draw: standard input:1: an empty log\n"))
