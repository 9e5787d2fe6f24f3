"""Tries why: on a file for each rule of machine files, on logs that break each rule, and on every other line of the program.

The files are those of docs/FORMATS.md and some by hand; what is wrong in them is read in them.
"""

import json
import pathlib
import re
import tempfile
import unittest

from command_tests import EXAMPLES, ROOT, WORKED, julampok
from julampok.json_text import NoJson, read_json

PAGE = (ROOT / "docs" / "FORMATS.md").read_text()
ROW = re.compile(r"^\| (\d+) \| .* \| `([\[{\"].*)` \| `([\w\[\].]+)` \|$", re.M)
GIVEN = [(int(rule), file, place) for rule, file, place in ROW.findall(PAGE)]
GIVEN += [(3, '"devices":[]', "version"), (6, '"syscore":[' + ",".join(f'"t{number}"' for number in range(33)) + "]", "syscore")]


def whole(rule, file):
    """The file of a row of the page, each list on a line of its own."""
    version = "" if rule == 3 else '"version": 1,\n'
    return file if rule < 3 else "{\n" + version + file.replace("],", "],\n") + "\n}\n"


class Scratch(unittest.TestCase):
    def setUp(self):
        self.folder = tempfile.TemporaryDirectory()
        self.at = pathlib.Path(self.folder.name)

    def tearDown(self):
        self.folder.cleanup()

    def write(self, name, data):
        path = self.at / name
        path.write_bytes(data if isinstance(data, bytes) else data.encode())
        return path

    def tell(self, *words, status=0):
        done = julampok("why", *words)
        self.assertEqual(done.status, status, done)
        self.assertEqual(done.err.count("\n"), 1 if status == 2 else 0, done)
        return done.out


class Files(Scratch):
    def told(self, file, said=None, status=0):
        path = self.write("m.json", file)
        return self.tell(*([said] if said else []), path, status=status).replace(str(path), "m.json")

    def test_each_rule(self):
        self.assertEqual(sorted({rule for rule, _, _ in GIVEN}), list(range(1, 25)))
        for rule, file, place in GIVEN:
            with self.subTest(rule):
                status = 2 if rule < 4 and "version" not in file or rule == 1 else 0
                told = self.told(whole(rule, file), f"machine: rule {rule}: {place}", status)
                self.assertTrue(told.startswith(f"Rule {rule}, at {place}. "), told)
                self.assertRegex(told, r"\nm\.json:\d+:\d+: .+\n +\d+  .*\n +\^", rule)
                self.assertEqual(told, self.told(whole(rule, file), status=status))

    def test_lines_and_columns_of_json(self):
        for text, line, column, said in (
            ('{"version": 1,\n "cpus": 4,}', 2, 12, "the ',' before it is one too many"),
            ('{"version": 1\n "cpus": 4}', 2, 2, "expected ',' or '}', found '\"'"),
            ("{'version': 1}", 1, 2, "double quotes"),
            ('{"version": 1} {}', 1, 16, "the file is one value"),
            ('{"version": 01}', 1, 13, "no 0 before it"),
            ('{"version": 1e999}', 1, 13, "too great"),
            ('{"version": NaN}', 1, 13, "no such value"),
            ('{"version": True}', 1, 13, "'true'"),
            ('{"a": "\\ud800"}', 1, 8, "stands alone"),
            ('{"a": "\\x"}', 1, 8, "no escape"),
            ('{"a": "b\tc"}', 1, 9, "control character"),
            ('{"a": "b\n"}', 1, 7, "before the end of its line"),
            ("[" * 128 + "]" * 128, 1, 128, "more than 127 deep"),
            ("", 1, 1, "the file is empty"),
            ('{"version": 1, "devices": [', 1, 28, "ends inside the list that begins in line 1, column 27"),
            (b'{"version": 1, "x": "\xff"}', 1, 22, "0xff"),
            (b"\xef\xbb\xbf{}", 1, 1, "byte order mark"),
            (b"\x7fELF\x00\x00", 1, 1, "expected a value"),
        ):
            with self.subTest(text):
                told = self.told(text, status=2)
                self.assertIn(f"m.json:{line}:{column}: ", told)
                self.assertIn(said, told)

    def test_what_is_read(self):
        """What Python's reader and serde_json read alike, and what the former reads alone."""
        for text in ('{"a": [1, -2.5e3, "\\u00e9\\ud83d\\ude00\\\\ud800", true, null]}', "[" * 127 + "]" * 127, " \n1\n"):
            self.assertEqual(read_json(text.encode()), json.loads(text))
        for text in ("NaN", "[Infinity]", "1e400", "9" * 400, "9" * 5000, '"\\udc00"', '"\\ud800\\u0041"', "\ufeff1"):
            with self.assertRaises(NoJson, msg=text):
                read_json(text.encode())
        self.assertIs(type(read_json(b"-0")), float)

    def test_the_nearest(self):
        device, script = '"devices":[{"name":"hub"},{"name":"key"}]', '"actors":[{"name":"w","kind":"user","script":[%s]}]'
        for file, said in (
            ('"device":[]', "no member 'device'; the nearest that exists is 'devices'"),
            ('"devices":[{"nam":"a"}]', "no member 'nam'; the nearest that exists is 'name'"),
            ('"devices":[{"nam":"a"}]', "lacks its member 'name', a text"),
            ('"devices":[{"name":"a","async":"true"}]', "'async' has to be true or false, and is the text 'true'; it stands without quotes"),
            ('"devices":[{"name":"a","async":1}]', "'async' has to be true or false, and is the number 1"),
            ('"devices":[{"name":"a","runtime":"suspend"}]', "the nearest that exists is 'suspended'"),
            ('"devices":["a"]', "a device has to be an object, and this is a text"),
            ('"devices":{}', "'devices' has to be a list, and is an empty object"),
            ('"cpus":"4"', "a number stands without quotes"),
            ('"cpus":4.0', "which has a fraction"),
            ('"sources":["usb port"]', "the letter ' ' stands in no name"),
            ('"sources":[""]', "this one has none"),
            (f'"sources":["{"x" * 33}"]', "has 33"),
            (device.replace('"key"', '"key","parent":"hubb"'), "no device has the name 'hubb'; the nearest that exists is 'hub'"),
            (device.replace('"key"', '"key","parent":"key"'), "said to be its own parent"),
            (device + ',"links":[{"supplier":"Hub","consumer":"key"}]', "'hub' would be one"),
            (device + ',"links":[{"supplier":"hub","consumer":"keys"}]', "the consumer 'keys' is no device; the nearest that exists is 'key'"),
            (script % '{"op":"reed"}', "there is no operation 'reed'; the nearest that exists is 'read'"),
            (script % '{"ms":1}', "lacks its member 'op'"),
            (script % '{"op":"sleep"}', "lacks its member 'ms', a whole number from 1 to 86,400,000"),
            (script % '{"op":"sleep","ms":0}', "'ms' has to be a whole number from 1 to 86,400,000, and is the number 0"),
            (script % '{"op":"post","mark":"A"}', "the letter 'A' stands in no name"),
            ('"sources":["lid"],' + script % '{"op":"event","source":"lit"}', "no source 'lit'; the nearest that exists is 'lid'"),
            (device + "," + script % '{"op":"runtime","device":"keyb","to":"active"}', "no device 'keyb'; the nearest that exists is 'key'"),
            (device + ',"answers":[{"what":"device","name":"huh","phase":"late"}]', "there is no device 'huh'; the nearest that exists is 'hub'"),
            (device + ',"answers":[{"what":"device","name":"hub"}]', "lacks its member 'phase'"),
            (device + ',"answers":[{"what":"device","name":"hub","phase":"noirc"}]', "the nearest that exists is 'noirq'"),
            ('"answers":[{"what":"platform","name":"begin","phase":"late"}]', "only devices have phases"),
            ('"answers":[{"what":"platform","name":"start"}]', "there is no step of the platform 'start'"),
            (device + ',"answers":[{"what":"device","name":"hub","phase":"late","ret":"EINTR"}]', "and not 'EINTR'"),
            (device + ',"answers":[{"what":"device","name":"hub","phase":"late","ret":"EINVALID"}]', "the nearest that exists is 'EINVAL'"),
            (device + ',"answers":[{"what":"device","name":"hub","phase":"late","reports":[{"call":"awake"}]}]', "a report lacks its member 'source'"),
            ('"$schema":"x"', "an editor finds the schema by its settings"),
        ):
            with self.subTest(file):
                self.assertIn(said, self.told('{"version": 1, ' + file + "}"))

    def test_the_path_of_a_cycle(self):
        links = [("d", "e"), ("e", "a"), ("c", "f"), ("f", "d")]
        devices = [{"name": "a"}, {"name": "b", "parent": "a"}, {"name": "c", "parent": "b"}, {"name": "d"}, {"name": "e"}, {"name": "f"}]
        file = {"version": 1, "devices": devices, "links": [{"supplier": one, "consumer": two} for one, two in links]}
        told = self.told(json.dumps(file, indent=1), "machine: rule 12: links[3]")
        self.assertIn("the link closes a cycle: f -> d -> e -> a -> b -> c -> f;", told)
        for said in ("'d' is a supplier of 'e'", "'e' is a supplier of 'a'", "'a' is the parent of 'b'", "'b' is the parent of 'c'", "'c' is a supplier of 'f'"):
            self.assertIn(said, told)

    def test_bounds(self):
        big = {"version": 1, "actors": [{"name": "w", "kind": "user", "repeat": 1000, "script": [{"op": "post", "mark": "m", "times": 201}]}]}
        told = self.told(json.dumps(big))
        self.assertIn("make 201,000 steps together, repeats and times counted, and may make 200,000", told)
        self.assertIn("'w' makes the most, 201,000", told)
        self.assertIn("A machine file has at most 16,777,216 bytes, and this one has 16,777,217.", self.told(b" " * 16_777_217, status=2))

    def test_a_long_line(self):
        devices = [{"name": f"device-{number}"} for number in range(900)] + [{"name": "last", "parent": "device-8888"}]
        shown = self.told(json.dumps({"version": 1, "devices": devices})).split("\n")
        self.assertTrue(all(len(line) < 200 for line in shown), shown)
        self.assertIn("device-8888", shown[2])
        self.assertEqual(shown[2][shown[3].index("^"):][:13], '"device-8888"')

    def test_long_names_and_paths(self):
        """What is told stays short, whatever the file has."""
        for file in ('{"version": 1, "%s": 1}' % ("x" * 1_000_000), json.dumps({"version": 1} | {f"m{number}": 1 for number in range(50_000)}),
                     '{"version": 1, "devices": [{"name": "%s"}]}' % ("x" * 1_000_000),
                     json.dumps({"version": 1, "devices": [{"name": "a", "runtime": "x" * 1_000_000}]})):
            told = self.told(file)
            self.assertLess(len(told), 6000)
        devices = [{"name": f"d{number}"} | ({"parent": f"d{number - 1}"} if number else {}) for number in range(1000)]
        told = self.told(json.dumps({"version": 1, "devices": devices, "links": [{"supplier": "d999", "consumer": "d0"}]}))
        self.assertIn("d999 -> d0 -> d1 -> d2 -> d3 -> d4 -> d5 -> d6 -> d7 -> d8 -> .. -> d990", told)
        self.assertTrue(told.endswith("and 980 more\n"), told[-200:])

    def test_another_file_than_said(self):
        good = self.write("good.json", '{"version": 1}')
        self.tell("machine: rule 9: devices[1]", good, status=2)
        self.assertIn("Rule 4, at cpus.", self.told('{"version": 1, "cpus": 0}', "machine: rule 9: devices[1]", 2))
        self.assertEqual(self.tell(good, status=1), f"Nothing is wrong with {good}.\n")
        self.tell("machine: rule 30: top", good, status=2)

    def test_json(self):
        path = self.write("m.json", '{"version": 1,\n "cpus": 65}')
        told = json.loads(self.tell("--json", path))
        self.assertEqual([(point["line"], point["column"]) for point in told["points"]], [(2, 10)])
        self.assertTrue(told["says"].startswith("Rule 4, at cpus."))

    def test_examples(self):
        told = self.tell(EXAMPLES / "order" / "parent-too-late.json")
        self.assertIn("parent-too-late.json:4:36: the parent 'hub' stands behind its child 'keyboard', at devices[1]", told)
        self.assertIn("camera -> clock -> hub -> camera", self.tell(EXAMPLES / "order" / "link-closes-a-cycle.json"))




def swap(lines, one, two):
    copy = list(lines)
    copy[one - 1], copy[two - 1] = lines[two - 1], lines[one - 1]
    return copy


class Logs(Scratch):
    def broken(self, name, change):
        """What is told of a worked log that is changed, by check and by why."""
        lines = (WORKED / f"{name}.log").read_text().split("\n")[:-1]
        log = self.write("l.log", "".join(f"{line}\n" for line in change(lines)))
        machine = WORKED / f"{name}.json"
        checked = julampok("check", machine, log)
        return machine, log, checked

    def tells(self, name, change, line, rule, *said):
        machine, log, checked = self.broken(name, change)
        self.assertEqual((checked.status, checked.out), (1, f"illegal line {line} definition {rule}\n"), checked)
        told = self.tell(checked.out.strip(), machine, log)
        self.assertTrue(told.startswith(f"Line {line}, definition {rule}. "), told)
        for words in said:
            self.assertIn(words, told)
        self.assertEqual(told, self.tell(machine, log))

    def test_order(self):
        """The child c has to go down before its parent p."""
        lines = (WORKED / "parent_and_child.log").read_text().split("\n")
        first = next(at for at, line in enumerate(lines, 1) if "begin suspend c" in line)
        self.tells("parent_and_child", lambda lines: swap(lines, first, first + 2), first, 9, "task:w makes there: 0 0/0/0 task:w begin suspend c")

    def test_a_missing_entry(self):
        lines = (WORKED / "smallest_attempt.log").read_text().split("\n")
        at = next(at for at, line in enumerate(lines, 1) if line.endswith(" enter"))
        self.tells("smallest_attempt", lambda lines: lines[:at - 1] + lines[at:], at, 18,
                   "time jumps only where nobody can do anything", "due there: 0 0/0/0 task:w enter")

    def test_numbers(self):
        lines = (WORKED / "smallest_attempt.log").read_text().split("\n")
        at = next(at for at, line in enumerate(lines, 1) if "attempt 1" in line)
        self.tells("smallest_attempt", lambda lines: [line.replace("attempt 1", "attempt 2") for line in lines], at, 7, lines[at - 1].split(" ", 2)[2])
        self.tells("smallest_attempt", lambda lines: ["1" + lines[0][1:], *lines[1:]], 1, 4, "the time is 1, and has to be 0")
        self.tells("smallest_attempt", lambda lines: [lines[0].replace("0/0/0", "0/7/0"), *lines[1:]], 1, 4, "the registered events is 7, and has to be 0")

    def test_statistics_and_ends(self):
        wrong = lambda lines: [line.replace("source autosleep 0", "source autosleep 1") for line in lines]
        at = next(at for at, line in enumerate((WORKED / "smallest_attempt.log").read_text().split("\n"), 1) if line.startswith("source"))
        self.tells("smallest_attempt", wrong, at, 22, "active_count is 1, and has to be 0", "due there: source autosleep 0 0 0 0 0 0 0")
        shorter = lambda lines: [line for line in lines if not line.endswith(" exit")]
        self.tells("smallest_attempt", shorter, at, 20, "somebody can still do something there", "task:w exit")
        self.tells("stuck_mark", lambda lines: lines, 2, 20, "the run is stuck", "stuck task:w mark a goes no further")
        self.tells("stuck_mark", lambda lines: [lines[0], "finished"], 2, 20, "the run is stuck")

    def test_lines_that_no_log_has(self):
        for line, said in (
            ("0 0/0/0 task:w exitt", "no entry begins with 'exitt'; the nearest that exists is 'exit'"),
            ("0 0/0/0 task:v exit", "the machine has no actor 'task:v'; the nearest that exists is 'task:w'"),
            ("0 0/0/0 task:w prepare cc 0", "the machine has no device 'cc'"),
            ("0 0/0/0 task:w freeze all", "'freeze' stands as 'freeze user' or 'freeze kernel'"),
            ("0 0/0 task:w exit", "an entry is 'TIME IN_PROGRESS/REGISTERED/HARD ACTOR WHAT'"),
            ("00 0/0/0 task:w exit", "plain numbers"),
        ):
            self.tells("parent_and_child", lambda lines: [*lines[:3], line, *lines[3:]], 4, 23, said)
        self.tells("parent_and_child", lambda lines: [*lines, "finished"], 63, 23, "behind 'finished' the log is over")

    def test_logs_that_are_none(self):
        machine = WORKED / "parent_and_child.json"
        text = (machine.with_suffix(".log")).read_text()
        for data, said in ((b"", "the log is empty"), (text[:700], "the log is cut off here"), (text[:text.index("source")], "the log is cut off here"),
                           (b"\x7fELF\x00\xff\xfe\n" * 9, "this is no log"), ("{}\n", "this is no log")):
            log = self.write("l.log", data)
            for command in ("check", "why"):
                done = julampok(command, machine, log)
                self.assertEqual((done.status, done.err.count("\n")), (2, 1), done)
                self.assertIn(said, done.err)

    def test_each_broken_log_is_explained(self):
        """Logs that a law of sleep refuses, each with the machine of a worked log."""
        for path in sorted((WORKED / "broken").glob("*.log")):
            machines = [one for one in WORKED.glob("*.json") if julampok("check", one, path).out.startswith("illegal line")
                        and "definition 23" not in julampok("check", one, path).out][:3]
            for machine in machines:
                told = self.tell(machine, path)
                self.assertRegex(told, r"^Line \d+, definition \d+\. ")
                self.assertRegex(told, "makes there: |makes nothing there: |due there: |time jumps|moment|has to be")

    def test_another_log_than_said(self):
        machine, log = WORKED / "parent_and_child.json", WORKED / "parent_and_child.log"
        self.tell("illegal line 3 definition 9", machine, log, status=2)
        self.assertEqual(self.tell(machine, log, status=1), f"Nothing is wrong with {machine} and {log}.\n")
        self.tell("illegal line 3 definition 9", machine, status=2)
        self.tell("illegal line 3 definition 9", status=2)


class Others(Scratch):
    def test_lines_without_a_file(self):
        for said, words in (
            ("read fault", "could not read its input"), ("write fault", "could not write its output"), ("want of memory", "no more memory"),
            ("usage: run [--workers N] or gen SEED DEVICES or soak SEED DEVICES or check", "It knows: run"),
            ("machine: longer than 16777216 bytes", "at most 16,777,216 bytes"), ("locks: longer than 16777216 bytes", "The lines of locks"),
            ("input: longer than 268435456 bytes", "at most 268,435,456 bytes"),
            ("stuck task:w read", "until no event is in progress"), ("stuck task:w mark a", "which is not raised any more"),
        ):
            self.assertIn(words, self.tell(said))

    def test_locks(self):
        for line, said in (("after 0", "from 1 to 86,400,000"), ("after 86400001", "from 1 to 86,400,000"), ("lok a", "the nearest that exist are 'lock' and 'unlock'"),
                           ("lock", "takes a space and a text"), ("active now", "nothing stands behind 'active'"), ("", "an empty line")):
            path = self.write("locks", f"lock a\nactive\n{line}\nunlock a\n")
            told = self.tell("locks: line 3", path)
            self.assertIn(said, told)
            self.assertIn(f"{path}:3: ", told)
        self.tell("locks: line 3", self.write("good", "lock a\nactive\n"), status=2)

    def test_statistics_of_links(self):
        machine = self.write("m.json", json.dumps({"version": 2, "devices": [{"name": "a"}, {"name": "b", "parent": "a"}, {"name": "c"}]}))
        log = self.write("l.log", "0 0/0/0 task:w link b c 0\n0 0/0/0 task:w link c a 0\n")
        told = self.tell("log: cycle", machine, log)
        self.assertIn(f"{log}:2: the cycle is c -> a -> b -> c", told)
        self.assertIn("'a' is the parent of 'b'", told)
        devices = [{"name": f"d{number}"} for number in range(100)]
        links = [{"supplier": f"d{one}", "consumer": f"d{two}"} for two in range(100) for one in range(two)][:4000]
        machine = self.write("m.json", json.dumps({"version": 2, "devices": devices, "links": links}))
        log = self.write("l.log", "0 0/0/0 task:w link d98 d99 0\n")
        self.assertIn(f"{log}:1: 4,000 links stand before it", self.tell("log: links", machine, log))
        self.assertIn("Line 1, definition 23.", julampok("why", "log: line 1", machine, self.write("l.log", "nothing\n0 0/0/0 time jump\n")).out)

    def test_a_full_source(self):
        script = [{"op": "event", "source": "lid", "times": 20_000}]
        machine = self.write("m.json", json.dumps({"version": 1, "sources": ["lid"], "actors": [{"name": "k", "kind": "irq", "script": script}]}))
        done = julampok("run", machine)
        self.assertEqual((done.status, done.out), (1, ""))
        self.assertIn("source full: lid", done.err)
        told = self.tell(done.err.strip().split(": ", 2)[2], machine)
        self.assertIn("holds 60,000 entries", told)
        self.assertIn("'k' calls it 20,000 times", told)

    def test_no_line_of_the_program(self):
        for words in (("hello world",), ("hello", "x.json"), ("a", "b", "c"), ("machine: rule 9: devices[1]",)):
            self.tell(*words, status=2)
