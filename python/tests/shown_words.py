"""Reads what replay shows of a recording, sentence by sentence, and looks in the inputs for each thing that a sentence names.

A sentence of no known form is a failure, so that nothing is shown that nobody looked for.
"""

import errno
import gzip
import re

HEAD = re.compile(r"\s*(?P<task>.+-\d+)\s+\[(?P<cpu>\d+)\]\s+\S+\s+\S+: (?P<body>.*)")
STARTS = re.compile(r"device_pm_callback_start: (.*) (\S+), parent: (\S+), ")  # (a driver may be of two words, or none)
ENDS = re.compile(r"device_pm_callback_end: (.*) (\S+), err=(-?\d+)")
ACTIONS = {"prepare": "dpm_prepare", "suspend": "dpm_suspend", "late": "dpm_suspend_late", "noirq": "dpm_suspend_noirq", "resume_noirq": "dpm_resume_noirq",
           "early": "dpm_resume_early", "resume": "dpm_resume", "complete": "dpm_complete"}
DEVICE = r"(?P<{0}>\S+(?: \([^()]+\))?)"
PLACE = r"(?:from a hard interrupt|from a softirq|from the task (?P<place_task>\S+-\d+))"
BROKEN_DID = re.compile(rf"{DEVICE.format('who')} (?:began its callback of (?P<phase>\w+)|was (?P<was>prepared|completed))")
BROKEN_FIRST = re.compile(rf"{DEVICE.format('who')} had to (?:end its callback of (?P<phase>\w+)|be (?P<was>prepared|completed)) first, which it (?:does|is) in line (?P<line>\d+)")
REASONS = [re.compile(words.format(DEVICE.format("above"), DEVICE.format("below"))) for words in (
    "{0} is the parent of {1}", "{1} has a link to its supplier {0}", "{0} stands above {1}, by its parents or links",
    "{0} was prepared after {1}, and complete goes the other way")]
KINDS = r"(?:a user task|a kernel thread|user or kernel, not told)"
PM_TEST = r"pm_test '(?P<level>freezer|devices|platform|processors|core)'"
OR_ELSE = (r"(?:a failure of the platform(?:'s prepare(?:_late)?)?|pm_test|a processor that did not go off|the last processor, which did not go off"
           r"|a step of the system core that failed|a test that found an event of which the trace has no line)")


def shown_name(found):
    """The device of a line of the trace as it is shown."""
    return f"{found[2]} ({found[1]})" if found[1] else found[2]


def sides(files):
    """The lines of the files of a recording, by kind; none for those that are left out."""
    found = {}
    for kind in ("trace", "devices", "links", "dmesg"):
        file = files.get(kind)
        opened = gzip.open if str(file).endswith(".gz") else open
        found[kind] = opened(file, "rt", errors="surrogateescape").read().split("\n")[:-1] if file else []
    return found


class Shown:
    """What is shown of one recording, held against the lines of its inputs. `wrong` are the faults that were found."""

    def __init__(self, files):
        self.lines = sides(files)
        self.trace = [HEAD.match(line) for line in self.lines["trace"]]
        self.devices, self.parents, self.sources, self.tasks, self.cpus = set(), set(), set(), set(), set()
        for line in self.trace:
            if line is not None:
                self.take(line)
        head = re.search(r"#P:(\d+)", "\n".join(self.lines["trace"][:20]))
        self.cpus |= set(range(int(head[1]))) if head else set()
        self.first = self.last = 0  # The lines of the attempt that is told of.
        self.wrong = []

    def take(self, line):
        """Takes the names of a line of the trace."""
        body = line["body"]
        self.tasks.add(line["task"].strip())
        self.cpus.add(int(line["cpu"]))
        if (found := STARTS.match(body)):
            self.devices.add(shown_name(found))
            self.parents.add((found[3], found[2]))
        elif (found := re.match(r"wakeup_source_\w+: (\S+) state=", body)):
            self.sources.add(found[1])
        elif (found := re.match(r"suspend_resume: CPU_(?:OFF|ON)\[(\d+)\]", body)):
            self.cpus.add(int(found[1]))

    # ---- lines

    def fail(self, text):
        """Notes a fault."""
        self.wrong.append(text)

    def body(self, number):
        """What a line of the trace says; "" where there is none."""
        number = int(number)
        line = self.trace[number - 1] if 0 < number <= len(self.trace) else None
        return line["body"] if line else ""

    def says(self, number, *words):
        """The line exists, stands in the attempt, and has the words."""
        body = self.body(number)
        if not body or any(word not in body for word in words):
            self.fail(f"line {number} has not {words}: {body!r}")
        if self.first and not self.first <= int(number) <= self.last:
            self.fail(f"line {number} is not in the attempt of lines {self.first} to {self.last}")

    def dmesg(self, number, *words):
        """The line of dmesg exists and has one of the words."""
        lines = self.lines["dmesg"]
        line = lines[int(number) - 1] if 0 < int(number) <= len(lines) else ""
        if not line or words and not any(word in line for word in words):
            self.fail(f"dmesg line {number} has none of {words}: {line!r}")

    def device(self, shown):
        """The trace has the device, with that driver; without one, a list may have it."""
        name = shown.split(" ")[0]
        if shown not in self.devices and not ("(" not in shown and self.is_listed(name)):
            self.fail(f"no input has the device {shown}")

    def is_listed(self, name):
        """Whether a list has a device of that name."""
        return any(line.split(" ")[0].endswith("/" + name) for line in self.lines["devices"]) or any(name in pair for pair in self.parents)

    def phase(self, number, phase):
        """The line stands in the phase."""
        step = next((found[1] for at in range(int(number) - 1, 0, -1) if (found := re.match(r"suspend_resume: (dpm_\w+)\[\d+\] begin", self.body(at)))), None)
        if step != ACTIONS[phase]:
            self.fail(f"line {number} stands in {step}, not in {phase}")

    def callback(self, number, shown, phase, is_begin=True):
        """The line begins or ends the callback of a device in a phase."""
        self.device(shown)
        found = (STARTS if is_begin else ENDS).match(self.body(number))
        if not found or shown_name(found) != shown:
            self.fail(f"line {number} is not of {shown}: {self.body(number)!r}")
        if phase:
            self.phase(number, phase)

    def steps(self, action, edge="begin"):
        """The lines of the attempt with that step."""
        return [at for at in range(self.first, self.last + 1) if re.match(rf"suspend_resume: {action}\[\d+\] {edge}", self.body(at))]

    def processors(self):
        """The processors that went off in the attempt, in order."""
        return [int(re.search(r"\[(\d+)\]", self.body(at))[1]) for at in self.steps("CPU_OFF")]

    def callbacks(self, phase):
        """The number of callbacks that begin in a phase of the attempt."""
        begin, end = self.steps(ACTIONS[phase])[0], [*self.steps(ACTIONS[phase], "end"), self.last][0]
        return sum(bool(STARTS.match(self.body(at))) for at in range(begin, end))

    # ---- sentences

    def sentence(self, text):
        """Holds one sentence of an attempt against the inputs."""
        for pattern, look in SENTENCES:
            found = pattern.fullmatch(text)
            if found:
                named = found.groupdict()
                if named.get("place_task") and named["place_task"] not in self.tasks:
                    self.fail(f"no task {named['place_task']}")
                look(self, named)
                return
        self.fail(f"a sentence of no known form: {text!r}")

    def attempt(self, one):
        """Holds an attempt as JSON has it against the inputs."""
        self.first, self.last = one["line"], one["last_line"]
        if self.lines["trace"] and not 0 < self.first <= self.last <= len(self.trace):
            self.fail(f"no lines {self.first} to {self.last}")
        if self.trace[self.first - 1]["task"].strip() != one["task"]:
            self.fail(f"line {self.first} is not of {one['task']}")
        self.says(self.first, "suspend_resume: ")
        self.says(self.last, "suspend_resume: ")
        if one["answer"] not in (None, "0", "EBUSY"):  # (EBUSY is what the kernel answers where an event or the freezer stops it)
            numbers = {-int(found[3]) for at in range(self.first, self.last) if (found := ENDS.match(self.body(at)))}
            numbers |= {int(found[1]) for text in one["sentences"] if (found := re.search(r"Error taking CPU\d+ down: -(\d+)\)", text))}
            if one["answer"] not in {errno.errorcode.get(number) for number in numbers}:
                self.fail(f"nobody answers {one['answer']}")
        if one["judged_to"] is not None:
            self.says(one["judged_to"])
        for text in one["sentences"]:
            self.sentence(text)
        for text in one["stand_ins"]:
            self.stand_in(text)
        self.first = self.last = 0

    def stand_in(self, text):
        """What the log has in place of what no log has names nothing but what stands in."""
        instead = r"(?:pm_test, which no log has|suspend-to-idle, which no log has|a processor that did not go off|a step whose error is not told)"
        if not re.fullmatch(rf"task not-told does not freeze: which tasks did not is not told|notifier refuser answers EBUSY: who refused and with which error is not told"
                            rf"|(?:platform|syscore) \w+ answers EBUSY(?:: its own error is not told| in place of {instead})|an event of (?:not-told|IRQ \d+|lid) in place of the one that no line shows"
                            r"|the next test finds an event that came before, in place of what turned the kernel around", text):
            self.fail(f"a stand-in of no known form: {text!r}")

    def broken(self, one):
        """A step that no legal log has: what was done in its line, what in the line of what had to come first, and why."""
        did, first = BROKEN_DID.fullmatch(one["did"]), BROKEN_FIRST.fullmatch(one["first"])
        if not did or not first or int(first["line"]) != one["first_line"]:
            self.fail(f"of no known form: {one}")
            return
        silent = {"prepared": "prepare", "completed": "complete"}
        self.callback(one["line"], did["who"], did["phase"] or silent[did["was"]], is_begin=STARTS.match(self.body(one["line"])))
        self.callback(one["first_line"], first["who"], first["phase"] or silent[first["was"]], is_begin=first["was"] and STARTS.match(self.body(one["first_line"])))
        if not one["line"] < one["first_line"]:
            self.fail(f"line {one['first_line']} is not behind line {one['line']}")
        for text in one["because"]:
            if not self.is_reason(text):
                self.fail(f"no input tells {text!r}")

    def is_reason(self, text):
        """Whether an input tells why one device had to come before another one."""
        found = next((found for pattern in REASONS if (found := pattern.fullmatch(text))), None)
        if found is None:
            return False
        above, below = found["above"].split(" ")[0], found["below"].split(" ")[0]
        if "parent of" in text:
            return (above, below) in self.parents or any(f"/{above}/{below} " in line for line in self.lines["devices"])
        if "supplier" in text:
            return f"{above} {below}" in self.lines["links"]
        if "was prepared after" in text:
            return self.prepared(found["above"]) > self.prepared(found["below"])
        return found["above"] in self.devices and found["below"] in self.devices

    def prepared(self, shown):
        """The first line in which a device is prepared."""
        return next(at for at, line in enumerate(self.trace, 1) if line and (found := STARTS.match(line["body"])) and shown_name(found) == shown)

    def headline(self, text, attempts):
        """The verdict names attempts with their lines, and nothing else but what `broken` holds."""
        limits = [f"attempt {one['number']} down to line {one['judged_to']}" for one in attempts if one["judged_to"] is not None]
        for found in re.findall(r"attempt \d+ down to line \d+", text):
            if found not in limits:
                self.fail(f"not told: {found}")
        plain = r"legal, by the kernel's own way(?: and with its answer|: attempt \d+ down to line \d+(?:, attempt \d+ down to line \d+)*, where the log stands in)?\. Judged by .*"
        if not re.fullmatch(plain, text) and not text.startswith("not legal: line "):
            self.fail(f"a verdict of no known form: {text!r}")

    def note(self, note, file):
        """A note: the place exists and the line has the names."""
        text, line = note["text"], note["line"]
        if (found := re.fullmatch(r"the messages are not those of the attempt in line (\d+) of the trace: not taken", text)):
            self.says(found[1], "suspend_resume: ")
            self.dmesg(line)
            return
        if note["file"] != file:
            self.fail(f"of another file: {note}")
        if line is not None and not self.body(line):
            self.fail(f"no line {line}: {note}")
        found = re.fullmatch(r"the parent (\S+) of (\S+) is one of several devices of that name: taken to be .*", text)
        if found:
            if f" {found[2]}, parent: {found[1]}, " not in f" {self.body(line)}":
                self.fail(f"line {line} has not {found[1]} and {found[2]}")
        elif (found := re.fullmatch(rf"{DEVICE.format('who')} answered (?P<number>-\d+) \((?P<name>\w+)\), an error that machine files do not have: the log has EIO", text)):
            answered(self, {**found.groupdict(), "line": line, "phase": None})
        elif (found := re.fullmatch(r"(\d+) devices? without callbacks may be asynchronous or not, which no input tells: .*", text)):
            if not 0 < int(found[1]) <= len(self.devices):
                self.fail(f"not so many devices: {text!r}")
        elif (found := re.fullmatch(r"(.*): attempt \d+ (?:does|and \d+ more do) not prepare (?:it|all of them); (?:it stands|they stand) in the log's list there, and pass(?:es)? without a callback", text)):
            for shown in re.split(r", | and (?=\S+ \()", re.sub(r" and \d+ more$", "", found[1])):
                self.device(shown)
        elif not re.fullmatch(r"(?:no input tells the number of processors: taken as \d+|whether a count was saved for an attempt that slept leaves no line: the log saves none"
                              r"|no callback ran in another task than the attempt's, so no device is taken as asynchronous)", text):
            self.fail(f"a note of no known form: {text!r}")


# ---- forms of sentences


def rule(pattern, look=lambda shown, named: None):
    """A form of sentence, and what is looked for."""
    return re.compile(pattern), look


def event_reported(shown, named):
    """An event, and what was in callbacks meanwhile."""
    shown.says(named["line"], f"wakeup_source_activate: {named['source']} state=")
    task = shown.trace[int(named["line"]) - 1]
    if named.get("place_task") and task["task"].strip() != named["place_task"]:
        shown.fail(f"line {named['line']} is not of {named['place_task']}")
    for who, phase, line in re.findall(r"(\S+(?: \([^()]+\))?) in its (\w+) callback of line (\d+)", named.get("inside") or ""):
        shown.callback(line, who, phase)
        if int(line) > int(named["line"]):
            shown.fail(f"line {line} stands behind {named['line']}")


def by_callback(shown, named):
    """An event that a callback reported."""
    shown.says(named["line"], f"wakeup_source_activate: {named['source']} state=")
    shown.callback(named["began"], named["who"], named["phase"])


def answered(shown, named):
    """A callback that answered an error."""
    shown.callback(named["line"], named["who"], named["phase"], False)
    shown.says(named["line"], f"err={named['number']}")
    if errno.errorcode[-int(named["number"])] != named["name"]:
        shown.fail(f"{named['number']} is not {named['name']}")


def undone(shown, named):
    """What was undone: each part with its number."""
    for part in named["parts"].split(", "):
        found = re.fullmatch(r"(\d+) processors? on again|(\w+) \((\d+) (?:callback|device)s?\)|(tasks thawed)", part)
        if not found:
            shown.fail(f"of no known form: {part!r}")
        elif found[1] and len(shown.steps("CPU_ON")) != int(found[1]) or found[2] and shown.callbacks(found[2]) != int(found[3]) or found[4] and not shown.steps("thaw_processes"):
            shown.fail(f"not so many: {part!r}")


def processor(shown, named):
    """A processor that an input has, and that is the next one behind those that went off."""
    number, went = int(named["cpu"]), [0, *shown.processors()]
    if number != min(cpu for cpu in shown.cpus if cpu > went[-1]):
        shown.fail(f"no processor {number}: {sorted(shown.cpus)}, {went} went off")


def found_by(shown, named):
    """A device that was prepared, and whose callback did not begin."""
    shown.device(named["who"])
    begins = [at for at in range(shown.first, shown.last + 1) if (found := STARTS.match(shown.body(at))) and shown_name(found) == named["who"]]
    phases = {next(found[1] for up in range(at, 0, -1) if (found := re.match(r"suspend_resume: (dpm_\w+)\[\d+\] begin", shown.body(up)))) for at in begins}
    if "dpm_prepare" not in phases or ACTIONS[named["phase"]] in phases:
        shown.fail(f"{named['who']} had callbacks in {sorted(phases)}")


def before(shown, named):
    """An event before the attempt."""
    first, shown.first = shown.first, 1
    event_reported(shown, named)
    shown.first = first
    if int(named["line"]) >= first:
        shown.fail(f"line {named['line']} is in the attempt")


def hard_event(shown, named):
    """dmesg has messages, and in one attempt at least none of a saved count."""
    entries, pending = (sum(words in line for line in shown.lines["dmesg"]) for words in ("PM: suspend entry", "Wakeup pending, aborting suspend"))
    if pending >= entries:
        shown.fail(f"{pending} messages of a saved count in {entries} attempts")


def went_not(shown, named):
    """A processor that did not go off, with the error that dmesg has."""
    shown.dmesg(named["line"], named["words"])
    if shown.processors()[-1] != int(named["cpu"]) or f"CPU{named['cpu']} " not in named["words"]:
        shown.fail(f"not the last: {named}")
    if named["number"] and (not named["words"].endswith(named["number"]) or errno.errorcode[-int(named["number"])] != named["name"]):
        shown.fail(f"not that error: {named}")


def not_frozen(shown, named):
    """Tasks that did not freeze, as dmesg has them."""
    if named.get("dmesg"):
        shown.dmesg(named["dmesg"], "Freezing", "freeze")
    if named.get("task"):
        shown.dmesg(named["task_line"], f"task:{named['task']} ")


FROZEN = rf"(?:not all tasks had frozen \({KINDS}\)|(?P<task>\S+) \(dmesg line (?P<task_line>\d+)\) had not frozen, {KINDS}|(?P<writer>\S+) had not frozen, which waited in its write to /sys/power/autosleep)"
NO_SLEEP = r"Processor (?P<cpu>\d+) did not go off"
SENTENCES = [
    rule(r"The machine slept, by line (?P<line>\d+)\.", lambda shown, named: shown.says(named["line"], "machine_suspend[3] begin")),
    rule(r"The machine was in suspend-to-idle from line (?P<line>\d+)\.", lambda shown, named: shown.says(named["line"], "machine_suspend[1] begin")),
    rule(rf"The first event after it is of (?P<source>\S+), line (?P<line>\d+), {PLACE}\.", event_reported),
    rule(r"(?P<source>\S+) reported an event before, in line (?P<line>\d+): no saved count was in force, so no test found it\.", event_reported),
    rule(rf"(?P<source>\S+) reported an event in line (?P<line>\d+), {PLACE}(?:, with (?P<inside>.*))?\.", event_reported),
    rule(rf"(?P<source>\S+) reported an event in line (?P<line>\d+), from the (?P<phase>\w+) callback of {DEVICE.format('who')}, which began in line (?P<began>\d+)\.", by_callback),
    rule(rf"The test before the (?P<phase>suspend|late) callback of {DEVICE.format('who')} found it\.", found_by),
    rule(r"The test before processor (?P<cpu>\d+) went off found it\.", processor),
    rule(r"The last test before the entry found it\.", lambda shown, named: shown.steps("syscore_suspend", "end") or shown.fail("no core")),
    rule(rf"The freezer found it: {FROZEN}\.", lambda shown, named: (not_frozen(shown, named), named["writer"] in (None, *shown.tasks) or shown.fail(f"no task {named['writer']}"))),
    rule(rf"Tasks did not freeze in time(?: \(dmesg line (?P<dmesg>\d+)\))?: {FROZEN}\.", not_frozen),
    rule(r"A saved count was in force \(dmesg line (?P<line>\d+)\)\.", lambda shown, named: shown.dmesg(named["line"], "Wakeup pending, aborting suspend")),
    rule(r"A saved count was in force: what came before line (?P<line>\d+), in which the freeze begins, no other test finds\.", lambda shown, named: shown.says(named["line"], "freeze_processes[0] begin")),
    rule(r"A saved count was in force, which the autosleep work saves before each attempt\.", lambda shown, named: "kworker/" in shown.trace[shown.first - 1]["task"] or shown.fail("no autosleep")),
    rule(r"Whether a saved count or a hard event made the test find it is not told\."),
    rule(rf"{DEVICE.format('who')} answered (?P<number>-\d+) \((?P<name>\w+)\) in (?P<phase>\w+)(?:, asynchronously)?, line (?P<line>\d+)\.", answered),
    rule(r"The platform's (?:begin|prepare|prepare_late) failed; its error is not told\."),
    rule(rf"{PM_TEST} turned it around(?: \(dmesg line (?P<line>\d+)\))?\.", lambda shown, named: named["line"] and shown.dmesg(named["line"], "Waiting for")),
    rule(rf"It may also have been {OR_ELSE}(?:,? or {OR_ELSE})?: no input tells\."),
    rule(r"Undone: (?P<parts>.*)\.", undone),
    rule(rf"(?P<source>\S+) reported an event in line (?P<line>\d+), {PLACE}, before the attempt began\.", before),
    rule(rf"{NO_SLEEP} \(dmesg line (?P<line>\d+): (?P<words>.*?)\)(?: with (?P<number>-\d+) \((?P<name>\w+)\)|; its error is not told)\.", went_not),
    rule(rf"{NO_SLEEP}; its error is not told\.", lambda shown, named: shown.processors()[-1] == int(named["cpu"]) or shown.fail(f"not the last: {named['cpu']}")),
    rule(r"A step of the system core failed(?: \(dmesg line (?P<line>\d+): (?P<words>.*)\))?; its error is not told\.", lambda shown, named: named["line"] and shown.dmesg(named["line"], named["words"])),
    rule(r"The test before the first step of the system core found it\.", lambda shown, named: shown.steps("syscore_suspend") or shown.fail("no core")),
    rule(r"IRQ (?P<irq>\d+) stopped it \(dmesg line (?P<line>\d+)\): a hard event without a source, of which the trace has no line\.", lambda shown, named: shown.dmesg(named["line"], f"IRQ {named['irq']}")),
    rule(r"An event of (?:a source that no input names|(?P<who>\S+) \(dmesg line (?P<line>\d+)\)) stopped it; no line of the trace shows the event\.", lambda shown, named: named["line"] and shown.dmesg(named["line"], f"source: {named['who']}")),
    rule(r"A notifier refused, or another step before tasks were frozen; which one and its error are not told\."),
    rule(r"It was a hard event: of this attempt dmesg has no 'Wakeup pending, aborting suspend', which a saved count writes\.", hard_event),
]
