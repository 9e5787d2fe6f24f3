"""What readers and writers of machine files and logs give, as rows of row_trials, and logs that `stats` reads.

What is written for a file is said by the second writing, or stands in tools/worked/written.txt, by hand. It is read and written
again. The entries are values in crates/trial_rows/src/entries.rt, and the machines in its machines.rt; the lines of the entries
and the files of the machines stand here.
"""

import json

from julampok.second.rules import compact, first_broken, without_defaults
from julampok.second.stats_logs import expected
from maintain.places import WORKED
from maintain.worked.case import Call, Case
from maintain.worked.judged import rows_of
from maintain.worked.logs import text_of

EXAMPLES = WORKED.parent.parent / "examples"
STILL = b"source autosleep 0 0 0 0 0 0 0\n"

# A task; a task with two devices; and a device, a source, a mark, two tasks and an interrupt line.
TASK = b'{"version":1,"auto_cycles":1,"actors":[{"name":"w","kind":"user"}]}'
DEVICES = (b'{"version":1,"auto_cycles":1,"devices":[{"name":"c","wakeup":true},{"name":"d","wakeup":true}],'
           b'"actors":[{"name":"w","kind":"user"}]}')
THINGS = (b'{"version":1,"auto_cycles":1,"devices":[{"name":"c","wakeup":true}],"sources":["lid"],"actors":[{"name":"w","kind":"user"},'
          b'{"name":"b","kind":"user","script":[{"op":"wait","mark":"a"}]},{"name":"k","kind":"irq"}]}')

# The lines of ENTRIES and of LINK_ENTRIES, in their order; and of the ends.
ENTRIES = b"""\
0 0/0/0 task:w read 0
0 0/0/0 task:w save 0 ok
0 0/1/0 task:w save 0 EINVAL
0 0/0/0 irq:k event lid 0 soft
0 0/0/0 auto after busy
0 0/0/0 dev:c begin suspend c
0 0/0/0 timer:lid expire lid
0 0/0/0 timer:autosleep expire autosleep
1000 0/0/0 time jump
0 0/0/0 task:w begin suspend c
0 0/0/0 task:w end suspend c 0
0 0/1/0 task:w skip suspend c pending
0 0/1/0 task:w done suspend EBUSY
0 0/0/0 task:w attempt 1 guarded 0
0 0/0/0 task:w enter
0 0/1/0 task:w enter EBUSY
1000 0/0/0 task:w wake alarm
1000 0/0/0 task:w over 1 0
20000 0/0/0 task:w froze user EBUSY timeout 1 b
"""
LINK_ENTRIES = b"""\
0 0/0/0 task:w link c d 0
0 0/0/0 task:w link c d EINVAL
0 0/0/0 task:w link_state d c dormant 0
0 0/0/0 task:w link_state d c active ENODEV
"""
FINISHED = b"source lid 1 1 0 0 50 50 50\n" + STILL + b"finished\n"
STUCK = b"stuck task:w mark a\nstuck task:w read\n"

# Logs that are written again as they were: of a task that reads the count, saves it and sleeps once; of several things, with
# scripts that are stuck; and with links that change.
SLEEPS_ONCE = b"""\
0 0/0/0 task:w read 0
0 0/0/0 task:w save 0 ok
0 0/0/0 task:w attempt 1 guarded 0
0 0/0/0 task:w freeze user
0 0/0/0 task:w froze user 0
0 0/0/0 task:w freeze kernel
0 0/0/0 task:w froze kernel 0
0 0/0/0 task:w platform begin 0
0 0/0/0 task:w done prepare 0
0 0/0/0 task:w done suspend 0
0 0/0/0 task:w platform prepare 0
0 0/0/0 task:w done late 0
0 0/0/0 task:w done noirq 0
0 0/0/0 task:w platform prepare_late 0
0 0/0/0 task:w irqs off
0 0/0/0 task:w syscore check 0
0 0/0/0 task:w enter
1000 0/0/0 time jump
1000 0/0/0 task:w wake alarm
1000 0/0/0 task:w irqs on
1000 0/0/0 task:w platform wake
1000 0/0/0 task:w done resume_noirq 0
1000 0/0/0 task:w done early 0
1000 0/0/0 task:w platform finish
1000 0/0/0 task:w done resume 0
1000 0/0/0 task:w done complete 0
1000 0/0/0 task:w platform end
1000 0/0/0 task:w clear
1000 0/0/0 task:w thaw all
1000 0/0/0 task:w over 1 0
1000 0/0/0 task:w exit
""" + STILL
SEVERAL = b"""\
0 0/0/0 task:w save 0 ok
0 0/0/0 dev:c end suspend c EBUSY
0 1/2/3 task:w froze user EBUSY timeout 1 b
0 0/0/0 irq:k event lid 7 hard
1000 0/0/0 timer:autosleep expire autosleep
1000 0/0/0 auto after busy
source lid 1 1 0 0 50 50 50
""" + STILL + b"stuck task:w read\nstuck task:b mark a\n"
AGAIN = [(TASK, SLEEPS_ONCE + b"finished\n"), (THINGS, SEVERAL), (DEVICES, LINK_ENTRIES + STILL + b"finished\n")]

# Logs of which that line is the first bad one, among the entries and after them. Of the last ones a link has an end too few or too
# many, or one that is no device, a state that is none, or no state, or an answer that is no error.
NO_LINES = [
    (TASK, SLEEPS_ONCE, 33),
    (THINGS, b"00 0/0/0 task:w exit\n", 1),
    (THINGS, b"0 0/01/0 task:w exit\n", 1),
    (THINGS, b"0 0/4294967296/0 task:w exit\n", 1),
    (THINGS, b"18446744073709551616 0/0/0 task:w exit\n", 1),
    (THINGS, b"0 0/0/0 task:x exit\n", 1),
    (THINGS, b"0 0/0/0 irq:w exit\n", 1),
    (THINGS, b"0 0/0/0 task:w exit \n", 1),
    (THINGS, b"0 0/0/0 task:w exit\n0 0/0/0 task:w post b\n", 2),
    (THINGS, b"", 1),
    (THINGS, STILL, 1),
    (THINGS, b"source lid 0 0 0 0 0 0 0\nfinished\n", 2),
    (THINGS, b"source lid 0 0 0 0 0 0 0\n" + STILL + b"finished", 3),
    (THINGS, b"source lid 0 0 0 0 0 0 0\n" + STILL + b"finished\n\n", 4),
    (THINGS, b"source lid 0 0 0 0 0 0 0\n" + STILL + b"stuck task:w read\nfinished\n", 4),
    (DEVICES, b"0 0/0/0 task:w link c 0\n", 1),
    (DEVICES, b"0 0/0/0 task:w link c x 0\n", 1),
    (DEVICES, b"0 0/0/0 task:w link c d d 0\n", 1),
    (DEVICES, b"0 0/0/0 task:w link c d\n", 1),
    (DEVICES, b"0 0/0/0 task:w link_state c d 0\n", 1),
    (DEVICES, b"0 0/0/0 task:w link_state c d asleep 0\n", 1),
    (DEVICES, b"0 0/0/0 task:w link_state c d active 1\n", 1),
]

# More lines than the writer holds at once. It writes what it holds if fewer than 2,048 of its 32,768 bytes are left.
JUMP, JUMPS = b"7 0/0/0 time jump\n", 2000
HELD = (32_768 - 2048) // len(JUMP) + 1

# A device below another, for which a log adds a supplier.
CHAINED = {"version": 1, "devices": [{"name": "a"}, {"name": "b"}, {"name": "c", "parent": "b"}]}
CHAIN = "0 0/0/0 auto link a b 0\n" + STILL.decode() + "finished\n"

# The files of the machines of src/machines.rt: something in each list, links that change, and two writers that share marks.
LISTS = b"""{"version":1,"alarm_ms":7,"cpus":4,"auto_cycles":3,
        "devices":[{"name":"bus"},{"name":"usb","parent":"bus","async":true,"runtime":"suspended"},{"name":"clk","wakeup":true}],
        "links":[{"supplier":"clk","consumer":"usb"}],
        "syscore":["irq","clock"],"notifiers":[{"name":"n","priority":-5}],"sources":["lid"],
        "answers":[{"what":"device","name":"usb","phase":"late","attempt":2,"ret":"EIO"},{"what":"syscore","name":"clock","ret":"EBUSY"}],\
"actors":[{"name":"w","kind":"user","script":[{"op":"read"},{"op":"save"},{"op":"event","source":"lid"},
        {"op":"runtime","device":"clk","to":"suspended"},{"op":"state","text":"mem"}]}]}"""
CHANGES = b"""{"version":2,"devices":[{"name":"a"},{"name":"b"}],
        "links":[{"supplier":"b","consumer":"a","state":"dormant"}],
        "actors":[{"name":"w","kind":"user","script":[{"op":"link_state","supplier":"b","consumer":"a","to":"active"},\
{"op":"link","supplier":"a","consumer":"b"}]}]}"""
SHARED = b"""{"version":1,"devices":[{"name":"nic"}],"sources":["lan","lid"],
        "actors":[
            {"name":"w","kind":"user","script":[{"op":"wait","mark":"b"},{"op":"state","text":"mem","if_saved":true,"times":3}]},
            {"name":"v","kind":"user","script":[{"op":"autosleep","text":"mem"},{"op":"sleep","ms":20},{"op":"post","mark":"a"},\
{"op":"post","mark":"b"}]}],
        "answers":[{"what":"device","name":"nic","phase":"late","reports":[{"call":"event","source":"lid","ms":9,"hard":true},\
{"call":"relax","source":"lan"}]}]}"""


def by_hand():
    """The files of the table, each with what is written for it."""
    lines = rows_of(WORKED / "written.txt")
    yield from zip(lines[::2], lines[1::2])


def second():
    """The files of examples/ and tools/worked whose machines are accepted, each with what the second writing writes."""
    for path in [*sorted(EXAMPLES.rglob("*.json")), *sorted(WORKED.rglob("*.json"))]:
        tree = json.loads(text_of(path))
        if first_broken(tree) is None:
            yield compact(tree), compact(without_defaults(tree), sort_keys=True)


def written():
    """A machine file is written so, and what is written is written so again."""
    for file, text in [*by_hand(), *second()]:
        for each in (file, f"{text}\n"):
            yield Call("file", ((each.encode(), 1),), f"{text}\n".encode())


def streamed():
    """A log that is longer than the writer's buffer is written whole. If its second write fails, all that was held is written."""
    end = STILL + b"finished\n"
    pieces, size = ((TASK + b"\n", 1), (JUMP, JUMPS), (end, 1)), (("chunk", 40_000), ("write room", 40_000))
    yield Call("stream", pieces, b"whole faults 0\n" + JUMP * JUMPS + end, size)
    yield Call("stream", pieces, b"cut faults 1\n" + JUMP * HELD, (*size, ("write fails", 2)))


def calls():
    """All calls."""
    yield Call("laws", (), b"laws\n")
    yield from written()
    for end, file, out in (
        ("entries", THINGS, ENTRIES), ("link entries", DEVICES, LINK_ENTRIES), ("finished", THINGS, FINISHED), ("stuck", THINGS, STUCK),
        ("lists", LISTS, b"yes\n"), ("changes", CHANGES, b"yes\n"), ("shared", SHARED, b"yes\n"),
        ("chain", f"{compact(CHAINED)}\n{CHAIN}".encode(), b"yes\n"),
    ):
        yield Call(end, ((file, 1),), out)
    for file, log in AGAIN:
        yield Call("text", ((file + b"\n" + log, 1),), log)
    yield from streamed()


def cases():
    """Cases of `stats`: logs with a bad line, and a chain over a link that the log adds."""
    for file, log, line in NO_LINES:
        yield Case(("stats",), ((file + b"\n" + log, 1),), 3, err=b"log: line %d\n" % line)
    status, out, err = expected(CHAINED, CHAIN)
    yield Case(("stats",), ((f"{compact(CHAINED)}\n{CHAIN}".encode(), 1),), status, out.encode(), err.encode())
