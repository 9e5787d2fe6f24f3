"""The core's turns of one actor over an event word that moves, bursts, and a source's calls, as rows of row_trials.

The functions that answer are in crates/row_trials/src/alone.rt, first_burst.rt and seats.rt. What they say was worked by hand.
"""

from maintain.worked.case import Call

# A parent and its child, and a task that reads the count, saves it and writes mem.
FAMILY = (b'{"version": 1, "devices": [{"name": "p"}, {"name": "c", "parent": "p"}], "actors": [{"name": "w", "kind": "user", "script": ['
          b'{"op": "read"}, {"op": "save"}, {"op": "state", "text": "mem"}]}]}')

# A task that sleeps, one that waits for a mark, one that posts another mark, and an asynchronous device.
WAITERS = (b'{"version": 1, "devices": [{"name": "d", "async": true}], "actors": ['
           b'{"name": "s", "kind": "user", "script": [{"op": "sleep", "ms": 5}]}, '
           b'{"name": "m", "kind": "user", "script": [{"op": "wait", "mark": "a"}]}, '
           b'{"name": "p", "kind": "user", "script": [{"op": "post", "mark": "b"}]}]}')

# A task that sleeps, and one that posts a mark and exits.
SLEEPER = b'{"version": 1, "actors": [{"name": "s", "kind": "user", "script": [{"op": "sleep", "ms": 5}]}]}'
POSTER = b'{"version": 1, "actors": [{"name": "p", "kind": "user", "script": [{"op": "post", "mark": "a"}]}]}'

# What the row asks of a machine; each is so.
ASKED = [
    ("quiet", FAMILY), ("at table", FAMILY), ("plain", FAMILY), ("guarded", FAMILY), ("hard", FAMILY), ("asleep", FAMILY),
    ("stopped", SLEEPER), ("stopped", POSTER), ("one stopped", WAITERS), ("waits", WAITERS),
]

# A task that puts the machine to sleep makes its whole attempt up to the sleep, seventeen entries. An interrupt makes two calls on a
# source, and its exit.
ATTEMPT = (b'{"version":1,"actors":[{"name":"w","kind":"user","script":[{"op":"read"},{"op":"save"},{"op":"state","text":"mem"}]}]}')
LID = (b'{"version":1,"sources":["lid"],"actors":[{"name":"k","kind":"irq","script":[{"op":"awake","source":"lid"},'
       b'{"op":"relax","source":"lid"}]}]}')


def calls():
    """All calls."""
    for end, file in ASKED:
        yield Call(end, ((file, 1),), b"yes\n")
    for file, turns in ((ATTEMPT, 17), (LID, 3)):
        yield Call("burst", ((file, 1),), b"did %d\n" % turns)
    for end in ("sent", "seat", "full seat"):
        yield Call(end, (), b"yes\n")
