"""Machine files whose runs are measured, each as the tree that its file spells."""

READ = {"op": "read"}
SAVE = {"op": "save"}
EVENT = {"op": "event", "source": "lid"}
STATE = {"op": "state", "text": "mem"}
# What a task does again and again: it sleeps under a saved count, reports an event, or reports one so that it gives up.
PIECES = {
    "sleep": [READ, SAVE, STATE],
    "event": [EVENT],
    "give-up": [READ, SAVE, EVENT, STATE],
}
DEVICES = 1000
TASKS = 256
SLEEPS = 781  # Of each of these tasks.

# ---- attempts on devices


def hangs(device, other):
    """Whether a device hangs below another by the binary tree, or is it."""
    while device > other:
        device = (device - 1) // 2
    return device == other


def some_links(devices, count):
    """So many links, the nearest ones first, of which no consumer hangs below its supplier by the tree."""
    ends = ((at, at + step) for step in range(1, devices) for at in range(devices - step))
    free = [(supplier, consumer) for supplier, consumer in ends if not hangs(consumer, supplier)][:count]
    return [{"supplier": f"d{supplier}", "consumer": f"d{consumer}"} for supplier, consumer in free]


def tree(devices, times, piece="sleep", is_async=False, links=0):
    """Devices in a binary tree (device i hangs below device (i - 1) / 2), and one task that does a piece so many times."""
    flags = {"async": True} if is_async else {}
    named = [{"name": "d0"} | flags] if devices else []
    named += [{"name": f"d{i}", "parent": f"d{(i - 1) // 2}"} | flags for i in range(1, devices)]
    return {
        "version": 1,
        "devices": named,
        "links": some_links(devices, links),
        "sources": ["lid"],
        "actors": [{"name": "manager", "kind": "user", "script": PIECES[piece] * times}],
    }


def answered(devices, times, answers):
    """The tree, whose devices have so many answers in turn: each for an attempt of its own that nobody makes."""
    turns = (divmod(number, devices) for number in range(answers))
    given = [{"what": "device", "name": f"d{device}", "phase": "suspend", "attempt": 1000 - turn} for turn, device in turns]
    return tree(devices, times) | {"answers": given}


# ---- links


def linked(devices, links):
    """Devices and links, and a task that does nothing."""
    return {
        "version": 1,
        "devices": devices,
        "links": [{"supplier": supplier, "consumer": consumer} for supplier, consumer in links],
        "actors": [{"name": "manager", "kind": "user"}],
    }


def chain(count):
    """A chain below c0, whose first devices supply one another: each link moves nearly the whole chain."""
    devices = [{"name": "c0"}]
    devices += [{"name": f"c{i}", "parent": f"c{i - 1}"} for i in range(1, DEVICES)]
    links = [(f"c{i}", f"c{j}") for j in range(1, DEVICES) for i in range(j)]
    return linked(devices, links[:count])


def wide(count):
    """A star below d0, in which later devices are supplied by earlier ones: each link moves one."""
    devices = [{"name": "d0"}]
    devices += [{"name": f"d{i}", "parent": "d0"} for i in range(1, DEVICES)]
    links = [(f"d{1 + i % 500}", f"d{501 + (i * 7 + i // 500) % 499}") for i in range(count)]
    return linked(devices, sorted(set(links)))


def scripted(count):
    """The chain, whose links a task adds one by one."""
    built = chain(count)
    steps = [{"op": "link", **link} for link in built["links"]]
    return built | {"version": 2, "links": [], "actors": [built["actors"][0] | {"script": steps}]}


def links_of(built):
    """How many links a machine has, or adds."""
    return len(built["links"]) + len(built["actors"][0].get("script", []))


def spread(count):
    """So many pairs of devices, first those next to one another, then those with one between, and so on: five of each at most."""
    return [(at, at + step) for step in range(1, 6) for at in range(DEVICES - step)][:count]


def star(count):
    """So many pairs of the first device and another."""
    return [(0, at) for at in range(1, DEVICES)][:count]


def set_states(pairs, states, taken, times):
    """Devices below none with these links, and a task that takes so many of them in turn and sets these states of each."""
    apart = max(len(pairs) // taken, 1)
    ends = [pairs[number * apart % len(pairs)] for number in range(taken)]
    steps = [{"op": "link_state", "supplier": f"d{s}", "consumer": f"d{c}", "to": to} for s, c in ends for to in states]
    return {
        "version": 2,
        "devices": [{"name": f"d{number}"} for number in range(DEVICES)],
        "links": [{"supplier": f"d{supplier}", "consumer": f"d{consumer}"} for supplier, consumer in pairs],
        "actors": [{"name": "binder", "kind": "kthread", "script": steps, "repeat": times}],
    }


# ---- tasks and wakeup sources


def one_source(step):
    """A task that makes the step, on one source."""
    return {"version": 1, "sources": ["lid"], "actors": [{"name": "w", "kind": "irq", **step}]}


def hard_events():
    """One source with 14,999 hard events by one operation."""
    return one_source({"script": [{"op": "event", "source": "lid", "hard": True, "times": 14_999}]})


def timed_events():
    """One source with 14,999 events of 5 ms, each with its expiry and a jump of time."""
    return one_source({"script": [{"op": "event", "source": "lid", "ms": 5}, {"op": "sleep", "ms": 10}] * 14_999})


def sleepers(length):
    """256 tasks of all kinds, each with 781 sleeps of a length in ms."""
    kinds = ("user", "kthread", "nofreeze", "irq")
    script = lambda number: [{"op": "sleep", "ms": length(number), "times": SLEEPS}]
    return {"version": 1, "actors": [{"name": f"t{i}", "kind": kinds[i % 4], "script": script(i)} for i in range(TASKS)]}


def in_step():
    """Sleeps that all end at the same moments."""
    return sleepers(lambda number: 7)


def apart():
    """The same sleeps, of different lengths: a jump of time for nearly each."""
    return sleepers(lambda number: 1009 + 37 * number)


def one_waits():
    """The same again, whose first task waits for a mark that the second raises at its end."""
    first, second, *others = apart()["actors"]
    first = first | {"script": [{"op": "wait", "mark": "m"}]}
    second = second | {"script": second["script"] + [{"op": "post", "mark": "m"}]}
    return {"version": 1, "actors": [first, second, *others]}


def posts():
    """A task that raises one mark 100,000 times, beside 254 that wait for another, which it raises at its end."""
    script = [{"op": "post", "mark": "often", "times": 20_000}] * 5 + [{"op": "post", "mark": "once"}] * 254
    others = [{"name": f"w{i}", "kind": "user", "script": [{"op": "wait", "mark": "once"}]} for i in range(254)]
    return {"version": 1, "actors": [{"name": "p", "kind": "user", "script": script}, *others]}


def waiters(marks):
    """255 lines that wait 154 times each, for as many marks, beside one that raises them 39,270 times in all."""
    wait = lambda number: [{"op": "wait", "mark": f"m{number % marks}"}]
    lines = [{"name": f"w{i}", "kind": "irq", "repeat": 154, "script": wait(i)} for i in range(255)]
    raised = [{"op": "post", "mark": f"m{i % marks}"} for i in range(255)]
    return {"version": 1, "actors": [*lines, {"name": "p", "kind": "irq", "repeat": 154, "script": raised}]}


def short_turns(lines, moments, posts):
    """Lines that raise a mark each so many times at each of so many moments: turns of the machine, and no call on a source."""
    script = lambda number: [{"op": "post", "mark": f"m{number}", "times": posts}, {"op": "sleep", "ms": 10}]
    actors = [{"name": f"l{i}", "kind": "irq", "repeat": moments, "script": script(i)} for i in range(lines)]
    return {"version": 1, "actors": actors}


def events(readers):
    """A line that makes events on five sources while another source is awake, beside tasks that read the count."""
    sources = ["held", *(f"s{i}" for i in range(5))]
    made = [{"op": "event", "source": name, "times": 19_000} for name in sources[1:]]
    script = [{"op": "awake", "source": "held"}, {"op": "post", "mark": "m"}, *made, {"op": "relax", "source": "held"}]
    others = [{"name": f"r{i}", "kind": "user", "script": [{"op": "read"}]} for i in range(readers)]
    return {"version": 1, "sources": sources, "actors": [{"name": "k", "kind": "irq", "script": script}, *others]}


def writers(count, times):
    """That number of tasks, each of which writes to autosleep that number of times."""
    write = {"op": "autosleep", "text": "off", "times": times}
    return {"version": 1, "actors": [{"name": f"w{i}", "kind": "user", "script": [write]} for i in range(count)]}


def lines(many, calls):
    """Interrupt lines that each report that number of events on a source of its own."""
    script = lambda number: [{"op": "event", "source": f"s{number}", "times": calls}]
    actors = [{"name": f"i{i}", "kind": "irq", "script": script(i)} for i in range(many)]
    return {"version": 1, "sources": [f"s{i}" for i in range(many)], "actors": actors}


# ---- the same machines otherwise


def without_steps(built):
    """The same machine, whose first task does nothing."""
    return built | {"actors": [built["actors"][0] | {"script": []}]}


def refused(built):
    """The same machine with an answer of nobody, which is found when all else was read."""
    return built | {"answers": [{"what": "notifier", "name": "nobody", "ret": "EIO"}]}
