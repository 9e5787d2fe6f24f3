"""What stands at a place of a log, from the lines before it: a plain reading, an entry at a time.

It keeps what the rules ask of the entries before: the word, the saved count, the attempt's row, where each device
stands in each pair of phases, where each script is, what each source owes, and which calls each actor has left.
"""

import collections

from .machine import DOWN, NOTES, STEPS, UP, Machine

BEHIND_DOWN = {"suspend": ("platform", "prepare"), "late": ("downs", "noirq"), "noirq": ("platform", "prepare_late")}
BEHIND_UP = {"resume_noirq": ("ups", "early"), "early": ("undo", "finish"), "resume": ("completes",)}
BEHIND_DO = {"begin": ("prepares",), "prepare": ("downs", "late"), "prepare_late": ("cpus",)}
FAILED_DO = {"begin": ("undo", "end"), "prepare": ("undo", "finish"), "prepare_late": ("undo", "wake")}
BEHIND_UNDO = {"recover": ("ups", "resume"), "wake": ("ups", "resume_noirq"), "finish": ("ups", "resume"), "end": ("clears",)}
FAILED_PHASE = {"late": ("ups", "early"), "noirq": ("ups", "resume_noirq")}
BEHIND = {("notifies",): ("freezes", "user"), ("cpus",): ("irqs off",), ("syscore",): ("enters",)}
BEHIND |= {("resumes",): ("irqs on",), ("cpus on",): ("undo", "wake"), ("posts",): ("ends",)}


class Entry:
    """A line of a log, as its words."""

    def __init__(self, line):
        time, numbers, self.who, *self.words = line.split(" ")
        self.time, self.now = int(time), tuple(map(int, numbers.split("/")))
        self.verb = self.words[0]
        self.line = line

    @property
    def part(self):
        """Whose entry it is: a source's, as a note or a step, time's, or the journal's."""
        return "step" if self.verb in STEPS else "note" if self.verb in NOTES else "time" if self.verb == "jump" else "journal"


def error_of(words):
    return None if words[-1] in ("0", "1") else words[-1]


class Seat:
    """Where a script is among its operations."""

    def __init__(self, given):
        self.name, self.kind = given["name"], given["kind"]
        steps = [step for step in given.get("script", []) for _ in range(step.get("times", 1))]
        self.calls = calls_by_turn(piece for step in steps * given.get("repeat", 1) for piece in pieces_of(step))
        self.ops = [step for step in steps * given.get("repeat", 1) if step["op"] not in ("awake", "relax", "event")]
        self.done, self.waits, self.last_read, self.saved, self.until = 0, False, 0, False, None
        self.exited = self.asked = self.frozen = False

    def calls_behind(self, turn):
        """The notes behind so many turns."""
        return self.calls[turn] if turn < len(self.calls) else []

    @property
    def op(self):
        return self.ops[self.done] if self.done < len(self.ops) else None

    def next(self):
        self.done, self.waits, self.until = self.done + 1, False, None


def calls_by_turn(pieces):
    """The notes that stand right before each turn of a script's, and those behind the last one."""
    found = [[]]
    for piece in pieces:
        if piece is None:
            found.append([])
        else:
            found[-1].append(piece)
    return found


def is_mem(text):
    return text.split("\n")[0] == "mem"


def is_good(text):
    return is_mem(text) or text in ("off", "off\n")


def note_of(given):
    made, source = given.get("call") or given["op"], given["source"]
    return f"event {source} {given.get('ms', 0)} {'hard' if given.get('hard') else 'soft'}" if made == "event" else f"{made} {source}"


def pieces_of(step):
    """The pieces of an operation: the notes of its calls, and a None for each turn."""
    if step["op"] in ("awake", "relax", "event"):
        return [note_of(step)]
    if step["op"] == "autosleep" and is_good(step["text"]):
        return ["awake autosleep", None, "relax autosleep", None]
    return [None]


class SourceAt:
    """A source's own entries so far."""

    def __init__(self):
        self.entries, self.since, self.expiry, self.owed, self.caller = 0, None, None, [], None

    def note(self, who, time, words):
        made, active = words[0], self.since is not None
        self.caller = who
        starting, finishing = [] if active else ["start"], ["finish"] if active else []
        if made == "event":
            length = int(words[2])
            self.owed = starting + (["hard"] if words[3] == "hard" else []) + (["finish"] if length == 0 else [])
            self.expiry = self.expiry if length == 0 else max(self.expiry or 0, time + length)
        else:
            self.owed = starting if made == "awake" else finishing
            self.expiry = None if made == "awake" else self.expiry

    def step(self, time, kind):
        self.owed = self.owed[1:]
        if kind == "start":
            self.since = time
        if kind == "finish":
            self.since = self.expiry = None


class Place(Machine):
    """What stands behind the entries so far."""

    def __init__(self, tree):
        super().__init__(tree)
        self.maker, self.stage, self.force, self.forgotten = None, None, None, 0
        self.holder, self.on, self.work, self.queued, self.runs = None, False, ("resting",), False, 0
        self.failed = self.phase_failed = self.own_error = self.callback = None
        self.freeze_since = self.sleep = None
        self.entered = False
        self.told, self.cpus_off, self.stopped, self.owes, self.irqs_off = set(), set(), set(), set(), False
        self.stands = {p: dict.fromkeys(self.names, "unprepared") for p in DOWN}
        self.asks_direct, self.off_direct, self.off_late = set(), False, False
        self.suspended = {d for d, given in self.devices.items() if given.get("runtime") == "suspended"}
        self.marks = {}
        self.seats = {("irq:" if g["kind"] == "irq" else "task:") + g["name"]: Seat(g) for g in tree.get("actors", [])}
        self.sources = {name: SourceAt() for name in [*tree.get("sources", []), "autosleep"]}
        self.left = {who: collections.deque(seat.calls[0]) for who, seat in self.seats.items()}
        self.turns = dict.fromkeys(self.seats, 0)
        self.last = {}

    # ---- plain questions

    def pending(self):
        moved = self.force is not None and (self.visible() != self.force or self.inpr > 0)
        return moved or self.hard > self.forgotten

    def call_order(self):
        return [x["name"] for x in sorted(self.tree.get("notifiers", []), key=lambda x: -x.get("priority", 0))]

    def row(self):
        """The row of the open attempt's next entry."""
        has_more = {
            ("notifies",): self.told != set(self.call_order()),
            ("cpus",): self.next_cpu_off() is not None,
            ("syscore",): self.next_stopped() is not None,
            ("resumes",): bool(self.stopped),
            ("cpus on",): bool(self.cpus_off),
            ("posts",): bool(self.told),
        }
        return self.stage if has_more.get(self.stage, True) else BEHIND[self.stage]

    def next_cpu_off(self):
        return next((k for k in range(1, self.tree.get("cpus", 1)) if k not in self.cpus_off), None)

    def next_stopped(self):
        return next((x for x in reversed(self.tree.get("syscore", [])) if x not in self.stopped), None)

    def work_of(self, d):
        """The work of an asynchronous device: scheduled in a phase, or inside its callback there."""
        going = {"scheduled": ("scheduled", 0), "suspending": ("inside", 0), "rescheduled": ("scheduled", 1), "resuming": ("inside", 1)}
        for p in DOWN:
            if self.is_async(d) and self.stands[p][d] in going:
                state, up = going[self.stands[p][d]]
                return state, DOWN[p] if up else p
        return ("idle",)

    def tasks_left(self, group):
        kind = {"user": "user", "kernel": "kthread"}[group]
        return [s.name for s in self.seats.values() if s.kind == kind and s.asked and not s.frozen and not s.exited]

    def all_gone(self):
        return all(seat.exited for seat in self.seats.values())

    # ---- calls

    def is_inside(self, who):
        return any(s.owed and s.caller == who for s in self.sources.values())

    # ---- an entry further

    def step(self, e):
        moves = {"step": self.move_source, "note": self.note_source, "time": self.jump, "journal": self.journal}
        moves[e.part](e)
        self.last[e.who] = e

    def jump(self, e):
        self.time = e.time

    def note_source(self, e):
        source = self.sources[e.words[1]]
        source.entries += 1
        source.note(e.who, self.time, e.words)
        if self.left.get(e.who):
            self.left[e.who].popleft()

    def move_source(self, e):
        source = self.sources[e.words[1]]
        source.entries += 1
        source.step(self.time, e.verb)
        self.inpr += {"start": 1, "finish": -1, "hard": 0}[e.verb]
        self.count += e.verb == "finish"
        self.hard += e.verb == "hard"

    def journal(self, e):
        self.move_count(e)
        self.move_calls(e)
        self.move_devices(e)
        self.move_attempt(e)
        self.move_stops(e)
        self.move_freezer(e)
        self.move_lock(e)
        if e.who in self.seats:
            self.move_seat(self.seats[e.who], e)
        if e.who == "auto":
            self.move_work(e)

    def move_count(self, e):
        w = e.words
        if (e.verb == "save" and w[2] == "ok") or e.verb == "saved":
            self.force = int(w[1])
        elif (e.verb == "save" and w[2] == "EINVAL") or e.verb in ("unsaved", "clear"):
            self.force = None
        else:
            found = (e.verb == "froze" and w[2:4] == ["EBUSY", "wakeup"]) or (e.verb == "skip" and w[3] == "pending")
            found = found or w[:2] in (["cpu", "EBUSY"], ["enter", "EBUSY"]) or w == ["syscore", "check", "EBUSY"]
            if found and self.force is not None and (self.visible() != self.force or self.inpr > 0):
                self.force = None
        if w == ["freeze", "user"]:
            self.forgotten = self.hard

    def move_calls(self, e):
        if e.verb == "begin":
            reports = self.answer("device", e.words[2], e.words[1])[1]
            self.left.setdefault(e.who, collections.deque()).extend(note_of(report) for report in reports)
        if e.who in self.seats and ends_turn(e):
            self.turns[e.who] += 1
            self.left[e.who] += self.seats[e.who].calls_behind(self.turns[e.who])

    def move_devices(self, e):
        w = e.words
        if e.verb == "prepare":
            for p in DOWN:
                self.stands[p][w[1]] = "prepared" if w[2] in ("0", "1") else self.stands[p][w[1]]
            (self.asks_direct.add if w[2] == "1" else self.asks_direct.discard)(w[1])
        elif e.verb == "complete":
            for p in DOWN:
                self.stands[p][w[1]] = "unprepared"
        elif e.verb in ("schedule", "begin", "end", "skip"):
            self.move_device(e)
        if e.verb == "runtime" and w[3] == "0":
            (self.suspended.add if w[2] == "suspended" else self.suspended.discard)(w[1])
        self.off_direct = (self.off_direct or (e.verb == "skip" and w[1] == "suspend" and w[3] == "direct")) and w[:2] != ["done", "resume"]
        late = e.verb in ("begin", "skip") and w[1] == "late"
        self.off_late = (self.off_late or late) and w[:2] != ["done", "early"]
        if e.verb == "link" and w[3] == "0":
            self.add_link(w[1], w[2], True)
        if e.verb == "link_state" and w[4] == "0":
            self.links[w[1], w[2]] = w[3] == "active"

    def move_device(self, e):
        phase, d = e.words[1], e.words[2]
        down = phase in DOWN
        stands = self.stands[phase if down else UP[phase]]
        if e.verb == "schedule":
            stands[d] = "scheduled" if down else "rescheduled"
        elif e.verb == "begin":
            stands[d] = "suspending" if down else "resuming"
        elif e.verb == "end":
            stands[d] = ("suspended" if e.words[3] == "0" else "failed") if down else "resumed"
        elif down:
            stands[d] = "direct" if e.words[3] == "direct" else "failed"
        if not e.who.startswith("dev:"):
            self.callback = (phase, d) if e.verb == "begin" else None if e.verb == "end" else self.callback
        if e.verb == "end" and down and e.words[3] != "0":
            self.phase_failed = e.words[3]
            self.own_error = self.own_error if e.who.startswith("dev:") else e.words[3]
        if e.verb == "skip" and e.words[3] == "pending":
            self.phase_failed = "EBUSY"

    def move_attempt(self, e):
        w, r = e.words, error_of(e.words)
        if e.verb == "attempt":
            self.attempts, self.maker, self.stage = self.attempts + 1, e.who, ("notifies",)
            self.failed = self.phase_failed = self.own_error = None
            self.entered = False
        elif e.verb == "over":
            self.maker = self.stage = None
        elif e.verb == "prepare" and r is not None:
            self.phase_failed = r
        elif e.verb == "done":
            self.phase_failed = self.own_error = None
            self.failed = r or self.failed
            self.stage = self.after_done(w[1], r)
        elif e.verb == "notify" and w[2] == "prepare":
            self.failed = r or self.failed
            self.stage = ("posts",) if r else ("notifies",)
        elif e.verb == "notify":
            self.stage = ("posts",)
        elif e.verb == "freeze":
            self.stage = ("freezes", w[1])
        elif e.verb == "froze":
            self.after_froze(w)
        elif e.verb == "thaw":
            self.stage = ("thaws", "all") if w[1] == "kernel" else ("posts",)
        elif e.verb == "platform" and len(w) == 3:
            self.failed = r or self.failed
            self.stage = (FAILED_DO if r else BEHIND_DO)[w[1]]
        elif e.verb == "platform":
            self.stage = BEHIND_UNDO[w[1]]
        elif e.verb == "clear":
            self.stage = ("thaws", "all")

    @staticmethod
    def after_done(phase, r):
        if phase == "prepare":
            return ("undo", "recover") if r else ("downs", "suspend")
        if phase == "complete":
            return ("undo", "end")
        if phase in DOWN:
            return FAILED_PHASE.get(phase, ("undo", "recover")) if r else BEHIND_DOWN[phase]
        return BEHIND_UP[phase]

    def after_froze(self, w):
        user = w[1] == "user"
        if w[2] == "0":
            self.stage = ("freezes", "kernel") if user else ("platform", "begin")
        else:
            self.failed = "EBUSY"
            self.stage = ("thaws", "all") if user else ("thaws", "kernel")

    def move_stops(self, e):
        w, r = e.words, error_of(e.words)
        if e.verb == "notify" and w[2] == "prepare":
            self.told |= set() if r else {w[1]}
        elif e.verb == "notify":
            self.told -= {w[1]}
        elif e.verb == "platform" and len(w) == 3:
            self.owes |= {w[1]}
        elif e.verb == "platform":
            self.owes -= {{"end": "begin", "finish": "prepare", "wake": "prepare_late"}.get(w[1])}
        elif e.verb == "cpu":
            self.failed = "EBUSY" if w[1] == "EBUSY" else self.failed
            self.cpus_off = {"off": self.cpus_off | {int(w[2])}, "on": self.cpus_off - {int(w[2])}}.get(w[1], self.cpus_off)
            self.stage = ("cpus",) if w[1] == "off" else ("cpus on",)
        elif e.verb == "irqs":
            self.irqs_off = w[1] == "off"
            self.stage = ("checks",) if w[1] == "off" else ("cpus on",)
        elif e.verb == "syscore":
            self.move_syscore(w, r)
        elif e.verb == "enter":
            self.move_enter(len(w) > 1)
        elif e.verb == "wake":
            self.sleep, self.stage = None, ("resumes",)

    def move_syscore(self, w, r):
        if w[1] == "check":
            self.failed, self.stage = r or self.failed, ("irqs on",) if r else ("syscore",)
        elif w[1] == "suspend":
            self.failed, self.stage = r or self.failed, ("resumes",) if r else ("syscore",)
            self.stopped |= set() if r else {w[2]}
        else:
            self.stopped, self.stage = self.stopped - {w[2]}, ("resumes",)

    def move_enter(self, busy):
        if busy:
            self.failed, self.stage = "EBUSY", ("resumes",)
        else:
            self.entered, self.sleep, self.stage = True, (self.position(), self.time), ("enters",)

    def move_freezer(self, e):
        w = e.words
        if e.verb == "freeze":
            self.freeze_since = self.time
            for who, seat in self.seats.items():
                if seat.kind == {"user": "user", "kernel": "kthread"}[w[1]]:
                    seat.asked, seat.frozen = seat.asked or who != e.who, False
        elif e.verb == "froze":
            self.freeze_since = None
        elif e.verb == "thaw":
            for seat in self.seats.values():
                if w[1] == "all" or seat.kind == "kthread":
                    seat.asked = seat.frozen = False
        elif e.verb == "frozen" and e.who in self.seats:
            self.seats[e.who].frozen = True

    def move_lock(self, e):
        w = e.words
        if e.verb in ("attempt", "saved") or w[:2] == ["autosleep", "set"]:
            self.holder = e.who
        elif e.verb in ("over", "off") or w == ["autosleep", "done"]:
            self.holder = None if self.holder == e.who else self.holder
        if w[:2] == ["autosleep", "set"]:
            self.on = w[2] == "mem"
        if w == ["autosleep", "done"]:
            self.queued = self.queued or self.on
        if e.verb in ("post", "got"):
            self.marks[w[1]] = self.marks.get(w[1], 0) + (1 if e.verb == "post" else -1)
        if e.verb in ("again", "run"):
            self.queued = e.verb == "again"
            self.runs += e.verb == "run"

    def move_seat(self, seat, e):
        w = e.words
        if w[-1] == "wait":
            seat.waits = True
        elif w[:2] == ["autosleep", "set"]:
            seat.waits = True
        elif e.verb in ("sleep", "sleep_d"):
            seat.waits, seat.until = True, int(w[1])
        elif e.verb == "exit":
            seat.exited = True
        elif ends_turn(e):
            seat.next()
            if e.verb == "read" and w[1].isdigit():
                seat.last_read = int(w[1])
            if e.verb == "save":
                seat.saved = w[2] == "ok"

    def move_work(self, e):
        w, at = e.words, self.work
        count = at[1] if len(at) > 1 else None
        if e.verb == "over":
            self.work = ("looking", count) if at[0] == "attempting" else at
        elif e.verb == "after":
            same = w[1] != "busy" and at[0] == "looking" and int(w[1]) == count
            self.work = ("napping", None) if same else ("closing",) if at[0] == "looking" or w[1] == "busy" else at
        else:
            moves = {"run": ("reading",), "unsaved": ("closing",), "slept": ("closing",), "again": ("resting",), "off": ("resting",)}
            moves |= {"read": ("saving", w[-1]), "saved": ("attempting", w[-1]), "sleep_d": ("napping", w[-1])}
            found = moves.get(e.verb, at)
            self.work = (found[0], int(found[1])) if len(found) > 1 and isinstance(found[1], str) and found[1].isdigit() else found


def ends_turn(e):
    """An entry ends a turn of its script's own steps: a step, or the setting of autosleep."""
    w = e.words
    plain = ("over", "slept", "pass", "post", "got", "runtime", "link", "link_state")
    answered = e.verb in ("read", "save", "state") and w[-1] != "wait"
    return e.verb in plain or answered or e.verb == "autosleep"
