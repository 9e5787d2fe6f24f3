"""The rules of a log, each by itself: which of them a line breaks, by the lines before it.

Written from crates/rule_definitions/specs, a function a definition; each has the number that the checker names it by.
"""

from ..limits import ALARM_MS, AUTO_CYCLES, FREEZE_MS, MOST_ENTRIES, NAP_MS

from .machine import DOWN, UP
from .place import Entry, Place, is_good, is_mem

LINKS, NUMBERS, ATTEMPTS, READS, WALK, SKIP, RUNTIME = 2, 4, 7, 8, 9, 10, 11
OWED, FREEZER, PATH, ANSWERS, RESTORED, STEPS, ENABLED, SOURCE = 12, 13, 14, 15, 16, 17, 18, 22
TESTED = ("suspend", "late")
OF_ATTEMPTS = "over notify freeze froze thaw platform prepare complete schedule done cpu irqs syscore enter wake clear".split()
UNDOES = {"end": "begin", "finish": "prepare", "wake": "prepare_late"}


class Kept(Place):
    """A place of a log, with what each rule asks of a line that is to stand there."""

    def breaks(self, e):
        """The numbers of the rules that the line breaks."""
        rules = {NUMBERS: self.numbers, STEPS: self.steps, ENABLED: self.enabled, SOURCE: self.source}
        rules |= {FREEZER: self.freezer, PATH: self.path, WALK: self.walk}
        if e.part == "journal":
            rules |= {LINKS: self.kept_links, ATTEMPTS: self.kept_attempts, READS: self.reads, SKIP: self.skip}
            rules |= {RUNTIME: self.runtime, OWED: self.owed, ANSWERS: self.kept_answers, RESTORED: self.restored}
        return sorted(number for number, keeps in rules.items() if not keeps(e))

    def is_maker(self, e):
        return e.who == self.maker

    def numbers(self, e):
        return e.now == (self.inpr, self.count, self.hard) and (e.part == "time" or e.time == self.time)

    # ---- scripts and the work

    def seat_of(self, e):
        return None if self.is_maker(e) else self.seats.get(e.who)

    def own_op(self, e, name):
        """The operation under way of a task that makes no attempt, where it is one of these."""
        seat = self.seat_of(e)
        op = seat.op if seat else None
        return op if op and op["op"] == name else None

    def kept_attempts(self, e):
        if e.verb == "attempt":
            guard = ["plain"] if self.force is None else ["guarded", str(self.force)]
            return e.words[1:] == [str(self.attempts + 1), *guard] and self.maker is None
        return e.verb != "over" or (e.words[1] == str(self.attempts) and self.maker is not None)

    def reads(self, e):
        """Reads, saves and writes to the state, whoever makes them; else what a task or the work asks at its own step."""
        own = {"read": self.due_read, "save": self.due_save, "state": self.due_state}.get(e.verb)
        if e.who == "auto" and not self.is_maker(e) and self.is_of_work(e):
            return self.work_reads(e)
        if own is not None:
            op = self.own_op(e, e.verb)
            return (own(self.seats[e.who], op, e) if op else self.due_else(e)) == e.words
        if e.verb in ("saved", "unsaved"):
            return self.is_auto_save(e)
        if e.verb == "attempt":
            op = self.own_op(e, "state")
            return op is None or self.due_state(self.seats[e.who], op, e) == e.words
        op = self.own_op(e, "autosleep")
        if op is None or e.verb != "autosleep":
            return True
        return {"EINVAL": not is_good(op["text"]), "set": self.holder is None}.get(e.words[1], True)

    def due_else(self, e):
        """What such an entry says of an actor whose own step is another: it waits in none, and has no text and no number."""
        if e.verb == "read":
            return ["read", str(self.visible()) if self.inpr == 0 else "wait"]
        if self.holder == e.who:
            return None
        if e.verb == "state":
            return ["state", "wait" if self.holder is not None else "EBUSY"] if self.holder is not None or self.on else None
        count = int(e.words[1])
        good = "ok" if self.visible() == count and self.inpr == 0 else "EINVAL"
        return ["save", e.words[1], "wait" if self.holder is not None else "EBUSY" if self.on else good]

    def due_read(self, seat, op, e):
        if self.inpr == 0:
            return ["read", str(self.visible())]
        return ["read", "wait"] if not seat.waits else ["read", "EINTR"] if seat.asked else None

    def due_save(self, seat, op, e):
        count = op.get("count", seat.last_read)
        if self.holder is not None:
            said = "wait" if not seat.waits else "EINTR" if seat.asked else None
        elif self.on:
            said = "EBUSY"
        else:
            said = "ok" if self.visible() == count and self.inpr == 0 else "EINVAL"
        return ["save", str(count), said]

    def due_state(self, seat, op, e):
        if op.get("if_saved") and not seat.saved:
            return ["state", "unsaved"]
        if self.holder is not None:
            return ["state", "wait" if not seat.waits else "EINTR" if seat.asked else None]
        if self.on:
            return ["state", "EBUSY"]
        if not is_mem(op["text"]):
            return ["state", "EINVAL"]
        return e.words if e.verb == "attempt" else ["attempt"]

    def is_auto_save(self, e):
        right = "saved" if e.words[1] == str(self.visible()) and self.inpr == 0 else "unsaved"
        return self.holder is None and e.verb == right

    def is_of_work(self, e):
        """The entry is read, saved or begun by the work in its turn."""
        verbs = {"reading": ("read",), "saving": ("saved", "unsaved"), "attempting": ("attempt",)}
        return e.verb in verbs.get(self.work[0], ())

    def work_reads(self, e):
        at = self.work
        if at[0] == "reading":
            return self.inpr == 0 and e.words[1] == str(self.visible())
        return self.on if at[0] == "attempting" else self.is_auto_save(e) and e.words[1] == str(at[1])

    def kept_links(self, e):
        w = e.words
        if e.verb not in ("link", "link_state"):
            return True
        stands = (w[1], w[2]) in self.links
        if self.maker is not None:
            return w[-1] == "EBUSY"
        if e.verb == "link":
            return w[-1] == ("EINVAL" if stands or w[1] in self.moved(w[2]) else "0")
        return w[-1] == ("0" if stands else "ENODEV")

    def runtime(self, e):
        if e.verb != "runtime":
            return True
        d, to, r = e.words[1:]
        off = self.off_direct and self.stands["suspend"][d] == "direct"
        off = off or (self.off_late and self.stands["late"][d] not in ("unprepared", "prepared", "scheduled"))
        again = to == "suspended" and self.stands["suspend"][d] != "unprepared"
        return r == ("EACCES" if off else "EAGAIN" if again else "0")

    # ---- devices

    def stretch(self, *phases):
        """The phase whose row is under way, if it is one of these."""
        row = self.row() if self.maker else None
        return row[1] if row and row[0] in ("downs", "ups") and row[1] in phases else None

    def next_down(self, p):
        return next((d for d in reversed(self.order) if self.stands[p][d] == "prepared"), None)

    def waits_below(self, p, d):
        return any(self.stands[p][x] in ("unprepared", "prepared", "scheduled", "suspending") for x in self.below(d))

    def waits_above(self, p, d):
        return any(self.stands[p][x] in ("suspended", "rescheduled", "resuming") for x in self.above(d))

    def is_direct(self, p, d):
        if p != "suspend":
            return self.stands["suspend"][d] == "direct"
        calm = d in self.asks_direct and d in self.suspended and not self.devices[d].get("wakeup", False)
        return calm and all(self.stands["suspend"][x] == "direct" for x in self.below(d))

    def turn_of(self, p, d):
        """Why a device is passed over at its turn, or None where it begins."""
        if self.phase_failed is not None:
            return "error"
        if p in TESTED and self.pending():
            return "pending"
        return "direct" if self.is_direct(p, d) else None

    def is_turn(self, p, d):
        """It is the device's turn on the way down."""
        if p not in DOWN:
            return False
        if self.is_async(d):
            return self.stands[p][d] == "scheduled" and not self.waits_below(p, d)
        walk = self.stretch(p) is not None and self.callback is None and self.phase_failed is None
        return walk and self.next_down(p) == d and not self.waits_below(p, d)

    def skip(self, e):
        if e.verb == "skip":
            return self.is_turn(*e.words[1:3]) and self.turn_of(*e.words[1:3]) == e.words[3]
        return not (e.verb == "begin" and e.words[1] in DOWN) or self.turn_of(*e.words[1:3]) is None

    def to_schedule(self, p):
        return next((d for d in self.order if self.stands[p][d] == "suspended" and self.is_async(d)), None)

    def next_up(self, p):
        return next((d for d in self.order if self.stands[p][d] == "suspended" and not self.is_async(d)), None)

    def walk(self, e):
        if self.is_in_callback(e.who) and not self.is_of_callback(e):
            return False
        rules = {"prepare": self.prepares, "complete": self.completes, "schedule": self.schedules}
        rules |= {"begin": self.begins, "end": self.ends, "done": self.is_done}
        return e.part != "journal" or e.verb not in rules or rules[e.verb](e, *e.words[1:])

    def is_of_callback(self, e):
        """Inside a callback its maker makes the next report, a step of it, or the end."""
        if e.part == "note":
            return self.is_own_call(e)
        if e.part == "step":
            source = self.sources[e.words[1]]
            return bool(source.owed) and source.caller == e.who
        own = e.who[4:] if e.who.startswith("dev:") else self.callback[1]
        return e.verb == "end" and e.words[2] == own

    def is_row(self, *row):
        return self.maker is not None and self.row() == row

    def prepares(self, e, d, r):
        next_one = next((x for x in self.order if self.stands["suspend"][x] == "unprepared"), None)
        return self.is_row("prepares") and self.phase_failed is None and next_one == d and r == self.answer("device", d, "prepare")[0]

    def completes(self, e, d):
        last = next((x for x in reversed(self.order) if self.stands["suspend"][x] != "unprepared"), None)
        return self.is_row("completes") and last == d

    def schedules(self, e, phase, d):
        if self.stretch(phase) is None or self.callback is not None:
            return False
        if phase in DOWN:
            return self.phase_failed is None and self.next_down(phase) == d and self.is_async(d)
        return self.to_schedule(UP[phase]) == d

    def begins(self, e, phase, d):
        if phase in DOWN:
            return self.is_turn(phase, d) and self.turn_of(phase, d) is None
        if phase not in UP:
            return False
        p = UP[phase]
        if self.is_async(d):
            return self.stands[p][d] == "rescheduled" and not self.waits_above(p, d)
        walk = self.stretch(phase) is not None and self.callback is None and self.to_schedule(p) is None
        return walk and self.next_up(p) == d and not self.waits_above(p, d)

    def ends(self, e, phase, d, r):
        if self.is_async(d):
            here = self.stands[phase if phase in DOWN else UP[phase]][d] == ("suspending" if phase in DOWN else "resuming")
        else:
            here = self.stretch(phase) is not None and self.callback is not None and self.callback[1] == d
        return here and r == self.answer("device", d, phase)[0] and not self.left.get(e.who)

    def is_done(self, e, phase, r):
        order, error = self.order, self.phase_failed is not None
        if phase == "prepare":
            return self.is_row("prepares") and (error or all(self.stands["suspend"][d] != "unprepared" for d in order))
        if phase == "complete":
            return self.is_row("completes") and all(self.stands["suspend"][d] == "unprepared" for d in order)
        if self.stretch(phase) is None or self.callback is not None:
            return False
        if phase in DOWN:
            going = any(self.stands[phase][d] in ("scheduled", "suspending") for d in order)
            return not going and (error or self.next_down(phase) is None)
        return not any(self.stands[UP[phase]][d] in ("suspended", "rescheduled", "resuming") for d in order)

    # ---- what is owed

    def owed(self, e):
        w = e.words
        if e.verb in ("schedule", "begin", "end") and w[1] in UP:
            stands = {"schedule": ["suspended"], "begin": ["suspended", "rescheduled"], "end": ["resuming"]}
            return self.stands[UP[w[1]]][w[2]] in stands[e.verb]
        if e.verb == "complete":
            return all(self.stands[p][w[1]] in ("prepared", "failed", "direct", "resumed") for p in DOWN)
        if w[:2] == ["syscore", "resume"]:
            return w[2] in self.stopped
        if e.verb == "notify" and w[2] == "post":
            return w[1] in self.told
        if w[:2] == ["cpu", "on"]:
            return int(w[2]) in self.cpus_off
        if w == ["irqs", "on"]:
            return self.irqs_off
        if e.verb == "platform" and len(w) == 2 and w[1] in UNDOES:
            return UNDOES[w[1]] in self.owes
        return True

    def restored(self, e):
        if e.verb != "over":
            return True
        clear = not (self.told or self.owes or self.cpus_off or self.irqs_off or self.stopped or self.sleep or self.callback)
        stands = all(s == "unprepared" for p in DOWN for s in self.stands[p].values())
        return clear and stands and not any(s.asked or s.frozen for s in self.seats.values())

    def kept_answers(self, e):
        r = e.words[-1]
        if e.verb == "done":
            errors = {"prepare": self.phase_failed} | dict.fromkeys(DOWN, self.own_error or self.phase_failed)
            return r == (errors.get(e.words[1]) or "0")
        return e.verb != "over" or (r == (self.failed or "0") and self.entered == (r == "0"))

    # ---- the freezer

    def freezes_at(self, seat):
        op, user = seat.op, seat.kind == "user"
        if op is None:
            return False
        if op["op"] in ("wait", "freeze_point"):
            return True
        if op["op"] == "sleep":
            return seat.waits or user
        good = op["op"] == "autosleep" and is_good(op["text"])
        return user and not seat.waits and not good

    def is_at_turn(self, who):
        """The actor's next step is an entry of the journal: no call comes first, and none is half made."""
        return not self.left.get(who) and not self.is_inside(who)

    def freezer(self, e):
        seat = self.seat_of(e)
        if seat is not None:
            point = seat.asked and self.freezes_at(seat) and self.is_at_turn(e.who)
            if seat.frozen or point != (e.verb == "frozen"):
                return False
        elif e.verb == "frozen":
            return False
        if e.verb != "froze":
            return True
        left = self.tasks_left(e.words[1])
        if self.freeze_since is None:
            return False
        if not left:
            return e.words[2:] == ["0"]
        late = self.time >= self.freeze_since + FREEZE_MS
        why = "timeout" if late else "wakeup" if self.pending() else None
        return e.words[2:] == ["EBUSY", why, str(len(left)), left[0]]

    # ---- the table

    def path(self, e):
        if not self.is_maker(e) or e.part == "step":
            return True
        if e.part == "note":
            return self.is_in_callback(e.who)
        return self.is_of_row(self.row(), e.words)

    def is_of_row(self, row, w):
        test = "EBUSY" if self.pending() else "0"
        answers = {"notifies": ("notifier", 1), "syscore": ("syscore", 2), "platform": ("platform", 1)}
        answer = self.answer(answers[row[0]][0], w[answers[row[0]][1]])[0] if row[0] in answers and len(w) > 2 else None
        first = lambda things, names: next((x for x in names if x in things), None)
        untold = next((x for x in self.call_order() if x not in self.told), None)
        rows = {
            "notifies": lambda: w == ["notify", untold, "prepare", answer],
            "freezes": lambda: w[1:2] == [row[1]] and w[0] == ("freeze" if self.freeze_since is None else "froze"),
            "platform": lambda: w == ["platform", row[1], answer],
            "prepares": lambda: w[0] == "prepare" or w[:2] == ["done", "prepare"],
            "downs": lambda: w[0] in ("schedule", "begin", "end", "skip", "done") and w[1] == row[1],
            "cpus": lambda: w == ["cpu", "EBUSY" if self.pending() else "off", str(self.next_cpu_off())],
            "irqs off": lambda: w == ["irqs", "off"],
            "checks": lambda: w == ["syscore", "check", test],
            "syscore": lambda: w == ["syscore", "suspend", self.next_stopped(), answer],
            "enters": lambda: w[0] == "wake" if self.sleep else w == ["enter"] + (["EBUSY"] if self.pending() else []),
            "resumes": lambda: w == ["syscore", "resume", first(self.stopped, self.tree.get("syscore", []))],
            "irqs on": lambda: w == ["irqs", "on"],
            "cpus on": lambda: w == ["cpu", "on", str(min(self.cpus_off, default=None))],
            "undo": lambda: w == ["platform", row[1]],
            "ups": lambda: w[0] in ("schedule", "begin", "end", "done") and w[1] == row[1],
            "completes": lambda: w[0] == "complete" or w[:2] == ["done", "complete"],
            "clears": lambda: w == ["clear"],
            "thaws": lambda: w == ["thaw", row[1]],
            "posts": lambda: w == ["notify", first(self.told, self.call_order()), "post"],
            "ends": lambda: w[0] == "over",
        }
        return rows[row[0]]()

    # ---- each actor's steps

    def is_in_callback(self, who):
        if who.startswith("dev:") and who[4:] in self.devices:
            return self.work_of(who[4:])[0] == "inside"
        return who == self.maker and self.callback is not None

    def is_own_call(self, e):
        if e.who.startswith("timer:"):
            return e.words == ["expire", e.who[6:]]
        return (self.left.get(e.who) or [None])[0] == " ".join(e.words)

    def steps(self, e):
        if e.part == "time":
            return e.who == "time"
        if e.part == "step":
            source = self.sources[e.words[1]]
            return source.owed[:1] == [e.verb] and source.caller == e.who
        if self.is_inside(e.who):
            return False
        if e.part == "note":
            return self.is_own_call(e)
        if self.left.get(e.who):
            return False
        if self.is_maker(e):
            walks = e.verb in ("begin", "end", "skip")
            return not self.is_async(e.words[2]) if walks else e.verb in OF_ATTEMPTS
        if e.who in self.seats:
            return self.is_step(self.seats[e.who], e.words)
        if e.who == "auto":
            return self.is_work_step(e.words)
        return e.who.startswith("dev:") and self.is_device_step(e.who[4:], e.words)

    def is_step(self, seat, w):
        if seat.exited:
            return False
        if w == ["frozen"]:
            return self.freezes_at(seat)
        op = seat.op
        if op is None:
            return w == ["exit"]
        name = op["op"]
        rules = {
            "read": lambda: w[0] == "read",
            "save": lambda: w[0] == "save",
            "state": lambda: w[0] in ("state", "attempt"),
            "autosleep": lambda: self.is_autosleep(seat, op["text"], w),
            "sleep": lambda: self.is_sleep(seat, op, "sleep", w),
            "sleep_d": lambda: self.is_sleep(seat, op, "sleep_d", w),
            "freeze_point": lambda: w == ["pass"],
            "post": lambda: w == ["post", op["mark"]],
            "wait": lambda: w == ["got", op["mark"]] and self.marks.get(op["mark"], 0) > 0,
            "runtime": lambda: w[:3] == ["runtime", op["device"], op["to"]],
            "link": lambda: w[:3] == ["link", op["supplier"], op["consumer"]],
            "link_state": lambda: w[:4] == ["link_state", op["supplier"], op["consumer"], op["to"]],
        }
        return rules[name]()

    @staticmethod
    def is_autosleep(seat, text, w):
        if w[0] != "autosleep":
            return False
        if w[1] == "set":
            return is_good(text) and not seat.waits and w[2] == ("mem" if is_mem(text) else "off")
        return w[1] == "EINVAL" or (is_good(text) and seat.waits)

    def is_sleep(self, seat, op, name, w):
        if seat.waits:
            return w == ["slept"] and seat.until <= self.time
        return w == [name, str(self.time + op["ms"])]

    def is_work_step(self, w):
        at, verb = self.work, w[0]
        seen = "busy" if self.inpr > 0 else str(self.visible())
        if at[0] == "napping":
            begun = at[1] is not None
            return (w == ["slept"] and at[1] <= self.time) if begun else w == ["sleep_d", str(self.time + NAP_MS)]
        if at[0] == "resting":
            return verb == "run" and self.queued and self.runs < self.tree.get("auto_cycles", AUTO_CYCLES)
        rules = {
            "reading": verb == "read" and w[1] not in ("wait", "EINTR"),
            "saving": verb in ("saved", "unsaved"),
            "attempting": verb == "attempt" or (verb == "off" and not self.on),
            "looking": w == ["after", seen],
            "closing": verb == ("again" if self.on else "off"),
        }
        return rules[at[0]]

    def is_device_step(self, d, w):
        work = self.work_of(d) if d in self.devices else ("idle",)
        verbs = {"scheduled": ("begin", "skip"), "inside": ("end",)}.get(work[0], ())
        return w[0] in verbs and w[1:3] == [work[1], d]

    # ---- who may go on, and time

    def enabled(self, e):
        if e.part == "time":
            return self.is_jump(e)
        if e.part != "journal":
            return True
        if e.verb == "wake":
            event = self.sleep is not None and self.position() > self.sleep[0]
            alarm = self.sleep is not None and self.time >= self.sleep[1] + self.tree.get("alarm_ms", ALARM_MS)
            if e.words[1] != ("event" if event else "alarm" if alarm else None):
                return False
        if self.is_maker(e):
            return True
        if e.who in self.seats:
            return self.sleep is None or self.seats[e.who].kind == "irq"
        over = self.all_gone() and self.maker is None
        return e.who != "auto" or (self.sleep is None and not over)

    def is_jump(self, e):
        if any(self.sources[s].owed for s in self.sources) or self.somebody():
            return False
        over = self.all_gone() and self.maker is None
        return not over and min(self.times(), default=None) == e.time

    def times(self):
        for seat in self.seats.values():
            stopped = seat.frozen or (self.sleep is not None and seat.kind != "irq")
            if seat.until is not None and not stopped:
                yield seat.until
        if self.work[0] == "napping" and self.work[1] is not None and self.sleep is None:
            yield self.work[1]
        yield from (s.expiry for s in self.sources.values() if s.expiry is not None)
        if self.freeze_since is not None:
            yield self.freeze_since + FREEZE_MS
        if self.sleep is not None:
            yield self.sleep[1] + self.tree.get("alarm_ms", ALARM_MS)

    def somebody(self):
        """Somebody can make an entry: one of those that it could make keeps all rules."""
        if any(s.expiry is not None and s.expiry <= self.time for s in self.sources.values()):
            return True
        actors = [*self.seats, "auto", *(f"dev:{d}" for d in self.names)]
        return any(self.left.get(who) or any(self.breaks_none(who, w) for w in self.could(who)) for who in actors)

    def breaks_none(self, who, w):
        return not self.breaks(Entry(f"{self.time} {self.inpr}/{self.count}/{self.hard} {who} {w}"))

    def could(self, who):
        """What an actor could make: of each kind all that could be right."""
        if who == self.maker:
            yield from self.could_in_row()
        elif who in self.seats:
            yield from self.could_script(self.seats[who])
        elif who == "auto":
            v = self.visible()
            yield from ["run", f"read {v}", "again", "off", f"after {v}", "after busy", f"sleep_d {self.time + NAP_MS}", "slept"]
            yield from [f"saved {self.work[-1]}", f"unsaved {self.work[-1]}", self.next_attempt()]
        else:
            work = self.work_of(who[4:])
            if work[0] == "scheduled":
                yield from [f"begin {work[1]} {who[4:]}", *(f"skip {work[1]} {who[4:]} {c}" for c in ("error", "pending", "direct"))]
            elif work[0] == "inside":
                yield f"end {work[1]} {who[4:]} {self.answer('device', who[4:], work[1])[0]}"

    def next_attempt(self):
        return f"attempt {self.attempts + 1} " + ("plain" if self.force is None else f"guarded {self.force}")

    def could_script(self, seat):
        op = seat.op or {"op": "exit"}
        yield from ["frozen", "exit", "pass", "slept", self.next_attempt(), *(f"state {x}" for x in ("wait", "EINTR", "EBUSY", "EINVAL", "unsaved"))]
        yield from ["read wait", "read EINTR", f"read {self.visible()}"]
        count = op.get("count", seat.last_read)
        yield from (f"save {count} {x}" for x in ("wait", "ok", "EINTR", "EBUSY", "EINVAL"))
        yield from (f"autosleep {x}" for x in ("EINVAL", "set mem", "set off", "done"))
        if "ms" in op:
            yield f"{op['op']} {self.time + op['ms']}"
        if "mark" in op:
            yield from [f"post {op['mark']}", f"got {op['mark']}"]
        if op["op"] == "runtime":
            yield from (f"runtime {op['device']} {op['to']} {r}" for r in ("0", "EACCES", "EAGAIN"))
        if op["op"] in ("link", "link_state"):
            to = f" {op['to']}" if op["op"] == "link_state" else ""
            yield from (f"{op['op']} {op['supplier']} {op['consumer']}{to} {r}" for r in ("0", "EBUSY", "EINVAL", "ENODEV"))

    def could_in_row(self):
        row, errors = self.row(), ("0", "EIO", "EAGAIN", "EBUSY", "ENODEV", "EINVAL")
        yield from (f"notify {x} {y}" for x in self.call_order() for y in ["post", *(f"prepare {r}" for r in errors)])
        if row[0] == "freezes":
            left = self.tasks_left(row[1])
            yield from [f"freeze {row[1]}", f"froze {row[1]} 0"]
            yield from (f"froze {row[1]} EBUSY {why} {len(left)} {left[0]}" for why in ("timeout", "wakeup") if left)
        if row[0] in ("platform", "undo"):
            yield from [f"platform {row[1]}", *(f"platform {row[1]} {r}" for r in errors)]
        yield from (f"prepare {d} {r}" for d in self.names for r in (*errors, "1"))
        phase = row[1] if row[0] in ("downs", "ups") else {"prepares": "prepare", "completes": "complete"}.get(row[0])
        if row[0] in ("downs", "ups"):
            yield from (f"{verb} {phase} {d}" for d in self.names for verb in ("schedule", "begin"))
            yield from (f"end {phase} {d} {r}" for d in self.names for r in errors)
            yield from (f"skip {phase} {d} {c}" for d in self.names for c in ("pending", "direct"))
        yield from (f"done {phase} {r}" for r in errors if phase)
        yield from (f"complete {d}" for d in self.names)
        yield from (f"cpu {x} {k}" for k in range(self.tree.get("cpus", 1)) for x in ("off", "on", "EBUSY"))
        yield from ["irqs off", "irqs on", "syscore check 0", "syscore check EBUSY", "enter", "enter EBUSY", "wake event", "wake alarm"]
        yield from (f"syscore {x}" for s in self.tree.get("syscore", []) for x in [f"resume {s}", *(f"suspend {s} {r}" for r in errors)])
        yield from ["clear", "thaw all", "thaw kernel", f"over {self.attempts} {self.failed or '0'}"]

    # ---- sources

    def source(self, e):
        if e.part not in ("note", "step"):
            return True
        source = self.sources.get(e.words[1])
        if source is None or source.entries >= MOST_ENTRIES:
            return False
        if e.part == "step":
            return source.owed[:1] == [e.verb]
        late = source.expiry is not None and source.expiry <= self.time
        return not source.owed and (e.verb != "expire" or late)
