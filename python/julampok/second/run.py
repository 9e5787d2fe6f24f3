"""A machine file run with one worker: a second writing of the whole run.

It shares nothing with the program or its definitions but the rules, and is written the other way round: flags and
counters that change, and a coroutine for each job, whose `yield` ends a turn and tells whether the turn did
something. The file has to be one that is accepted.
"""

import heapq

from ..limits import ALARM_MS, AUTO_CYCLES, FREEZE_MS, MOST_ENTRIES, NAP_MS

from .machine import DOWN, UP, Machine
from .things import Phase, Source, SourceFull, Task

TESTED = ("suspend", "late")  # Phases whose callbacks are preceded by a test for wakeup.


class Run(Machine):
    """A machine under way."""

    def __init__(self, tree):
        super().__init__(tree)
        self.lines = []
        self.check, self.saved_count, self.seen_hard = False, 0, 0
        self.lock, self.on, self.queued, self.works = None, False, False, 0
        self.maker, self.asleep, self.deadline = None, None, None
        self.nap = None
        self.marks = {}
        self.sources = [Source(name) for name in [*tree.get("sources", []), "autosleep"]]
        self.named = {source.name: source for source in self.sources}
        self.tasks = [Task(given) for given in tree.get("actors", [])]
        self.suspended = {d: given.get("runtime") == "suspended" for d, given in self.devices.items()}
        self.off_direct, self.off_late = set(), set()
        self.prepared, self.down = {}, {phase: set() for phase in DOWN}
        self.phase = None
        self.ready_jobs = [self.script(task) for task in self.tasks] + [self.autosleep_work()]
        self.beside = {d: self.device_job(d) for d in self.names if self.is_async(d)}
        self.places = {d: at for at, d in enumerate(self.names)}
        self.timers = [(source, self.timer(source)) for source in self.sources]
        self.jobs = [*self.ready_jobs, *self.beside.values(), *(job for _, job in self.timers)]

    # ---- entries

    def put(self, who, body):
        self.lines.append(self.entry(who, body))

    # ---- sources

    def begin_event(self, who, source):
        if source.since is None:
            self.put(who, f"start {source.name}")
            self.inpr += 1
            source.since = source.last = self.time
            source.actives += 1

    def end_event(self, who, source):
        if source.since is not None:
            self.put(who, f"finish {source.name}")
            self.inpr, self.count = self.inpr - 1, self.count + 1
            length = self.time - source.since
            source.total, source.longest = source.total + length, max(source.longest, length)
            source.since, source.last = None, self.time
        source.expiry = None

    def call(self, who, given):
        """A whole call on a source, where that has room for it."""
        source, before = self.named[given["source"]], len(self.lines)
        if source.entries + 4 > MOST_ENTRIES:
            raise SourceFull(source.name)
        self.make_call(who, given, source)
        source.entries += len(self.lines) - before

    def make_call(self, who, given, source):
        made = given.get("call") or given["op"]
        if made == "event":
            length, hard = given.get("ms", 0), given.get("hard", False)
            self.put(who, f"event {source.name} {length} {'hard' if hard else 'soft'}")
            source.events += 1
            self.begin_event(who, source)
            if hard:
                self.put(who, f"hard {source.name}")
                self.hard += 1
            if length == 0:
                self.end_event(who, source)
            elif source.expiry is None or source.expiry < self.time + length:
                source.expiry = self.time + length
            return
        self.put(who, f"{made} {source.name}")
        if made == "awake":
            source.events += 1
            self.begin_event(who, source)
            source.expiry = None
        else:
            source.expiries += made == "expire"
            self.end_event(who, source)

    def timer(self, source):
        while True:
            due = source.since is not None and source.expiry is not None and self.time >= source.expiry
            if due:
                self.call(f"timer:{source.name}", {"call": "expire", "source": source.name})
            yield due

    # ---- the saved count

    def save(self, count):
        self.check = self.visible() == count and self.inpr == 0
        self.saved_count = count if self.check else self.saved_count
        return self.check

    def pending(self):
        moved = self.check and (self.visible() != self.saved_count or self.inpr > 0)
        self.check = self.check and not moved
        return moved or self.hard > self.seen_hard

    # ---- scripts

    def ready(self, task, freezes):
        """Waits until the task may take its turn; at a freeze point it freezes first."""
        while True:
            if self.asleep is not None and task.kind != "irq":
                yield False
            elif task.asked and freezes:
                self.put(task.label, "frozen")
                task.frozen = True
                yield True
                while task.frozen:
                    yield False
            else:
                return

    def script(self, task):
        for _ in range(task.repeat):
            for step in task.steps:
                for _ in range(step.get("times", 1)):
                    yield from getattr(self, "op_" + step["op"])(task, step)
        yield from self.ready(task, False)
        self.put(task.label, "exit")
        task.exited = True
        yield True
        while True:
            yield False

    def op_read(self, task, step):
        yield from self.ready(task, True)
        if self.inpr > 0:
            self.put(task.label, "read wait")
            task.waits_for = "read"
            yield True
            yield from self.ready(task, False)
            while self.inpr > 0:
                if task.asked:
                    self.put(task.label, "read EINTR")
                    yield True
                    return
                yield False
                yield from self.ready(task, False)
        task.last_read = self.visible()
        self.put(task.label, f"read {task.last_read}")
        yield True

    def take_lock(self, task, waits, gives_up):
        """Waits for the autosleep lock; False where the task is asked to freeze meanwhile."""
        if self.lock is None:
            return True
        self.put(task.label, waits)
        yield True
        yield from self.ready(task, False)
        while self.lock is not None:
            if task.asked:
                self.put(task.label, gives_up)
                yield True
                return False
            yield False
            yield from self.ready(task, False)
        return True

    def op_save(self, task, step):
        yield from self.ready(task, True)
        count = step.get("count", task.last_read)
        free = yield from self.take_lock(task, f"save {count} wait", f"save {count} EINTR")
        task.saved = False
        if not free:
            return
        if self.on:
            self.put(task.label, f"save {count} EBUSY")
        else:
            task.saved = self.save(count)
            self.put(task.label, f"save {count} {'ok' if task.saved else 'EINVAL'}")
        yield True

    def op_state(self, task, step):
        yield from self.ready(task, True)
        if step.get("if_saved", False) and not task.saved:
            self.put(task.label, "state unsaved")
            yield True
            return
        free = yield from self.take_lock(task, "state wait", "state EINTR")
        if not free:
            return
        if self.on:
            self.put(task.label, "state EBUSY")
            yield True
        elif step["text"].split("\n")[0] != "mem":
            self.put(task.label, "state EINVAL")
            yield True
        else:
            yield from self.attempt(task.label, task)

    def op_autosleep(self, task, step):
        text = step["text"]
        mem = text.split("\n")[0] == "mem"
        if not mem and text not in ("off", "off\n"):
            yield from self.ready(task, True)
            self.put(task.label, "autosleep EINVAL")
            yield True
            return
        self.call(task.label, {"call": "awake", "source": "autosleep"})
        yield True
        yield from self.ready(task, False)
        while self.lock is not None:
            yield False
            yield from self.ready(task, False)
        self.put(task.label, f"autosleep set {'mem' if mem else 'off'}")
        self.lock, self.on = task.label, mem
        yield True
        self.call(task.label, {"call": "relax", "source": "autosleep"})
        yield True
        yield from self.ready(task, False)
        self.put(task.label, "autosleep done")
        self.lock, self.queued = None, self.queued or mem
        yield True

    def op_sleep(self, task, step):
        yield from self.sleep(task, step["ms"], "sleep", True)

    def op_sleep_d(self, task, step):
        yield from self.sleep(task, step["ms"], "sleep_d", False)

    def sleep(self, task, length, name, freezes):
        yield from self.ready(task, task.kind == "user")
        task.until = self.time + length
        self.put(task.label, f"{name} {task.until}")
        yield True
        yield from self.ready(task, freezes)
        while self.time < task.until:
            yield False
            yield from self.ready(task, freezes)
        task.until = None
        self.put(task.label, "slept")
        yield True

    def op_freeze_point(self, task, step):
        yield from self.ready(task, True)
        self.put(task.label, "pass")
        yield True

    def op_post(self, task, step):
        yield from self.ready(task, task.kind == "user")
        self.marks[step["mark"]] = self.marks.get(step["mark"], 0) + 1
        self.put(task.label, f"post {step['mark']}")
        yield True

    def op_wait(self, task, step):
        mark = step["mark"]
        task.waits_for = f"mark {mark}"
        yield from self.ready(task, True)
        while self.marks.get(mark, 0) == 0:
            yield False
            yield from self.ready(task, True)
        self.marks[mark] -= 1
        self.put(task.label, f"got {mark}")
        yield True

    def op_runtime(self, task, step):
        yield from self.ready(task, task.kind == "user")
        d, to = step["device"], step["to"]
        if d in self.off_direct or d in self.off_late:
            result = "EACCES"
        elif to == "suspended" and d in self.prepared:
            result = "EAGAIN"
        else:
            result = "0"
            self.suspended[d] = to == "suspended"
        self.put(task.label, f"runtime {d} {to} {result}")
        yield True

    def op_link(self, task, step):
        yield from self.ready(task, task.kind == "user")
        supplier, consumer = step["supplier"], step["consumer"]
        if self.maker is not None:
            result = "EBUSY"
        elif (supplier, consumer) in self.links or supplier in self.moved(consumer):
            result = "EINVAL"
        else:
            result = "0"
            self.add_link(supplier, consumer, True)
        self.put(task.label, f"link {supplier} {consumer} {result}")
        yield True

    def op_link_state(self, task, step):
        yield from self.ready(task, task.kind == "user")
        link, to = (step["supplier"], step["consumer"]), step["to"]
        result = "EBUSY" if self.maker is not None else "0" if link in self.links else "ENODEV"
        if result == "0":
            self.links[link] = to == "active"
        self.put(task.label, f"link_state {link[0]} {link[1]} {to} {result}")
        yield True

    def op_awake(self, task, step):
        self.call(task.label, step)
        yield True

    op_relax = op_event = op_awake

    # ---- the autosleep work

    def auto_ready(self):
        while self.asleep is not None or all(task.exited for task in self.tasks):
            yield False

    def autosleep_work(self):
        while True:
            yield from self.auto_ready()
            while not self.queued or self.works >= self.tree.get("auto_cycles", AUTO_CYCLES):
                yield False
                yield from self.auto_ready()
            self.queued, self.works = False, self.works + 1
            self.put("auto", "run")
            yield True
            yield from self.work()

    def work(self):
        yield from self.auto_ready()
        while self.inpr > 0:
            yield False
            yield from self.auto_ready()
        count = self.visible()
        self.put("auto", f"read {count}")
        yield True
        yield from self.auto_ready()
        while self.lock is not None:
            yield False
            yield from self.auto_ready()
        if self.save(count):
            self.put("auto", f"saved {count}")
            self.lock = "auto"
            yield True
            yield from self.auto_ready()
            if not self.on:
                self.put("auto", "off")
                self.lock = None
                yield True
                return
            yield from self.attempt("auto", None)
            yield from self.after(count)
        else:
            self.put("auto", f"unsaved {count}")
            yield True
        yield from self.auto_ready()
        self.put("auto", "again" if self.on else "off")
        self.queued = self.queued or self.on
        yield True

    def after(self, count):
        yield from self.auto_ready()
        seen = None if self.inpr > 0 else self.visible()
        self.put("auto", f"after {'busy' if seen is None else seen}")
        yield True
        if seen != count:
            return
        yield from self.auto_ready()
        self.nap = self.time + NAP_MS
        self.put("auto", f"sleep_d {self.nap}")
        yield True
        yield from self.auto_ready()
        while self.time < self.nap:
            yield False
            yield from self.auto_ready()
        self.nap = None
        self.put("auto", "slept")
        yield True

    # ---- an attempt

    def attempt(self, who, task):
        self.attempts += 1
        self.lock = self.maker = who
        self.put(who, f"attempt {self.attempts} " + (f"guarded {self.saved_count}" if self.check else "plain"))
        yield True
        result = yield from self.notify(who, task)
        self.put(who, f"over {self.attempts} {result}")
        self.lock = self.maker = None
        yield True

    def notify(self, who, task):
        notifiers = sorted(self.tree.get("notifiers", []), key=lambda x: -x.get("priority", 0))
        told, result = [], "0"
        for x in (x["name"] for x in notifiers):
            result = self.answer("notifier", x)[0]
            self.put(who, f"notify {x} prepare {result}")
            yield True
            if result != "0":
                break
            told.append(x)
        if result == "0":
            result = yield from self.freeze_all(who, task)
        for x in told:
            self.put(who, f"notify {x} post")
            yield True
        return result

    def thaw(self, who, what):
        for task in self.tasks:
            if what == "all" or task.kind == "kthread":
                task.asked = task.frozen = False
        self.put(who, f"thaw {what}")
        yield True

    def freeze(self, who, maker, group):
        kind = {"user": "user", "kernel": "kthread"}[group]
        asked = [task for task in self.tasks if task.kind == kind and task is not maker]
        for task in asked:
            task.asked = True
        if group == "user":
            self.seen_hard = self.hard
        self.put(who, f"freeze {group}")
        self.deadline = self.time + FREEZE_MS
        yield True
        while True:
            left = [task.name for task in asked if not task.frozen and not task.exited]
            if not left:
                why = "0"
            elif self.time >= self.deadline:
                why = f"EBUSY timeout {len(left)} {left[0]}"
            elif self.pending():
                why = f"EBUSY wakeup {len(left)} {left[0]}"
            else:
                yield False
                continue
            self.deadline = None
            self.put(who, f"froze {group} {why}")
            yield True
            return why.split(" ")[0]

    def freeze_all(self, who, maker):
        result = yield from self.freeze(who, maker, "user")
        if result == "0":
            result = yield from self.freeze(who, maker, "kernel")
            if result == "0":
                result = yield from self.suspend(who)
            else:
                yield from self.thaw(who, "kernel")
        yield from self.thaw(who, "all")
        return result

    def platform(self, who, step):
        result = self.answer("platform", step)[0]
        self.put(who, f"platform {step} {result}")
        yield True
        return result

    def told(self, who, body):
        self.put(who, body)
        yield True

    def suspend(self, who):
        """From the platform's begin to `clear`."""
        result = yield from self.platform(who, "begin")
        if result == "0":
            result = yield from self.prepare(who)
            if result == "0":
                result = yield from self.down_phase(who, "suspend")
            if result != "0":
                yield from self.told(who, "platform recover")
            else:
                result = yield from self.suspend_enter(who)
            yield from self.up_phase(who, "resume")
            yield from self.complete(who)
        yield from self.told(who, "platform end")
        self.check = False
        yield from self.told(who, "clear")
        return result

    def suspend_enter(self, who):
        """From the platform's prepare to its finish."""
        result = yield from self.platform(who, "prepare")
        if result == "0":
            result = yield from self.down_phase(who, "late")
            if result == "0":
                result = yield from self.down_phase(who, "noirq")
                if result == "0":
                    result = yield from self.platform(who, "prepare_late")
                    if result == "0":
                        result = yield from self.stop_cpus(who)
                    yield from self.told(who, "platform wake")
                yield from self.up_phase(who, "resume_noirq")
            yield from self.up_phase(who, "early")
        yield from self.told(who, "platform finish")
        return result

    def stop_cpus(self, who):
        off, result = [], "0"
        for cpu in range(1, self.tree.get("cpus", 1)):
            if self.pending():
                self.put(who, f"cpu EBUSY {cpu}")
                result = "EBUSY"
                yield True
                break
            self.put(who, f"cpu off {cpu}")
            off.append(cpu)
            yield True
        if result == "0":
            yield from self.told(who, "irqs off")
            result = "EBUSY" if self.pending() else "0"
            yield from self.told(who, f"syscore check {result}")
            if result == "0":
                result = yield from self.stop_syscore(who)
            yield from self.told(who, "irqs on")
        for cpu in off:
            yield from self.told(who, f"cpu on {cpu}")
        return result

    def stop_syscore(self, who):
        stopped, result = [], "0"
        for step in reversed(self.tree.get("syscore", [])):
            result = self.answer("syscore", step)[0]
            yield from self.told(who, f"syscore suspend {step} {result}")
            if result != "0":
                break
            stopped.insert(0, step)
        if result == "0":
            result = yield from self.enter(who)
        for step in stopped:
            yield from self.told(who, f"syscore resume {step}")
        return result

    def enter(self, who):
        if self.pending():
            yield from self.told(who, "enter EBUSY")
            return "EBUSY"
        self.put(who, "enter")
        self.asleep = (self.position(), self.time + self.tree.get("alarm_ms", ALARM_MS))
        yield True
        while self.position() == self.asleep[0] and self.time < self.asleep[1]:
            yield False
        event = self.position() > self.asleep[0]
        self.asleep = None
        yield from self.told(who, f"wake {'event' if event else 'alarm'}")
        return "0"

    # ---- phases

    def prepare(self, who):
        result = "0"
        for d in self.order:
            answer = self.answer("device", d, "prepare")[0]
            self.put(who, f"prepare {d} {answer}")
            if answer in ("0", "1"):
                self.prepared[d] = answer
            else:
                result = answer
            yield True
            if result != "0":
                break
        yield from self.told(who, f"done prepare {result}")
        return result

    def complete(self, who):
        for d in reversed(self.order):
            if d in self.prepared:
                self.prepared.pop(d)
                yield from self.told(who, f"complete {d}")
        yield from self.told(who, "done complete 0")

    def is_direct(self, d):
        phase = self.phase
        if phase.name != "suspend":
            return d in self.left_alone
        calm = self.prepared.get(d) == "1" and self.suspended[d] and not self.devices[d].get("wakeup", False)
        return calm and all(below in phase.direct for below in self.below(d))

    def skip(self, who, d, why):
        phase = self.phase
        self.put(who, f"skip {phase.name} {d} {why}")
        self.is_through(d)
        if phase.name == "late":
            self.off_late.add(d)
        if why == "pending":
            phase.error = "EBUSY"
        if why == "direct":
            phase.direct.add(d)
            if phase.name == "suspend":
                self.left_alone.add(d)
                self.off_direct.add(d)

    def is_through(self, d):
        """The device is over in this phase: those that wait for it may go on."""
        phase = self.phase
        phase.end(d, self.places[d])
        for waits in self.below(d) if phase.name in UP else self.above(d):
            if waits in phase.scheduled and waits not in phase.over:
                phase.wake(self.places[waits])

    def callback(self, who, d):
        phase = self.phase
        self.put(who, f"begin {phase.name} {d}")
        if phase.name == "late":
            self.off_late.add(d)
        yield True
        result, reports = self.answer("device", d, phase.name)
        for report in reports:
            self.call(who, report)
            yield True
        self.put(who, f"end {phase.name} {d} {result}")
        self.is_through(d)
        if phase.name in UP:
            self.down[UP[phase.name]].discard(d)
        elif result == "0":
            self.down[phase.name].add(d)
        else:
            phase.error = result
            if not self.is_async(d):
                phase.own_error = result
        yield True

    def take_down(self, who, d):
        """One device's way down, once all below it is over."""
        phase = self.phase
        if phase.error != "0" and self.is_async(d):
            self.skip(who, d, "error")
            yield True
        elif phase.name in TESTED and self.pending():
            self.skip(who, d, "pending")
            yield True
        elif self.is_direct(d):
            self.skip(who, d, "direct")
            yield True
        else:
            yield from self.callback(who, d)

    def waits_below(self, d):
        return any(below not in self.phase.over for below in self.below(d))

    def down_phase(self, who, name):
        phase = self.phase = Phase(name)
        if name == "suspend":
            self.left_alone = set()
        for d in reversed(self.order):
            is_async = self.is_async(d)
            while not is_async and phase.error == "0" and self.waits_below(d):
                yield False
            if phase.error != "0":
                break
            if is_async:
                phase.schedule(d, self.places[d])
                yield from self.told(who, f"schedule {name} {d}")
            else:
                yield from self.take_down(who, d)
        while phase.going:
            yield False
        self.phase = None
        result = phase.own_error if phase.own_error != "0" else phase.error
        yield from self.told(who, f"done {name} {result}")
        return result

    def waits_above(self, d):
        return any(above in self.phase.members and above not in self.phase.over for above in self.above(d))

    def up_phase(self, who, name):
        phase = self.phase = Phase(name)
        members = [d for d in self.order if d in self.down[UP[name]]]
        phase.members = set(members)
        for d in members:
            if self.is_async(d):
                phase.schedule(d, self.places[d])
                yield from self.told(who, f"schedule {name} {d}")
        for d in members:
            if not self.is_async(d):
                while self.waits_above(d):
                    yield False
                yield from self.callback(who, d)
        while phase.going:
            yield False
        self.phase = None
        if name == "resume":
            self.off_direct.clear()
        if name == "early":
            self.off_late.clear()
        yield from self.told(who, f"done {name} 0")

    def device_job(self, d):
        who = f"dev:{d}"
        while True:
            phase = self.phase
            if phase is None or d not in phase.scheduled or d in phase.over:
                yield False
            elif phase.name in UP and not self.waits_above(d):
                yield from self.callback(who, d)
            elif phase.name in DOWN and not self.waits_below(d):
                yield from self.take_down(who, d)
            else:
                yield False

    # ---- rounds

    def times(self):
        """The pending times."""
        for task in self.tasks:
            stopped = task.frozen or (self.asleep is not None and task.kind != "irq")
            if task.until is not None and not stopped:
                yield task.until
        if self.nap is not None and self.asleep is None:
            yield self.nap
        yield from (source.expiry for source in self.sources if source.expiry is not None)
        if self.deadline is not None:
            yield self.deadline
        if self.asleep is not None:
            yield self.asleep[1]

    def round(self):
        """A turn of each job that may have something to do; whether one did something."""
        did = [next(job) for job in self.ready_jobs]
        did.append(self.phase is not None and self.round_beside(self.phase))
        for source, job in self.timers:
            if source.expiry is not None and source.expiry <= self.time:
                did.append(next(job))
        return any(did)

    def round_beside(self, phase):
        """A turn of each asynchronous device that is no longer known to wait; whether one did something."""
        did, phase.todo = False, sorted(phase.ready)
        while phase.todo:
            phase.now = heapq.heappop(phase.todo)
            if next(self.beside[self.names[phase.now]]):
                did = True
            else:
                phase.ready.discard(phase.now)
        phase.now = len(self.names)
        return did

    def is_over(self):
        """Whether each script has exited and no attempt is open."""
        return all(task.exited for task in self.tasks) and self.maker is None

    def run(self, progress=None):
        """The log's text, and whether it is stuck."""
        while True:
            if self.round():
                if progress is not None:
                    progress.at(len(self.lines))
                continue
            pending = list(self.times())
            if self.is_over() or not pending:
                break
            self.time = min(pending)
            self.put("time", "jump")
        return self.end()

    def end(self):
        """The text of the lines, with the statistics and the end, and whether it is stuck."""
        ends = [f"stuck {task.label} {task.waits_for}" for task in self.tasks if not task.exited]
        stats = [source.line(self.time) for source in self.sources]
        return "\n".join([*self.lines, *stats, *(ends or ["finished"])]) + "\n", bool(ends)
