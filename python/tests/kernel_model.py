"""A small model of a kernel that suspends, for tests: it writes traces and messages as the kernel does, from its own rules.

It is written after drivers/base/power/main.c and kernel/power, not after the follower: threads that take turns at random, a test
for an event and the line behind it as two steps, errors that count only after their line, direct-complete devices that do not
wait on the way up. What it did is known, so a test can hold a verdict against it.
"""

import random

ERRORS = {"EIO": 5, "EBUSY": 16, "ENODEV": 19, "ETIMEDOUT": 110, "ENOMEM": 12}
DOWN = {"suspend": "dpm_suspend", "late": "dpm_suspend_late", "noirq": "dpm_suspend_noirq"}
UP = {"noirq": ("resume_noirq", "dpm_resume_noirq"), "late": ("early", "dpm_resume_early"), "suspend": ("resume", "dpm_resume")}
WORDS = {"suspend": "bus [suspend]", "late": "late bus [suspend]", "noirq": "noirq bus [suspend]",
         "resume_noirq": "noirq bus [resume]", "early": "early bus [resume]", "resume": "bus [resume]"}
MAIN = 98  # The task that writes to state, unless another one does.
WORKER = 21  # The kernel's worker that makes the attempts of autosleep.


class Device:
    def __init__(self, name, parent):
        self.name, self.parent = name, parent
        self.is_async = self.may_wake = False
        self.callbacks = set()
        self.suppliers, self.consumers, self.children = [], [], []
        self.done = True
        self.went = {}
        self.direct = False
        if parent:
            parent.children.append(self)

    @property
    def label(self):
        return f"drv {self.name}" if self.callbacks else f"platform {self.name}" if self.parent else f" {self.name}"


class Kernel:
    """One machine, which makes attempts and writes what a trace and dmesg would have."""

    def __init__(self, seed, devices=12, pm_async=True, cpus=2, single_pass=True, debug=True):
        self.dice = random.Random(seed)
        self.lines, self.messages, self.truth = [], [], []
        self.pm_async, self.cpus, self.single_pass, self.debug = pm_async, cpus, single_pass, debug
        self.count = self.inpr = self.saved = 0
        self.check = False
        self.hard = False
        self.time = 1_000_000
        self.threads, self.pid, self.main, self.names = [], 200, MAIN, {0: "<idle>", MAIN: "runner", WORKER: "kworker/u4:1"}
        self.make(devices)

    # ---- the machine

    def make(self, count):
        self.list = []
        for number in range(count):
            parent = self.dice.choice(self.list) if self.list and self.dice.random() < 0.75 else None
            device = Device(f"d{number}", parent)
            device.is_async = self.dice.random() < 0.5
            device.may_wake = self.dice.random() < 0.1
            if self.dice.random() < 0.65:
                both = [("suspend", "resume"), ("late", "early"), ("noirq", "resume_noirq")]
                for pair in both:
                    if self.dice.random() < 0.6:
                        device.callbacks |= set(pair)
                    elif self.dice.random() < 0.15:
                        device.callbacks.add(self.dice.choice(pair))
            self.list.append(device)
        self.links = []
        for _ in range(self.dice.randrange(4) if count > 1 else 0):
            supplier, consumer = self.dice.sample(self.list, 2)
            if supplier not in self.below(consumer) and consumer is not supplier and supplier is not consumer.parent and (supplier, consumer) not in self.links:
                self.links.append((supplier, consumer))
                supplier.consumers.append(consumer)
                consumer.suppliers.append(supplier)
                self.reorder(consumer)

    def below(self, device):
        found, todo = {device}, [device]
        while todo:
            at = todo.pop()
            for other in at.children + at.consumers:
                if other not in found:
                    found.add(other)
                    todo.append(other)
        return found

    def reorder(self, device):
        self.list.remove(device)
        self.list.append(device)
        for other in device.children + device.consumers:
            self.reorder(other)

    # ---- what is written

    def write(self, pid, said, flags="....."):
        self.time += self.dice.randint(1, 40)
        name = self.names.get(pid, "kworker/u4:2")
        cpu = self.dice.randrange(max(1, self.cpus))
        self.lines.append(f"          {name}-{pid} [{cpu:03}] {flags} {self.time // 1000000:5}.{self.time % 1000000:06}: {said}")

    def step(self, action, edge, value=0):
        self.write(self.main, f"suspend_resume: {action}[{value}] {edge}")

    def say(self, text, is_debug=False):
        if self.debug or not is_debug:
            self.messages.append(f"<6>[{self.time // 1000000:5}.{self.time % 1000000:06}] {text}")

    # ---- events

    def pending(self):
        moved = self.check and (self.count != self.saved or self.inpr > 0)
        if moved:
            self.check = False
            self.say("PM: Wakeup pending, aborting suspend", True)
            self.say("PM: last active wakeup source: lid", True)
        return moved or self.hard

    def event(self, source="lid", hard=False, length=0, pid=0, flags="d.h2."):
        """An event from an interrupt: the word moves, then its line is written."""
        self.inpr += 1
        self.hard = self.hard or hard
        yield
        self.write(pid, f"wakeup_source_activate: {source} state={hex(self.count << 16 | self.inpr)}", flags)
        if not length:
            self.inpr, self.count = self.inpr - 1, self.count + 1
            self.write(pid, f"wakeup_source_deactivate: {source} state={hex(self.count << 16 | self.inpr)}", flags)
            return
        for _ in range(length):
            yield
        self.inpr, self.count = self.inpr - 1, self.count + 1
        self.write(pid, f"wakeup_source_deactivate: {source} state={hex(self.count << 16 | self.inpr)}", "d.s1.")

    # ---- threads

    def run(self, main):
        """Runs the main thread to its end, the others between; each step of a thread is atomic."""
        self.threads.insert(0, main)
        while main in self.threads:
            thread = self.dice.choice(self.threads)
            try:
                next(thread)
            except StopIteration as end:
                self.threads.remove(thread)
                if thread is main:
                    return end.value
        return None

    def wait(self, device, is_async):
        if is_async or self.pm_async and device.is_async:
            while not device.done:
                yield

    # ---- phases

    def down(self, phase):
        action = DOWN[phase]
        self.step(action, "begin", 2)
        self.async_error, error, self.open = 0, 0, 0
        for device in reversed(self.list):
            device.done = False
            if self.pm_async and device.is_async:
                self.open += 1
                self.pid += 1
                self.threads.append(self.worker(self.suspend(device, phase, True, self.pid)))
                yield
            else:
                error = yield from self.suspend(device, phase, False, self.main)
            if error or self.async_error:
                break
        while self.open:
            yield
        error = error or self.async_error
        if error and phase == "suspend":
            self.say("PM: suspend of devices aborted after 1.000 msecs", True)
            self.say("PM: Some devices failed to suspend, or early wake event detected")
        elif error:
            self.say(f"PM: {phase} suspend of devices aborted after 1.000 msecs", True)
        else:
            self.say(f"PM: {phase + ' ' if phase != 'suspend' else ''}suspend of devices complete after 1.000 msecs", True)
        return error

    def worker(self, work):
        yield from work
        self.open -= 1

    def suspend(self, device, phase, is_async, pid):
        for other in device.children + device.consumers:
            yield from self.wait(other, is_async)
        yield
        error = 0
        if self.async_error:
            pass
        elif phase != "noirq" and self.pending():
            device.direct = False
            self.async_error = error = -16
        elif phase == "suspend" and device.direct:
            device.went["direct"] = True
        elif device.went.get("direct"):
            pass
        else:
            if phase in device.callbacks:
                yield
                error = yield from self.callback(device, phase, pid)
            if not error:
                device.went[phase] = True
                for above in [device.parent] * bool(device.parent) + device.suppliers:
                    above.direct = False
            yield
            if error:
                self.async_error = error
        device.done = True
        return error

    def callback(self, device, phase, pid):
        parent = device.parent.name if device.parent else "none"
        self.write(pid, f"device_pm_callback_start: {device.label}, parent: {parent}, {WORDS[phase]}")
        planned = self.plan.get((device.name, phase))
        for _ in range(self.dice.randint(0, 4)):
            yield
        if planned and planned[0] == "report":
            yield from self.event("own", length=planned[1], pid=pid, flags="d....")
        if planned and planned[0] == "event":
            yield from self.event(*planned[1:])
            yield
        error = planned[1] if planned and planned[0] == "error" else 0
        self.write(pid, f"device_pm_callback_end: {device.label}, err={error}")
        if error:
            self.say(f"drv {device.name}: PM: failed to {phase}: error {error}")
        return error

    def up(self, phase):
        name, action = UP[phase]
        self.step(action, "begin", 16)
        members = list(self.list)
        self.open = 0
        for device in members:
            device.done = False
        if not self.single_pass:
            for device in members:
                self.schedule_up(device, phase, name)
        for device in members:
            if self.pm_async and device.is_async:
                if self.single_pass:
                    self.schedule_up(device, phase, name)
                    yield
            else:
                yield from self.resume(device, phase, name, False, self.main)
        while self.open:
            yield
        self.step(action, "end", 16)

    def schedule_up(self, device, phase, name):
        if self.pm_async and device.is_async:
            self.open += 1
            self.pid += 1
            self.threads.append(self.worker(self.resume(device, phase, name, True, self.pid)))

    def resume(self, device, phase, name, is_async, pid):
        if device.went.get(phase) and not device.went.get("direct"):
            for other in [device.parent] * bool(device.parent) + device.suppliers:
                yield from self.wait(other, is_async)
            yield
            if name in device.callbacks:
                yield from self.callback(device, name, pid)
            del device.went[phase]
        device.done = True

    # ---- what happens between attempts

    def source(self, name, is_start, pid=MAIN):
        """A task makes a source active, or ends that."""
        self.inpr, self.count = (self.inpr + 1, self.count) if is_start else (self.inpr - 1, self.count + 1)
        self.write(pid, f"wakeup_source_{'activate' if is_start else 'deactivate'}: {name} state={hex(self.count << 16 | self.inpr)}", "d....")

    def write_autosleep(self):
        """A task writes to /sys/power/autosleep."""
        self.source("autosleep", True)
        self.source("autosleep", False)

    def autosleep(self, plan=None, **given):
        """An attempt of the autosleep work."""
        self.main = WORKER
        answer = self.attempt(True, plan, **given)
        self.main = MAIN
        return answer

    def by_another(self, name, pid, **given):
        """An attempt of another task."""
        self.names[pid], self.main = name, pid
        answer = self.attempt(**given)
        self.main = MAIN
        return answer

    def register(self, name):
        """A device is registered, below one that is there."""
        device = Device(name, self.dice.choice([None, *self.list]))
        device.callbacks = {"suspend", "resume"} if self.dice.random() < 0.5 else set()
        device.is_async = self.dice.random() < 0.5
        self.list.append(device)

    def register_again(self):
        """A device below which nothing hangs goes and comes again."""
        leaves = [device for device in self.list if not device.children and not device.consumers and not device.suppliers]
        if leaves:
            device = self.dice.choice(leaves)
            self.list.remove(device)
            self.list.append(device)

    # ---- an attempt

    def attempt(self, saved=False, plan=None, state=3, pm_test=None, refuses=None):
        """One write to state. `plan` says what a callback does, or the word of a place what an interrupt does there."""
        self.plan, self.state, self.pm_test, self.refuses = plan or {}, state, pm_test, refuses
        if saved:
            self.check, self.saved = True, self.count
        answer = self.run(self.enter_state())
        while self.threads:
            self.run(iter(()))
            for thread in list(self.threads):
                if next(thread, "end") == "end":
                    self.threads.remove(thread)
        self.truth.append(answer)
        return answer

    def at(self, place):
        """An interrupt's event at a named place, if the plan has one."""
        planned = self.plan.get(place)
        if planned:
            yield from self.event(*planned[1:])

    def enter_state(self):
        self.say("PM: suspend entry (deep)" if self.state == 3 else "PM: suspend entry (s2idle)")
        self.step("suspend_enter", "begin", self.state)
        self.step("sync_filesystems", "begin")
        self.step("sync_filesystems", "end")
        self.say("PM: Preparing system for sleep (deep)", True)
        yield from self.at("notifiers")
        if self.plan.get("notifier"):
            self.say("PM: suspend exit")
            return None
        error = yield from self.freeze()
        if error:
            self.say("PM: suspend exit")
            return error
        if self.pm_test == "freezer":
            self.test()
        else:
            self.step("suspend_enter", "end", self.state)
            error = yield from self.devices_and_enter()
        self.check = False
        self.say("PM: Finishing wakeup.", True)
        self.step("thaw_processes", "begin")
        yield
        self.step("thaw_processes", "end")
        self.say("PM: suspend exit")
        return error

    def test(self):
        self.say("PM: suspend debug: Waiting for 5 second(s).")

    def freeze(self):
        self.step("freeze_processes", "begin")
        self.hard = False
        self.say("Freezing user space processes")
        error = 0
        for kind in ("user", "kernel"):
            if kind == "kernel":
                self.say("Freezing user space processes completed (elapsed 0.000 seconds)")
                self.say("Freezing remaining freezable tasks")
            yield from self.at(kind)
            if self.refuses == kind or self.plan.get(kind) and self.pending():
                is_event = self.pending() or self.plan.get(kind)
                self.time += 100_000 if is_event else 20_000_000
                self.say(f"Freezing of tasks {'aborted' if is_event else 'failed'} after 0.889 seconds (1 tasks refusing to freeze, wq_busy=0):")
                self.say("task:stuck           state:D stack:0     pid:115   ppid:2      flags:0x00004000")
                error = -16
                break
        if error:
            self.step("thaw_processes", "begin")
            yield
            self.step("thaw_processes", "end")
        else:
            self.say("Freezing remaining freezable tasks completed (elapsed 0.000 seconds)")
        self.step("freeze_processes", "end")
        return error

    def devices_and_enter(self):
        if self.plan.get("platform begin"):
            return None
        yield from self.at("begin")
        error = yield from self.prepare()
        if not error:
            error = yield from self.down("suspend")
            self.step("dpm_suspend", "end", 2)
        if not error and self.pm_test == "devices":
            self.test()
        elif not error:
            error = yield from self.suspend_enter()
        yield from self.up("suspend")
        yield from self.complete()
        self.step("resume_console", "begin", self.state)
        self.step("resume_console", "end", self.state)
        return error

    def prepare(self):
        self.step("dpm_prepare", "begin", 2)
        error = 0
        for device in self.list:
            device.went, device.direct = {}, False
        for device in list(self.list):
            parent = device.parent.name if device.parent else "none"
            self.write(self.main, f"device_pm_callback_start: {device.label}, parent: {parent}, [suspend]")
            planned = self.plan.get((device.name, "prepare"))
            error = planned[1] if planned else 0
            self.write(self.main, f"device_pm_callback_end: {device.label}, err={error}")
            if error:
                self.say(f"drv {device.name}: PM: not prepared for power transition: code {error}")
                break
            device.went["prepared"] = True
            device.direct = not device.callbacks and not device.may_wake
            yield
        self.step("dpm_prepare", "end", 2)
        if error:
            self.say("PM: Some devices failed to suspend, or early wake event detected")
        return error

    def complete(self):
        self.step("dpm_complete", "begin", 16)
        for device in reversed(self.list):
            if device.went.get("prepared"):
                parent = device.parent.name if device.parent else "none"
                self.write(self.main, f"device_pm_callback_start: {device.label}, parent: {parent}, [resume]")
                self.write(self.main, f"device_pm_callback_end: {device.label}, err=0")
                yield
        self.step("dpm_complete", "end", 16)

    def suspend_enter(self):
        yield from self.at("prepare")
        if self.plan.get("platform prepare"):
            return None
        error = yield from self.down("late")
        if error:
            yield from self.up("late")
            self.step("dpm_suspend_late", "end", 2)
            return error
        self.step("dpm_suspend_late", "end", 2)
        error = yield from self.down("noirq")
        self.step("dpm_suspend_noirq", "end", 2)
        if not error:
            error = yield from self.platform_enter()
        yield from self.up("noirq")
        yield from self.up("late")
        return error

    def platform_enter(self):
        yield from self.at("prepare_late")
        if self.plan.get("platform prepare_late"):
            return None
        if self.pm_test == "platform":
            self.test()
            return 0
        if self.state == 1:
            self.say("PM: suspend-to-idle", True)
            while not self.pending():
                self.step("machine_suspend", "begin", 1)
                yield from self.event(hard=not self.check)
                self.step("machine_suspend", "end", 1)
            return 0
        error, off = 0, []
        self.say("Disabling non-boot CPUs ...")
        for cpu in range(1, self.cpus):
            yield
            if self.pending():
                self.say("Wakeup pending. Abort CPU freeze")
                error = -16
                break
            yield
            self.step("CPU_OFF", "begin", cpu)
            yield from self.at(f"cpu{cpu}")
            self.step("CPU_OFF", "end", cpu)
            self.say(f"smpboot: CPU {cpu} is now offline")
            off.append(cpu)
        if not error and self.pm_test == "processors":
            self.test()
        elif not error:
            error = yield from self.core()
        for cpu in off:
            self.step("CPU_ON", "begin", cpu)
            self.step("CPU_ON", "end", cpu)
        return error

    def core(self):
        self.step("syscore_suspend", "begin")
        if self.pending():
            return -16
        if self.plan.get("core step"):
            self.say("PM: System core suspend callback foo_suspend+0x0/0x10 failed.")
            return None
        yield from self.at("core")
        self.step("syscore_suspend", "end")
        error = 0
        if self.pm_test == "core":
            self.test()
        elif self.pending():
            error = -16
        else:
            self.step("machine_suspend", "begin", 3)
            self.time += 5_000_000
            self.step("machine_suspend", "end", 3)
        self.step("syscore_resume", "begin")
        self.step("syscore_resume", "end")
        return error

    # ---- files

    def trace(self):
        return f"# entries-in-buffer/entries-written: {len(self.lines)}/{len(self.lines)}   #P:{self.cpus}\n" + "".join(line + "\n" for line in self.lines)

    def dmesg(self):
        return "".join(line + "\n" for line in self.messages)

    def path(self, device):
        return (self.path(device.parent) if device.parent else "/sys/devices") + "/" + device.name

    def devices(self):
        state = {True: "enabled", False: "disabled"}
        return "".join(f"{self.path(d)} async={state[d.is_async]} wakeup={'enabled' if d.may_wake else ''}\n" for d in sorted(self.list, key=self.path))

    def link_list(self):
        return "".join(f"{supplier.name} {consumer.name}\n" for supplier, consumer in self.links)
