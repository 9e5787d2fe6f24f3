"""Makes traces of many devices, as a kernel would write them."""

import random

WALK = ("runner", 98)
# The kernel's phases between prepare and complete, what stands before the operation, and which way the walk goes.
PHASES = [
    ("dpm_suspend", "bus ", "suspend", -1), ("dpm_suspend_late", "late driver ", "suspend", -1), ("dpm_suspend_noirq", "noirq driver ", "suspend", -1),
    ("dpm_resume_noirq", "noirq driver ", "resume", 1), ("dpm_resume_early", "early driver ", "resume", 1), ("dpm_resume", "bus ", "resume", 1),
]


class Writer:
    """Writes the lines of a trace; each has a time of its own, in seconds."""

    def __init__(self, seed):
        self.dice, self.time = random.Random(seed), 100.0
        self.lines = ["# tracer: nop", "#", "# entries-in-buffer/entries-written: 0/0   #P:4", "#"]

    def put(self, event, text, after=1e-5, task=WALK):
        self.time += after
        self.lines.append(f"{task[0] + '-' + str(task[1]):>22} [000] ..... {self.time:11.6f}: {event}: {text}")

    def step(self, action, number, edge, after=1e-5):
        self.put("suspend_resume", f"{action}[{number}] {edge}", after)

    def callback(self, device, parent, info, verb, length):
        """A callback from its start to its end."""
        self.put("device_pm_callback_start", f"{device}, parent: {parent}, {info}[{verb}]")
        self.put("device_pm_callback_end", f"{device}, err=0", length)


def trace_of(count, seed=1, name=lambda number: f"0000:{number >> 5:02x}:{number & 31:02x}.0", source="src"):
    """The text of a trace of one attempt with so many devices, each with a callback in all phases: 20 lines a device."""
    writer = Writer(seed)
    dice = writer.dice
    parents = ["none"] + [name(dice.randrange(max(0, number - 40), number)) if dice.random() < 0.9 else "none" for number in range(1, count)]
    devices = [(f"drv{number % 37} {name(number)}", parents[number]) for number in range(count)]
    writer.step("suspend_enter", 3, "begin")
    writer.step("suspend_enter", 3, "end", 0.01)
    each(writer, devices, ("dpm_prepare", "", "suspend", 1))
    for phase in PHASES[:3]:
        each(writer, devices, phase)
    for action, number in (("syscore_suspend", 0), ("machine_suspend", 3), ("syscore_resume", 0)):
        writer.step(action, number, "begin")
        writer.step(action, number, "end", 9 if action == "syscore_resume" else 1e-5)
    for phase in PHASES[3:]:
        each(writer, devices, phase)
    each(writer, devices, ("dpm_complete", "", "resume", -1))
    writer.step("thaw_processes", 0, "begin")
    writer.step("thaw_processes", 0, "end")
    for number in range((20 * count - len(writer.lines)) // 2):
        writer.put("wakeup_source_activate", f"{source}{number % 9} state=0x{(2 * number << 16) + 1:x}", 1e-4)
        writer.put("wakeup_source_deactivate", f"{source}{number % 9} state=0x{(2 * number + 1) << 16:x}", 1e-4)
    return "\n".join(writer.lines) + "\n"


def each(writer, devices, phase):
    """One phase: the walk comes to each device. Few callbacks take long."""
    action, info, verb, way = phase
    number = 16 if verb == "resume" else 2
    writer.step(action, number, "begin")
    for device, parent in devices[::way]:
        long = info and writer.dice.random() < 0.02
        writer.callback(device, parent, info, verb, writer.dice.choice([0.02, 0.08] if long else [1e-5, 1e-5, 1e-4, 1e-3] if info else [1e-5]))
    writer.step(action, number, "end")
