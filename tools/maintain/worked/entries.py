"""Lines of a log as terms: an entry, a script that waits for ever, and the numbers of a source."""

from maintain.worked.machine import DOWNS
from maintain.worked.terms import answered, number_of, optional, phase, truth

UPS = {"recover": "Recover", "wake": "Wake", "finish": "Finish", "end": "End"}


def count_kind(m, words):
    """What a read or save of the count, or a write to the state, says, where the line is of one of them."""
    match words:
        case ["read", "wait"]:
            return "ReadWait"
        case ["read", "EINTR"]:
            return "ReadIntr"
        case ["read", count]:
            return f"Read {count}"
        case ["save", count, "wait"]:
            return f"SaveWait {count}"
        case ["save", count, "ok"]:
            return f"Saved {count}"
        case ["save", count, error]:
            return f"SaveErr {count} {error}"
        case ["state", "wait"]:
            return "StateWait"
        case ["state", "unsaved"]:
            return "StateUnsaved"
        case ["state", error]:
            return f"StateErr {error}"
    return None


def task_kind(m, words):
    """What a task or the autosleep work says, where the line is of one of them."""
    match words:
        case ["frozen" | "slept" | "pass" | "exit" as plain]:
            return plain.capitalize()
        case ["autosleep", "EINVAL"]:
            return "AutoBad"
        case ["autosleep", "done"]:
            return "AutoDone"
        case ["autosleep", "set", to]:
            return f"AutoSet state.{to.capitalize()}"
        case ["sleep", until]:
            return f"Sleep {until}"
        case ["sleep_d", until]:
            return f"SleepD {until}"
        case ["post" | "got" as made, mark]:
            return f"{made.capitalize()} {m.marks.index(mark)}"
        case ["runtime", device, to, error]:
            return f"RuntimeAsk {m.devices.index(device)} {truth(to == 'suspended')} {answered(error)}"
        case ["link", supplier, consumer, error]:
            return f"LinkAdd {m.devices.index(supplier)} {m.devices.index(consumer)} {answered(error)}"
        case ["link_state", supplier, consumer, to, error]:
            ends = f"{m.devices.index(supplier)} {m.devices.index(consumer)}"
            return f"LinkState {ends} {truth(to == 'active')} {answered(error)}"
        case ["run" | "again" | "off" as plain]:
            return f"Auto{plain.capitalize()}"
        case ["saved" | "unsaved" as made, count]:
            return f"Auto{made.capitalize()} {count}"
        case ["after", count]:
            return f"AutoAfter {optional(None if count == 'busy' else count)}"
    return None


def source_kind(m, words):
    """What a source or time says, where the line is of one of them."""
    match words:
        case ["awake" | "relax" | "expire" | "start" | "finish" | "hard" as made, source]:
            return f"{made.capitalize()} {m.sources.index(source)}"
        case ["event", source, length, "soft" | "hard" as force]:
            return f"Event {m.sources.index(source)} {length} {truth(force == 'hard')}"
        case ["jump"]:
            return "Jump"
    return None


def phase_kind(m, words):
    """What a device's phase says, where the line is of one."""
    match words:
        case ["prepare", device, result]:
            return f"Prepare {m.devices.index(device)} {number_of(result)}"
        case ["complete", device]:
            return f"Complete {m.devices.index(device)}"
        case ["schedule" | "begin" as made, name, device]:
            return f"{made.capitalize()} {phase(name)} {m.devices.index(device)}"
        case ["end", name, device, result]:
            return f"End {phase(name)} {m.devices.index(device)} {answered(result)}"
        case ["skip", name, device, why]:
            return f"Skip {phase(name)} {m.devices.index(device)} cause.{why.capitalize()}"
        case ["done", name, result]:
            return f"Done {phase(name)} {answered(result)}"
    return None


def attempt_kind(m, words):
    """What an attempt, its notifiers and its freezer say, where the line is of one of them."""
    match words:
        case ["attempt", number, "plain"]:
            return f"Attempt {number} None"
        case ["attempt", number, "guarded", count]:
            return f"Attempt {number} (Some {count})"
        case ["over", number, result]:
            return f"Over {number} {answered(result)}"
        case ["notify", name, "prepare", result]:
            return f"NotifyPrepare {m.notifiers.index(name)} {answered(result)}"
        case ["notify", name, "post"]:
            return f"NotifyPost {m.notifiers.index(name)}"
        case ["freeze", name]:
            return f"Freeze group.{name.capitalize()}"
        case ["froze", name, "0"]:
            return f"Froze group.{name.capitalize()} froze.AllFrozen"
        case ["froze", name, "EBUSY", why, left, first]:
            return f"Froze group.{name.capitalize()} (froze.{why.capitalize()} {left} {m.actors.index(first)})"
        case ["thaw", whom]:
            return f"Thaw thaw.{whom.capitalize()}"
    return None


def core_kind(m, words):
    """What the platform, the processors, the core and the sleep itself say, where the line is of one of them."""
    match words:
        case ["platform", step, result]:
            return f"PlatformDo down.{DOWNS[step]} {answered(result)}"
        case ["platform", step]:
            return f"PlatformUndo up.{UPS[step]}"
        case ["cpu", "off" | "on" as to, number]:
            return f"Cpu{to.capitalize()} {number}"
        case ["cpu", "EBUSY", number]:
            return f"CpuBusy {number}"
        case ["irqs", to]:
            return f"Irqs {truth(to == 'on')}"
        case ["syscore", "check", result]:
            return f"SyscoreCheck {answered(result)}"
        case ["syscore", "suspend", step, result]:
            return f"SyscoreSuspend {m.syscore.index(step)} {answered(result)}"
        case ["syscore", "resume", step]:
            return f"SyscoreResume {m.syscore.index(step)}"
        case ["enter", *rest]:
            return f"Enter {truth(rest == ['EBUSY'])}"
        case ["wake", by]:
            return f"Wake {truth(by == 'event')}"
        case ["clear"]:
            return "Clear"
    return None


def kind_of(m, words):
    """What an entry says."""
    for parse in (phase_kind, attempt_kind, core_kind, source_kind, count_kind, task_kind):
        found = parse(m, words)
        if found is not None:
            return f"(kind.{found})" if " " in found else f"kind.{found}"
    raise ValueError(" ".join(words))


def entry_term(m, line):
    """A line of the log as an entry."""
    time, word, who, *body = line.split(" ")
    return f"entry {time} (word {word.replace('/', ' ')}) {m.actor(who)} {kind_of(m, body)}"


def waiting_term(m, line):
    """A script that never exits, and what it waits for."""
    _, who, cause, *mark = line.split(" ")
    why = "why.InProgress" if cause == "read" else f"(why.Mark {m.marks.index(mark[0])})"
    return f"waiting {m.actor(who)} {why}"


def stats_term(line):
    """The numbers of a source's line."""
    numbers = line.split(" ")[2:]
    return "unused" if set(numbers) == {"0"} else "stats " + " ".join(numbers)
