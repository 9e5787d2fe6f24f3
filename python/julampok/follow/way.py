"""Holds the way of a log beside the way of the trace: phases, processors, the entry, and the order of begins.

The log is read from its text alone, so that it is not compared with what made it.
"""

from __future__ import annotations

from dataclasses import dataclass, field

from ..kernel.recording import PHASES
from .outcome import Survey

SILENT = ("prepare", "complete")
RARE = ("attempt", "done", "cpu", "enter", "over")


@dataclass(slots=True, eq=False)
class Way:
    """The way of one attempt. `begins` has the devices of each phase in the order in which they began."""

    phases: list[str] = field(default_factory=list)
    begins: dict[str, list] = field(default_factory=dict)
    lines: dict[str, list[int]] = field(default_factory=dict)  # Of the trace, for each of `begins`.
    processors: int = 0
    has_entered: bool = False
    answer: str | None = None
    line: int = 0  # Where the attempt begins in the trace.

    def take(self, phase: str, device: str) -> None:
        """Takes the begin of a device in a phase."""
        begins = self.begins.get(phase)
        if begins is None:
            begins = self.begins[phase] = []
        begins.append(device)


def ways_of_log(lines: list[str]) -> dict[int, Way]:
    """The ways of a log's attempts, by their numbers."""
    found: dict[int, Way] = {}
    way = Way()
    for line in lines:
        words = line.split(" ", 5)
        verb = words[3]
        if verb == "begin":
            way.take(words[4], words[5])
        elif verb in SILENT:
            way.take(verb, words[4])
        elif verb in RARE:
            if verb == "attempt":
                way = found[int(words[4])] = Way()
            take_rare(way, words[3:])
    return found


def take_rare(way: Way, words: list[str]) -> None:
    """Takes an entry of an attempt that is no device's."""
    if words[0] == "done":
        way.phases.append(words[1])
    elif words[:2] == ["cpu", "off"]:
        way.processors += 1
    elif words == ["enter"]:
        way.has_entered = True
    elif words[0] == "over":
        way.answer = words[2]


def way_of_trace(seen: Survey, number: dict, names: list[str], loose: set[int] = frozenset()) -> Way:
    """The way of an attempt of the trace, its devices by their names in the log; without those whose place does not count."""
    way = Way(line=seen.attempt.line)
    way.phases = [PHASES[action].value for action, is_begin in seen.first if is_begin and action in PHASES]
    way.processors = len(seen.cpus)
    entry = seen.first.get(("machine_suspend", True))
    way.has_entered = entry is not None and entry.value != 1
    for phase, begins in seen.begins.items():
        here = [begin for device, begin in begins.items() if device in number and number[device] not in loose]
        way.begins[phase.value] = [names[number[begin.device]] for begin in here]
        way.lines[phase.value] = [begin.line for begin in here]
    return way


def difference(log: Way, trace: Way, stands_in: bool, has_other_count: bool = False) -> tuple[int, str] | None:
    """The first difference of two ways: the line of the trace, and what differs; None where there is none.

    Where something stands in for the bottom of the attempt, processors and the entry are not compared; nor are processors
    where the machine file cannot have their number.
    """
    if sorted(log.phases) != sorted(trace.phases) and not stands_in:
        return trace.line, f"the log has the phases {', '.join(log.phases)}; the kernel had {', '.join(trace.phases)}"
    if not stands_in and not has_other_count and log.processors != trace.processors:
        return trace.line, f"the log takes {log.processors} processors off; the kernel took {trace.processors}"
    if not stands_in and log.has_entered != trace.has_entered:
        return trace.line, f"the log {'sleeps' if log.has_entered else 'does not sleep'}; the kernel {'slept' if trace.has_entered else 'did not'}"
    for phase, begins in trace.begins.items():
        here = set(begins)
        ours = [name for name in log.begins.get(phase, []) if name in here]
        if ours != begins:
            at = next((at for at, (one, other) in enumerate(zip(ours, begins)) if one != other), min(len(ours), len(begins)))
            line = trace.lines[phase][min(at, len(begins) - 1)]
            return line, f"in {phase} the log goes on with {ours[at] if at < len(ours) else 'nothing'}, the kernel with {begins[at] if at < len(begins) else 'nothing'}"
    return None
