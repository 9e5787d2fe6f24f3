"""What replay says of a recording: whether a legal log goes the kernel's own way, and what stopped each attempt."""

from __future__ import annotations

import gc
from dataclasses import dataclass, field

from ..errors import CannotError
from ..kernel.errnos import error_text
from ..kernel.recording import Device, Note, Recording
from ..program import Second
from .attempt import STAND_IN, Following, Unexplained
from .family import OutOfOrder
from .follower import Follower
from .judge import Judge
from .machine import fits, machine_of, table_of, written
from .outcome import Guard, Where, Why
from .telling import Teller
from .way import difference, way_of_trace, ways_of_log

RULES = (6, 1)  # The version whose rules are these.
MOST_PASSED = 8  # Attempts for which another event is looked for.


@dataclass(slots=True, frozen=True)
class Broken:
    """A step of the kernel that no legal log has."""

    line: int
    did: str
    first: str
    first_line: int | None
    because: list[str]

    @property
    def words(self) -> str:
        """The whole in one sentence."""
        why = f": {'; '.join(self.because)}" if self.because else ""
        return f"line {self.line}: {self.did}, but {self.first}{why}"


@dataclass(slots=True, eq=False)
class AttemptTold:
    """What replay says of one attempt. `answer` None: no input tells. `stand_ins` say what the log has in place of what is not told."""

    number: int
    line: int
    last_line: int
    task: str
    answer: str | None
    sentences: list[str]
    stand_ins: list[str] = field(default_factory=list)
    is_sure: bool = True  # Whether the inputs leave no other reading of what stopped it, and so of its answer.
    judged_to: int | None = None  # The line down to which the kernel's own way was judged; None: the whole.
    faults: list[int] = field(default_factory=list)  # Lines of callbacks that answered an error.
    fault_devices: list[Device] = field(default_factory=list)


@dataclass(slots=True, eq=False)
class Replay:
    """The verdict of a recording."""

    is_legal: bool
    is_own_way: bool
    headline: str
    judge: str  # Who judged the log.
    judged: str  # What the judge said.
    attempts: list[AttemptTold] = field(default_factory=list)
    broken: list[Broken] = field(default_factory=list)
    differs: list[str] = field(default_factory=list)
    notes: list[Note] = field(default_factory=list)
    log: bytes = b""
    machine: bytes = b""
    table: bytes = b""
    origins: list[int] = field(default_factory=list)  # The line of the trace for each entry of the log.
    illegal: str = "not legal"  # How that is said: of a version that may have other rules, by which rules.

    @property
    def status(self) -> int:
        """0: legal, and the kernel's own way and answer; 1: not."""
        return 0 if self.is_legal and self.is_own_way and not self.broken else 1


def replay(recording: Recording, judge=None) -> Replay:
    """Follows a recording, and judges the log; `judge` is one of `program`, None: the second writing. Raises CannotError."""
    was_on = gc.isenabled()
    gc.disable()  # (much is made and nothing let go, so that looking for garbage takes half of the time)
    try:
        return replayed(recording, judge)
    finally:
        if was_on:
            gc.enable()


def replayed(recording: Recording, judge) -> Replay:
    """Follows a recording, and judges the log."""
    follower, broken = followed(recording)
    if broken is not None and broken.is_by_list and is_of_others(recording):
        raise CannotError(f"{broken.did}, but {broken.first}: so by the rules of Linux 6.1, where an asynchronous device waits for its place in the list; "
                          f"whether it does in {recording.version_text} ({recording.version_from}), julampok does not know", recording.trace_file, broken.line)
    text = follower.journal.end() if broken is None else broken_log(follower, broken)
    machine = machine_of(follower)
    if (why := fits(machine)):
        raise CannotError(f"the recording does not fit into a machine file: {why}", recording.trace_file)
    judge = judge or Second()
    found = Replay(False, False, "", judge.name, "", log=text.encode(), machine=written(machine), table=table_of(follower),
                   origins=follower.journal.origins)
    found.judged = judged(found, machine, judge, recording, text) if broken is None or broken.entry else "no log goes on here"
    found.attempts = [told(following, recording) for following in follower.done[:len(follower.done) - (broken is not None)]]
    found.notes = notes_of(recording, follower, found)
    found.is_legal = found.judged == "legal"
    if broken is not None:
        found.is_legal = False
        found.broken = [Broken(broken.line, broken.did, broken.first, broken.first_line, broken.because)]
    else:
        compare(found, follower, text)
    if is_of_others(recording):
        found.illegal = "not legal by the rules of Linux 6.1"
    found.headline = headline(found)
    return found


def is_of_others(recording: Recording) -> bool:
    """Whether the recording is of a version that may have other rules. Those of 6.1 differ in times alone."""
    return recording.version[:2] != RULES


def followed(recording: Recording) -> tuple[Follower, OutOfOrder | None]:
    """Follows a recording, and gives the step that no legal log has, where there is one. Raises CannotError.

    Where that step is behind an event of which no input is sure that it stopped the attempt, an event is looked for that did not.
    """
    first = follower, broken = followed_so(recording, {})
    passed: dict[int, int] = {}
    while broken is not None and len(passed) < MOST_PASSED and take_passed(follower.done[-1], passed):
        try:
            follower, broken = followed_so(recording, passed)
        except CannotError:
            break
    return first if broken is not None else (follower, None)


def take_passed(following: Following, passed: dict[int, int]) -> bool:
    """Takes the event that is said to have stopped an attempt as one that did not; False where an input is sure of it."""
    outcome, number = following.outcome, following.seen.attempt.number
    if outcome.why != Why.EVENT or not outcome.or_else or outcome.event is None or passed.get(number, 0) >= outcome.event.line:
        return False
    passed[number] = outcome.event.line
    return True


def followed_so(recording: Recording, passed: dict[int, int]) -> tuple[Follower, OutOfOrder | None]:
    """Follows a recording of which tests passed some events, and gives the step that no legal log has. Raises CannotError.

    Whether a device that never has a callback is asynchronous is told by no trace. Such devices are first taken as the inputs
    tell, else as synchronous; if the kernel's order is not legal so, as asynchronous, which lets the kernel do more.
    """
    follower = Follower(recording, passed=passed)
    try:
        follower.follow()
        return follower, None
    except OutOfOrder as found:
        broken, failure = found, None
    except Unexplained as found:
        broken, failure = None, found
    open_ones = {device for device, is_async in zip(follower.kin.devices, follower.kin.is_async)
                 if not is_async and device.listed_async is not False and not device.has_callbacks}
    if not open_ones:
        if failure is not None:
            raise failure
        return follower, broken
    again = Follower(recording, open_ones, passed)
    many = "1 device without callbacks" if len(open_ones) == 1 else f"{len(open_ones)} devices without callbacks"
    again.note(f"{many} may be asynchronous or not, which no input tells: taken as asynchronous, so that nobody is made to wait by their place in the list")
    try:
        again.follow()
        return again, None
    except OutOfOrder as found:
        return again, found


def broken_log(follower: Follower, found: OutOfOrder) -> str:
    """The log down to the step that no legal log has, with that step."""
    if found.entry is not None:
        follower.journal.line = found.line
        follower.journal.put(*found.entry)
    for script in follower.journal.scripts:
        if script.nap is not None:
            place, step, begun = script.nap
            until = max(follower.journal.time, begun + 1)
            step["ms"], script.nap = until - begun, None
            follower.journal.lines[place] += str(until)
    return follower.journal.end()


def judged(found: Replay, machine: dict, judge, recording: Recording, text: str) -> str:
    """What the judge says of the log. Of the second writing the quick judge is asked first, which tells no rule."""
    if isinstance(judge, Second):
        judge.accepted(found.machine, recording.trace_file)
        run = Judge(machine)
        if run.accepts(text) and not run.is_stuck():
            return "legal"
    return judge.check(found.machine, found.log, recording.trace_file).text


# ---- one attempt


def told(following: Following, recording: Recording) -> AttemptTold:
    """What is said of an attempt."""
    teller = Teller(following)
    attempt, plan = following.seen.attempt, following.plan
    first = attempt.events[0]
    ends = [end for ends in following.seen.errors.values() for end in ends]
    found = AttemptTold(attempt.number, attempt.line, following.seen.last_line, f"{first.task}-{first.pid}", teller.answer(), teller.sentences(),
                        stand_ins_of(following), not plan.outcome.or_else, faults=[end.begin.line for end in ends], fault_devices=[end.device for end in ends])
    outcome = plan.outcome
    if outcome.why in (Why.PM_TEST, Why.NOT_TOLD) or outcome.where == Where.IDLE or outcome.why == Why.ERROR and outcome.where in (Where.CPUS, Where.SYSCORE):
        found.judged_to = judged_to(following)
    return found


def judged_to(following: Following) -> int:
    """The last line of the way down, behind which a stand-in turns the log around."""
    turn = following.seen.line("machine_suspend") or (following.outcome.turn.line if following.outcome.turn else None)
    lines = [event.line for event in following.seen.items if turn is None or event.line < turn]
    return lines[-1] if lines else following.seen.attempt.line


def stand_ins_of(following: Following) -> list[str]:
    """What the log has in place of what is not told, or of what no log has."""
    outcome, found = following.outcome, []
    for what, name in following.plan.stand_ins:
        if what == "processors":
            found.append(f"{name}, since a machine file has one number of processors, at most 64, for all attempts")
        elif what == "test":
            found.append("the next test finds an event that came before, in place of what turned the kernel around")
        elif what == "event":
            found.append(f"an event of {name} in place of the one that no line shows")
        elif outcome.where == Where.IDLE:
            found.append(f"platform {name} answers {STAND_IN} in place of suspend-to-idle, which no log has")
        elif outcome.why == Why.PM_TEST:
            found.append(f"{what} {name} answers {STAND_IN} in place of pm_test, which no log has")
        elif what == "platform":
            found.append(f"platform {name} answers {STAND_IN}: its own error is not told")
        elif what == "notifier":
            found.append(f"notifier {name} answers {STAND_IN}: who refused and with which error is not told")
        else:
            found.append(f"{what} {name} answers {STAND_IN} in place of {'a processor that did not go off' if outcome.where == Where.CPUS else 'a step whose error is not told'}")
    if outcome.where == Where.IDLE_PREPARE:
        found.append("the last device of the list answers EBUSY in noirq, in place of the platform's prepare for suspend-to-idle, which no log has")
    if outcome.where == Where.FREEZE and not outcome.tasks and following.plan.refusers:
        found.append(f"task {following.plan.refusers[0].name} does not freeze: which tasks did not is not told")
    return found


# ---- the whole


def compare(found: Replay, follower: Follower, text: str) -> None:
    """Compares way and answer of each attempt."""
    ways = ways_of_log(follower.journal.lines)
    for following, said in zip(follower.done, found.attempts):
        trace = way_of_trace(following.seen, follower.kin.number, follower.names, follower.loose)
        log = ways[following.number]
        stands_in = said.judged_to is not None
        differs = difference(log, trace, stands_in, any(what == "processors" for what, _ in following.plan.stand_ins))
        if differs is not None:
            found.differs.append(f"attempt {said.number}, line {differs[0]}: {differs[1]}")
        elif not stands_in and said.answer != log.answer and not is_foreign(said.answer, log.answer, follower, following.number):
            found.differs.append(f"attempt {said.number}, line {said.line}: the log answers {log.answer}, the kernel {said.answer}")
    found.is_own_way = not found.differs


def is_foreign(kernel: str | None, log: str | None, follower: Follower, number: int) -> bool:
    """Whether the log's answer is written in place of an error that machine files do not have."""
    return log == "EIO" and any(one.attempt == number for one in follower.foreign)


def notes_of(recording: Recording, follower: Follower, found: Replay) -> list[Note]:
    """What a user should know besides."""
    notes = list(recording.notes) + follower.notes
    file = recording.trace_file
    if follower.planner.why_cut:
        last = follower.planner.attempts[0].number - 1
        left = "attempt 1 is" if last == 1 else f"attempts 1 to {last} are"
        notes.append(Note(f"{left} left out: {follower.planner.why_cut}", file, recording.attempts[0].line))
    for one in follower.foreign:
        notes.append(Note(f"{one.device.shown} answered {error_text(one.number)}, an error that machine files do not have: the log has EIO", file, one.line))
    if is_of_others(recording):
        notes.append(Note(f"the rules are those of Linux 6.1; the recording is of {recording.version_text} ({recording.version_from}): "
                          "what of the rules that version has changed, julampok does not know", file))
    if not recording.is_async_listed and not any(device.is_async for device in follower.kin.devices):
        notes.append(Note("no callback ran in another task than the attempt's, so no device is taken as asynchronous", file))
    if recording.processors is None:
        notes.append(Note(f"no input tells the number of processors: taken as {follower.cpus}", file))
    whole = follower.done[:len(found.attempts)]
    plain = [following.number for following in whole if following.outcome.guard == Guard.PLAIN and following.outcome.why == Why.NOTHING]
    if plain:
        notes.append(Note("whether a count was saved for an attempt that slept leaves no line: the log saves none", file))
    return notes


def headline(found: Replay) -> str:
    """The verdict in one line."""
    by = f"by {found.judge}" + (", which is tested and not proved" if found.judge == Second.name else "")
    if found.broken:
        said = "" if found.judged.startswith("no log") else f" ({found.judged})"
        return f"{found.illegal}: {found.broken[0].words}. Judged {by}{said}."
    if not found.is_legal:
        return f"{found.illegal}: {found.judged}. Judged {by}."
    if found.differs:
        return f"legal, but not the kernel's own way: {found.differs[0]}. Judged {by}."
    limits = [f"attempt {one.number} down to line {one.judged_to}" for one in found.attempts if one.judged_to is not None]
    if limits:
        return f"legal, by the kernel's own way: {', '.join(limits[:4])}{f' and {len(limits) - 4} more so' if len(limits) > 4 else ''}, where the log stands in. Judged {by}."
    if not all(one.is_sure for one in found.attempts):
        return f"legal, by the kernel's own way. Judged {by}."
    return f"legal, by the kernel's own way and with its answer. Judged {by}."
