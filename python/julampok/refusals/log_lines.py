"""Explains the first bad line of a log: what is wrong with it, and what was due there."""

import re

from ..second import grammar
from ..second.follow import Follower
from ..second.judge import END, GRAMMAR, SOURCE, Judge
from .points import Told, cut, near_words, quoted

RULES = {
    2: "What a new link, or another state of a link, is answered.",
    4: "An entry shows the time, and the event word that stood there: events in progress, registered, hard.",
    7: "Attempts are counted from 1, are guarded if and only if a count is in force, and do not overlap.",
    8: "What a read, a save or a write to 'state' or 'autosleep' is answered: by the count, the lock, autosleep and the text.",
    9: "Which device is next in a phase and for whom it waits, and what its callback answers and reports.",
    10: "Which devices a phase on the way down passes over, and why.",
    11: "What a request for a runtime status is answered.",
    12: "Only what was done is undone.",
    13: "Tasks freeze at freeze points, a frozen task makes nothing, and a freeze ends by its tasks, a wakeup event or the timeout.",
    14: "The order of an attempt's steps, its tests for wakeup events, and what notifiers, platform and core answer.",
    15: "A phase and an attempt answer the error that came, else 0.",
    16: "Where an attempt is over, everything is undone.",
    17: "Each actor makes its own steps and calls, once and in order.",
    18: "While the machine sleeps tasks wait; what wakes it; time jumps only where nobody can do anything, to the next moment.",
    20: "A log ends with 'finished' only if every script made its exit and nobody can do anything.",
    22: "A wakeup source's entries and its line of statistics tell the same.",
    23: "Each line is one that a log of this machine can have.",
}
NUMBERS = ("active_count", "event_count", "expire_count", "active_time", "total_time", "max_time", "last_time")
LIKE = re.compile(r"\d+ \d+/\d+/\d+ \S+ \S|source \S+ \d")  # What a line of a log looks like.
MOST_REPLAYED = 400_000  # So many lines are followed in all to find what others could do there.
SHOWN = 4  # So many actors are named that could do something.


def explained(tree, text):
    """What is wrong with a log's text, given its accepted machine; None for a legal log that is finished."""
    judge = Judge(tree, text)
    found = judge.verdict()
    if found is None:
        return None
    line, rule = found
    lines = text.split("\n")
    shown = lines[line - 1] if line <= len(lines) else ""
    head = f"Line {line}, definition {rule}. {RULES[rule]}"
    sentences = [(line, None, f"the line is {shown[:160]!r}" if shown else "here the log ends", [])]
    said = {GRAMMAR: no_line, SOURCE: statistics, END: ending}.get(rule)
    if rule == SOURCE and line <= len(judge.entries):
        said = None
    more = said(judge, tree, text, line) if said else entry(judge, tree, line, rule)
    return Told(head, sentences + [(None, None, one, []) for one in more])


def cut_off(text, line):
    """Why a text is no log at all, or only the front of one, by its first bad line; None where it is a log with a bad line."""
    lines = text.split("\n")
    if not text:
        return "the log is empty"
    if line > len(lines) - 1:
        return "the log is cut off here"
    if line == 1 and "\0" in text[:4096] or not any(LIKE.match(one) for one in lines[:1000]):
        return "this is no log"
    return None


# ---- entries


def followed(judge, tree, line):
    """The second writing behind the lines before this one."""
    run = Follower(tree)
    for text in judge.entries[:line - 1]:
        run.allows(text)
    return run


def next_of(run, who):
    """What an actor makes next, or None where it waits or has nothing to do."""
    run.said = []
    if who in run.owed:
        run.step(who)
    elif who in run.labelled:
        next(run.labelled[who])
    return run.said[0] if run.said else None


def entry(judge, tree, line, rule):
    """What was due in place of an entry."""
    text = judge.entries[line - 1]
    who = text.split(" ")[2]
    due = None if who == "time" else next_of(followed(judge, tree, line), who)
    found = numbers_words(text, due) if rule == 4 else []
    if who == "time":
        found += jump_words(judge, tree, line, text)
    elif due is not None:
        found.append(f"{who} makes there: {due}")
    else:
        found.append(f"{who} makes nothing there: {why_nothing(judge, tree, line, who)}")
    others = able(judge, tree, line, who)
    if others:
        found += [f"due there{' of others' if who != 'time' else ''}: {one}" for one in others]
    elif who != "time" and due is None:
        found.append(f"due there: {time_words(judge, tree, line)}")
    return found


def numbers_words(text, due):
    """Which of the numbers at the front of an entry is wrong."""
    if due is None:
        return []
    names = ("time", "events in progress", "registered events", "hard events")
    numbers = lambda one: re.split("[ /]", one)[:4]
    return [f"the {name} is {given}, and has to be {wanted}" for name, given, wanted in zip(names, numbers(text), numbers(due)) if given != wanted]


def able(judge, tree, line, but):
    """What other actors could make there, at most some of them."""
    run, found = Follower(tree), []
    labels = [who for who in [*run.labels, *run.owed] if who != but]
    budget = max(1, MOST_REPLAYED // max(1, line))
    for who in likely(labels, judge, line)[:budget]:
        made = next_of(followed(judge, tree, line), who)
        if made is not None:
            found.append(made)
        if len(found) == SHOWN:
            break
    return found


def likely(labels, judge, line):
    """The actors, those first that made something shortly before."""
    recent = {}
    for text in judge.entries[max(0, line - 200):line + 200]:
        recent[text.split(" ")[2]] = len(recent)
    return sorted(labels, key=lambda who: (who not in recent, recent.get(who, 0)))


def jump_words(judge, tree, line, text):
    """Why time may not jump there."""
    run = followed(judge, tree, line)
    pending = sorted(run.times())
    if not run.is_idle():
        return ["time jumps only where nobody can do anything"]
    if run.is_over():
        return ["nothing is left to do there, so time does not jump"]
    return [f"time jumps to the next moment, {pending[0]} ms, not to {text.split(' ')[0]}" if pending else "no moment is pending, so time does not jump"]


def time_words(judge, tree, line):
    """What stands where nobody can do anything."""
    run = followed(judge, tree, line)
    if not run.is_idle():
        return "the entry of another actor"
    pending = sorted(run.times())
    if run.is_over() or not pending:
        return "the end of the log"
    return f"a jump of time to {pending[0]} ms"


def why_nothing(judge, tree, line, who):
    """Why an actor makes nothing at a place."""
    run = followed(judge, tree, line)
    task = next((task for task in run.tasks if task.label == who), None)
    if who not in run.labelled:
        return "its callbacks are made by whoever makes the attempt"
    if task is not None and task.exited:
        return "it made its exit before"
    if task is not None and task.frozen:
        return "it is frozen"
    if run.asleep is not None and not who.startswith(("irq:", "timer:")):
        return "the machine sleeps"
    if who.startswith("timer:"):
        return "its source has no event whose end has come"
    if who.startswith("dev:"):
        return device_words(run, who[4:])
    return maker_words(run) if who == run.maker else script_words(run, task)


def maker_words(run):
    """For whom whoever makes the attempt waits."""
    if run.phase is not None:
        waits = sorted(run.phase.scheduled - run.phase.over, key=run.places.__getitem__)
        return f"in {run.phase.name} it waits for {quoted(waits[:5], 'and')}" if waits else f"it waits for a device in {run.phase.name}"
    if run.deadline is not None:
        left = [task.name for task in run.tasks if task.asked and not task.frozen and not task.exited]
        return f"the freeze waits for {quoted(left[:5], 'and')}, until {run.deadline} ms"
    return "it waits"


def script_words(run, task):
    """For what a script waits."""
    if task is None:
        return "the autosleep work has nothing to do, or waits"
    if task.until is not None:
        return f"it sleeps until {task.until} ms"
    if run.lock is not None and run.lock != task.label:
        return f"{run.lock} holds the lock"
    return f"it waits for the {task.waits_for}" if task.waits_for and task.waits_for.startswith("mark") else "it waits until no event is in progress"


def device_words(run, d):
    """Why an asynchronous device makes nothing."""
    phase = run.phase
    if phase is None or d not in phase.scheduled:
        return "no phase has scheduled it"
    if d in phase.over:
        return f"it is over in {phase.name}"
    below = phase.name in ("suspend", "late", "noirq")
    waits = [one for one in (run.below(d) if below else run.above(d)) if one not in phase.over and (below or one in phase.members)]
    return f"it waits for {quoted(waits[:5], 'and')}" if waits else "it waits"


# ---- lines that are no entries


def no_line(judge, tree, text, line):
    """Why no log of the machine has such a line there."""
    lines = text.split("\n")
    given = lines[line - 1] if line <= len(lines) else ""
    if line == len(lines) and given:
        return ["the last line has no newline, so the log is cut off"]
    book = grammar.Grammar(tree)
    at = line - 1 - len(judge.entries)
    if not given and line >= len(lines):
        return [missing(book, at)]
    if at == 0 and not given.startswith("source "):
        return entry_words(book, given)
    if at < len(book.sources):
        return [f"the line of the source '{book.sources[at]}' has to stand here: 'source {book.sources[at]}' and seven numbers"]
    if at > 0 and judge.tail[at - 1] == "finished":
        return ["behind 'finished' the log is over"]
    return ["the log has to end here, with 'finished' or with 'stuck SCRIPT read' or 'stuck SCRIPT mark MARK' for each script that goes no further"]


def missing(book, at):
    """What is missing at the end of a log that is cut off."""
    if at < len(book.sources):
        return f"the log is cut off: entries, or the line of the source '{book.sources[at]}', have to follow"
    return "the log is cut off: 'finished', or the scripts that are stuck, have to follow"


def entry_words(book, given):
    """What keeps a line from being an entry of the machine."""
    found = grammar.HEAD.fullmatch(given)
    if found is None:
        return ["an entry is 'TIME IN_PROGRESS/REGISTERED/HARD ACTOR WHAT', with single spaces and plain numbers"]
    if found[5] not in book.actors:
        return [f"the machine has no actor '{cut(found[5])}'{near_words(found[5], book.actors)}"]
    said = found[6]
    if book.is_said(said):
        return ["a number at its front is too great"]
    verb = said.split(" ")[0]
    if verb not in grammar.COMPILED:
        return [f"no entry begins with '{cut(verb)}'{near_words(verb, grammar.COMPILED)}"]
    forms = [form for form in re.split(r"[|\n]", grammar.FORMS) if form.split(" ")[0] == verb]
    return [*unknown_names(book, said, forms), f"'{verb}' stands as {quoted([plain(form) for form in forms])}"]


FIELD_WORDS = {"n": "NUMBER", "t": "TIME", "d": "DEVICE", "s": "SOURCE", "x": "NOTIFIER", "c": "STEP", "m": "MARK", "a": "TASK",
               "r": "ANSWER", "e": "ERROR", "p": "PHASE"}
THINGS = {"d": "device", "s": "source", "x": "notifier", "c": "step of the core", "m": "mark", "a": "script"}


def plain(form):
    """A form with words for its fields."""
    return grammar.FIELD.sub(lambda field: FIELD_WORDS[field[1]], form)


def unknown_names(book, said, forms):
    """The names of an entry that the machine has not."""
    for form in forms:
        words, fields = said.split(" "), form.split(" ")
        if len(words) != len(fields):
            continue
        for word, field in zip(words, fields):
            kind = field[1] if grammar.FIELD.fullmatch(field) else None
            if kind in book.names and word not in book.names[kind]:
                return [f"the machine has no {THINGS[kind]} '{cut(word)}'{near_words(word, sorted(book.names[kind]))}"]
    return []


def statistics(judge, tree, text, line):
    """Which number of a source's line is wrong."""
    run = followed(judge, tree, len(judge.entries) + 1)
    at = line - 1 - len(judge.entries)
    wanted = run.sources[at].line(run.time)
    given = judge.tail[at].split(" ")
    wrong = [f"{name} is {one}, and has to be {right}" for name, one, right in zip(NUMBERS, given[2:], wanted.split(" ")[2:]) if one != right]
    return [*wrong, f"due there: {wanted}"]


def ending(judge, tree, text, line):
    """Why a log may not end so."""
    run = followed(judge, tree, len(judge.entries) + 1)
    said = judge.tail[line - 1 - len(judge.entries)]
    if not run.is_idle():
        return ["somebody can still do something there", *(f"due there: {one}" for one in able(judge, tree, len(judge.entries) + 1, None))]
    waiting = [f"{task.label} {task.waits_for}" for task in run.tasks if not task.exited and task.waits_for]
    pending = sorted(run.times())
    if not run.is_over() and pending:
        return [f"a moment is still pending: due there is a jump of time to {pending[0]} ms"]
    if not run.is_over():
        stuck = [f"{who} goes no further" for who in (f"stuck {one}" for one in waiting)]
        return [f"the run is stuck, so it is not finished, whatever its end says ({said!r})", *stuck]
    return ["every script made its exit, so due there: finished"]
