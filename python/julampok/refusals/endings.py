"""Explains the other lines by which the program ends: words, reads and writes, limits, named locks and statistics."""

import collections
import re

from ..limits import LONGEST_MS, MOST_ENTRIES, MOST_INPUT, MOST_LINKS
from .machine_files import way
from .points import MOST, Told, arrows, near_words, numbered, quoted

MOST_LOG = 1 << 28  # The bytes of a machine and a log together.
SAID = re.compile(
    r"(?P<rule>machine: rule (?P<number>\d+): (?P<place>[\w.\[\]]+))|(?P<long>(?P<input>machine|locks|input): longer than \d+ bytes)|"
    r"(?P<illegal>illegal line (?P<line>\d+) definition (?P<definition>\d+))|(?P<lock>locks: line (?P<lock_line>\d+))|"
    r"(?P<stats>log: (?:line (?P<stats_line>\d+)|(?P<ties>links|cycle)))|(?P<full>source full: (?P<name>[a-z0-9_.-]+))|"
    r"(?P<usage>usage: run )|(?P<plain>read fault|write fault|want of memory)|"
    r"(?P<stuck>stuck (?P<who>(?:task|irq):[a-z0-9_.-]+) (?:(?P<reads>read)|mark (?P<mark>[a-z0-9_.-]+)))")
PLAIN = {
    "read fault": "The program could not read its input: standard input is closed, or the device or the pipe behind it failed. It ended "
                  "with status 4, and wrote nothing.",
    "write fault": "The program could not write its output: the disk is full, standard output is closed, or the reader of the pipe went "
                   "away. It ended with status 5, and what was written is a front of the whole.",
    "want of memory": "The system gave the program no more memory. It ended with status 8, and wrote nothing. A smaller machine, or a "
                      "greater limit (ulimit -v), helps.",
}
USAGE = ("The words of the command line are none that the program knows, or a number of workers is not 1 to 64. It ended with status 2 and "
         "read nothing. It knows: run [--workers N], gen SEED DEVICES, soak SEED DEVICES, check, locks, stats, "
         "idle WAKERS EVENTS SESSIONS [--workers N].")
LONG = {
    "machine": f"A machine file has at most {MOST_INPUT:,} bytes; the program read no further.",
    "locks": f"The lines of locks have at most {MOST_INPUT:,} bytes; the program read no further.",
    "input": f"A machine file with its log has at most {MOST_LOG:,} bytes; the program read no further.",
}
TIES = {
    "links": f"At most {MOST_LINKS:,} links stand in a file and its log together; the log adds one more.",
    "cycle": "A link that the log adds closes a cycle: its consumer leads to its supplier already.",
}
LOCK_FORMS = ("lock TEXT", "unlock TEXT", "after MS", "active", "inactive")
LOCK = re.compile(rb"(lock|unlock) .*|after ([1-9][0-9]*)|active|inactive", re.S)


def plain(said):
    """What a line means that needs no file: a match of SAID."""
    if said["plain"]:
        return Told(PLAIN[said["plain"]], [])
    return Told(LONG[said["input"]] if said["long"] else USAGE, [])


def length(said, data):
    """What a refusal by length means for the bytes at hand."""
    return Told(LONG[said["input"]], [(None, None, f"the file has {len(data):,} bytes", [])])


def lock_line(data):
    """The first line of named locks that is none of the five; None where all are."""
    lines = data.split(b"\n")
    if lines[-1] == b"":
        lines.pop()
    for number, line in enumerate(lines, 1):
        found = LOCK.fullmatch(line)
        if found is None or (found[2] and not 1 <= int(found[2][:20]) <= LONGEST_MS):
            text = line.decode("utf-8", "replace")
            return Told(f"locks: line {number} is none of the lines that the command knows, so none was carried out.",
                        [(number, None, lock_words(text), [f"{number:6}  {text[:100]}"])])
    return None


def lock_words(text):
    """What is wrong with a line of named locks."""
    word = text.split(" ")[0]
    if not text:
        return f"an empty line is none of {quoted(LOCK_FORMS)}"
    if word == "after":
        return f"'after' takes a whole number of ms from 1 to {LONGEST_MS:,}, without a sign or a leading 0"
    if word in ("lock", "unlock"):
        return f"'{word}' takes a space and a text behind it"
    if word in ("active", "inactive"):
        return f"nothing stands behind '{word}'"
    return f"no line begins with '{word[:40]}'{near_words(word, [form.split(' ')[0] for form in LOCK_FORMS])}; the lines are {quoted(LOCK_FORMS)}"


def ties(what, tree, text):
    """The line of a log that adds a link too many, or one that closes a cycle; None where no line does."""
    below, stand = collections.defaultdict(list), set()
    for device in tree.get("devices", []):
        if "parent" in device:
            below[device["parent"]].append((device["name"], None, "the parent"))
    for link in tree.get("links", []):
        stand.add((link["supplier"], link["consumer"]))
        below[link["supplier"]].append((link["consumer"], None, "a supplier"))
    for number, line in enumerate(text.split("\n"), 1):
        words = line.split(" ")
        if len(words) != 7 or words[3] != "link" or words[6] != "0":
            continue
        ends = (words[4], words[5])
        if what == "links" and len(stand) >= MOST_LINKS:
            return Told(TIES[what], [(number, None, f"{len(stand):,} links stand before it", [f"{number:6}  {line[:100]}"])])
        if what == "cycle" and ends not in stand and (ends[0] == ends[1] or way(below, ends[1], ends[0])):
            steps = way(below, ends[1], ends[0])
            names = [*ends, *(step[1] for step in steps)]
            more = [(None, None, f"'{upper}' is {kind} of '{lower}'", []) for upper, lower, _, kind in steps[:MOST]]
            return Told(TIES[what], [(number, None, f"the cycle is {arrows(names)}", [f"{number:6}  {line[:100]}"]), *more])
        if ends not in stand:
            stand.add(ends)
            below[ends[0]].append((ends[1], None, "a supplier"))
    return None


def full(name, tree):
    """Who fills a source of a machine."""
    head = (f"The source '{name}' has no room for another call: it holds {MOST_ENTRIES:,} entries, and a call needs four places. The run "
            "ended with status 7, and wrote no log.")
    found = []
    for actor in tree.get("actors", []):
        calls = actor.get("repeat", 1) * sum(step.get("times", 1) for step in actor.get("script", [])
                                             if step.get("source") == name or (name == "autosleep" and step.get("op") == "autosleep"))
        if calls:
            found.append((calls, f"'{actor['name']}' calls it {calls:,} times"))
    for answer in tree.get("answers", []):
        calls = sum(one["source"] == name for one in answer.get("reports", []))
        if calls:
            found.append((calls, f"the callback of '{answer['name']}' in {answer['phase']} reports {numbered(calls, 'call')} on it in each attempt"))
    found.sort(key=lambda one: -one[0])
    return Told(head, [(None, None, text, []) for _, text in found[:5]])


def stuck(said, tree=None):
    """Why a script goes no further."""
    if said["reads"]:
        return Told(f"The read of {said['who']} waits until no event is in progress, and some source's event never ends: it has no length, and "
                    "nobody relaxes the source.", [])
    head = f"{said['who']} waits for the mark '{said['mark']}', which is not raised any more: each 'wait' takes one 'post'."
    if tree is None:
        return Told(head, [])
    count = lambda actor, op: actor.get("repeat", 1) * sum(step.get("times", 1) for step in actor.get("script", [])
                                                          if step["op"] == op and step.get("mark") == said["mark"])
    posts, waits = ([(actor["name"], count(actor, op)) for actor in tree.get("actors", []) if count(actor, op)] for op in ("post", "wait"))
    words = lambda found, op: f"{sum(number for _, number in found):,} times '{op}' by {quoted([name for name, _ in found], 'and')}" if found else f"nobody makes '{op}'"
    return Told(head, [(None, None, f"{words(posts, 'post')}; {words(waits, 'wait')}", [])])
