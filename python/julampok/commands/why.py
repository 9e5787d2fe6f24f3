"""Explains in words why the program refused a file, or why a log is illegal, with the lines of the file.

SAID is the line that the program wrote, as 'machine: rule 9: devices[1]', 'illegal line 17 definition 18', 'locks: line 2',
'log: cycle' or 'source full: lid'. FILE is what it read: the machine file, with LOG behind it for what it says of a log, or the
lines of locks. Without SAID the file is tried here, and so is the log, by the second writing of the rules in Python. Told are
the line and the column of what is wrong, the nearest name that exists, the path of a cycle, what a member lacks, and for a log
what was due in that line. Status 1: nothing is wrong with what was given.
"""

import json
import os

from ..errors import NO, YES, CannotError
from ..files import looks_like, read_bytes, refuse_twice, write_out
from ..refusals import endings, log_lines, machine_files
from ..json_text import NoJson, read_json

HELP = "explains why the program refused a file, or why a log is illegal"
EXAMPLE = "julampok why 'machine: rule 9: devices[0]' examples/order/parent-too-late.json"


def add_arguments(parser):
    parser.add_argument("words", metavar="[SAID] FILE [LOG]", nargs="+", help="the program's line, the file that it read, and the log; '-' is standard input")
    parser.add_argument("--json", action="store_true", help="writes the explanation as JSON")


def run(given):
    said, files = split(given.words)
    told, fault = explanation(said, files)
    if told is None:
        write_out("null\n" if given.json else f"Nothing is wrong with {' and '.join(map(named, files))}.\n")
        return NO
    file = files[-1] if files else ""
    write_out(json.dumps(told.json(file=file)) + "\n" if given.json else told.text(file))
    if fault is not None:
        raise fault
    return YES


def named(file):
    """A file as a sentence names it."""
    return "standard input" if file == "-" else file


def split(words):
    """What the program said, if the first word is that, and the files."""
    found = endings.SAID.search(words[0])
    said = found if found and not os.path.exists(words[0]) else None
    files = words[1:] if said else words
    if len(files) > 2:
        raise CannotError("wants SAID, FILE and LOG at most")
    if said is None and not os.path.exists(words[0]) and words[0] != "-" and (len(words) > 1 or " " in words[0]):
        raise CannotError("this is no line that the program writes, and no file", words[0])
    if len(files) == 2:
        refuse_twice(*files)
    return said, files


def explanation(said, files):
    """The explanation, None where nothing is wrong; and what makes a file one that cannot be explained further."""
    if said is None:
        return of_files(files)
    if said["plain"] or said["usage"] or (said["long"] and not files):
        return endings.plain(said), None
    if said["stuck"]:
        return endings.stuck(said, machine_in(files[0])[0] if files else None), None
    if not files:
        raise CannotError(f"wants the file of which this was said: {said.group()}")
    if said["long"]:
        return endings.length(said, read_bytes(files[0])), None
    if said["rule"]:
        return of_rule(said, files[0])
    if said["lock"]:
        return needed(endings.lock_line(read_bytes(files[0])), said, files[0]), None
    if said["full"]:
        return endings.full(said["name"], machine_in(files[0])[0]), None
    if len(files) < 2:
        raise CannotError(f"wants the machine file and the log of which this was said: {said.group()}")
    if said["ties"]:
        tree, _ = machine_in(files[0])
        return needed(endings.ties(said["ties"], tree, text_in(files[1])), said, files[1]), None
    return of_log(said, *files)


def needed(told, said, file):
    """An explanation that has to be there."""
    if told is None:
        raise CannotError(f"this is not the file of which was said: {said.group()}", file)
    return told


def of_files(files):
    """What is wrong with a machine file, else with its log."""
    data = read_bytes(files[0])
    told = machine_files.explained(data)
    if told is not None:
        return told, broken_file(told, data, files[0])
    if len(files) == 1:
        return None, None
    return of_log(None, *files)


def of_rule(said, file):
    """A rule of machine files, which the file at hand has to break."""
    data = read_bytes(file)
    told = machine_files.explained(data)
    if int(said["number"]) not in machine_files.RULES:
        raise CannotError(f"there is no rule {said['number']}")
    if told is None:
        raise CannotError(f"the file breaks no rule, so it is not the one of which was said: {said.group()}", file)
    fault = broken_file(told, data, file)
    if not told.head.startswith(f"Rule {said['number']}, at {said['place']}."):
        fault = fault or CannotError(f"the file breaks another rule first than was said ({said.group()})", file)
    return told, fault


def broken_file(told, data, file):
    """The refusal of a file that is no machine file at all."""
    try:
        tree = read_json(data)
    except NoJson as wrong:
        return CannotError(f"no JSON: {wrong.why} (column {wrong.column}){looks_like(data, 'JSON')}", file, wrong.line)
    if isinstance(tree, dict) and "version" in tree:
        return None
    return CannotError("no machine file: it has no 'version'" if isinstance(tree, dict) else "no machine file: it is no object", file, 1)


def machine_in(file):
    """The machine of a file that is accepted, and its bytes."""
    data = read_bytes(file)
    told = machine_files.explained(data)
    if told is not None:
        line, _, text, _ = told.sentences[0] if told.sentences else (None, None, told.head, [])
        raise CannotError(f"{told.head.split('. ')[0]}: {text}", file, line)
    return read_json(data), data


def text_in(file):
    """The text of a log; letters that are none are kept as marks, so that lines keep their numbers."""
    return read_bytes(file).decode("utf-8", "replace")


def of_log(said, machine, log):
    """What is wrong with a log of a machine."""
    tree, _ = machine_in(machine)
    text = text_in(log)
    told = log_lines.explained(tree, text)
    if told is None:
        if said is not None:
            raise CannotError(f"the log is legal and finished, so it is not the one of which was said: {said.group()}", log)
        return None, None
    line = told.sentences[0][0]
    cut = log_lines.cut_off(text, line)
    fault = CannotError(cut, log, line) if cut else None
    wanted = said and int(said["line"] or said["stats_line"])
    if said and (wanted != line or (said["definition"] and f"definition {said['definition']}." not in told.head)):
        fault = fault or CannotError(f"the first bad line is another than was said ({said.group()})", log, line)
    return told, fault
