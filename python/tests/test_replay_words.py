"""Every name, line, error and number that replay shows stands in the trace, in dmesg or in a list."""

import gzip
import json
import pathlib
import random
import re
import tempfile
import unittest

import command_tests  # noqa: F401 (puts the package on the path)
import recordings
from shown_words import Shown
from test_replay import exchanged, pairs
from test_replay_model import Trial

from julampok.follow.showing import as_json, as_text
from julampok.follow.verdict import replay
from julampok.kernel.reading import read_inputs

WAYS = {"all inputs": (), "without dmesg": ("dmesg",), "the trace alone": ("devices", "links", "dmesg")}


class ShownWords(unittest.TestCase):
    """All recordings, with all inputs and with less."""

    def test_each_stands_in_an_input(self):
        for name in recordings.names():
            for way, without in WAYS.items():
                with self.subTest(name=name, way=way):
                    self.look(recordings.inputs(name, without))

    def test_of_a_model(self):
        """Traces of a model of a kernel, whose attempts end in more ways than those of the recordings."""
        with tempfile.TemporaryDirectory() as folder:
            for seed in range(3000, 3080):
                trial = Trial(seed, 8 if seed % 4 == 0 else 0)
                with self.subTest(seed):
                    self.look(trial.write(folder, ((), ("dmesg",), ("devices", "links", "dmesg"))[seed % 3]))

    def test_of_broken_orders(self):
        """Copies in which two callbacks have changed places."""
        dice = random.Random(23)
        with tempfile.TemporaryDirectory() as folder:
            for name in ("order", "s3", "slow-async", "slow-sync-one", "irq-late", "async-fails", "noirq-fails") * 6:
                recording = read_inputs(**recordings.inputs(name))
                pair = dice.choice(pairs(recording, dice) or [None])
                if pair is None:
                    continue
                file = pathlib.Path(folder, "trace")
                file.write_text("\n".join(exchanged(recording, *pair)) + "\n")
                with self.subTest(name, lines=[begin.line for begin in pair]):
                    self.look(recordings.inputs(name) | {"trace": str(file)})

    def look(self, files):
        """Follows a recording, and looks for what is shown."""
        recording = read_inputs(**files)
        found = replay(recording)
        told = json.loads(json.dumps(as_json(found, recording)))
        self.assertEqual(self.faults(Shown(files), told, files["trace"]), [])
        self.assertEqual(as_text(found, recording).split("\n"), lines_of(told, files["trace"]))

    def faults(self, shown, told, file):
        """What of the JSON no input has."""
        shown.headline(told["headline"], told["attempts"])
        for one in told["attempts"]:
            shown.attempt(one)
        for one in told["broken"]:
            shown.broken(one)
        for note in told["notes"]:
            shown.note(note, file)
        return shown.wrong


class Processors(unittest.TestCase):
    """The kernel's numbers of processors may have gaps: a number is told only where an input tells it."""

    LINES = gzip.open(recordings.file_of("at-cpu2", "trace"), "rt").read().split("\n")

    def test_found_before(self, lines=LINES):
        for text, wanted in (("\n".join(lines), "processor 3"), (self.spread(lines), "processor 6"), (self.spread(lines[:68]), "the next processor"),
                             (self.spread(lines[:68]).replace("[000]", "[005]", 1), "processor 5"), ("# #P:4\n" + "\n".join(lines[:68]), "processor 3"),
                             ("# #P:4\n" + self.spread(lines[:68]), "the next processor")):
            with self.subTest(wanted), tempfile.TemporaryDirectory() as folder:
                file = pathlib.Path(folder, "trace")
                file.write_text(text)
                found = replay(read_inputs(trace=str(file), devices=recordings.file_of("at-cpu2", "devices")))
                self.assertIn(f"The test before {wanted} went off found it.", found.attempts[0].sentences)

    @staticmethod
    def spread(lines):
        """The lines with processors 2, 4 and 6 in place of 1, 2 and 3."""
        return re.sub(r"(CPU_O\w+)\[(\d)\]", lambda found: f"{found[1]}[{2 * int(found[2])}]", "\n".join(lines))


def lines_of(told, file):
    """The text that goes with the JSON: it shows nothing that the JSON has not."""
    lines = [f"{file}: {told['headline']}", ""]
    for one in told["attempts"]:
        answer = "its answer is not told" if one["answer"] is None else f"answered {one['answer']}" if one["is_sure"] else f"{one['answer']}, if this stopped it"
        lines += [f"Attempt {one['number']}, lines {one['line']} to {one['last_line']}, by {one['task']}: {answer}.", *(f"  {text}" for text in one["sentences"])]
        lines += [f"  Judged down to line {one['judged_to']}; below it the log stands in."] if one["judged_to"] is not None else []
        lines += [*(f"  In the log {text}." for text in one["stand_ins"]), ""]
    lines += ["The steps above that line are legal; nothing below it was followed.", ""] if told["broken"] else []
    lines += ["Notes:", *(f"  {note['file']}{'' if note['line'] is None else ':' + str(note['line'])}: {note['text']}" for note in told["notes"])] if told["notes"] else []
    while lines[-1] == "":
        lines.pop()
    return [*lines, ""]


if __name__ == "__main__":
    unittest.main()
