"""Tests of docs/machine.schema.json against the rules of machine files, on all files of the repository and on random ones.

A schema is tried here by a small reader of the words that ours uses; where the package jsonschema is there, by that too.
"""

import collections
import json
import random
import re
import unittest

from dev_tests import ROOT
from julampok.limits import ANSWERED
from julampok.second.maker import Maker
from julampok.second.rules import OPERATIONS, PHASES, first_broken
from maintain.trials.near_files import near

SCHEMA = json.loads((ROOT / "docs" / "machine.schema.json").read_text())
SAID = (2, 3, 4, 5, 6, 7, 16, 17, 21, 22)  # The rules that a schema can say whole.
SEED, FILES, LEAST = 3, 6000, 20
TYPES = {"object": dict, "array": list, "string": str, "boolean": bool}
ASIDE = {"$schema", "title", "description", "default", "definitions", "then", "else"}  # Words that refuse nothing by themselves.


def same(one, other):
    return type(one) is type(other) and one == other


def is_type(value, name):
    return type(value) is int if name == "integer" else isinstance(value, TYPES[name])


def is_distinct(values):
    return len({json.dumps(value, sort_keys=True) for value in values}) == len(values)


def objects(test):
    return lambda value, said, schema: not isinstance(value, dict) or test(value, said, schema)


def lists(test):
    return lambda value, said, schema: not isinstance(value, list) or test(value, said)


WORDS = {
    "type": lambda value, said, _: is_type(value, said),
    "enum": lambda value, said, _: any(same(value, other) for other in said),
    "const": lambda value, said, _: same(value, said),
    "minimum": lambda value, said, _: type(value) is not int or value >= said,
    "maximum": lambda value, said, _: type(value) is not int or value <= said,
    "maxLength": lambda value, said, _: not isinstance(value, str) or len(value) <= said,
    "pattern": lambda value, said, _: not isinstance(value, str) or re.search(said.replace("$", r"\Z"), value) is not None,
    "maxItems": lists(lambda value, said: len(value) <= said),
    "uniqueItems": lists(lambda value, said: is_distinct(value)),
    "items": lists(lambda value, said: all(accepts(item, said) for item in value)),
    "required": objects(lambda value, said, _: set(said) <= set(value)),
    "properties": objects(lambda value, said, _: all(accepts(value[name], part) for name, part in said.items() if name in value)),
    "additionalProperties": objects(lambda value, said, schema: set(value) <= set(schema["properties"])),
    "allOf": lambda value, said, _: all(accepts(value, part) for part in said),
    "anyOf": lambda value, said, _: any(accepts(value, part) for part in said),
    "not": lambda value, said, _: not accepts(value, said),
    "if": lambda value, said, schema: accepts(value, schema.get("then" if accepts(value, said) else "else", {})),
    "$ref": lambda value, said, _: accepts(value, SCHEMA["definitions"][said.removeprefix("#/definitions/")]),
}


def accepts(value, schema):
    return all(WORDS[word](value, said, schema) for word, said in schema.items() if word not in ASIDE)


def package():
    """What the package jsonschema says, if it is there."""
    try:
        import jsonschema
    except ImportError:
        return None
    jsonschema.Draft7Validator.check_schema(SCHEMA)
    return jsonschema.Draft7Validator(SCHEMA).is_valid


class Schema(unittest.TestCase):
    def test_files_of_the_repository(self):
        for path in [*ROOT.glob("examples/**/*.json"), *ROOT.glob("tools/worked/*.json")]:
            file = json.loads(path.read_text())
            broken = first_broken(file)
            self.assertEqual(accepts(file, SCHEMA), broken is None or broken[0] not in SAID, path)

    def test_random_machines(self):
        maker = Maker(SEED)
        for _ in range(300):
            self.assertTrue(accepts(maker.machine(), SCHEMA))

    def test_files_that_are_nearly_right(self):
        draw, seen, other = random.Random(SEED), collections.Counter(), package()
        for number in range(FILES):
            file = near(draw, draw.choice((1, 1, 2)))
            broken = first_broken(file)
            seen[broken and broken[0]] += 1
            if broken is None or broken[0] in SAID:
                self.assertEqual(accepts(file, SCHEMA), broken is None, (broken, file))
            if other and number % 10 == 0:
                self.assertEqual(other(file), accepts(file, SCHEMA), file)
        self.assertEqual([rule for rule in (None, 2, 3, 4, 5, 7, 16) if seen[rule] < LEAST], [], seen)

    def test_lengths(self):
        """One item more than a list may have, and one step off each end of a range."""
        named = lambda count: [{"name": f"n{number}"} for number in range(count)]
        most = {"devices": named(1001), "notifiers": named(33), "actors": [item | {"kind": "irq"} for item in named(257)]}
        most |= {"syscore": [f"t{number}" for number in range(33)], "sources": [f"s{number}" for number in range(256)]}
        for member, items in most.items():
            self.assertTrue(accepts({"version": 1, member: items[1:]}, SCHEMA), member)
            self.assertEqual((accepts({"version": 1, member: items}, SCHEMA), first_broken({"version": 1, member: items})[0]), (False, 6))
        for member, least, greatest in (("alarm_ms", 1, 86_400_000), ("cpus", 1, 64), ("auto_cycles", 1, 1000)):
            for value in (least - 1, least, greatest, greatest + 1):
                file = {"version": 1, member: value}
                self.assertEqual(accepts(file, SCHEMA), first_broken(file) is None, file)

    def test_each_operation_of_each_kind(self):
        values = {"text": "mem", "ms": 5, "mark": "m", "device": "d", "to": "active", "supplier": "d", "consumer": "d", "source": "s"}
        for op, (required, _, _) in OPERATIONS.items():
            for kind in ("user", "kthread", "nofreeze", "irq"):
                for version in (1, 2):
                    step = {"op": op} | {member: values[member] for member in required}
                    file = {"version": version, "devices": [{"name": "d"}], "sources": ["s"]}
                    file["actors"] = [{"name": "w", "kind": kind, "script": [step]}]
                    self.assertEqual(accepts(file, SCHEMA), first_broken(file) is None, (op, kind, version))

    def test_each_answer(self):
        for phase in PHASES:
            for ret in (0, 1, 2, *ANSWERED, "EINTR"):
                for count in (0, 1, 16, 17):
                    answer = {"what": "device", "name": "d", "phase": phase, "ret": ret, "reports": [{"call": "awake", "source": "s"}] * count}
                    file = {"version": 1, "devices": [{"name": "d"}], "sources": ["s"], "answers": [answer]}
                    self.assertEqual(accepts(file, SCHEMA), first_broken(file) is None, file)


if __name__ == "__main__":
    unittest.main()
