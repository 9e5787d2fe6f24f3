"""Machine files that are nearly right: a few seeds, of which one to three parts are changed."""

import copy
import json
import pathlib

from julampok.second.rules import OPERATIONS, first_broken

SEEDS = [json.loads(path.read_text()) for path in sorted((pathlib.Path(__file__).parent / "seeds").glob("*.json"))]
NUMBERS = [0, 1, 2, 3, -1, 17, 64, 1000, 1001, 2001, 20_000, 86_400_001, 4_294_967_296]
WORDS = (
    "A a b c s t n user irq kthread late prepare suspended EIO EAGAIN EINTR mem autosleep device platform active dormant"
).split()
VALUES = [*NUMBERS, True, False, None, "", [], {}, *WORDS, *OPERATIONS]
MEMBERS = (
    "version name parent async runtime supplier consumer state to priority kind repeat script phase attempt ret reports call "
    "source ms hard op times count text mark fly"
).split()


def parts_of(value):
    """Each object and each list of a file, from the top down."""
    if isinstance(value, (dict, list)):
        yield value
        for part in value.values() if isinstance(value, dict) else value:
            yield from parts_of(part)


def change(file, draw):
    """One member or item of the file exchanged, added, doubled or left out."""
    part = draw.choice(list(parts_of(file)))
    value = copy.deepcopy(draw.choice(VALUES))
    keys = list(part) if isinstance(part, dict) else list(range(len(part)))
    way = draw.randrange(4)
    if way == 0 and keys:
        del part[draw.choice(keys)]
    elif way == 1 and isinstance(part, dict):
        part[draw.choice(MEMBERS)] = value
    elif way == 1 and keys:
        part.insert(draw.randrange(len(part) + 1), copy.deepcopy(draw.choice(part)))
    elif way == 2 and keys and isinstance(part, list):
        draw.shuffle(part)
    elif keys:
        part[draw.choice(keys)] = value


def near(draw, changes):
    """A seed with so many changes."""
    file = copy.deepcopy(draw.choice(SEEDS))
    for _ in range(changes):
        change(file, draw)
    return file


def shared(draw, count):
    """So many files, of which no rule has more than its share."""
    share, found = {}, []
    while len(found) < count:
        file = near(draw, draw.choice((1, 1, 2, 3)))
        broken = first_broken(file)
        rule = broken and broken[0]
        if share.get(rule, 0) <= count // 16:
            share[rule] = share.get(rule, 0) + 1
            found.append(file)
    return found
