"""Which definitions of the crates' specs/ a definition comes to, by the names that it uses."""

import re

from maintain.places import CRATES

OPENING = re.compile(r" *(?:abbrev pub|unfoldable pub|pub record|pub data) (\w+)")
TOGETHER = re.compile(r"  pub (\w+) :")
USED = re.compile(r"^use Rattle\.(\w+)\.specs\.([\w.]+)\.\{([^}]*)\}", re.M)
WORD = re.compile(r"(?<![.\w])[A-Za-z_]\w*")  # (what stands behind a point is a field)
FIELD = re.compile(r"^ +pub \w+ :")


def lines_of(path):
    """The lines of a module, each with the name of the definition that begins there, if one does."""
    together = False
    for line in path.read_text().split("\n"):
        # (definitions that call one another, and those of one list of types, stand indented under one line)
        together = line == "abbrev mutual" or together and line[:1] in ("", " ")
        found = (TOGETHER if together else OPENING).match(line)
        yield line, found and found.group(1)


class Module:
    """A module: the words of each definition, and where each name that it imports is defined."""

    def __init__(self, path):
        self.words, name = {}, None
        for line, begun in lines_of(path):
            name = begun or name
            if name:
                said = FIELD.sub("", line.partition("--")[0])
                self.words.setdefault(name, set()).update(WORD.findall(said))
        self.imported = {}
        for crate, module, names in USED.findall(path.read_text()):
            for name in names.split(","):
                theirs, _, ours = name.strip().partition(" as ")
                self.imported[ours or theirs] = (crate, module.replace(".", "/"), theirs)


def modules():
    """Every module of definitions, by its crate and its name."""
    found = {}
    for path in CRATES.glob("*/specs/**/*.antt"):
        crate = path.relative_to(CRATES).parts[0]
        name = path.relative_to(CRATES / crate / "specs").with_suffix("").as_posix()
        found[crate, name] = Module(path)
    return found


def reached(first):
    """The definitions that these come to, each as its crate, its module and its name; these among them."""
    known, found, left = modules(), set(), list(first)
    while left:
        crate, module, name = one = left.pop()
        place = known.get((crate, module))
        if one in found or place is None or name not in place.words:
            continue
        found.add(one)
        for word in place.words[name]:
            left.append((crate, module, word) if word in place.words else place.imported.get(word, ("", "", "")))
    return found
