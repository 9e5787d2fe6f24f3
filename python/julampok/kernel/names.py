"""Names of real devices and sources as a machine file spells them, and the table of both."""

import re

LONGEST = 32
HEAD = "# name in the machine file\tname\tparent\tdriver or bus\tpath below /sys/devices\n"


def spelled(name):
    """A name in the letters of machine files, not yet cut."""
    return re.sub(r"[^a-z0-9_.-]", "-", name.lower().replace(":", ".").replace("/", ".")) or "-"


class Names:
    """Gives each thing a name of its own: shortened, and with a number where another one has it."""

    def __init__(self, taken=()):
        self.taken = set(taken)

    def give(self, name):
        plain, number, found = spelled(name), 1, spelled(name)[:LONGEST]
        while found in self.taken:
            number += 1
            found = f"{plain[:LONGEST - 1 - len(str(number))]}-{number}"
        self.taken.add(found)
        return found


class Row:
    """A row of the table: a device as the machine file names it, and as its kernel does."""

    def __init__(self, name, real, parent, driver, path):
        self.name, self.real, self.parent, self.driver, self.path = name, real, parent, driver, path

    def text(self):
        return "\t".join((self.name, self.real, self.parent or "none", self.driver or "-", self.path or "-")) + "\n"


def write_table(rows, sources):
    """The table: a row a device, then a row a source."""
    said = "".join(f"{name}\t{real}\tnone\twakeup source\t-\n" for real, name in sources.items())
    return HEAD + "".join(row.text() for row in rows) + said
