"""Finds the devices of a recording in a machine file: by the table of names beside it, or by how names are spelled there."""

from __future__ import annotations

import os
from typing import Sequence

from julampok.errors import CannotError
from julampok.files import read_bytes
from julampok.kernel.names import LONGEST, spelled
from julampok.kernel.recording import Device

Row = tuple[str, str, str | None, str]  # The name in the machine, the real name, the parent's real name, the driver.


def rows_of(tree: dict, file: str) -> list[Row]:
    """The devices of a machine file, with their real names where the table of names is beside it. Raises CannotError."""
    table = os.path.splitext(file)[0] + ".names"
    if file != "-" and os.path.exists(table):
        return read_table(read_bytes(table), table)
    return [(device["name"], device["name"], device.get("parent"), "") for device in tree.get("devices", [])]


def read_table(data: bytes, file: str) -> list[Row]:
    """The devices of a table of names. Raises CannotError with the line."""
    rows = []
    for line, text in enumerate(data.decode("utf-8", "replace").splitlines(), 1):
        if text.startswith("#"):
            continue
        parts = text.split("\t")
        if len(parts) != 5:
            raise CannotError(f"no row of a table of names: {text[:80]!r}", file, line)
        name, real, parent, driver, _ = parts
        if driver != "wakeup source":
            rows.append((name, real, None if parent == "none" else parent, "" if driver == "-" else driver))
    return rows


def names_in_machine(rows: Sequence[Row], devices: Sequence[Device]) -> list[str | None]:
    """The machine's name of each device: by name, parent and driver, else by fewer of these; None where there is none."""
    found: list[str | None] = [None] * len(devices)
    taken: set[str] = set()
    for keys in (by_all, by_parent, by_name):
        table: dict[tuple, list[str]] = {}
        for row in rows:
            if row[0] not in taken:
                table.setdefault(keys(*row[1:]), []).append(row[0])
        for number, device in enumerate(devices):
            parent = device.parent.name if device.parent else None
            names = table.get(keys(device.name, parent, device.driver)) if found[number] is None else None
            if names:
                found[number] = names.pop(0)
                taken.add(found[number])
    return found


def by_all(name: str, parent: str | None, driver: str) -> tuple:
    return plain(name), parent and plain(parent), driver


def by_parent(name: str, parent: str | None, driver: str) -> tuple:
    return plain(name), parent and plain(parent)


def by_name(name: str, parent: str | None, driver: str) -> tuple:
    return (plain(name),)


def plain(name: str) -> str:
    """A name as a machine file has it."""
    return spelled(name)[:LONGEST]
