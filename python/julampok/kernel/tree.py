"""Reads the devices of a machine: from its /sys, a copy of it (a folder or a tar), or a list of device folders.

What cannot be read is refused by its path, a line of a list by its number: each is a CannotError.
"""

import errno
import lzma
import os
import posixpath
import re
import tarfile
import zlib

from ..errors import CannotError
from ..files import read_bytes, reason

LISTED = re.compile(r"/sys/devices/(?P<path>\S.*?)(?: async=(?P<async>\w*))?(?: wakeup=(?P<wakeup>\w*))?(?: runtime=(?P<runtime>\w*))?")
# What reading a file of /sys answers where it is not there, or where its device has nothing to say.
NOT_TOLD = (errno.ENOENT, errno.ENOTDIR, errno.EINVAL, errno.EIO, errno.ENODEV, errno.ENXIO)
# The files of /sys that are read; all others of a tar are passed over.
READ = (
    "power/async", "power/wakeup", "power/runtime_status", "pm_async", "online", "name", "status", "sync_state_only", "sys_vendor",
    "product_name")
SWITCH = {"enabled": True, "disabled": False}  # What power/async says; None where it says nothing, or is not there.
# Folders whose devices have no parent, though one holds the folder: the kernel hangs a bus's devices below its root.
ROOTS = ("system", "virtual")


class Device:
    """A device of a machine: its path below devices/, its parent's path, and what /sys says of its power.

    `is_async` and `runtime_status` are None where nothing tells; `line` is that of a list of devices.
    """

    def __init__(self, path, parent):
        self.path, self.parent = path, parent
        self.name = posixpath.basename(path)  # (a "/" in a name is "!" already in the kernel, so in a trace as in /sys)
        self.is_async = self.runtime_status = self.line = None
        self.may_wake = False
        self.driver = self.subsystem = ""

class Machine:
    """What a tree tells: devices by path, links (supplier, consumer, is_dormant), sources, processors, and notes.

    `maker` is the machine's maker and product; it and `cpus` are None where nothing tells. `has_async_off` says that
    /sys/power/pm_async is 0.
    """

    def __init__(self):
        self.devices, self.links, self.sources, self.cpus, self.notes = {}, [], [], None, []
        self.maker, self.has_async_off = None, False


class Folder:
    """The /sys of this machine, or a copy of it in a folder."""

    def __init__(self, root):
        self.root = root
        if not os.path.isdir(os.path.join(root, "devices")):
            raise CannotError("no folder 'devices', so this is no /sys", root)

    def folders(self):
        """Each folder below devices/, parents first, with the names in it."""
        stack = ["devices"]
        while stack:
            path = stack.pop()
            inside = self.scan(path)
            yield path, {name for name, _ in inside}
            stack += sorted((f"{path}/{name}" for name, is_folder in inside if is_folder), key=natural, reverse=True)

    def scan(self, path):
        try:
            with os.scandir(os.path.join(self.root, path)) as found:
                return [(entry.name, entry.is_dir(follow_symlinks=False)) for entry in found]
        except OSError as fault:
            raise CannotError(reason(fault), os.path.join(self.root, path)) from None

    def names(self, path):
        """The names in a folder; none where it is not there."""
        return sorted(name for name, _ in self.scan(path)) if os.path.isdir(os.path.join(self.root, path)) else []

    def text(self, path):
        """The words of a file; None where it is not there."""
        try:
            with open(os.path.join(self.root, path), "rb") as file:
                return file.read(4096).decode("utf-8", "replace").strip("\0 \n")
        except OSError as fault:
            if fault.errno in NOT_TOLD:
                return None
            raise CannotError(reason(fault), os.path.join(self.root, path)) from None

    def target(self, path):
        """What a symbolic link names; None where there is none."""
        try:
            return os.readlink(os.path.join(self.root, path))
        except OSError as fault:
            if fault.errno in NOT_TOLD:
                return None
            raise CannotError(reason(fault), os.path.join(self.root, path)) from None


class Tar:
    """A copy of /sys in a tar, which is read where it lies."""

    def __init__(self, file):
        self.root, self.inside, self.texts, self.targets = file, {}, {}, {}
        try:
            with tarfile.open(file) as tar:
                for member in tar:
                    self.take(tar, member)
        except (tarfile.TarError, EOFError, OSError, zlib.error, lzma.LZMAError) as fault:
            raise CannotError(f"a tar that cannot be read: {fault}", file) from None
        if "devices" not in self.inside:
            raise CannotError("a tar without a folder 'devices', so this is no /sys", file)

    def take(self, tar, member):
        path = re.sub(r"^(\./|/)*([^/]+/)?(?=devices(/|$)|power/|class/)", "", member.name, count=1).rstrip("/")
        if not path.startswith(("devices", "power/", "class/devlink", "class/wakeup")):
            return
        if member.isdir():
            self.inside.setdefault(path, set())
        folder, name = posixpath.split(path)
        if folder:
            self.inside.setdefault(folder, set()).add(name)
        if member.issym():
            self.targets[path] = member.linkname
        elif member.isfile() and path.endswith(READ):
            self.texts[path] = tar.extractfile(member).read(4096).decode("utf-8", "replace").strip("\0 \n")

    def folders(self):
        inside = [path for path in self.inside if path.split("/")[0] == "devices"]
        yield from ((path, self.inside[path]) for path in sorted(inside, key=natural))

    def names(self, path):
        return sorted(self.inside.get(path, ()))

    def text(self, path):
        return self.texts.get(path)

    def target(self, path):
        return self.targets.get(path)


def natural(path):
    """The order of paths: folders first, numbers by their worth."""
    return [[(int(part), "") if part.isdigit() else (-1, part) for part in re.split(r"(\d+)", name)] for name in path.split("/")]


def parent_of(path, devices):
    """The nearest device whose folder holds that of another one, but for roots of buses, which are no parents."""
    parts = path.split("/")
    for end in range(len(parts) - 1, 0, -1):
        above = "/".join(parts[:end])
        if above in devices:
            return None if end == 2 and parts[0] in ROOTS else above
    return None


def count_of(text):
    """How many processors a list as 0-3,6 has; None where it is no such list."""
    if not text or not re.fullmatch(r"\d+(-\d+)?(,\d+(-\d+)?)*", text):
        return None
    ends = [[int(end) for end in part.split("-")] for part in text.split(",")]
    return sum(part[-1] - part[0] + 1 for part in ends)


def read_device(tree, path, machine):
    """Takes the device of a folder that has a power/."""
    device = Device(path, parent_of(path, machine.devices))
    device.is_async = SWITCH.get(tree.text(f"devices/{path}/power/async"))
    device.may_wake = tree.text(f"devices/{path}/power/wakeup") == "enabled"
    device.runtime_status = tree.text(f"devices/{path}/power/runtime_status") or None
    device.driver = posixpath.basename(tree.target(f"devices/{path}/driver") or "")
    device.subsystem = posixpath.basename(tree.target(f"devices/{path}/subsystem") or "")
    machine.devices[path] = device


def read_link(tree, path, machine):
    """Takes the device link of a folder of class devlink, and gives its supplier and consumer."""
    ends = []
    for end in ("supplier", "consumer"):
        target = tree.target(f"{path}/{end}")
        if target is None:
            raise CannotError(f"{path}/{end} is no symbolic link, which a device link has", tree.root)
        ends.append(posixpath.normpath(posixpath.join(path, target)).partition("devices/")[2])
    if tree.text(f"{path}/sync_state_only") == "1":
        machine.notes.append(f"the link {posixpath.basename(path)} orders nothing (sync_state_only): left out")
    else:
        machine.links.append((*ends, tree.text(f"{path}/status") == "dormant"))
    return tuple(ends)


def read_links(tree, folders, suppliers, machine):
    """Takes the links of folders, and those that a file 'supplier:BUS:NAME' of a consumer alone tells."""
    own = [f"class/devlink/{name}" for name in tree.names("class/devlink")]
    known = {posixpath.basename(folder) for folder in folders}
    folders += [folder for folder in own if posixpath.basename(folder) not in known and tree.target(folder) is None]
    seen = {(posixpath.basename(supplier), consumer) for supplier, consumer in (read_link(tree, folder, machine) for folder in folders)}
    for consumer, words in suppliers:
        bus, _, name = words.partition(":")
        if (name, consumer) in seen:
            continue
        found = [device for device in machine.devices.values() if posixpath.basename(device.path) == name]
        found = [device for device in found if device.subsystem == bus] or found
        if len(found) == 1:
            machine.links.append((found[0].path, consumer, False))
        else:
            machine.notes.append(f"{consumer}/supplier:{words}: {len(found)} devices have that name: left out")


def read_sources(tree, folders):
    """The names of wakeup sources, of folders among devices, and of others in class wakeup."""
    known = {posixpath.basename(folder) for folder in folders}
    others = [f"class/wakeup/{name}" for name in tree.names("class/wakeup") if name not in known]
    names = (tree.text(f"{folder}/name") for folder in [*folders, *others])
    return [name for name in names if name]


def read_tree(tree):
    """The machine that a tree tells."""
    machine, links, sources, suppliers = Machine(), [], [], []
    for folder, inside in tree.folders():
        path = folder.removeprefix("devices").strip("/")
        if re.fullmatch(r"virtual/devlink/[^/]+", path) and "supplier" in inside:
            links.append(folder)
        elif re.fullmatch(r"(.*/)?wakeup/wakeup\d+", path) and "name" in inside:
            sources.append(folder)
        elif "power" in inside and path:
            read_device(tree, path, machine)
            suppliers += [(path, name.removeprefix("supplier:")) for name in sorted(inside) if name.startswith("supplier:")]
    read_links(tree, links, suppliers, machine)
    machine.sources = read_sources(tree, sources)
    machine.cpus = count_of(tree.text("devices/system/cpu/online"))
    machine.has_async_off = tree.text("power/pm_async") == "0"
    if machine.has_async_off:
        machine.notes.append("pm_async is 0: no device is asynchronous")
    made = [tree.text(f"devices/virtual/dmi/id/{name}") for name in ("sys_vendor", "product_name")]
    machine.maker = " ".join(part for part in made if part) or None
    return machine


def read_list(file, data):
    """The machine of a list: a line a device folder, with async= and wakeup=, and runtime= if known."""
    machine, found = Machine(), {}
    for line, text in enumerate(data.decode("utf-8", "replace").splitlines(), 1):
        if not text.strip() or text.startswith("#"):
            continue
        listed = LISTED.fullmatch(text.strip())
        if listed is None:
            raise CannotError(f"no folder of a device: {text[:80]!r}", file, line)
        found[listed["path"].rstrip("/")] = line, listed
    for path in sorted(found, key=natural):
        line, listed = found[path]
        device = machine.devices[path] = Device(path, parent_of(path, machine.devices))
        device.line, device.is_async = line, SWITCH.get(listed["async"])
        device.may_wake, device.runtime_status = listed["wakeup"] == "enabled", listed["runtime"] or None
    return machine


def read_machine(file):
    """The machine of a folder, a tar, or a list. Raises CannotError."""
    if os.path.isdir(file):
        machine = read_tree(Folder(file))
    elif str(file) != "-" and os.path.isfile(file) and is_tar(file):
        machine = read_tree(Tar(file))
    else:
        machine = read_list(file, text_bytes(file))
    if not machine.devices:
        raise CannotError("no device with a folder 'power'", file)
    return machine


def is_tar(file):
    """Whether a file is a tar, packed or not."""
    try:
        return os.path.getsize(file) > 0 and tarfile.is_tarfile(file)
    except (OSError, EOFError, zlib.error, lzma.LZMAError):
        return False


def text_bytes(file, may_be_empty=False):
    """The bytes of a file of text. Raises CannotError where they are none."""
    data = read_bytes(file)
    if b"\0" in data:
        raise CannotError("a binary file, where text is meant", file, data.count(b"\n", 0, data.index(b"\0")) + 1)
    if not data.strip() and not may_be_empty:
        raise CannotError("is empty", file)
    return data
