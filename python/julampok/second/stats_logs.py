"""Logs whose statistics are known: two worked ones, and random ones, half of them broken."""

from .maker import Maker
from .run import Run
from .stats import BadLinks, stats
from .things import SourceFull

NONE = ["success", "fail", "failed_freeze", "failed_prepare", "failed_suspend", "failed_suspend_late"]
NONE += ["failed_suspend_noirq", "failed_resume", "failed_resume_early", "failed_resume_noirq"]
MEM = [{"name": "w", "kind": "user", "script": [{"op": "state", "text": "mem"}]}]
# Machines and what their logs tell, besides the counts that are 0.
WORKED = [
    (
        {
            "version": 1,
            "devices": [{"name": "p"}, {"name": "c", "parent": "p"}, {"name": "g", "parent": "c"}],
            "actors": MEM,
            "answers": [{"what": "device", "name": "c", "phase": "noirq", "ret": "EIO"}],
        },
        {"fail": 1, "failed_suspend_noirq": 1},
        ["last_failed_dev c noirq EIO", "last_failed_errno EIO", "chain 3 p c g", "level p 1", "level c 2", "level g 3"],
    ),
    (
        {
            "version": 1,
            "devices": [
                {"name": "bus"}, {"name": "usb", "parent": "bus"}, {"name": "cam", "parent": "usb"}, {"name": "gpio"}, {"name": "clk"},
            ],
            "links": [{"supplier": "gpio", "consumer": "usb"}, {"supplier": "clk", "consumer": "gpio"}],
            "actors": MEM,
        },
        {"success": 1},
        ["chain 4 clk gpio usb cam", "level bus 1", "level usb 3", "level cam 4", "level gpio 2", "level clk 1"],
    ),
]


def told(counts, lines):
    """The text of these counts, the others 0, and of these lines."""
    return "".join(f"{line}\n" for line in [f"{name} {counts.get(name, 0)}" for name in NONE] + lines)


class Logs(Maker):
    """Random machines and their logs, half of them broken."""

    DEVICES = [0, 1, 2, 4, 6, 8]

    def spoil(self, log, tree):
        """The log with a line taken out, moved or written twice, or with an entry of a link more."""
        lines = log.splitlines(keepends=True)
        names = [device["name"] for device in tree.get("devices", [])]
        for _ in range(self.pick([1, 1, 2, 5])):
            ends = [place for place, line in enumerate(lines) if line[0].isdigit()]
            if not ends:
                break
            place = self.pick(ends)
            line = lines[place] if self.often(0.5) else lines.pop(place)
            if names and self.often(0.5):
                front = " ".join(line.split(" ")[:3])
                pair = f"{self.pick(names)} {self.pick(names)}"
                line = front + self.pick([f" link {pair} 0\n", f" link_state {pair} {self.pick(['active', 'dormant'])} 0\n"])
            lines.insert(self.dice.randint(0, place), line)
        return "".join(lines)

    def pair(self):
        """A machine, and a log of it; none where a source is filled."""
        tree = self.machine()
        try:
            log, _ = Run(tree).run()
        except SourceFull:
            return tree, None
        return tree, self.spoil(log, tree) if self.often(0.5) else log


def expected(tree, log):
    """The status, the output and what is said on standard error."""
    try:
        return 0, stats(tree, log), ""
    except BadLinks as bad:
        return 3, "", f"log: {bad}\n"


def longest_by_all(chains):
    """The length of the longest chain, by looking at all chains."""
    below = {name: [other for other in chains.names if name in chains.above(other)] for name in chains.names}

    def behind(name):
        return 1 + max((behind(other) for other in below[name]), default=0)

    return max((behind(name) for name in chains.names), default=0)
