"""A machine as a term: the value that its file spells."""

from maintain.worked.terms import codes, inner, listed, number_of, optional, phase, truth, whole

TASKS = {"user": "User", "kthread": "Kthread", "nofreeze": "NoFreeze", "irq": "Irq"}
# What the platform does as an attempt goes down.
DOWNS = {"begin": "Begin", "prepare": "Prepare", "prepare_late": "PrepareLate"}


class Machine:
    """A machine file, and the places of its names."""

    def __init__(self, tree):
        self.tree = tree
        self.devices = self.names("devices")
        self.notifiers = self.names("notifiers")
        self.actors = self.names("actors")
        self.syscore = tree.get("syscore", [])
        self.sources = tree.get("sources", []) + ["autosleep"]
        self.marks = []
        for actor in tree.get("actors", []):
            for step in actor.get("script", []):
                if "mark" in step and step["mark"] not in self.marks:
                    self.marks.append(step["mark"])

    def names(self, member):
        """The names of one of its lists, in their order."""
        return [thing["name"] for thing in self.tree.get(member, [])]

    def actor(self, text):
        """Who makes an entry."""
        if text in ("auto", "time"):
            return f"actor.{text.capitalize()}"
        kind, name = text.split(":")
        variant, names = {
            "task": ("Script", self.actors),
            "irq": ("Script", self.actors),
            "dev": ("Dev", self.devices),
            "timer": ("Timer", self.sources),
        }[kind]
        return f"(actor.{variant} {names.index(name)})"

    def device_term(self, given):
        """A device, with its parent's number and its flags."""
        parent = self.devices.index(given["parent"]) if "parent" in given else None
        flags = given.get("async", False) + 2 * given.get("wakeup", False) + 4 * (given.get("runtime") == "suspended")
        return f"device ({codes(given['name'])}) {optional(parent)} {flags}"

    def link_term(self, given):
        """A link, which is active or dormant."""
        word = "link" if given.get("state", "active") == "active" else "dormant"
        return f"{word} {self.ends(given)}"

    def ends(self, given):
        """The numbers of a link's supplier and of its consumer."""
        return f"{self.devices.index(given['supplier'])} {self.devices.index(given['consumer'])}"

    @staticmethod
    def notifier_term(given):
        """A notifier and its priority."""
        return f"notifier ({codes(given['name'])}) {whole(given.get('priority', 0))}"

    def operation(self, given):
        """An operation of a script."""
        name = given["op"]
        if name == "save":
            return f"(op.Save {optional(given.get('count'))})"
        if name == "state":
            return f"(op.State ({codes(given['text'])}) {truth(given.get('if_saved', False))})"
        if name == "autosleep":
            return f"(op.Autosleep ({codes(given['text'])}))"
        if name in ("sleep", "sleep_d"):
            return f"(op.{'Sleep' if name == 'sleep' else 'SleepD'} {given['ms']})"
        if name in ("post", "wait"):
            return f"(op.{name.capitalize()} {self.marks.index(given['mark'])})"
        if name == "runtime":
            return f"(op.Runtime {self.devices.index(given['device'])} {truth(given['to'] == 'suspended')})"
        if name == "link":
            return f"(op.Link {self.ends(given)})"
        if name == "link_state":
            return f"(op.LinkState {self.ends(given)} {truth(given['to'] == 'active')})"
        if name in ("awake", "relax"):
            return f"(op.{name.capitalize()} {self.sources.index(given['source'])})"
        if name == "event":
            hard = truth(given.get("hard", False))
            return f"(op.Event {self.sources.index(given['source'])} {given.get('ms', 0)} {hard})"
        return {"read": "op.Read", "freeze_point": "op.FreezePoint"}[name]

    def step_term(self, given):
        """A step of a script: an operation, once or more often."""
        times = given.get("times", 1)
        return f"once {self.operation(given)}" if times == 1 else f"times {times} {self.operation(given)}"

    def script_term(self, given):
        """A script of a task or an interrupt line."""
        steps = inner([self.step_term(step) for step in given.get("script", [])])
        return f"script ({codes(given['name'])}) task.{TASKS[given['kind']]} {given.get('repeat', 1)} {steps}"

    def thing(self, given):
        """What an answer is of."""
        name = given["name"]
        if given["what"] == "device":
            return f"(what.Device {self.devices.index(name)} {phase(given['phase'])})"
        if given["what"] == "syscore":
            return f"(what.Syscore {self.syscore.index(name)})"
        if given["what"] == "notifier":
            return f"(what.Notifier {self.notifiers.index(name)})"
        return f"(what.Platform down.{DOWNS[name]})"

    def report_term(self, given):
        """A report that a callback makes."""
        made = {
            "awake": "call.Awake",
            "relax": "call.Relax",
            "event": f"(call.Event {given.get('ms', 0)} {truth(given.get('hard', False))})",
        }[given["call"]]
        return f"report {self.sources.index(given['source'])} {made}"

    def answer_term(self, given):
        """What a callback, a notifier, a syscore step or the platform answers."""
        reports = inner([self.report_term(report) for report in given.get("reports", [])])
        ret = number_of(str(given.get("ret", 0)))
        return f"answer {self.thing(given)} {optional(given.get('attempt'))} {ret} {reports}"

    def term(self):
        """The machine as a change of the empty_machine one."""
        tree = self.tree
        members = [f"{name} = {tree[name]}" for name in ("alarm_ms", "cpus", "auto_cycles") if name in tree]
        for name, term in [("devices", self.device_term), ("links", self.link_term)]:
            members += self.member(name, [term(given) for given in tree.get(name, [])])
        members += self.member("syscore", [codes(name) for name in self.syscore])
        members += self.member("notifiers", [self.notifier_term(given) for given in tree.get("notifiers", [])])
        members += self.member("sources", [codes(name) for name in self.sources[:-1]])
        members += self.member("marks", [codes(name) for name in self.marks])
        members += self.member("actors", [self.script_term(given) for given in tree.get("actors", [])])
        members += self.member("answers", [self.answer_term(given) for given in tree.get("answers", [])])
        if not members:
            return "empty_machine"
        return "record empty_machine {\n" + "".join(f"  {member};\n" for member in members) + "}"

    @staticmethod
    def member(name, items):
        """One of its lists as a member of a term; none where it is empty."""
        return [f"{name} = {listed(items)}".replace("= \n", "=\n")] if items else []
