"""A second writing of a log of suspend-to-idle, from the rules alone.

Wakers make a hard event and then a wake, in turn; the idler begins a session, looks and enters or ends the session, and
leaves where a waker has called it. `judge` says what is wrong with a text; `legal_steps` lists what may come next.
Nothing here knows the program.
"""

IDLE, ENTER, WAKE = "idle", "enter", "wake"
IDLER_WORDS = ("begin", "try ok", "try busy", "leave")


class Broken(Exception):
    """The text is no log."""


class Session:
    """Where wakers and idler stand after some lines."""

    def __init__(self, wakers, events, sessions):
        self.events, self.sessions = events, sessions
        self.state, self.begun, self.hard = IDLE, 0, 0
        self.begun_at = None  # the hard events before the begin of the open session
        self.steps = [0] * wakers  # a hard event and a wake in turn, each a step
        self.since = [0] * wakers  # hard events of each since the last begin

    def legal_steps(self):
        """Every step that may come next, as who (None for the idler) and what."""
        for who, made in enumerate(self.steps):
            if made < 2 * self.events:
                yield who, "wake" if made % 2 else "hard"
        if self.state == WAKE:
            yield None, "leave"
        elif self.state == IDLE and self.begun_at is not None:
            yield None, "try ok" if self.begun_at == self.hard else "try busy"
        elif self.state == IDLE and self.begun < self.sessions:
            yield None, "begin"

    def make(self, who, what):
        if (who, what) not in self.legal_steps():
            raise Broken(f"{what} is not legal here")
        if who is None:
            self.make_idler(what)
        else:
            self.make_waker(who, what)
        if self.state == ENTER:
            self.lose_none()

    def make_waker(self, who, what):
        self.steps[who] += 1
        if what == "hard":
            self.hard += 1
            self.since[who] += 1
        elif self.state == ENTER:
            self.state = WAKE

    def make_idler(self, what):
        if what == "begin":
            self.begun += 1
            self.begun_at = self.hard
            self.since = [0] * len(self.since)
        elif what == "try ok":
            self.state = ENTER
        elif what == "try busy":
            self.begun_at = None
        else:
            self.state = IDLE

    def lose_none(self):
        """The law: in idle, each waker with a hard event since the begin has still to make its wake."""
        for who, since in enumerate(self.since):
            if since and self.steps[who] % 2 == 0:
                raise Broken(f"the wakeup of waker {who} is lost")

    def end(self):
        """What the last line has to be; None where more is to come."""
        if any(True for _ in self.legal_steps()):
            return None
        if self.state == ENTER and any(self.since):
            raise Broken("a hard event sleeps")
        return "end idle" if self.state == ENTER else "end over"


def line_of(session, who, what):
    name = "idle" if who is None else f"waker:{who}"
    return f"{session.hard} {name} {what}"


def step_of(session, line):
    hard, _, rest = line.partition(" ")
    name, _, what = rest.partition(" ")
    if hard != str(session.hard):
        raise Broken(f"{line}: {session.hard} hard events stand before it")
    if name == "idle" and what in IDLER_WORDS:
        return None, what
    kind, _, number = name.partition(":")
    if kind == "waker" and number.isdecimal() and what in ("hard", "wake"):
        return int(number), what
    raise Broken(f"{line}: no line of such a log")


def judge(text, wakers, events, sessions):
    """Raises Broken where the text is not one whole log."""
    *lines, last = text.rstrip("\n").split("\n")
    session = Session(wakers, events, sessions)
    for line in lines:
        session.make(*step_of(session, line))
    end = session.end()
    if last != end:
        raise Broken(f"{last}: it should be {end}")


def text_by_rounds(wakers, events, sessions):
    """The one log of one worker: rounds over the wakers and the idler, a step each."""
    session, lines = Session(wakers, events, sessions), []
    while session.end() is None:
        for who in [*range(wakers), None]:
            for step in [step for step in session.legal_steps() if step[0] == who]:
                lines.append(line_of(session, *step))
                session.make(*step)
    return "\n".join([*lines, session.end()]) + "\n"
