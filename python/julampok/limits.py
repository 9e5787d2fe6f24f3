"""The numbers of the rules, each once for all tools."""

VISIBLE = 1 << 24  # The count that a task sees starts again at 0 here.
WORD = (1 << 32) - 1  # The greatest number that a save writes.
MOST_ENTRIES = 60_000  # The entries that a source has room for; a call needs four of them.

FREEZE_MS = 20_000  # The time after which a freeze gives up.
NAP_MS = 500  # The nap of the autosleep work after an attempt that saw no event.
LONGEST_MS = 86_400_000  # The longest sleep, event, alarm and timeout.
ALARM_MS = 1000  # The alarm of a machine whose file names none.
AUTO_CYCLES = 16  # The rounds of the autosleep work of a machine whose file names none.

# The members of a machine file that are lists, in the file's order, and how long each may be.
MOST = {"devices": 1000, "links": 4000, "syscore": 32, "notifiers": 32, "sources": 255, "actors": 256, "answers": 10_000}
MOST_CPUS = 64
MOST_OF_ONE = 16  # The reports of one answer.
MOST_REPORTS = 10_000  # The reports of all answers together.
MOST_TIMES = 20_000  # The most times that an operation is made.
MOST_STEPS = 200_000  # The steps of all scripts together.
MOST_LINKS = 4000  # The links of a file and of its scripts together.
MOST_SEEN = 100_000  # Attempts times the devices and 50.

MOST_INPUT = 1 << 24  # The bytes of a machine file, and of the lines of named locks.
MOST_LOCKS = 100  # The names that are known to them.

# The errors that a log may name, each with Linux's number; a file's answers may name five of them.
ERRORS = {"EINTR": 4, "EIO": 5, "EAGAIN": 11, "EACCES": 13, "EBUSY": 16, "ENODEV": 19, "EINVAL": 22}
ANSWERED = ["EIO", "EAGAIN", "EBUSY", "ENODEV", "EINVAL"]  # Prepare answers no EAGAIN.
