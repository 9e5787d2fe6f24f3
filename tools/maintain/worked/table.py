"""The worked logs: which there are, in which module each stands, and what it shows."""

# The subjects: each a module of specs/ of law_trials where laws take a log of it, and what it says at its head.
MODULES = {
    "Attempts": "Whole logs of attempts that sleep, and of attempts that a wakeup ends.",
    "Failures": "Whole logs of attempts in which a callback, a notifier or the platform fails.",
    "Devices": "Whole logs of devices with links, of asynchronous devices, and of runtime status.",
    "Links": "Whole logs of links that are added, that are dormant, and that are refused.",
    "Freezing": "Whole logs of the freezer.",
    "Counts": "Whole logs of reads and saves of the count, and of writes to the state.",
    "Timers": "Whole logs of events with a length.",
    "Autosleep": "Whole logs of the autosleep work.",
    "Laptop": "The whole log of a laptop of sixty devices, forty of them asynchronous.",
}

# Each log: its module, its name, and what it shows.
LOGS = [
    ("Attempts", "nothing", "A machine with nothing in it."),
    ("Attempts", "smallest_attempt", "An attempt of a machine without devices, under a saved count."),
    ("Attempts", "parent_and_child", "An attempt of a parent and its child that nothing disturbs."),
    ("Attempts", "three_generations", "An attempt of a device, its child and its grandchild."),
    ("Attempts", "event_after_save", "An event after the save: the attempt is given up before a device suspends."),
    ("Attempts", "event_stops_syscore", "An event after the save, and no devices: the last test before the syscore steps finds it."),
    ("Attempts", "event_stops_a_device", "An event while the first of two devices suspends: the second is skipped, and a second attempt sleeps."),
    ("Attempts", "event_stops_a_processor", "An event after the first processor is off: the second stays on."),
    ("Attempts", "event_in_progress", "A source that stays active while a second event comes: the attempt is given up."),
    ("Attempts", "hard_event", "A hard event gives up an attempt without a saved count; the next attempt forgets it and sleeps."),
    ("Attempts", "callback_reports", "A device's own suspend reports an event: its parent is skipped."),
    ("Attempts", "event_wakes", "An interrupt line wakes the sleeping machine before its alarm."),
    ("Failures", "callback_fails_in_noirq", "The middle one of three generations fails in the noirq phase: what was suspended resumes."),
    ("Failures", "prepare_fails", "The middle one of three generations fails to prepare."),
    ("Failures", "asynchronous_callback_fails", "An asynchronous child fails to suspend: its parent is not taken."),
    ("Failures", "syscore_step_fails", "The second of three syscore steps fails: the one before it resumes."),
    ("Failures", "platform_begin_fails", "The platform fails to begin: it is ended, and no device is prepared."),
    ("Failures", "platform_prepare_late_fails", "The platform fails in its last preparation: no processor and no interrupt is turned off."),
    ("Failures", "notifier_fails", "A notifier fails: the one before it hears of that, and nothing is frozen."),
    ("Devices", "first_link", "A camera on a bus whose port needs a line."),
    ("Devices", "two_links", "The same, if the line needs a clock."),
    ("Devices", "asynchronous_child", "An asynchronous child of a synchronous parent."),
    ("Devices", "direct_complete", "Three generations that are runtime suspended and stay so."),
    ("Devices", "wakeup_is_not_direct", "The same, where the lowest one may wake the machine: no callback is left out."),
    ("Devices", "suspended_before_the_attempt", "A device that a task suspends at run time before the attempt, and that stays so."),
    ("Devices", "runtime_requests", "Requests at run time while the device is prepared, and after its late suspend began."),
    ("Links", "link_added", "A task links two devices and then sleeps: the supplier is prepared first, and suspends last."),
    ("Links", "dormant_link", "A link that is dormant: the asynchronous consumer and its supplier suspend beside one another."),
    ("Links", "active_link", "The same link, active: the supplier waits for its consumer."),
    ("Links", "links_in_an_attempt", "Links that a task would change while an attempt is open: both are refused."),
    ("Links", "links_without_an_attempt", "The same changes without an attempt."),
    ("Freezing", "freeze_times_out", "A task that sleeps uninterruptibly: freezing gives up, first by its time and then by an event."),
    ("Freezing", "kernel_freeze_times_out", "A kernel thread that sleeps uninterruptibly: freezing gives up, and all are let go."),
    ("Freezing", "read_interrupted", "A read that waits is interrupted as its task is asked to freeze."),
    ("Freezing", "save_interrupted", "A save that waits for another's attempt is interrupted as its task is asked to freeze."),
    ("Counts", "event_before_save", "An event between the read and the save: the save fails, and the state is not written."),
    ("Counts", "event_before_plain_attempt", "An event between the read and the save: the save fails, and a plain attempt sleeps."),
    ("Counts", "read_waits", "A read waits until the event in progress ends."),
    ("Counts", "stuck_read", "A read waits for ever for the end of an event."),
    ("Counts", "stuck_mark", "A task waits for ever for a mark that nobody raises."),
    ("Counts", "state_texts", "A text that is no state, and one with a line's end."),
    ("Counts", "state_unsaved", "A save of a wrong number, and a write that needs a save that was ok."),
    ("Counts", "sleep_alone", "A task that sleeps for five ms."),
    ("Counts", "calls_of_a_line", "A task that raises a mark, and an interrupt line that makes two calls on a source."),
    ("Timers", "event_expires", "Events of several lengths on one source: the latest end counts."),
    ("Timers", "event_stays_active", "The run ends while the source is still active."),
    ("Autosleep", "autosleep", "Autosleep is turned on, sleeps once, and is turned off."),
    ("Autosleep", "autosleep_of_no_state", "A text that autosleep refuses."),
    ("Autosleep", "autosleep_of_two_lines", "A text of autosleep with something after its first line."),
    ("Laptop", "laptop", "A laptop with its links, four processors and five scripts sleeps once and is woken by its lid."),
]

# The logs by which laws are tried, in the crate law_trials; those of which they take no more than the machine and the entries;
# and those of which they take the machine alone.
LAWS = ["event_stops_a_device", "hard_event", "callback_reports", "read_waits", "calls_of_a_line", "event_expires", "autosleep"]
ENTRIES = ["link_added", "runtime_requests"]
MACHINES = ["smallest_attempt", "parent_and_child", "asynchronous_callback_fails", "first_link", "two_links"]
