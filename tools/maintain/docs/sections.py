"""What the pages of definitions have: their heads, what to read in which order, and a section for each subject."""

HEAD = """# Definitions

What sleep is, in the words that contracts use. Each definition stands in a crate's `specs/`, with one
comment line. They speak of one list of entries, looking backward: `past` is the entries before a place,
the newest first. The code keeps words, flags, cursors and counters instead, and the proofs say that both
agree.

The last column names the function or field of Linux 6.1 that a definition states; "own" means that
the kernel has none. `tools/dev docs` writes this page from the comment lines.

## What a reader has to trust

Whoever believes these, with the definitions that they cite, knows what the headline says. They stand here in
reading order, from "the program wrote a legal log" down to the rule that decides an entry. The sections after have
every definition that the headline's clauses come to, then those of the laws of sleep, of the rules of a log, of the merge
and of running threads. What no promise comes to, as invariants and the steps of proofs, is in the crates' `specs/` and not
here. The checker's account and the tree of devices have [a page of their own](DEFINITIONS_ASIDE.md).
"""

ASIDE_HEAD = """# Definitions aside

No clause of the program comes to these, so nobody has to trust them to believe what the program promises. The first sections
are of the checker's account, by which `check` judges a log; the last is of the tree in which the reader of machine files
registers devices, and of requests for a runtime status. The tables are as on
[the page of the program's definitions](DEFINITIONS.md), and `tools/dev docs` writes both.
"""

# What to read, in order: a question, and the definitions that answer it, each with its crate and module.
READING = [
    (
        "What does a status of the program mean?",
        [
            ("sleep_commands", "Endings", ["Ended"]),
            ("run_commands", "Endings", ["RunEnded", "RanFile"]),
            ("sleep_commands", "Endings", ["Completes"]),
            ("program_ending", "Endings", ["status_of", "text_of"]),
        ],
    ),
    ("What is a run?", [("machine_rounds", "Runs", ["IsRun", "MayFillSource"])]),
    ("Which machine do these bytes spell?", [("file_rules", "Whole", ["machine_in", "SpellsWhole", "first_broken", "rule"])]),
    (
        "When is a log legal, and at its end?",
        [
            (
                "sleep_model",
                "Legal",
                [
                    "IsLegalLog", "IsLegal", "JournalPart", "JournalStep", "SourcePart", "JointStep", "AreNumbered", "JumpStep",
                    "IsFinishedLog", "IsStuckLog", "is_enabled",
                ],
            ),
        ],
    ),
    (
        "Which entry is due of an actor?",
        [
            ("sleep_model", "Due", ["due", "own_due", "script_due"]),
            ("sleep_model", "Steps", ["position_due", "step_due", "read_due", "save_due", "state_due"]),
            ("sleep_model", "Autosleep", ["auto_due"]),
            ("sleep_model", "Attempt", ["attempt_due", "stage_due"]),
        ],
    ),
    ("Which stage follows, and where does a failure lead?", [("sleep_model", "Table", ["row", "stage_after", "after_done"])]),
    (
        "What do devices do?",
        [
            ("sleep_model", "PhaseStates", ["phase_states", "phase_state_after"]),
            ("sleep_model", "Devices", ["down_due", "taken", "up_due", "device_due", "is_direct_now", "phase_error"]),
            ("sleep_model", "Order", ["order", "below", "above"]),
        ],
    ),
    (
        "What counts as a wakeup?",
        [
            ("sleep_model", "Numbers", ["numbers"]),
            ("sleep_model", "Guard", ["in_force", "pending", "forgotten"]),
            ("sleep_model", "Sources", ["makes", "SourceStep", "expiry"]),
        ],
    ),
    ("Who freezes?", [("sleep_model", "Freezer", ["freezings", "left"])]),
    (
        "What does every legal log keep?",
        [
            (
                "sleep_model",
                "Laws",
                [
                    "Laws", "LawsAt", "DependentsFirst", "SuppliersFirst", "Restored", "Owed", "TakenOnce", "NotOwedAlready",
                    "EntersDown", "UndisturbedEnters", "AnswersFailure", "FoundPending", "InOrder", "GuardedSleep",
                ],
            ),
        ],
    ),
    (
        "When does `check` say legal, and of which line does it speak else?",
        [
            ("log_commands", "Judging", ["IsJudged", "IsVerdictOf"]),
            ("log_check", "Verdicts", ["IsVerdict"]),
            ("rule_definitions", "Verdict", ["IsGood", "IsFirstBad"]),
        ],
    ),
    ("How is a log written?", [("sleep_model", "Text", ["text", "entry_line", "body"])]),
    (
        "What does suspend-to-idle promise?",
        [("idle_loop", "IdleLogs", ["IsIdleRun", "IsIdleLog", "MayMake", "IsOver", "NoneIsLost"])],
    ),
    (
        "What do threads promise?",
        [
            ("run_world", "Outcomes", ["AfterReport", "AfterCoreTurn"]),
            ("run_world", "Bursts", ["IsBurst"]),
            ("running_laws", "Serial", ["IsSerial"]),
            ("running_laws", "Preservation", ["BurstsGoOn"]),
        ],
    ),
]

# The rules of a log, each by itself, in reading order.
RULES = "Questions Numbers Attempts Reads Walk Skip Runtime Owed Freezer Path Answers Restored Steps Enabled Source Links All Entry Verdict Law".split()

# A section: its crate, its title, what of the kernel it is about, and its modules.
SECTIONS = [
    ("sleep_model", "The event word", "`drivers/base/power/wakeup.c`", ["Word", "Numbers"]),
    ("sleep_model", "Wakeup sources", "`drivers/base/power/wakeup.c`", ["EntryClasses", "Sources"]),
    ("sleep_model", "What callbacks answer", "`include/linux/pm.h`", ["Answers"]),
    ("sleep_model", "The saved count and pending wakeups", "`drivers/base/power/wakeup.c`", ["Guard"]),
    ("sleep_model", "The machine that a file may spell", "`drivers/base/core.c`", ["Accepted"]),
    ("sleep_model", "Scripts", "own", ["Scripts", "Positions", "Calls", "Marks"]),
    ("sleep_model", "The freezer", "`kernel/power/process.c`, `kernel/freezer.c`", ["Freezer"]),
    ("sleep_model", "The autosleep lock", "`kernel/power/autosleep.c`", ["Lock"]),
    ("sleep_model", "The autosleep work", "`kernel/power/autosleep.c`", ["Autosleep"]),
    ("sleep_model", "Runtime status", "`drivers/base/power/runtime.c`", ["Runtime"]),
    ("sleep_model", "The order of devices", "`drivers/base/power/main.c`, `drivers/base/core.c`", ["Order", "Links"]),
    ("phase_table", "The ten phases", "`drivers/base/power/main.c`", ["Phases"]),
    ("sleep_model", "Where devices stand", "`drivers/base/power/main.c`", ["Walk", "PhaseStates"]),
    ("sleep_model", "The phases of devices", "`drivers/base/power/main.c`", ["Devices"]),
    (
        "sleep_model",
        "Notifiers, processors, interrupts, the core and the platform",
        "`kernel/power/suspend.c`, `drivers/base/syscore.c`, `kernel/cpu.c`",
        ["Notifiers"],
    ),
    ("sleep_model", "The table of an attempt", "`kernel/power/suspend.c`", ["Table"]),
    ("sleep_model", "An attempt, stage by stage", "`kernel/power/suspend.c`", ["Path", "Attempt"]),
    ("sleep_model", "What a task does next", "`kernel/power/main.c`", ["Tasks", "Steps"]),
    ("sleep_model", "What is due", "own", ["Due"]),
    ("sleep_model", "Legal logs", "own", ["Legal"]),
    ("sleep_model", "The laws of sleep", "`drivers/base/power/main.c`, `kernel/power/suspend.c`", ["Laws"]),
    ("sleep_laws", "What the laws are proved of", "own", ["Laws", "Linked", "Ends"]),
    ("end_laws", "How logs end", "`kernel/power/suspend.c`, `drivers/base/power/wakeup.c`", ["Waking", "Moments", "Attempts", "Bounds", "Makers"]),
    ("rule_definitions", "The rules of a log, each by itself", "`kernel/power/suspend.c`, `drivers/base/power/main.c`", RULES),
    ("sleep_model", "The one log of separate histories", "own", ["Merge"]),
    ("sleep_model", "Which logs can be written, and how many places a source needs", "own", ["Fits", "Places"]),
    ("sleep_model", "The text of a log", "own", ["NameBytes", "Text"]),
    (
        "sleep_base",
        "The outside",
        "`include/uapi/asm-generic/errno-base.h`, for errors; the rest is own",
        ["Errno", "Digits", "Cutting", "Faults", "Calls", "Streams", "Whole"],
    ),
    (
        "file_rules",
        "Accepted bytes: the first broken rule, and the machine that is spelled",
        "`include/linux/pm.h`, `drivers/base/core.c`; most is own",
        [
            "Whole", "Members", "Places", "Form", "Names", "Devices", "Operations", "Answering", "Limits", "Tree", "Rules",
            "Spelled",
        ],
    ),
    ("borrowed_json", "One value, and what stands at a name of it", "own", ["Look"]),
    ("machine_file", "How a machine is written", "own", ["Spelling"]),
    ("sleep_script", "Generated machines", "own", ["Generated"]),
    ("command_line", "The words of the command line", "own", ["Words"]),
    ("log_text", "The grammar of a log, and its first bad line", "own", ["Grammar"]),
    ("machine_rounds", "A whole run", "own", ["Runs"]),
    ("wake_locks", "Named locks", "`kernel/power/wakelock.c`", ["LockStatuses", "Texts", "Locks", "Writes", "Expiries", "Counted"]),
    (
        "lock_commands",
        "The command `locks`",
        "`kernel/power/wakelock.c`",
        ["Lines", "Verbs", "Steps", "Answers", "TextAnswers", "Command", "Endings"],
    ),
    ("wakeup_source", "What a call adds to a source", "`drivers/base/power/wakeup.c`", ["SourceStates", "Shown"]),
    ("device_links", "Links as they stand", "`drivers/base/core.c`", ["Linked", "Invariant"]),
    ("device_chain", "The longest chain of devices", "`drivers/base/power/main.c`", ["Chains"]),
    ("sleep_stats", "What a log counts, and the links at its end", "`include/linux/suspend.h`, `drivers/base/core.c`", ["Counting", "Linked"]),
    ("log_commands", "The command `stats`", "`kernel/power/main.c`", ["Input", "Taking", "Telling", "Stats"]),
    ("log_check", "The verdict on a log", "own", ["Verdicts"]),
    ("log_commands", "The command `check`", "own", ["Judging", "Endings"]),
    ("program_ending", "Statuses and their texts, and what was read and written", "own", ["Endings", "Streams", "CommandEndings", "Texts"]),
    ("idle_gate", "The idler's gate", "`kernel/power/suspend.c`", ["Gates"]),
    ("idle_loop", "Suspend-to-idle", "`kernel/power/suspend.c`", ["IdleLogs", "Laws", "Merging"]),
    ("idle_commands", "The command `idle`", "own", ["Lines", "Endings"]),
    ("run_commands", "The commands `run`, `gen` and `soak`", "own", ["Endings", "Counting"]),
    ("sleep_commands", "How the program ends", "own", ["Endings"]),
    ("sleep_pool", "Jobs that are lent to workers", "own", ["Turns"]),
    ("turn_lock", "Locks in one table", "own", ["Bookings", "Passes"]),
    ("run_laws", "What the passes of a burst made", "own", ["Passes"]),
    ("run_world", "The world of a burst, its tasks, and what it came to", "own", ["Objects", "Roots", "Outcomes", "Calling", "Acts", "Bursts"]),
    ("world_workers", "A worker of a burst, and what goes into it", "own", ["Tries", "Workers", "Bursts"]),
    ("running_laws", "A burst as acts in an order", "own", ["Courses", "Serial", "Preservation"]),
]

# What the two clauses of the program name.
PROGRAM = [
    ("sleep_commands", "Endings", ["Ended", "Completes"]),
    ("program_ending", "Streams", ["Says", "stream", "streams"]),
    ("program_ending", "Endings", ["status_of", "text_of"]),
    ("command_line", "Words", ["command_of"]),
]

# What the other promises name: the laws of sleep, the rules, the machine that is accepted, the one log, suspend-to-idle, threads.
PROMISED = [
    ("sleep_model", "Laws", ["Laws", "GuardedSleep"]),
    ("sleep_laws", "Laws", ["HoldsOfAll", "HoldsAtEntries", "HoldsOfJournals"]),
    ("sleep_laws", "Linked", ["LinksStay", "AllInOrder"]),
    ("sleep_laws", "Ends", ["IdleMeansClosed", "AllEndClosed"]),
    ("end_laws", "Waking", ["EventsWakeFirst", "TimeGoesForward"]),
    ("end_laws", "Moments", ["NextMomentsLieAhead", "JumpsWake"]),
    ("end_laws", "Attempts", ["AttemptsEnd", "AttemptsAreShort"]),
    ("end_laws", "Bounds", ["JournalsAreBounded", "LogsAreBounded", "AllLogsAreBounded"]),
    ("end_laws", "Makers", ["MakersDetermineEntries", "MakersDetermineLogs"]),
    ("rule_definitions", "Entry", ["OneForLists", "OneForEntries", "LegalKeepsRules", "LegalLogKeepsRules"]),
    ("rule_definitions", "Law", ["OneForAll", "OneForScripts", "OneForWork", "OneForDevices", "OneForMakers", "OwedFollows"]),
    ("rule_definitions", "Verdict", ["GoodHasNone", "FirstBadIsOne"]),
    ("sleep_model", "Accepted", ["IsAccepted"]),
    ("sleep_model", "Merge", ["merge", "rises", "IsFit"]),
    ("machine_file", "Spelling", ["AllReadBack"]),
    ("lock_commands", "TextAnswers", ["AgreeAfter"]),
    ("idle_loop", "Laws", ["LosesNone", "SleepsOverNone"]),
    ("idle_loop", "Merging", ["Merges", "IdleMergesToLegal"]),
    ("sleep_pool", "Turns", ["AllWent", "Went", "FirstsWent", "PartsEnded", "OfParts", "GoesRound", "part_size"]),
    ("turn_lock", "Passes", ["Holds", "gained", "made_of", "number_of", "had_by"]),
    ("run_laws", "Passes", ["LogSaysWho"]),
    ("run_world", "Outcomes", ["AfterReport", "AfterCoreTurn"]),
    ("run_world", "Objects", ["IsWorldPass"]),
    ("run_world", "Bursts", ["IsBurst"]),
    ("world_workers", "Bursts", ["HaveTurned", "AreReady"]),
    ("running_laws", "Courses", ["CoursesGoOn"]),
    ("running_laws", "Serial", ["BurstsAreSerial"]),
    ("running_laws", "Preservation", ["BurstsGoOn"]),
]

# The same of crates to whose definitions no clause of the program comes; each of them is listed.
ASIDE = [
    ("check_order", "The checker's order of devices", "`drivers/base/core.c`", ["Visited"]),
    (
        "check_account",
        "What the checker keeps of a journal",
        "`kernel/power/suspend.c`, `kernel/power/process.c`, `drivers/base/power/main.c`",
        ["Accounts", "PairStates"],
    ),
    ("check_sources", "What the checker keeps of wakeup sources", "`drivers/base/power/wakeup.c`", ["SourceStates", "Owing"]),
    ("check_sources", "What the checker keeps of the calls on sources, and of answers", "own", ["ActorRows", "Calling", "AnswerKeys"]),
    ("device_tree", "Devices by name", "`drivers/base/core.c`, `drivers/base/power/runtime.c`", ["Refusal", "Requests"]),
]
