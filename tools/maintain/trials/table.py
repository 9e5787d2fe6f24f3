"""What can be tried: each subject with its input, what is expected of it, and what comes of it."""

from maintain.trials import allocations, definition_laws, file_laws, files, idle, locks, logs, rule_laws, rules, statistics, workers
from maintain.trials.subject import By, Subject


def bytes_of(case, given):
    """An input that is bytes, or text, shows itself."""
    return case


SUBJECTS = {
    "run": Subject(
        says="what a run writes, over random machine files that are mostly nearly right",
        by=By.PROGRAM, unit="files", count=300, tried="files",
        input=files.texts, expected=lambda text, given: files.expected(text), actual=files.ran,
        show=bytes_of, label=lambda text, wanted, given: files.LABELS[wanted[0]],
    ),
    "check": Subject(
        says="the verdict on random logs and on broken copies of them",
        by=By.PROGRAM, unit="machines", count=60, tried="logs",
        input=logs.inputs, expected=lambda case, given: case.wanted, actual=logs.checked,
        show=lambda case, given: case.data, label=logs.label,
    ),
    "stats": Subject(
        says="what a log counts and its longest chain, on random logs, links that change and broken logs among them",
        by=By.PROGRAM, unit="machines", count=300, tried="logs",
        input=statistics.pairs, expected=statistics.wanted, actual=statistics.counted,
        show=statistics.data_of, label=statistics.label,
    ),
    "locks": Subject(
        says="the answers of named locks, on random and hostile lines",
        by=By.PROGRAM, unit="inputs", count=1000, tried="inputs",
        input=locks.inputs, expected=locks.expected, actual=locks.told, show=bytes_of, label=locks.label,
    ),
    "workers": Subject(
        says="runs by many workers, each of whose logs has to be legal",
        by=By.PROGRAM, unit="machines", count=60, tried="runs",
        input=workers.runs, expected=workers.wanted, actual=workers.judged, show=workers.show, label=workers.label,
        add_arguments=workers.add_workers,
    ),
    "stress": Subject(
        says="the same for some minutes, with large machines among the random ones",
        by=By.PROGRAM, unit="minutes", count=10, tried="runs",
        input=workers.stress, expected=workers.wanted, actual=workers.judged, show=workers.show, label=workers.label,
        add_arguments=workers.add_workers,
    ),
    "idle-workers": Subject(
        says="suspend-to-idle by several workers, each of whose logs has to be whole",
        by=By.PROGRAM, unit="runs", count=1000, tried="runs",
        input=idle.runs, expected=idle.wanted, actual=idle.run_judged, show=bytes_of, label=idle.run_label,
        add_arguments=idle.add_sizes,
    ),
    "allocations": Subject(
        says="runs in which each allocation fails in turn",
        by=By.PROGRAM, unit="allocations at most", count=1_000_000, tried="runs",
        input=allocations.ends, expected=allocations.wanted, actual=allocations.came, show=allocations.show,
        label=allocations.label, add_arguments=allocations.add_arguments,
    ),
    "log-rules": Subject(
        says="the rules of a log against the second writing of a run, on random logs and broken copies",
        by=By.SECOND, unit="machines", count=200, tried="logs",
        input=rules.copies, expected=rules.first_of_run, actual=rules.first_of_rules, show=rules.show, label=rules.label,
    ),
    "chains": Subject(
        says="the longest chain of the second writing, against a look at all chains",
        by=By.SECOND, unit="machines", count=300, tried="logs",
        input=statistics.pairs, expected=statistics.chain_by_all, actual=statistics.chain_told, show=statistics.data_of,
        label=lambda pair, wanted, given: "have links that cannot stand" if wanted is None else "are counted",
    ),
    "idle": Subject(
        says="the second writing of suspend-to-idle, on random legal logs and changed copies",
        by=By.SECOND, unit="logs", count=1000, tried="texts",
        input=idle.logs, expected=idle.wanted, actual=idle.judged, show=lambda log, given: log.text, label=idle.label,
    ),
    "definitions": Subject(
        says="the definitions of a run, on random machines",
        by=By.PROVER, unit="machines", count=60, tried="machines",
        input=definition_laws.batches, expected=definition_laws.wanted, actual=definition_laws.open_laws,
        show=definition_laws.show, label=definition_laws.label, add_arguments=definition_laws.add_arguments,
    ),
    "definitions-of-rules": Subject(
        says="the definitions of the rules of a log, on lines of random logs and broken copies",
        by=By.PROVER, unit="machines", count=30, tried="lines",
        input=rule_laws.batches, expected=rule_laws.wanted, actual=rule_laws.open_laws, show=rule_laws.show, label=rule_laws.label,
    ),
    "definitions-of-files": Subject(
        says="the definitions of machine files, on files that are nearly right",
        by=By.PROVER, unit="files", count=100, tried="files",
        input=file_laws.batches, expected=file_laws.wanted, actual=file_laws.open_laws, show=file_laws.show, label=file_laws.label,
    ),
}
