"""Each file of the crates that is made of the worked logs and the other worked data."""

from maintain.worked import laws, part_cases, refuted, rows
from maintain.worked.logs import Worked
from maintain.worked.modules import entries_piece, machine_piece, module_text, pieces
from maintain.worked.table import ENTRIES, LAWS, LOGS, MACHINES, MODULES


def definitions(logs):
    """The definitions of these logs that laws take, a text each."""
    for log in logs:
        if log.name in LAWS:
            yield from pieces(log)
        elif log.name in ENTRIES:
            yield from (machine_piece(log), entries_piece(log))
        elif log.name in MACHINES:
            yield machine_piece(log)


def of_trials(logs):
    """The files of the crate law_trials, by their paths in it."""
    for module, says in MODULES.items():
        texts = list(definitions(log for log in logs if log.module == module))
        if texts:
            yield f"specs/{module}.antt", module_text(says, texts)
    yield from laws.files([log for log in logs if log.name in LAWS])
    yield from refuted.files({log.name: log.module for log in logs})


def all_files():
    """The bytes of each file, by its path from the folder crates/."""
    logs = [Worked.read(*row) for row in LOGS]
    trials = {f"law_trials/{path}": text.encode() for path, text in of_trials(logs)}
    parts = {f"part_cases/{path}": text.encode() for path, text in part_cases.files().items()}
    return trials | parts | {f"row_trials/{path}": data for path, data in rows.files()}
