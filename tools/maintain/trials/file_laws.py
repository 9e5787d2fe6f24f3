"""The whole definitions of machine files against a second writing of them, on random files that are nearly right.

Where the second writing refuses a file, the definitions have to name the same rule and the same place. Where it accepts it, the
machine that they read has to be written as the second writing does. The files become laws of a crate of the clone, file_laws,
which the prover computes. The second writing shares nothing with the definitions but what they are to say.
"""

import collections
import random

from julampok.second.rules import compact, first_broken, without_defaults
from maintain.trials import clones
from maintain.trials.near_files import shared


def clause(place, file):
    """The clause that a file is read, or refused, as the second writing does."""
    quoted = lambda found: found.replace('"', "'")
    broken = first_broken(file)
    said = f'Breaks "{quoted(compact(file))}" {broken[0]} "{broken[1]}"' if broken else None
    written = quoted(compact(without_defaults(file), sort_keys=True)) if not broken else None
    read = f'option_map spelling (machine_in (file "{quoted(compact(file))}")) ≡ Some (file "{written}" ++ newline)'
    return f"    ensures c{place} {{ {said or read} }}\n"


A_LAW = 20  # Files of a law.
NAME = "file_laws"
LIBRARIES = "phase_table sleep_model file_rules machine_file serde_json json".split()

FILES = """-- How laws speak of files. A file's text is written with ' in place of ".
use Prim.Native.String.{String}
use Rattle.std.specs.Prelude.{◌≡◌, ℕ, ◌==◌, List, codes, map, Some, if◌then◌else◌}
use Rattle.file_rules.specs.Whole.{broken_in, broken_at}

-- the bytes of a text, with " in place of '
abbrev pub file : String → List ℕ
file text = map (λ b. if b == 39 then 34 else b) (codes text)

-- the file breaks this rule, and none before it, and this is the first place that breaks it
abbrev pub Breaks : String → ℕ → String → Type 0
Breaks text rule place = broken_in (file text) ≡ Some (broken_at rule (codes place))
"""

READING = """-- Opens what texts are read and written by, so that both compute for known ones.
use Rattle.std.specs.Prelude.{ℕ, List, Option}
use Rattle.std.specs.Char.{encode_utf8}
use Rattle.std.specs.Fmt.{digits}
use Rattle.std.specs.Float.Numeral.{scan_numeral}
use Rattle.std.specs.Str.{is_utf8, chars}
use Rattle.json.specs.Json.{items, members, value}
use Rattle.json.specs.Lex.{lex, punctuate}
use Rattle.json.specs.Print.{escape_byte}
use Rattle.json.specs.Text.{content, code_unit, short_escape}
use Rattle.json.specs.Word.{word, after_number}
use Rattle.serde_json.specs.Data.{Data}
use Rattle.serde_json.specs.Read.{number_of}
use Rattle.file_rules.specs.Tree.{tree}

unfoldable pub reading : List ℕ → Option Data
unfolding escape_byte digits is_utf8 chars encode_utf8 scan_numeral lex punctuate content code_unit short_escape word after_number items members value number_of
reading bytes = tree bytes
"""

HEAD = """//! Random files.
#![tactic(auto)]

ghost use Rattle.std.specs.Prelude.{◌≡◌, ◌++◌, Some, option_map};
ghost use Rattle.sleep_model.specs.Text.{newline};
ghost use Rattle.file_rules.specs.Whole.{machine_in};
ghost use Rattle.machine_file.specs.Spelling.{spelling};
ghost use Rattle.file_laws.specs.Files.{Breaks, file};
"""


def laws(files):
    """A module with a law for each twenty files."""
    for start in range(0, len(files), A_LAW):
        clauses = "".join(clause(place, file) for place, file in enumerate(files[start : start + A_LAW]))
        tactic = "#[tactic(auto, unfolding(crate::proofs::Reading::reading))]"
        yield f"\n/// Files {start} and on.\n{tactic}\npub fn files_{start}()\n{clauses}{{}}\n"


def batches(given):
    """Files that are nearly right: one batch."""
    yield shared(random.Random(given.seed), given.count)


def files_of(files):
    """The files of the crate, by their paths in it."""
    return {
        "src/lib.rt": HEAD + "".join(laws(files)), "specs/Files.antt": FILES, "specs/Lib.antt": clones.listing(["Files"]),
        "proofs/Reading.antt": READING, "proofs/Lib.antt": clones.listing(["Reading"]),
    }


def wanted(files, given):
    """No law stays open."""
    return []


def open_laws(files, given):
    """The laws that stay open, or what the check says."""
    crate = clones.crate_in(given.folder, NAME, LIBRARIES, files_of(files))
    status, said = clones.check(crate, "--allow-holes")
    failed = [line for line in said.splitlines() if "files_" in line and ("no proof" in line or "not proved" in line)]
    return clones.told(failed, said if status or "holes=0" not in said else None)


def show(files, given):
    """The files, each on a line."""
    return "\n".join(map(compact, files))


def label(files, wanted, given):
    """How many files break each rule."""
    rules = (broken and broken[0] for broken in map(first_broken, files))
    return {"files": len(files)} | collections.Counter(f"of rule {rule:2}" if rule else "accepted" for rule in rules)
