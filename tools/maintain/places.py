"""Where the repository's files stand."""

import pathlib

TOP = pathlib.Path(__file__).resolve().parents[2]
CRATES = TOP / "crates"
DOCS = TOP / "docs"
WORKED = TOP / "tools" / "worked"
