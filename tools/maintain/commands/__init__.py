"""One module for each command of `tools/dev`.

Each has HELP and EXAMPLE (one line each), `add_arguments(parser)` and `run(given)`, which returns a status:
0 where all is well, and 1 where it is not. What cannot be tried raises CannotError.
"""
