"""The tool for users: machine files, logs and traces of a suspend, run, checked, explained and drawn."""
