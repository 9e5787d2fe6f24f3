"""What whoever works on this repository runs: `tools/dev COMMAND`."""
