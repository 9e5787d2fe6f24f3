"""A real machine: its trace (trace), its /sys (tree), names for a machine file (names), the file itself (machine)."""
