"""Follows a kernel's trace to a whole log, which a checker judges, and tells what stopped each attempt."""
