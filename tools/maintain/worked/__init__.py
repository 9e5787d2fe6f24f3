"""The worked logs as the crates have them: terms and laws in law_trials, rows of the program in row_trials."""
