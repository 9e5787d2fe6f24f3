"""What `tools/dev bench` measures: machines, the words of the program, what is divided by what, and the most that it may be."""
