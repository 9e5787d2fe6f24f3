"""What the program's refusals mean, in words, with the places of the file that they are about.

`forms` has the form of each member of a machine file, `machine_files` explains each rule of such a file, `log_lines` the
first bad line of a log, `endings` all other lines that the program writes on standard error.
"""
