"""A second writing of machine files and of whole runs, from the rules alone."""
