"""What a log says (reading, machine, story, joins, words, telling, kernel), and how it is drawn.

A page is made of the form in `model`, by which logs (of_log) and recordings (of_recording) look alike. `perfetto` writes the
same form as Trace Event JSON. `drawing` makes the picture of one attempt of a log.
"""
