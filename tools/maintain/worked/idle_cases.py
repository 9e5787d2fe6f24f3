"""Cases of suspend-to-idle by one worker, whose log the second writing in Python tells: rounds over the wakers and the idler."""

from julampok.second.idle import text_by_rounds

KINDS = ("hard", "begin", "wake", "try_ok", "try_busy", "leave")


def told(sizes):
    """Each entry, as hard events, who made it and the number of its kind; and whether the idler sleeps at the end."""
    wakers = sizes[0]
    *lines, end = text_by_rounds(*sizes).splitlines()
    entries = []
    for line in lines:
        hard, who, *kind = line.split(" ")
        entries.append((int(hard), wakers if who == "idle" else int(who.partition(":")[2]), KINDS.index("_".join(kind))))
    return entries, end == "end idle"


def sum_of(entries):
    """One number of all entries, in their order."""
    found = 0
    for hard, who, kind in entries:
        found = (found * 31 + hard * 256 + who * 8 + kind) % 2**32
    return found


def parts():
    """Each part: a head, and its lines."""
    for sizes in ((1, 2, 1), (16, 700, 300), (16, 1000, 1000)):
        entries, is_idle = told(sizes)
        hards, wakes = (sum(kind == wanted for _, _, kind in entries) for wanted in (0, 2))
        counts = [f"hards => {hards}", f"wakes => {wakes}", f"len_within {len(entries)} {len(entries)} => yes"]
        head = " ".join(map(str, ("idle", *sizes)))
        yield [head, *counts, f"sum => {sum_of(entries)}", f"is_idle => {'yes' if is_idle else 'no'}"]
