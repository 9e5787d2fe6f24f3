"""Cases of links that are many: links at random by the plain definition of their order, and lists of hundreds and thousands.

The definition: a new link moves its consumer and all that depends on it, children and consumers of links with what depends on
them, to the end of the order, each at its last place; it is refused where its supplier is among them.
"""


def moved(parents, added, device):
    """A device, then all that depends on it, each with its own."""
    found = [device]
    for child, parent in enumerate(parents):
        if parent == device:
            found += moved(parents, added, child)
    for supplier, consumer in added:
        if supplier == device:
            found += moved(parents, added, consumer)
    return found


def at_last_places(devices):
    """Each of these devices at its last place."""
    return [device for place, device in enumerate(devices) if device not in devices[place + 1 :]]


def words(numbers):
    """Numbers as words, a dash for none."""
    return " ".join("-" if number is None else str(number) for number in numbers)


def random_links(seed):
    """Twenty links of seven devices."""
    for _ in range(20):
        seed = (seed * 1_664_525 + 1_013_904_223) % 2**32
        yield (seed >> 16) % 7, (seed >> 20) % 7


def by_definition(parents, seed):
    """Links at random: each as the plain definition answers it, and the order behind it."""
    order, added = list(range(7)), []
    yield f"links {words(parents)}"
    for supplier, consumer in random_links(seed):
        dependents = moved(parents, added, consumer)
        answer = "twice" if (supplier, consumer) in added else "cycle" if supplier in dependents else "0"
        if answer == "0":
            added.append((supplier, consumer))
            order = at_last_places(order + dependents)
        yield f"try {supplier} {consumer} => {answer}"
        yield f"order => {words(order)}"


def diamonds():
    """A hundred diamonds, one on the other, the last first."""
    for a in range(297, -1, -3):
        yield from ((a + 1, a + 3), (a + 2, a + 3), (a, a + 1), (a, a + 2))


def ladder(firsts):
    """Two rows of devices, each linked along its row and to the other one."""
    for a in firsts:
        yield from ((a, a + 2), (a + 1, a + 3), (a, a + 3), (a + 1, a + 2))


def deep():
    """A chain of 998, its end first, so that each link moves what was linked before, with links into its upper end, each of
    which moves nearly all: 4,000 links."""
    chain = [(supplier, supplier + 1) for supplier in range(998, 0, -1)]
    more = [(supplier, consumer) for consumer in range(2, 100) for supplier in range(consumer - 1)]
    return (chain + more)[:4000]


def four_thousand():
    """Links from lower to higher devices of a hundred, until 4,000 stand."""
    every = [(supplier, consumer) for consumer in range(100) for supplier in range(consumer)]
    return every[:4000]


def adds(links):
    """Lines that add these links."""
    return [f"add {supplier} {consumer} yes => 0" for supplier, consumer in links]


def in_turn():
    """Diamonds, which keep the order; a chain of a thousand devices below one another, which moves as a whole; 4,000 links,
    beyond which none is added."""
    yield [f"links {words([None] * 301)}", *adds(diamonds()), f"order => {words(range(301))}"]
    chain = [None, *range(999), None]
    behind = [1000, *range(1000)]
    yield [f"links {words(chain)}", "add 1000 0 yes => 0", f"order => {words(behind)}", f"add 999 1000 yes => cycle {words(behind)}"]
    refused = ["add 98 99 yes => too many", "add 0 1 yes => too many", "add 1 0 yes => too many", "add 100 0 yes => no device"]
    yield [f"links {words([None] * 100)}", *adds(four_thousand()), *refused]


def at_once():
    """The same lists, and ladders from their beginning and from their end, made at once over a thousand devices."""
    for links in (diamonds(), ladder(range(0, 200, 2)), ladder(range(198, -1, -2)), deep()):
        lines = [f"link {supplier} {consumer}" for supplier, consumer in links]
        yield [f"at_once {words([None] * 1000)}", *lines, "made => made"]


def parts():
    """Each part: a head, and its lines."""
    tree = [None, 0, 0, 1, None, 4, 2]
    yield from (list(by_definition(parents, seed)) for seed in range(40) for parents in ([None] * 7, tree))
    yield from in_turn()
    yield from at_once()
