"""Libraries at the limits of extents, counts, heights and names, each submitted as a version of a cell."""
from geometry import LIMIT

from .pools import CELLS
from .written import array, library, rectangle, single

LAYER = (1, 0)
SQUARE = rectangle(LAYER, 0, 0, 1, 1)
GREATEST = 2**31 - 1


def wide_box(random):
    """A box that reaches the limits of an extent, or one more."""
    right = random.choice([LIMIT, LIMIT + 1])
    return {"T": [rectangle(LAYER, random.choice([-LIMIT, -LIMIT - 1, 0]), 0, right, 10)]}


def many_squares(random):
    """2^20 and some more."""
    columns = random.choice([1025, 1024])
    more = [SQUARE] * (columns == 1024)
    one = [SQUARE] if random.random() < .7 else []
    return {"T": [array("E", columns, 1024, (0, 0), (columns, 0), (0, 1024)), *more], "E": one}


def levels(random):
    """As many levels of references as there may be, and one more."""
    number = random.choice([1, 62, 63, 64, 65])
    below = {f"S{place}": [single(f"S{place + 1}", random.choice([0, 1, -5]), 2)] for place in range(number - 1)}
    last = [rectangle(LAYER, 0, 0, 5, 5)] if random.random() < .8 else []
    return {**below, f"S{number - 1}": last}


def hidden_beyond(random):
    """An extent beyond the limits, that a displacement above brings back."""
    right = LIMIT + random.choice([0, 1])
    return {"T": [single("E", random.choice([0, -10, -LIMIT // 2]), 0)], "E": [rectangle(LAYER, 0, 0, right, 1)]}


def unreached_trouble(_):
    """What the top doesn't reach isn't looked at."""
    beyond = rectangle(LAYER, 0, 0, GREATEST, GREATEST)
    return {"T": [rectangle(LAYER, 0, 0, 3, 3)], "E": [beyond, single("E", 0, 0), single("nowhere", 1, 1)]}


def maybe_a_cycle(random):
    """The last reference may lead back to a structure above it."""
    return {
        "T": [single("A", 0, 0)], "A": [single("B", 0, 0)], "B": [single(random.choice("ATBC"), 0, 0)], "C": [SQUARE],
    }


def nested_arrays(random):
    """Far more instances than shapes may be: of nothing, or of a square."""
    structures = {name: [array(target, 32767, 32767)] for name, target in ("TA", "AB", "BC")}
    return {**structures, "C": random.choice([[], [SQUARE]])}


def far_nothing(_):
    """References far out that show nothing."""
    far = array("A", 2, 2, (GREATEST, GREATEST), (-1, GREATEST), (GREATEST, -1))
    return {"T": [far, single("A", -2**31, -2**31)], "A": []}


def names_outside(random):
    """Some of them of no cell; what isn't reached needs none."""
    return {
        "T": [single(name, 0, 0) for name in random.sample([*CELLS, "zz", "aa", "-"], 3)],
        "U": [single("unreached", 0, 0)],
    }


LIBRARIES = [
    wide_box, many_squares, levels, hidden_beyond, unreached_trouble, maybe_a_cycle, nested_arrays, far_nothing,
    names_outside,
]


def chain_through_itself(script, cell):
    """A cell that refers to its own name means its present submission."""
    for _ in range(script.choice([2, 3, 5])):
        script.submit(cell, "T", library({"T": [rectangle(LAYER, 0, 0, 3, 3), single(cell, 10, 0)]}))


def large_unit(script, cell):
    """Coordinates that reach the limit by their unit."""
    unit = script.choice([2, 5, 1000])
    right = LIMIT // unit + script.choice([0, 1, -1])
    script.submit(cell, "T", library({"T": [rectangle(LAYER, 0, 0, script.choice([right, -right]), 1)]}, unit))


def submit_extreme(script, cell):
    """One of these, as a version of the cell."""
    make = script.choice([*LIBRARIES, chain_through_itself, large_unit])
    if make in (chain_through_itself, large_unit):
        return make(script, cell)
    structures = make(script.random)
    unit = script.choice([1, 1000]) if make is far_nothing else 1
    return script.submit(cell, next(iter(structures)), library(structures, unit))
