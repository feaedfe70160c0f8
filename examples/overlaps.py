"""Arrays whose instances overlap or not, by `./mpw check`, next to the same layouts flat: the listing is the same, and the time is bounded.

examples/check.py runs these cases. A cell of boxes is placed in an array at steps from a hundredth of its width to twice that. The law says that the
markers are those of the flat layout. No contract says how long a check takes. So the limit is generous: FACTOR times the processor seconds of the flat
layout, and MORE seconds.
"""
import os
import random
import resource
import subprocess
import tempfile

from make import array, box, library, structure

HERE = os.path.dirname(os.path.abspath(__file__))
MPW = os.environ.get("MPW", os.path.join(os.path.dirname(HERE), "mpw"))
DECK = "tile 8192\nwidth w 1/0 56\nspace s 1/0 51\nseparation p 1/0 2/0 9\n"
# The side of the cell in nm, how many boxes it has, and how many columns and rows.
SIDE, BOXES, COUNT = 20000, 200, 24
# The steps, in hundredths of the cell's side.
STEPS = (1, 2, 5, 10, 25, 50, 100, 200)
FACTOR, MORE = 4, 1


def boxes():
    """The boxes of the cell: layer, left, bottom, right, top. Two of them are in its corners."""
    chance = random.Random(80)
    found = [(1, 0, 0, 100, 100), (1, SIDE - 100, SIDE - 100, SIDE, SIDE)]
    while len(found) < BOXES:
        width, height = chance.choice(((1000, 200), (200, 1000)))
        x, y = chance.randrange(SIDE - width), chance.randrange(SIDE - height)
        found.append((chance.choice((1, 1, 2)), x, y, x + width, y + height))
    return found


def of_array(step):
    cell = structure("CELL", *(box(*it) for it in boxes()))
    return library(structure("TOP", array("CELL", 0, 0, COUNT, COUNT, step)), cell)


def flat(step):
    ways = [(step * column, step * row) for row in range(COUNT) for column in range(COUNT)]
    return library(structure("TOP", *(box(layer, x0 + x, y0 + y, x1 + x, y1 + y) for x, y in ways for layer, x0, y0, x1, y1 in boxes())))


def checked(folder, layout):
    """The listing of a layout, and the processor seconds that it took."""
    with open(f"{folder}/layout.gds", "wb") as file:
        file.write(layout)
    before = resource.getrusage(resource.RUSAGE_CHILDREN).ru_utime
    words = [MPW, "check", "--deck", f"{folder}/deck", "--top", "TOP", f"{folder}/layout.gds"]
    ended = subprocess.run(words, stdout=subprocess.PIPE, stderr=subprocess.DEVNULL, check=False)
    return ended.stdout, resource.getrusage(resource.RUSAGE_CHILDREN).ru_utime - before


def compared(hundredths):
    """What differs between an array at a step and the same layout flat."""
    step = SIDE * hundredths // 100
    with tempfile.TemporaryDirectory(prefix="mpw-overlaps-") as folder:
        with open(f"{folder}/deck", "w", encoding="ascii") as file:
            file.write(DECK)
        listed, seconds = checked(folder, of_array(step))
        expected, most = checked(folder, flat(step))
    lines = [] if listed and listed == expected else ["the markers are other ones than those of the flat layout"]
    if seconds > FACTOR * most + MORE:
        lines.append(f"it took {seconds:.1f} processor seconds, the flat layout {most:.1f}")
    return lines


CASES = {f"an array at a step of {it} hundredths of its cell": lambda it=it: compared(it) for it in STEPS}
