"""Which of KLayout's options each of the four checks agrees with, on random layouts of unit squares:

QT_QPA_PLATFORM=offscreen klayout -b -r klayout_options.py [-rd layouts=N] [-rd seed=S]

A pair of edges is compared as its pair steps: axis, both coordinates, and each row of it. Ours are those of docs/specification/rules.md, found
square by square. For `width` it is also told whether ours are just the rows of KLayout's unshielded pairs that lie in the region, and which pairs its shielded
mode leaves out: those that one edge hides in all their rows. The program exits with 1 where one of this isn't so."""
import random
import sys

import pya

SIDE = 10
FARTHEST = 2**30
COUNT = int(globals().get('layouts', 400))
random.seed(int(globals().get('seed', 1)))


def exchanged(squares):
    return {(y, x) for x, y in squares}


def is_inside(squares, x1, x2, y):
    return all((x, y) in squares for x in range(x1, x2))


def rises(squares, x, y):
    return (x, y) in squares and (x - 1, y) not in squares


def falls(squares, x, y):
    return (x - 1, y) in squares and (x, y) not in squares


# Of two layers: whether a row has the edges at x1 and x2 that the check pairs.
PAIRED = {
    'width': lambda a, b, x1, x2, y: x1 < x2 and rises(a, x1, y) and falls(a, x2, y) and is_inside(a, x1, x2, y),
    'space': lambda a, b, x1, x2, y: x1 < x2 and falls(a, x1, y) and rises(a, x2, y),
    'separation': lambda a, b, x1, x2, y: falls(a, x1, y) and rises(b, x2, y) or falls(b, x1, y) and rises(a, x2, y),
    'enclosing': lambda a, b, x1, x2, y: rises(a, x1, y) and rises(b, x2, y) or falls(b, x1, y) and falls(a, x2, y),
}


def ours(check, a, b, distance):
    found = set()
    for axis, first, second in ('V', a, b), ('H', exchanged(a), exchanged(b)):
        for y in range(SIDE):
            for x1 in range(SIDE + 1):
                for x2 in range(x1, min(SIDE + 1, x1 + distance)):
                    if PAIRED[check](first, second, x1, x2, y):
                        found.add((axis, x1, x2, y))
    return found


def region(squares):
    found = pya.Region()
    for x, y in squares:
        found.insert(pya.Box(x, y, x + 1, y + 1))
    return found.merged()


def pairs(check, a, b, distance, is_shielded):
    """KLayout's pairs: axis, both coordinates, and the rows."""
    others = [region(b)] if check in ('separation', 'enclosing') else []
    found = getattr(region(a), f'{check}_check')(*others, distance, False, pya.Region.Projection, 90, 0, FARTHEST, is_shielded)
    for pair in found.each():
        box = pair.bbox()
        if pair.first.dx() == 0:
            yield 'V', box.left, box.right, range(box.bottom, box.top)
        else:
            yield 'H', box.bottom, box.top, range(box.left, box.right)


def theirs(*asked):
    return {(axis, x1, x2, y) for axis, x1, x2, rows in pairs(*asked) for y in rows}


def inside(squares, step):
    axis, x1, x2, y = step
    return is_inside(squares if axis == 'V' else exchanged(squares), x1, x2, y)


def is_hidden(a, pair):
    """Whether one edge of the layer lies between the pair's in all its rows."""
    axis, x1, x2, rows = pair
    squares = a if axis == 'V' else exchanged(a)
    return any(all(edge(squares, x, y) for y in rows) for x in range(x1 + 1, x2) for edge in (rises, falls))


def made(density):
    return {(x, y) for x in range(SIDE) for y in range(SIDE) if random.random() < density}


def main():
    differing = {(check, is_shielded): 0 for check in PAIRED for is_shielded in (False, True)}
    rows_differ = hiding_differs = 0
    for _ in range(COUNT):
        a, b, distance = made(random.choice((0.3, 0.5, 0.7, 0.85))), made(random.choice((0.3, 0.5))), random.randrange(1, 7)
        for check, is_shielded in differing:
            differing[check, is_shielded] += ours(check, a, b, distance) != theirs(check, a, b, distance, is_shielded)
        open_pairs = list(pairs('width', a, b, distance, False))
        rows_differ += ours('width', a, b, distance) != {step for step in theirs('width', a, b, distance, False) if inside(a, step)}
        kept = list(pairs('width', a, b, distance, True))
        hiding_differs += any((pair in kept) == is_hidden(a, pair) for pair in open_pairs)
    for (check, is_shielded), count in differing.items():
        print(f"{check}, {'shielded' if is_shielded else 'unshielded'}: {count} of {COUNT} layouts differ")
    print(f"width, the rows of unshielded pairs that lie in the region: {rows_differ} of {COUNT} layouts differ")
    print(f"width, shielded pairs as those that no one edge hides in all rows: {hiding_differs} of {COUNT} layouts differ")
    agreed = [differing[check, False] for check in ('space', 'separation', 'enclosing')]
    return 1 if any(agreed) or rows_differ or hiding_differs else 0


sys.stdout.flush()
status = main()
sys.stdout.flush()
pya.Application.instance().exit(status)
