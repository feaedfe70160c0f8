"""The markers of small runs, read from the definitions square by square: slow, and with no band or interval.

A square is told by its least corner. Which squares a shape has is asked of each near it; which steps a row has, of each
pair of edges in it; and what a marker meets, of each square of each shape.
"""
from collections import defaultdict
from itertools import product

import scripts
from checks import box_of, markers_of
from elements import Path
from forms import Key
from geometry import UNPLACED, Box, joined, nested, touch
from scripts.runs import run_script
from shelf import flat_list
from wafer import shapes_of

WIDEST = 140
MOST_SHAPES = 80
SMALL_COORDINATES = [list(range(0, 21, 2)), list(range(-6, 14)), [0, 3, 5, 8, 13]]


def squares_of_boundary(points):
    """Those round which the boundary winds: edges to the left of the square, upwards less downwards, aren't 0."""
    edges = [(one, other) for one, other in zip(points, points[1:] + points[:1]) if one.x == other.x]
    columns, rows = zip(*points)
    found = set()
    for i, j in product(range(min(columns), max(columns)), range(min(rows), max(rows))):
        upwards = sum(one.x <= i and one.y <= j < other.y for one, other in edges)
        downwards = sum(one.x <= i and other.y <= j < one.y for one, other in edges)
        if upwards != downwards:
            found.add((i, j))
    return found


def squares_of_path(path):
    """Along each segment, from as far before its begin to as far behind its end as it is lengthened, and half the width
    to either side; each by its centre, of which twice the coordinates are kept."""
    half = path.width // 2
    last = len(path.points) - 2
    found = set()
    for place, (one, other) in enumerate(zip(path.points, path.points[1:])):
        dx, dy = (other.x > one.x) - (other.x < one.x), (other.y > one.y) - (other.y < one.y)
        length = abs(other.x - one.x) + abs(other.y - one.y)
        before, behind = path.begin if place == 0 else half, path.end if place == last else half
        for along, beside in product(range(-before, length + behind), range(-half, half)):
            x = 2 * one.x + (2 * along + 1) * dx - (2 * beside + 1) * dy
            y = 2 * one.y + (2 * along + 1) * dy + (2 * beside + 1) * dx
            found.add(((x - 1) // 2, (y - 1) // 2))
    return found


def placed_squares(placing, squares):
    """Each square where it is placed, by its centre."""
    doubled = placing._replace(dx=2 * placing.dx, dy=2 * placing.dy)
    found = set()
    for i, j in squares:
        centre = nested(doubled, UNPLACED._replace(dx=2 * i + 1, dy=2 * j + 1))
        found.add(((centre.dx - 1) // 2, (centre.dy - 1) // 2))
    return found


def squares_of(item):
    """The squares of an item of a flat layout."""
    shape = item.shape
    drawn = squares_of_path(shape) if isinstance(shape, Path) else squares_of_boundary(shape.points)
    return placed_squares(item.placing, drawn)


def steps_in_row(rule, row, first, second):
    """The pair steps of a row: each two edges of the kinds that the rule names, in their order, that are too near."""
    columns = [i for i, j in first | second if j == row]
    edges = range(min(columns), max(columns) + 2)

    def rises(region):
        return [x for x in edges if (x, row) in region and (x - 1, row) not in region]

    def falls(region):
        return [x for x in edges if (x - 1, row) in region and (x, row) not in region]

    kinds = {
        "width": [(rises(first), falls(first))], "space": [(falls(first), rises(first))],
        "separation": [(falls(first), rises(second)), (falls(second), rises(first))],
        "enclosing": [(rises(first), rises(second)), (falls(second), falls(first))],
    }[rule.check]
    least = 1 if rule.check in ("width", "space") else 0
    steps = {(side, one, other) for side, pairs in enumerate(kinds)
             for one, other in product(*pairs) if least <= other - one < rule.distance}
    if rule.check != "width":
        return steps
    return {step for step in steps if all((i, row) in first for i in range(step[1], step[2]))}


def runs_of(rows):
    """The maximal runs of consecutive rows, each from its first to before its end."""
    return [(row, next(end for end in range(row, max(rows) + 2) if end not in rows))
            for row in sorted(rows) if row - 1 not in rows]


def keys_of(rule, layers):
    """The keys of a rule's markers over the squares of the layers, in order."""
    for axis in "VH":
        regions = [layers[layer] if axis == "V" else {(j, i) for i, j in layers[layer]} for layer in rule.layers]
        first, second = regions if len(regions) == 2 else (*regions, set())
        rows_of = defaultdict(set)
        for row in {j for _, j in first | second}:
            for step in steps_in_row(rule, row, first, second):
                rows_of[step].add(row)
        for step, rows in sorted(rows_of.items()):
            for run in runs_of(rows):
                yield Key(rule.name, axis, *step, *run)


def markers_by_squares(deck, items):
    """Each marker's key with the submissions that it meets: a closed square of one shares a point with its box."""
    shown = [(item.origin, item.shape.layer, squares_of(item)) for item in items]
    layers = defaultdict(set)
    for _, layer, squares in shown:
        layers[layer] |= squares
    found = []
    for rule in deck.rules:
        for key in keys_of(rule, layers):
            box = box_of(key)
            met = {origin for origin, _, squares in shown
                   if any(touch(box, Box(i, j, i + 1, j + 1)) for i, j in squares)}
            found.append((key, met))
    return found


def is_small(run):
    """Whether a run's squares are few enough to be gone through."""
    extent = None
    for root in run.roots:
        extent = joined(extent, root.extent)
    widest = max(extent.right - extent.left, extent.top - extent.bottom)
    return widest < WIDEST and shapes_of(run.roots) < MOST_SHAPES


def small_runs(number):
    """The small runs of a script whose shapes have small coordinates."""
    script = run_script(scripts.random_of("squares", number), coordinates=SMALL_COORDINATES)
    return [run for run in script.runs if is_small(run)]


def compare(numbers):
    """Compares the runs of scripts of these numbers; how many differ."""
    compared = markers = differing = 0
    for number in numbers:
        for run in small_runs(number):
            items = [item for root in run.roots for item in flat_list(root.submission, root.placing)]
            by_bands = [(marker.key, marker.met) for marker in markers_of(run.deck, items)]
            compared += 1
            markers += len(by_bands)
            if by_bands != markers_by_squares(run.deck, items):
                differing += 1
                print(f"squares-{number}: run {run.number} differs")
    print(f"{compared} runs with {markers} markers compared square by square, {differing} differ")
    return differing
