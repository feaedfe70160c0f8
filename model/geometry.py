"""Points, boxes and placings, and the boxes that the squares of boundaries and paths make up; all in whole nm."""
from collections import defaultdict
from typing import NamedTuple

LIMIT = 1 << 30


class Point(NamedTuple):
    """A point of the plane."""

    x: int
    y: int


class Box(NamedTuple):
    """A box by its least and greatest coordinates. As squares: those from `left` to before `right`, and so in y."""

    left: int
    bottom: int
    right: int
    top: int


class Placing(NamedTuple):
    """An orientation, as a matrix of whole numbers, then a displacement."""

    xx: int
    xy: int
    yx: int
    yy: int
    dx: int
    dy: int


TURNS = {0: (1, 0, 0, 1), 90: (0, -1, 1, 0), 180: (-1, 0, 0, -1), 270: (0, 1, -1, 0)}
ORIENTATIONS = ("R0", "R90", "R180", "R270", "M0", "M90", "M180", "M270")


def placing_of(orientation, x, y):
    """The placing of an orientation's word: M mirrors at the x axis first, then the turn, then the displacement."""
    xx, xy, yx, yy = TURNS[int(orientation[1:])]
    if orientation[0] == "M":
        xy, yy = -xy, -yy
    return Placing(xx, xy, yx, yy, x, y)


UNPLACED = placing_of("R0", 0, 0)


def placed_point(placing, point):
    """Where a point is placed."""
    x, y = point
    return Point(placing.xx * x + placing.xy * y + placing.dx, placing.yx * x + placing.yy * y + placing.dy)


def placed_box(placing, box):
    """Where a box is placed: its corners may change places."""
    one = placed_point(placing, (box.left, box.bottom))
    other = placed_point(placing, (box.right, box.top))
    return Box(min(one.x, other.x), min(one.y, other.y), max(one.x, other.x), max(one.y, other.y))


def nested(outer, inner):
    """The placing that places by `inner` first and then by `outer`."""
    at = placed_point(outer, (inner.dx, inner.dy))
    return Placing(
        outer.xx * inner.xx + outer.xy * inner.yx,
        outer.xx * inner.xy + outer.xy * inner.yy,
        outer.yx * inner.xx + outer.yy * inner.yx,
        outer.yx * inner.xy + outer.yy * inner.yy,
        at.x,
        at.y,
    )


def joined(box, other):
    """The least box that has both; none of nothing."""
    if box is None or other is None:
        return other if box is None else box
    lefts, bottoms, rights, tops = zip(box, other)
    return Box(min(lefts), min(bottoms), max(rights), max(tops))


def box_of_points(points):
    """The least box of points, which are some."""
    columns, rows = zip(*points)
    return Box(min(columns), min(rows), max(columns), max(rows))


def exchanged(box):
    """The box with x and y exchanged."""
    return Box(box.bottom, box.left, box.top, box.right)


def touch(box, other):
    """Whether two closed boxes share a point."""
    return (box.left <= other.right and other.left <= box.right
            and box.bottom <= other.top and other.bottom <= box.top)


def lies_within_limits(box):
    """Whether an extent lies within -2^30 to 2^30; an empty one does."""
    return box is None or all(-LIMIT <= coordinate <= LIMIT for coordinate in box)


def are_manhattan(points):
    """Whether each point lies straight beside or above the one before it."""
    return all(one.x == other.x or one.y == other.y for one, other in zip(points, points[1:]))


def boxes_of_boundary(points):
    """The squares round which a closed boundary winds, as boxes in rows: those of a winding number that isn't 0."""
    edges = []
    for one, other in zip(points, points[1:] + points[:1]):
        if one.x == other.x and one.y != other.y:
            edges.append((one.x, min(one.y, other.y), max(one.y, other.y), 1 if other.y > one.y else -1))
    heights = sorted({point.y for point in points})
    boxes = []
    for bottom, top in zip(heights, heights[1:]):
        turns = defaultdict(int)
        for x, low, high, turn in edges:
            if low <= bottom and top <= high:
                turns[x] += turn
        winding = 0
        for x in sorted(turns):
            before, winding = winding, winding + turns[x]
            if before == 0 and winding != 0:
                left = x
            if before != 0 and winding == 0:
                boxes.append(Box(left, bottom, x, top))
    return boxes


def boxes_of_path(points, width, begin, end):
    """A box for each segment: half the width on either side, and as far beyond the ends; at the path's own ends
    `begin` and `end`, which may be negative. A box without area is none."""
    half = width // 2
    last = len(points) - 2
    boxes = []
    for place, (one, other) in enumerate(zip(points, points[1:])):
        before = begin if place == 0 else half
        behind = end if place == last else half
        axis = 0 if one.y == other.y else 1
        forward = 1 if other[axis] > one[axis] else -1
        low, high = sorted_ends(one[axis] - forward * before, other[axis] + forward * behind, forward)
        if half == 0 or low >= high:
            continue
        middle = one[1 - axis]
        box = Box(low, middle - half, high, middle + half)
        boxes.append(box if axis == 0 else exchanged(box))
    return boxes


def sorted_ends(begin, end, forward):
    """A segment's ends, the lower first where it isn't shortened beyond its length."""
    return (begin, end) if forward > 0 else (end, begin)
