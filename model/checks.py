"""What rules find in a flat layout: pair steps, row by row, and the markers that their runs of rows are.

The squares of a layer are kept as bands: rows between neighbouring heights, in each of which the same columns are
covered. So a row is looked at once a band. For axis H the layout is looked at with x and y exchanged.
"""
from collections import defaultdict
from dataclasses import dataclass
from typing import NamedTuple

from forms import Key
from geometry import Box, exchanged, placed_box, touch


class Shown(NamedTuple):
    """What an item of a flat layout shows: its origin, the layer, and its boxes where they are placed."""

    origin: object
    layer: tuple
    boxes: list


@dataclass(eq=False)
class Marker:
    """A maximal run of rows with one pair step of a rule: its key, the rule's place in the deck, and the submissions
    that its closed box meets."""

    key: Key
    rule: int
    met: frozenset

    @property
    def cells(self):
        """The cells of all that the marker meets."""
        return {submission.cell for submission in self.met}


def shown_of(items):
    """What the items of a flat layout show; a shape without squares shows nothing."""
    shown = [Shown(item.origin, item.shape.layer, [placed_box(item.placing, box) for box in item.shape.boxes])
             for item in items]
    return [one for one in shown if one.boxes]


def markers_of(deck, items):
    """The markers of a flat layout by rule, axis (V before H), side, x1, x2 and rows."""
    shown = shown_of(items)
    markers = []
    for place, rule in enumerate(deck.rules):
        operands = [[box for one in shown if one.layer == layer for box in one.boxes] for layer in rule.layers]
        for axis in "VH":
            turned = operands if axis == "V" else [list(map(exchanged, boxes)) for boxes in operands]
            for (side, x1, x2), runs in sorted(pieces_of(rule, turned).items()):
                for y0, y1 in runs:
                    key = Key(rule.name, axis, side, x1, x2, y0, y1)
                    markers.append(Marker(key, place, met_by(key, shown)))
    return markers


def box_of(key):
    """The closed box between a marker's edges."""
    box = Box(key.x1, key.y0, key.x2, key.y1)
    return box if key.axis == "V" else exchanged(box)


def met_by(key, shown):
    """The origins of shapes of which a closed square shares a point with the marker's closed box."""
    box = box_of(key)
    return frozenset(one.origin for one in shown if any(touch(box, other) for other in one.boxes))


def pieces_of(rule, operands):
    """For each pair step, by side, x1 and x2, its maximal runs of rows from y0 to before y1, upwards."""
    heights = sorted({height for boxes in operands for box in boxes for height in (box.bottom, box.top)})
    bands = [intervals_in_bands(boxes, heights) for boxes in operands]
    runs = defaultdict(list)
    for band, (bottom, top) in enumerate(zip(heights, heights[1:])):
        for step in pair_steps(rule, *(intervals[band] for intervals in bands)):
            known = runs[step]
            if known and known[-1][1] == bottom:
                known[-1][1] = top
            else:
                known.append([bottom, top])
    return runs


def intervals_in_bands(boxes, heights):
    """For each band the columns that boxes cover, as intervals from left to right, with a gap between any two."""
    band_at = {height: band for band, height in enumerate(heights)}
    covered = [[] for _ in heights[1:]]
    for box in boxes:
        for band in range(band_at[box.bottom], band_at[box.top]):
            covered[band].append((box.left, box.right))
    return [merged(intervals) for intervals in covered]


def merged(intervals):
    """Intervals that overlap or touch as one: its begin is a rise, its end a fall."""
    found = []
    for begin, end in sorted(intervals):
        if found and begin <= found[-1][1]:
            found[-1][1] = max(found[-1][1], end)
        else:
            found.append([begin, end])
    return found


def pair_steps(rule, first, second=()):
    """The pair steps of a row, each as side, x1 and x2, of the intervals of the rule's one or two layers."""
    if rule.check == "width":
        return [(0, rise, fall) for rise, fall in first if fall - rise < rule.distance]
    rises, falls = edges_of(first)
    if rule.check == "space":
        return [(0, fall, rise) for fall in falls for rise in rises if 0 < rise - fall < rule.distance]
    other_rises, other_falls = edges_of(second)
    if rule.check == "separation":
        pairs = (falls, other_rises), (other_falls, rises)
    else:
        pairs = (rises, other_rises), (other_falls, falls)
    return [(side, one, other) for side, (ones, others) in enumerate(pairs)
            for one in ones for other in others if 0 <= other - one < rule.distance]


def edges_of(intervals):
    """Where intervals begin, and where they end."""
    return [rise for rise, _ in intervals], [fall for _, fall in intervals]
