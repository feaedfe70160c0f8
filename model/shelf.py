"""The shelf: submissions, what their references mean, what they show, and its limits."""
from dataclasses import dataclass
from typing import NamedTuple

from elements import Reference
from geometry import UNPLACED, Box, Placing, joined, lies_within_limits, nested, placed_box, placed_point
from library import library_of
from replies import test

MOST_SHAPES = 1 << 20
MOST_LEVELS = 64
MOST_SUBMISSIONS = 4096
MOST_CELLS = 1024


class Measures(NamedTuple):
    """Of a flat list: its extent, none of an empty one, its count of shapes, and the height of its references."""

    extent: Box | None
    count: int
    height: int


@dataclass(eq=False)
class Submission:
    """A version of a cell. Only what the top reaches has measures; outside names are bound to submissions."""

    cell: str
    version: int
    submitter: str
    library: dict
    top: str
    bindings: dict
    measures: dict

    @property
    def whole(self):
        """The measures of what the submission shows."""
        return self.measures[self.top]


class Item(NamedTuple):
    """An item of a flat list: a shape with the submission from which it comes, its origin, and its placing."""

    origin: Submission
    placing: Placing
    shape: object


def references_of(elements):
    """The references among elements."""
    return [element for element in elements if isinstance(element, Reference)]


def structures_below(library, top):
    """The structures that the top reaches, each behind those to which it refers, and the outside names by name. None
    reaches itself."""
    test(top in library, "notop")
    is_done, order, outside = {top: False}, [], set()
    path = [(top, iter(references_of(library[top])))]
    while path:
        name, references = path[-1]
        for reference in references:
            target = reference.target
            if target not in library:
                outside.add(target)
                continue
            test(is_done.get(target, True), "cycle")
            if target not in is_done:
                is_done[target] = False
                path.append((target, iter(references_of(library[target]))))
                break
        else:
            is_done[name] = True
            order.append(name)
            path.pop()
    return order, sorted(outside)


def measures_of(elements, measures_of_target):
    """Of a structure, from those of what its references mean."""
    extent, count, height = None, 0, 0
    for element in elements:
        if not isinstance(element, Reference):
            count += 1
            extent = joined(extent, element.extent)
            continue
        target = measures_of_target(element.target)
        height = max(height, target.height)
        count += target.count * element.columns * element.rows
        if target.extent is not None:
            for placing in element.corners():
                extent = joined(extent, placed_box(placing, target.extent))
    return Measures(extent, count, height + 1)


class Shelf:
    """The submissions in the order in which they came, and of each cell the present, that is the last, one."""

    def __init__(self, policy):
        self.policy = policy
        self.submissions = []
        self.present = {}

    def submit(self, cell, top, text):
        """A library as the next version of a cell: its text, its names, and its limits, in this order."""
        self.policy.need("submit", cell)
        library = library_of(text)
        order, outside = structures_below(library, top)
        for name in outside:
            self.policy.need("use", name)
        test(all(name in self.present for name in outside), "nocell")
        bindings = {name: self.present[name] for name in outside}
        measures = measured(library, order, bindings)
        test(measures[top].count <= MOST_SHAPES, "shapes")
        test(measures[top].height <= MOST_LEVELS, "deep")
        test(len(self.submissions) < MOST_SUBMISSIONS, "full")
        test(cell in self.present or len(self.present) < MOST_CELLS, "full")
        version = 1 + sum(one.cell == cell for one in self.submissions)
        submission = Submission(cell, version, self.policy.user, library, top, bindings, measures)
        self.present[cell] = submission
        self.submissions.append(submission)
        return [f"version {version}"]

    def cells(self):
        """The cells that the session may read, by name, with version and submitter."""
        self.policy.need_session()
        shown = [self.present[cell] for cell in sorted(self.present) if self.policy.permits("read", cell)]
        return [f"{one.cell} {one.version} {one.submitter}" for one in shown]

    def shapes(self, cell):
        """The flat list of a cell's present submission, without the items of cells that the session may not read."""
        self.policy.need("read", cell)
        test(cell in self.present, "nocell")
        may_read = {}
        lines = []
        for item in flat_list(self.present[cell], UNPLACED):
            origin = item.origin.cell
            if origin not in may_read:
                may_read[origin] = self.policy.permits("read", origin)
            if may_read[origin]:
                lines.append(shape_line(item))
        return lines


def measured(library, order, bindings):
    """The measures of the structures in order; the extent of each lies within the limits, in its own coordinates."""
    measures = {}
    for name in order:
        measures[name] = measures_of(
            library[name], lambda target: measures[target] if target in library else bindings[target].whole)
        test(lies_within_limits(measures[name].extent), "extent")
    return measures


def flat_list(submission, placing, structure=None):
    """All that a submission shows, in order: a structure's own shapes, then those of each instance of its references.
    A name of the library means its structure; another the top of the submission that it is bound to."""
    elements = submission.library[structure or submission.top]
    for element in elements:
        if not isinstance(element, Reference):
            yield Item(submission, placing, element)
    for reference in references_of(elements):
        target = reference.target
        meant, inner = (submission, target) if target in submission.library else (submission.bindings[target], None)
        if meant.measures[inner or meant.top].count == 0:
            continue
        for instance in reference.instances():
            yield from flat_list(meant, nested(placing, instance), inner)


def shape_line(item):
    """Cell, version, layer and datatype, then the shape's words and its points where they are placed."""
    origin, placing, shape = item
    layer, datatype = shape.layer
    points = " ".join("%d %d" % placed_point(placing, point) for point in shape.points)
    return f"{origin.cell} {origin.version} {layer}/{datatype} {shape.words} {points}"
