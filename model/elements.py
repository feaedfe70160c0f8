"""The elements of a structure in nm: boundaries, paths and references.

A BOX is a boundary; texts and nodes are no elements.
"""
from dataclasses import dataclass, field

import records as kinds
from geometry import (
    Box, Placing, Point, are_manhattan, box_of_points, boxes_of_boundary, boxes_of_path, joined, placing_of,
)
from records import is_whole, name_in, of_kind, signed, unsigned
from replies import Refused, test

FIRST_RECORDS = (
    kinds.BOUNDARY, kinds.PATH, kinds.SREF, kinds.AREF, kinds.TEXT, kinds.NODE, kinds.BOX,
)
QUARTERS = (-360, -270, -180, -90, 0, 90, 180, 270, 360)


@dataclass(slots=True, eq=False)
class Boundary:
    """A boundary: a layer with its datatype, the corners without the closing point, and what follows of these."""

    layer: tuple[int, int]
    points: list[Point]
    boxes: list[Box] = field(init=False)
    extent: Box = field(init=False)

    def __post_init__(self):
        self.boxes = boxes_of_boundary(self.points)
        self.extent = box_of_points(self.points)

    @property
    def words(self):
        """The words of a shape's line in the reply to `shapes`."""
        return "boundary"


@dataclass(slots=True, eq=False)
class Path:
    """A path: a layer with its datatype, the points of its centre line, its width, and how far it is lengthened."""

    layer: tuple[int, int]
    points: list[Point]
    width: int
    begin: int
    end: int
    boxes: list[Box] = field(init=False)
    extent: Box = field(init=False)

    def __post_init__(self):
        self.boxes = boxes_of_path(self.points, self.width, self.begin, self.end)
        self.extent = box_of_points(self.points)
        for box in self.boxes:
            self.extent = joined(self.extent, box)

    @property
    def words(self):
        """The words of a shape's line in the reply to `shapes`."""
        return f"path {self.width} {self.begin} {self.end}"


@dataclass(slots=True, eq=False)
class Reference:
    """A reference: its target's name, the placing of its first instance, and its columns and rows with their steps."""

    target: str
    placing: Placing
    columns: int = 1
    rows: int = 1
    column_step: Point = Point(0, 0)
    row_step: Point = Point(0, 0)

    def instance(self, column, row):
        """The placing of the instance in a column and a row."""
        dx = self.placing.dx + column * self.column_step.x + row * self.row_step.x
        dy = self.placing.dy + column * self.column_step.y + row * self.row_step.y
        return Placing(*self.placing[:4], dx, dy)

    def instances(self):
        """The placings of all instances, row by row, the column running fastest."""
        return (self.instance(column, row) for row in range(self.rows) for column in range(self.columns))

    def corners(self):
        """The placings of the instances in the first and the last column and row: these reach as far as all do."""
        return [self.instance(column, row) for column in {0, self.columns - 1} for row in {0, self.rows - 1}]


def element_behind(reader, first, unit):
    """The element that a first record begins, read to its ENDEL; none of a text or a node."""
    if first.kind in (kinds.TEXT, kinds.NODE):
        return skip_element(reader)
    if first.kind in (kinds.SREF, kinds.AREF):
        return reference_behind(reader, first.kind == kinds.AREF, unit)
    layer = unsigned(reader.need_of_element(kinds.LAYER).data)
    second = kinds.BOXTYPE if first.kind == kinds.BOX else kinds.DATATYPE
    datatype = unsigned(reader.need_of_element(second).data)
    if first.kind == kinds.PATH:
        return path_behind(reader, (layer, datatype), unit)
    return boundary_behind(reader, (layer, datatype), unit)


def skip_element(reader):
    """What stands in a text or a node isn't looked at; the library may not end in it."""
    while True:
        record = reader.next()
        if record.kind == kinds.ENDEL:
            return None
        test(record.kind != kinds.ENDLIB, "unexpected", record.offset)


def points_of(record, unit):
    """The points of an XY, in nm."""
    numbers = [number * unit for number in signed(of_kind(record, kinds.XY).data)]
    return [Point(x, y) for x, y in zip(numbers[::2], numbers[1::2])]


def boundary_behind(reader, layer, unit):
    """Its points, without a closing one that is the first again; each edge, the closing one too, is straight."""
    record = reader.next_of_element()
    points = points_of(record, unit)
    if len(points) >= 2 and points[-1] == points[0]:
        points.pop()
    test(are_manhattan(points + points[:1]), "notmanhattan", record.offset)
    reader.need_of_element(kinds.ENDEL)
    return Boundary(layer, points)


def path_behind(reader, layer, unit):
    """Path type, width and the two extensions, each of which may lack, in this order; then the points.

    Ends of type 0 aren't lengthened, of type 2 by half the width, of type 4 by the extensions; type 1, round, isn't
    taken. A negative width is as its absolute value. A point that repeats the one before it counts once.
    """
    record = reader.next_of_element()
    path_type, width, extensions = 0, 0, [0, 0]
    if record.kind == kinds.PATHTYPE:
        path_type = unsigned(record.data)
        test(path_type in (0, 2, 4), "roundpath", record.offset)
        record = reader.next_of_element()
    if record.kind == kinds.WIDTH:
        width = abs(signed(record.data)[0]) * unit
        test(width % 2 == 0, "oddwidth", record.offset)
        record = reader.next_of_element()
    for place, kind in enumerate((kinds.BGNEXTN, kinds.ENDEXTN)):
        if record.kind == kind:
            extensions[place] = signed(record.data)[0] * unit
            record = reader.next_of_element()
    points = without_repeats(points_of(record, unit))
    test(len(points) >= 2, "pointpath", record.offset)
    test(are_manhattan(points), "notmanhattan", record.offset)
    reader.need_of_element(kinds.ENDEL)
    begin, end = {0: (0, 0), 2: (width // 2, width // 2), 4: tuple(extensions)}[path_type]
    return Path(layer, points, width, begin, end)


def without_repeats(points):
    """The points but for those that repeat the one before them."""
    return points[:1] + [point for before, point in zip(points, points[1:]) if point != before]


def reference_behind(reader, is_array, unit):
    """Target and orientation, of an array its columns and rows, and the points: the origin, and of an array also
    that after its last column and that after its last row, so its steps are whole."""
    name = reader.need_of_element(kinds.SNAME)
    target = name_in(name)
    mirrored, angle, record = orientation_behind(reader)
    columns = rows = 1
    if is_array:
        columns, rows = signed(of_kind(record, kinds.COLROW).data, 2)
        test(columns >= 1 and rows >= 1, "columns", record.offset)
        record = reader.next_of_element()
    points = points_of(record, unit)
    test(len(points) == (3 if is_array else 1), "badsize", record.offset)
    origin = points[0]
    placing = placing_of(f"{'M' if mirrored else 'R'}{angle % 360}", *origin)
    reference = Reference(target, placing)
    if is_array:
        column_step = step_to(points[1], origin, columns, record)
        row_step = step_to(points[2], origin, rows, record)
        reference = Reference(target, placing, columns, rows, column_step, row_step)
    reader.need_of_element(kinds.ENDEL)
    return reference


def step_to(point, origin, number, record):
    """The step that leads so many times from the origin to the point; it may be any whole vector."""
    dx, dy = point.x - origin.x, point.y - origin.y
    test(dx % number == 0 and dy % number == 0, "pitch", record.offset)
    return Point(dx // number, dy // number)


def orientation_behind(reader):
    """Whether a reference is mirrored, its angle, and the record after these; a magnification has to be 1."""
    record = reader.next_of_element()
    if record.kind != kinds.STRANS:
        return False, 0, record
    flags = unsigned(record.data)
    test(flags & 0x0002 == 0, "absolute", record.offset)
    angle = 0
    record = reader.next_of_element()
    if record.kind == kinds.MAG:
        test(is_whole(record.data, 1), "mag", record.offset)
        record = reader.next_of_element()
    if record.kind == kinds.ANGLE:
        angle = quarter_turns(record)
        record = reader.next_of_element()
    return flags & 0x8000 != 0, angle, record


def quarter_turns(record):
    """The angle of an ANGLE, which has to be a multiple of 90 degrees up to a whole turn either way."""
    for angle in QUARTERS:
        if is_whole(record.data, angle):
            return angle
    raise Refused("angle", record.offset)
