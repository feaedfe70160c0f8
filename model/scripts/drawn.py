"""Random boundaries, boxes, paths, texts and references, as the records of elements."""
import records as kinds

from .written import ENDEL, Written, datatype, four_bytes, layer, real_bytes, sname, two_bytes, xy

# Passed over wherever they stand in an element.
SKIPPED = [
    Written(kinds.ELFLAGS, 1, b"\0\0"), Written(kinds.PLEX, 3, bytes(4)), Written(kinds.PROPATTR, 2, b"\0\1"),
    Written(kinds.PROPVALUE, 6, b"ab"), Written(kinds.PROPVALUE, 0), Written(kinds.ELFLAGS, 9),
]
WIDTHS = [2, 4, 10, 10, 20, 6, -10, -4, 0, 100]
ODD_WIDTHS = [-2**31, 2**31 - 2, 5, -7, 3]
EXTENSIONS = [0, 3, 5, -3, -20, 7, 1, -1, 50, -100]
STEPS = [0, 0, 1, 7, 10, 15, 20, 31, -12, 50, 100, -3]
FLAGS = [0, 0x8000, 0x8000, 0, 4, 0x8004, 0x7FF9, 0xFFFD]
ANGLES = [0, 90, 180, 270, 360, -90, -180, -270, -360]
NO_ANGLES = [
    real_bytes(45), real_bytes(450), real_bytes(90, aside=1), real_bytes(-450), real_bytes(1, 2), real_bytes(89),
]
NO_ONES = [bytes(8), real_bytes(2), real_bytes(1, aside=1), real_bytes(-1), real_bytes(1, aside=-1)]


class Drawing:
    """Draws elements with coordinates and layers of a few, that refer to a few names."""

    def __init__(self, random, outside, coordinates, layers):
        self.random = random
        self.outside = outside
        self.coordinates = coordinates
        self.layers = layers

    def chance(self, probability):
        return self.random.random() < probability

    def choice(self, values):
        return self.random.choice(values)

    def coordinate(self):
        return self.choice(self.coordinates)

    def point(self):
        return self.coordinate(), self.coordinate()

    def aside(self, point, along):
        """A point straight beside another one, or above it."""
        x, y = point
        return (self.coordinate(), y) if along else (x, self.coordinate())

    # Boundaries.

    def corners(self):
        """The points of a boundary: either way round, with a closing point or without, or with several."""
        drawn = self.random.random()
        points = self.four_corners() if drawn < .6 else self.walk() if drawn < .9 else self.without_area()
        if self.chance(.5):
            points = [points[0]] + points[:0:-1]
        if self.chance(.8):
            points = points + [points[0]]
        if self.chance(.04):
            points = points + [points[0]] * self.choice([1, 2])
        return points

    def four_corners(self):
        left, right = self.point()
        bottom, top = self.point()
        if self.chance(.95):
            if left == right:
                right += self.choice([1, 5, 20])
            if bottom == top:
                top += self.choice([1, 5, 20])
        return [(left, bottom), (right, bottom), (right, top), (left, top)]

    def walk(self):
        """Any closed walk: it may cross itself, wind twice, go back on itself, or stand still."""
        points = [self.point()]
        for place in range(self.choice([2, 4, 6, 8, 10])):
            points.append(self.aside(points[-1], place % 2 == 0))
        if self.chance(.3):
            self.go_back(points)
        x, y = points[-1]
        if x != points[0][0] and y != points[0][1]:
            points.append((points[0][0], y) if self.chance(.5) else (x, points[0][1]))
        if self.chance(.3):
            place = self.random.randrange(len(points))
            points.insert(place, points[place])
        if self.chance(.15):
            place = self.random.randrange(len(points))
            spike = self.aside(points[place], False)
            points[place + 1:place + 1] = [spike, points[place]]
        return points

    def go_back(self, points):
        """Seldom: a point again at another place, so most of these have an edge that isn't straight."""
        if self.chance(.1):
            points.insert(self.random.randrange(len(points)), points[self.random.randrange(len(points))])
        elif self.chance(.1):
            points.insert(self.random.randrange(1, len(points)), points[0])

    def without_area(self):
        """One point, or two, which may be the same."""
        first = self.point()
        if not self.chance(.5):
            return [first]
        return [first, first if self.chance(.5) else self.aside(first, False)]

    # Elements.

    def element(self, targets):
        """The records of an element; a reference means mostly one of the targets, else a name outside."""
        drawn = self.random.random()
        number, data_type = self.choice(self.layers)
        if drawn < .45:
            records = self.boundary(kinds.BOUNDARY, layer(number), datatype(data_type))
        elif drawn < .52:
            second = Written(kinds.BOXTYPE, 2, two_bytes(data_type))
            records = self.boundary(kinds.BOX, layer(number), second)
        elif drawn < .70:
            records = self.path(layer(number), datatype(data_type))
        elif drawn < .74:
            records = self.unseen()
        else:
            target = self.target(targets)
            if target is None:
                return self.element(targets) if self.chance(.9) else []
            records = self.reference(target)
        return self.sprinkled(records)

    def sprinkled(self, records):
        """Seldom with records between these that are passed over."""
        if self.chance(.85):
            return records
        found = records[:1]
        for record in records[1:]:
            while self.chance(.25):
                found.append(self.choice(SKIPPED))
            found.append(record)
        return found

    def boundary(self, kind, *layers):
        return [Written(kind, 0), *layers, xy(*self.corners()), ENDEL]

    def unseen(self):
        """A text or a node, of which no element comes."""
        first = Written(self.choice([kinds.TEXT, kinds.NODE]), 0)
        inner = [Written(0x16, 2, two_bytes(0)), Written(kinds.STRANS, 1, two_bytes(2)), xy((1, 2))]
        return [first, layer(1), *inner, Written(0x19, 6, b"hi"), ENDEL]

    def path(self, *layers):
        records = [Written(kinds.PATH, 0), *layers]
        path_type = self.choice([None, 0, 2, 4, 4])
        if path_type is not None:
            records.append(Written(kinds.PATHTYPE, 2, two_bytes(path_type)))
        if self.chance(.95):
            width = self.choice(WIDTHS if self.chance(.97) else ODD_WIDTHS)
            records.append(Written(kinds.WIDTH, 3, four_bytes(width)))
        for kind in (kinds.BGNEXTN, kinds.ENDEXTN):
            if self.chance(.5):
                extension = self.choice(EXTENSIONS if self.chance(.98) else [2**31 - 1, -2**31])
                records.append(Written(kind, 3, four_bytes(extension)))
        return [*records, xy(*self.centre_line()), ENDEL]

    def centre_line(self):
        """Some go straight on or back, stand still, or are a point alone."""
        points, along = [self.point()], self.chance(.5)
        for _ in range(self.choice([1, 1, 1, 2, 3, 4, 6])):
            points.append(self.aside(points[-1], along))
            if self.chance(.85):
                along = not along
            if self.chance(.15):
                points.append(points[-1])
        if points.count(points[0]) == len(points) and self.chance(.9):
            points.append((points[0][0] + self.choice([1, -30, 9]), points[0][1]))
        return points

    # References.

    def target(self, targets):
        """A structure's name, or that of a cell outside; none where there are none."""
        if targets and self.chance(.88):
            return self.choice(targets)
        return self.choice(self.outside) if self.outside else None

    def reference(self, target):
        is_array = self.chance(.35)
        zeros = b"\0" * self.choice([1, 2, 3]) if self.chance(.05) else b""
        records = [Written(kinds.AREF if is_array else kinds.SREF, 0), sname(target.encode() + zeros)]
        if self.chance(.6):
            records += self.orientation()
        origin = self.point()
        return [*records, *(self.columns_and_rows(origin) if is_array else [xy(origin)]), ENDEL]

    def orientation(self):
        flags = self.choice(FLAGS)
        if self.chance(.01):
            flags |= 2
        records = [Written(kinds.STRANS, 1, two_bytes(flags))]
        if self.chance(.35):
            one = self.respelled(real_bytes(1)) if self.chance(.98) else self.choice(NO_ONES)
            records.append(Written(kinds.MAG, 5, one))
        if self.chance(.75):
            angle = self.choice(ANGLES)
            if angle:
                data = self.respelled(real_bytes(angle))
            else:
                data = bytes([self.choice([0, 0x80, 0xFF, 0x7F])]) + bytes(7)
            if self.chance(.02):
                data = self.choice(NO_ANGLES)
            records.append(Written(kinds.ANGLE, 5, data))
        return records

    def respelled(self, data):
        """The same real with another exponent, where its mantissa ends with zeros."""
        exponent, mantissa = data[0] & 0x7F, int.from_bytes(data[1:], "big")
        while mantissa and mantissa % 16 == 0 and exponent < 127 and self.chance(.6):
            mantissa //= 16
            exponent += 1
        return bytes([(data[0] & 0x80) | exponent]) + mantissa.to_bytes(7, "big")

    def columns_and_rows(self, origin):
        """Of any steps; seldom these aren't whole, or the numbers aren't at least 1."""
        columns, rows = self.choice([1, 1, 2, 2, 3, 4]), self.choice([1, 1, 2, 3])
        behind = []
        steps = [(self.choice(STEPS), self.choice(STEPS)) for _ in range(2)]
        for number, (dx, dy) in zip((columns, rows), steps):
            behind.append((origin[0] + number * dx, origin[1] + number * dy))
        for place in range(2):
            if self.chance(.05):
                x, y = behind[place]
                behind[place] = (x + self.choice([0, 1, 3]), y + self.choice([0, 1]))
        if self.chance(.01):
            columns = self.choice([0, -1, 32767, -32768])
        return [Written(kinds.COLROW, 2, two_bytes(columns, rows)), xy(origin, *behind)]
