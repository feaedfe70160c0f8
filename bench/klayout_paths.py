"""Which paths KLayout draws otherwise than docs/specification/geometry.md has them:

QT_QPA_PLATFORM=offscreen klayout -zz -r klayout_paths.py [-rd paths=N] [-rd seed=S]

It compares the paths of examples/paths.py with the corners that are listed there, and random paths with the boxes of model/geometry.py. For each of the
forms that docs/klayout.md lists it prints how many differ. The program exits with 1 if a path of none of these forms differs, or one of examples/paths.py
isn't as it is listed."""
import os
import random
import sys
import tempfile

import pya

TOP = os.path.dirname(os.path.dirname(os.path.abspath(__file__)))
sys.dont_write_bytecode = True
sys.path += [f"{TOP}/examples", f"{TOP}/model"]

from geometry import Point, boxes_of_path  # noqa: E402
from make import BGNEXTN, DATATYPE, ENDEL, ENDEXTN, LAYER, PATH, PATHTYPE, WIDTH, XY, library, long, record, short, structure  # noqa: E402
from paths import FORMS, library_of  # noqa: E402

COUNT = int(globals().get("paths", 20000))
random.seed(int(globals().get("seed", 1)))
NAMES = {"extension": "extensions without path type 4", "negative-width": "a negative width with path type 2", "turned": "a segment that is shortened beyond its length",
         "short-end": "an end segment shorter than half the width", None: "none of these"}


def drawn(text):
    """What KLayout covers on layer 1 of each structure of a library, by its name."""
    with tempfile.NamedTemporaryFile(suffix=".gds") as file:
        file.write(text)
        file.flush()
        layout = pya.Layout()
        layout.read(file.name)
    layer = layout.layer(1, 0)
    return {cell.name: pya.Region([shape.polygon for shape in cell.shapes(layer).each()]).merged() for cell in layout.each_cell()}


class Random:
    """A path: type and extensions may lack."""

    def __init__(self):
        self.kind, self.width = random.choice((None, 0, 2, 4)), random.choice((-100, 20, 60, 100, 100, 100, 100))
        can_extend = self.kind == 4 or random.random() < 0.2
        self.begin, self.end = (random.choice((None, -60, -20, 0, 20, 50, 70)) if can_extend else None for _ in range(2))
        self.points = [Point(0, 0)]
        for _ in range(random.randrange(1, 6)):
            step, axis = random.choice((10, 30, 50, 60, 100, 150, 300)) * random.choice((-1, 1)), random.randrange(2)
            self.points.append(Point(self.points[-1].x + step * (1 - axis), self.points[-1].y + step * axis))

    def element(self):
        head = record(PATH) + record(LAYER, short(1)) + record(DATATYPE, short(0))
        head += b"" if self.kind is None else record(PATHTYPE, short(self.kind))
        head += record(WIDTH, long(self.width))
        for kind, value in (BGNEXTN, self.begin), (ENDEXTN, self.end):
            head += b"" if value is None else record(kind, long(value))
        return head + record(XY, long(*(number for point in self.points for number in point))) + record(ENDEL)

    def ends(self):
        """How far it goes beyond its points."""
        half = abs(self.width) // 2
        return {2: (half, half), 4: (self.begin or 0, self.end or 0)}.get(self.kind, (0, 0))

    def covered(self):
        return pya.Region([pya.Box(*box) for box in boxes_of_path(self.points, abs(self.width), *self.ends())]).merged()

    def form(self):
        """The form of examples/paths.py that it has; none if it has none of them."""
        lengths = [abs(other.x - one.x) + abs(other.y - one.y) for one, other in zip(self.points, self.points[1:])]
        begin, end = self.ends()
        if self.kind != 4 and (self.begin, self.end) != (None, None):
            return "extension"
        if self.kind == 2 and self.width < 0:
            return "negative-width"
        if len(lengths) == 1:
            return "turned" if lengths[0] + begin + end < 0 else None
        return "short-end" if min(lengths[0] + begin, lengths[-1] + end) < abs(self.width) // 2 else None


def differ(region, other):
    """Whether two regions have different areas."""
    return (region ^ other).area() > 0


def wrong_forms():
    """The forms of examples/paths.py that KLayout draws otherwise than it lists."""
    for name, form in FORMS.items():
        found, listed = drawn(library_of(form))["TOP"], pya.Region(pya.Polygon([pya.Point(*corner) for corner in form.theirs]))
        if differ(found, listed):
            yield f"{name}: KLayout draws {found}, and examples/paths.py lists {form.theirs}"


def main():
    tried = {f"P{number}": Random() for number in range(COUNT)}
    found = drawn(library(*(structure(name, tried[name].element()) for name in tried)))
    counts, differing = dict.fromkeys(NAMES, 0), dict.fromkeys(NAMES, 0)
    for name, one in tried.items():
        counts[one.form()] += 1
        differing[one.form()] += differ(found[name], one.covered())
    for form, name in NAMES.items():
        print(f"{name}: {differing[form]} of {counts[form]} paths differ")
    wrong = list(wrong_forms())
    print("".join(f"{fault}\n" for fault in wrong), end="")
    return 1 if differing[None] or wrong else 0


status = main()
sys.stdout.flush()
pya.Application.instance().exit(status)
