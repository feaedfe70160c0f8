"""In KLayout, for test_klayout: exports cells, and compares what mpw finds in them with what KLayout finds."""
import json
import os
import random
import subprocess
import sys
import traceback

import pya

with open(given, encoding="utf-8") as file:  # noqa: F821, as is `found`: -rd sets them
    VALUES = json.load(file)
sys.path.insert(0, VALUES["python"])

from mpw_klayout.check import Stopped, command, outcome_of  # noqa: E402
from mpw_klayout.export import export  # noqa: E402

FOLDER = VALUES["folder"]
DISTANCE = 7  # database units
CHECKS = {"width": ["1/0"], "space": ["1/0"], "separation": ["1/0", "2/5"], "enclosing": ["1/0", "2/5"]}


def random_cells(layout, side, count):
    """A cell with an array and turned instances of another cell, both with boxes and paths of whole database units."""
    layers = layout.layer(1, 0), layout.layer(2, 5)
    below, top = layout.create_cell("BELOW"), layout.create_cell("TOP")
    for cell in below, top:
        for _ in range(count):
            x, y = random.randrange(-side, side), random.randrange(-side, side)
            cell.shapes(random.choice(layers)).insert(pya.Box(x, y, x + random.randrange(1, 30), y + random.randrange(1, 30)))
        cell.shapes(layers[0]).insert(pya.Path([pya.Point(0, 0), pya.Point(40, 0), pya.Point(40, 25)], 6, 2, 3))
    for orientation in range(8):
        below_it = pya.Trans(orientation % 4, orientation > 3, random.randrange(-side, side), random.randrange(-side, side))
        top.insert(pya.CellInstArray(below.cell_index(), below_it))
    top.insert(pya.CellInstArray(below.cell_index(), pya.Trans(1, True, 5 * side, 0), pya.Vector(0, 90), pya.Vector(70, 0), 3, 2))
    return top


def steps(pairs):
    """Pairs of edges as their pair steps: axis, both coordinates, and each row."""
    for pair in pairs:
        box = pair.bbox()
        if pair.first.dx() == 0:
            yield from (("V", box.left, box.right, row) for row in range(box.bottom, box.top))
        else:
            yield from (("H", box.bottom, box.top, row) for row in range(box.left, box.right))


def klayouts(layout, top, check):
    """What KLayout finds, of width what lies inside."""
    regions = [pya.Region(top.begin_shapes_rec(layout.find_layer(*map(int, word.split("/"))))).merged() for word in CHECKS[check]]
    if check == "width":
        pairs = list(regions[0].width_check(DISTANCE, False, pya.Region.Projection, 90, 0, 2**30, False).each())
        return set(steps(pairs)) - {step for pair in pairs for step in uncovered(regions[0], pair)}
    given = [*regions[1:], DISTANCE, False, pya.Region.Projection, 90, 0, 2**30, False]
    return set(steps(getattr(regions[0], f"{check}_check")(*given).each()))


def uncovered(region, pair):
    """The pair steps of a pair in whose rows not all between the edges is covered."""
    (axis, first, last, _), *_ = steps([pair])
    for gap in (pya.Region(pair.bbox()) - region).each():
        box = gap.bbox()
        rows = range(box.bottom, box.top) if axis == "V" else range(box.left, box.right)
        yield from ((axis, first, last, row) for row in rows)


def mpws(report, dbu):
    """What a report has, in database units."""
    database, found = pya.ReportDatabase("report"), {check: set() for check in CHECKS}
    database.load(report)
    for item in database.each_item():
        name = database.category_by_id(item.category_id()).name()
        for value in item.each_value():
            if value.is_edge_pair():
                found[name].update(steps([value.edge_pair().to_itype(dbu)]))
    return found


def checked(layout, cell, name):
    """Exports a cell and checks it; the outcome, the report's path and the notes of the export."""
    unit = round(layout.dbu * 1000)
    library, report, rules = (os.path.join(FOLDER, f"{name}.{kind}") for kind in ("gds", "lyrdb", "deck"))
    with open(rules, "w", encoding="ascii") as file:
        file.write("tile 4096\n" + "".join(f"{check} {check} {' '.join(words)} {DISTANCE * unit}\n" for check, words in CHECKS.items()))
    exported = export(layout, cell, library)
    ended = subprocess.run(command(VALUES["program"], rules, exported.top, library, report), stdout=subprocess.PIPE,
                           stderr=subprocess.PIPE, check=False)
    return outcome_of(ended.returncode, ended.stdout.decode(), ended.stderr.decode(), library), report, exported


def compare(unit):
    """Whether mpw finds what KLayout finds in a random layout of that unit, and how many pair steps these are."""
    layout = pya.Layout()
    layout.dbu = unit / 1000
    top = random_cells(layout, 100, 12)
    outcome, report, _ = checked(layout, top, f"unit{unit}")
    ours = mpws(report, layout.dbu)
    differing = [check for check in CHECKS if ours[check] != klayouts(layout, top, check)]
    return {"text": outcome.text, "status": outcome.status, "steps": sum(map(len, ours.values())), "differing": differing}


def refused(dbu):
    layout = pya.Layout()
    layout.dbu = dbu
    try:
        export(layout, layout.create_cell("TOP"), os.path.join(FOLDER, "refused.gds"))
        return "accepted"
    except Stopped as stopped:
        return str(stopped)


def smallest(unit):
    """The faults of the smallest layout of a unit."""
    layout = pya.Layout()
    layout.dbu = unit / 1000
    cell = layout.create_cell("TOP")
    cell.shapes(layout.layer(1, 0)).insert(pya.Box(0, 0, 10, 10))
    return checked(layout, cell, "smallest")[0].error


def named(name):
    """What becomes of a cell's name."""
    layout = pya.Layout()
    cell, above = layout.create_cell(name), layout.create_cell("ABOVE")
    above.insert(pya.CellInstArray(cell.cell_index(), pya.Trans()))
    cell.shapes(layout.layer(1, 0)).insert(pya.Box(0, 0, 5, 10))
    outcome, report, exported = checked(layout, cell, "named")
    return [exported.top, outcome.text, len(mpws(report, 0.001)["width"])]


def layers():
    """Layers with numbers that GDSII has, and others."""
    layout = pya.Layout()
    cell = layout.create_cell("TOP")
    for words in (1, 0), (40000, 65535), ("drawn",), (70000, 0), (2, 0, "named"):
        info = pya.LayerInfo(*words)
        cell.shapes(layout.layer(info)).insert(pya.Box(0, 0, 100, 100))
    layout.layer(pya.LayerInfo("empty"))
    outcome, _, exported = checked(layout, cell, "layers")
    return [exported.notes, outcome.notes]


def kinds():
    """Texts, properties, a PCell, cells with arrays that aren't orthogonal, and a library's cell."""
    layout = pya.Layout()
    cell = layout.create_cell("TOP")
    layer = layout.layer(1, 0)
    cell.shapes(layer).insert(pya.Box(0, 0, 5, 100)).set_property(1, "mine")
    cell.shapes(layer).insert(pya.Text("label", pya.Trans()))
    cell.shapes(layer).insert(pya.Path([pya.Point(1000, 0)], 20, 10, 10))
    below = layout.create_cell("BELOW")
    below.shapes(layer).insert(pya.Box(0, 0, 5, 100))
    cell.insert(pya.CellInstArray(below.cell_index(), pya.Trans(200, 0), pya.Vector(50, 0), pya.Vector(50, 200), 3, 2))
    text = layout.create_cell("TEXT", "Basic", {"text": "A", "layer": pya.LayerInfo(9, 0)})
    return [checked(layout, cell, "kinds")[0].text, text is not None]


def faults():
    """A library with faults: an edge at 45 degrees, round ends and an odd width below."""
    layout = pya.Layout()
    cell, below = layout.create_cell("TOP"), layout.create_cell("BELOW")
    layer = layout.layer(1, 0)
    cell.shapes(layer).insert(pya.Polygon([pya.Point(0, 0), pya.Point(0, 100), pya.Point(100, 0)]))
    cell.insert(pya.CellInstArray(below.cell_index(), pya.Trans(1000, 0)))
    below.shapes(layer).insert(pya.Path([pya.Point(0, 0), pya.Point(0, 100)], 20, 10, 10, True))
    outcome, report, _ = checked(layout, cell, "faults")
    database = pya.ReportDatabase("report")
    database.load(report)
    items = [[str(value) for value in item.each_value()] for item in database.each_item()]
    return {"text": outcome.text, "faults": outcome.faults, "items": items}


def all_of():
    random.seed(VALUES["seed"])
    return {
        "compared": {unit: compare(unit) for unit in VALUES["units"]},
        "smallest": {unit: smallest(unit) for unit in VALUES["smallest"]},
        "refused": {dbu: refused(dbu) for dbu in (0.0005, 0.0254, 2.0)},
        "names": {name: named(name) for name in VALUES["names"]},
        "layers": layers(), "kinds": kinds(), "faults": faults(),
    }


try:
    result = all_of()
except BaseException:
    traceback.print_exc()
else:
    with open(found, "w", encoding="utf-8") as file:  # noqa: F821
        json.dump(result, file)
