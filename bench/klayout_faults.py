#!/usr/bin/env python3
"""Has KLayout write a library whose elements have faults, and compares what ./mpw check tells of it with what was drawn.

  bench/klayout_faults.py [PROGRAM]

On layer 5/0 stand triangles with an edge at 45 degrees, in TOP, in a structure ARM below it and in a structure LOGO that nothing places, on layer 6/0 paths with
round ends, and on layer 1/0 two bars and in ARM a third. --faults has to tell each of the faulty elements once, with its code, its structure, its layer
and one of its corners, and those of ARM in TOP's coordinates too; the report beside it, as KLayout reads it, has to have each of them, with the box of its points
but in LOGO; --skip-unreached those of LOGO before the first of the others; --skip-layers 5/0,6/0 has to list what KLayout finds on layer 1/0, with
--skip-unreached or without. Where KLayout isn't installed nothing is tried, which is told. The exit status is 0 where all is as expected, else 1."""
import os
import re
import shutil
import subprocess
import sys
import tempfile

HERE = os.path.dirname(os.path.abspath(__file__))
MPW = os.path.join(os.path.dirname(HERE), "mpw")
# Another program may be named.
PROGRAM = sys.argv[1:2] or [MPW]
DECK = "tile 2000\nspace s 1/0 51\n"
FAULT = re.compile(r"fault: cell\.gds: (\w+) at byte \d+ in (\w+), layer (\d+)/0, at (-?\d+),(-?\d+)(?:, in TOP at (-?\d+),(-?\d+))?")
# Where ARM stands.
RIGHT = 180
SCRIPT = """
import pya

layout = pya.Layout()
layout.dbu = 0.001
top, arm, spare = (layout.create_cell(name) for name in ('TOP', 'ARM', 'LOGO'))
metal, logo, round_ends = (layout.layer(number, 0) for number in (1, 5, 6))
for x in (0, 90):
    top.shapes(metal).insert(pya.Box(x, 0, x + 50, 600))
arm.shapes(metal).insert(pya.Box(0, 0, 50, 600))
top.insert(pya.CellInstArray(arm.cell_index(), pya.Trans(180, 0)))
for cell, count in ((top, 20), (arm, 5), (spare, 4)):
    for i in range(count):
        x = 1000 + 200 * i
        cell.shapes(logo).insert(pya.Polygon([pya.Point(x, 0), pya.Point(x + 90, 90), pya.Point(x + 90, 0)]))
for i in range(3):
    y = 3000 + 200 * i
    top.shapes(round_ends).insert(pya.Path([pya.Point(0, y), pya.Point(500, y)], 40, 20, 20, True))
layout.write(library)
region = pya.Region(top.begin_shapes_rec(metal))
print(region.merged().space_check(51, False, pya.Region.Projection, 90, 0, 2**30, False).count())
"""


def drawn():
    """Each faulty element by its code, structure and layer, with its corners."""
    elements = []
    for structure, count in (("TOP", 20), ("ARM", 5), ("LOGO", 4)):
        for i in range(count):
            x = 1000 + 200 * i
            elements.append(("notmanhattan", structure, 5, {(x, 0), (x + 90, 90), (x + 90, 0)}))
    for i in range(3):
        y = 3000 + 200 * i
        elements.append(("roundpath", "TOP", 6, {(0, y), (500, y)}))
    return elements


def told_of(lines):
    """The faults of the lines, each by its code, structure, layer and point."""
    found = [FAULT.fullmatch(line) for line in lines if line.startswith("fault: ")]
    return [match and (match[1], match[2], int(match[3]), (int(match[4]), int(match[5]))) for match in found]


def are_moved(lines):
    """Whether those of ARM, and no others, are told in TOP's coordinates, to the right."""
    found = [FAULT.fullmatch(line) for line in lines if line.startswith("fault: ")]
    return all(match and (match[6] is not None) == (match[2] == "ARM") for match in found) and all(
        (int(match[6]), int(match[7])) == (int(match[4]) + RIGHT, int(match[5])) for match in found if match[6]
    )


def boxes_of(elements):
    """The box of each element's points in TOP's coordinates, in nm; of what TOP doesn't show none."""
    boxes = []
    for _, structure, _, points in elements:
        if structure != "LOGO":
            right = RIGHT if structure == "ARM" else 0
            xs, ys = [x + right for x, _ in points], [y for _, y in points]
            boxes.append((min(xs), min(ys), max(xs), max(ys)))
    return sorted(boxes)


READ = """
import pya

database = pya.ReportDatabase('report')
database.load(report)
dbu = 0.001
for item in database.each_item():
    for value in item.each_value():
        if value.is_box():
            box = value.box().to_itype(dbu)
            print(box.left, box.bottom, box.right, box.top)
print('items', database.num_items())
"""


def are_reported(folder, elements):
    """Whether KLayout reads an item for each element in the report, and their boxes."""
    environment = {**os.environ, "QT_QPA_PLATFORM": "offscreen"}
    with open(os.path.join(folder, "read.py"), "w", encoding="ascii") as file:
        file.write(READ)
    words = ["klayout", "-b", "-r", "read.py", "-rd", "report=report.lyrdb"]
    lines = subprocess.run(words, cwd=folder, env=environment, stdout=subprocess.PIPE, check=True, text=True).stdout.splitlines()
    boxes = sorted(tuple(map(int, line.split())) for line in lines[:-1])
    return boxes == boxes_of(elements) and lines[-1] == f"items {len(elements)}"


def are_all(faults, elements):
    """Whether each element that was drawn is told once, and nothing else is. The points of different elements differ; KLayout writes no point of a path with
    round ends before its PATHTYPE, so a fault there is told with the point all the same, since the whole element is gone over."""
    left = list(elements)
    for fault in faults:
        match = next((element for element in left if fault and fault[:3] == element[:3] and fault[3] in element[3]), None)
        if match is None:
            print(f"told, and not drawn: {fault}")
            return False
        left.remove(match)
    for element in left:
        print(f"drawn, and not told: {element}")
    return not left


def check(folder, *words):
    ended = subprocess.run([*PROGRAM, "check", "--deck", "deck", "--top", "TOP", *words, "cell.gds"], cwd=folder, capture_output=True, text=True)
    return ended.returncode, ended.stdout.splitlines(), ended.stderr.splitlines()


def main():
    if not shutil.which("klayout"):
        print("KLayout isn't installed, so nothing was tried")
        return 0
    with tempfile.TemporaryDirectory() as folder:
        for name, text in (("draw.py", SCRIPT), ("deck", DECK)):
            with open(os.path.join(folder, name), "w", encoding="ascii") as file:
                file.write(text)
        words = ["klayout", "-b", "-r", "draw.py", "-rd", "library=cell.gds"]
        environment = {**os.environ, "QT_QPA_PLATFORM": "offscreen"}
        pairs = int(subprocess.run(words, cwd=folder, env=environment, stdout=subprocess.PIPE, check=True, text=True).stdout)
        status, _, lines = check(folder, "--faults", "--report", "report.lyrdb")
        faults = told_of(lines)
        same = are_all(faults, drawn()) and are_moved(lines) and are_reported(folder, drawn()) and status == 4
        print(f"--faults: {len(faults)} of {len(drawn())} faults, status {status}: {'as drawn' if same else 'differs'}")
        unreached, _, lines = check(folder, "--skip-unreached")
        spare = [element for element in drawn() if element[1] == "LOGO"]
        alone = are_all(told_of(lines), spare) and unreached == 4
        print(f"--skip-unreached: {len(told_of(lines))} of {len(spare)} faults, status {unreached}: {'as drawn' if alone else 'differs'}")
        alike = True
        for words in (["--skip-layers", "5/0,6/0"], ["--skip-layers", "5/0,6/0", "--skip-unreached"]):
            skipped, printed, _ = check(folder, *words)
            here = skipped == 1 and len(printed) == pairs + 1
            print(f"{' '.join(words)}: {len(printed) - 1} markers, KLayout {pairs}, status {skipped}: {'same' if here else 'differs'}")
            alike &= here
    return 0 if same and alone and alike else 1


if __name__ == "__main__":
    sys.exit(main())
