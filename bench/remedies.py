#!/usr/bin/env python3
"""Has KLayout and gdspy write cells that ./mpw check refuses, and the same cells by the remedies that it tells, and compares what comes of them.

  bench/remedies.py [PROGRAM]

Of each cell the table below has the code that it is refused with, or none where it is checked; PROGRAM is run in the place of ./mpw. A tool that isn't
installed is told, and its cells are left out. The exit status is 0 where all is as the table has it, else 1."""
import os
import shutil
import struct
import subprocess
import sys
import tempfile

HERE = os.path.dirname(os.path.abspath(__file__))
MPW = os.path.join(os.path.dirname(HERE), "mpw")
DECK = "tile 100000\nwidth w 1/0 5\n"
# A python that has gdspy.
PYTHONS = [sys.executable, "/usr/bin/python3"]

KLAYOUT = """
import pya

def layout(dbu=0.001):
    made = pya.Layout()
    made.dbu = dbu
    return made, made.create_cell('TOP'), made.layer(1, 0)

def save(made, name, **options):
    chosen = pya.SaveLayoutOptions()
    chosen.format = 'GDS2'
    for option, value in options.items():
        setattr(chosen, option, value)
    made.write(f'{folder}/{name}.gds', chosen)

def wire(width, is_round, as_polygon, name):
    made, top, metal = layout()
    path = pya.Path([pya.Point(0, 0), pya.Point(500, 0)], width, width // 2 if is_round else 0, width // 2 if is_round else 0, is_round)
    top.shapes(metal).insert(path.polygon() if as_polygon else path)
    save(made, name)

wire(40, True, False, 'round')
wire(40, True, True, 'round, as a polygon')
wire(40, False, False, 'flush')
wire(41, False, False, 'odd')
wire(41, False, True, 'odd, as a polygon')
wire(42, False, False, 'even')

def placed(angle, magnification, flat, name):
    made, top, metal = layout()
    arm = made.create_cell('ARM')
    arm.shapes(metal).insert(pya.Box(0, 0, 50, 600))
    top.insert(pya.CellInstArray(arm.cell_index(), pya.ICplxTrans(magnification, angle, False, 100, 100)))
    if flat:
        top.flatten(True)
    save(made, name)

placed(45, 1, False, 'turned by 45')
placed(45, 1, True, 'turned by 45, flattened')
placed(90, 1, False, 'turned by 90')
placed(0, 2, False, 'magnified')
placed(0, 2, True, 'magnified, flattened')

def comb(teeth):
    points = []
    for i in range(teeth):
        points += [pya.Point(20 * i, 100), pya.Point(20 * i, 200), pya.Point(20 * i + 10, 200), pya.Point(20 * i + 10, 100)]
    return pya.Polygon(points + [pya.Point(20 * teeth, 100), pya.Point(20 * teeth, 0), pya.Point(0, 0)])

def great(multi, name):
    made, top, metal = layout()
    top.shapes(metal).insert(comb(2500))
    save(made, name, gds2_multi_xy_records=multi, gds2_max_vertex_count=8000)

great(True, 'several XY records')
great(False, 'one XY record each')

made, top, metal = layout(0.0005)
top.shapes(metal).insert(pya.Box(0, 0, 100, 100))
save(made, 'half a nanometre')
made.dbu = 0.001
save(made, 'a nanometre')

made, top, metal = layout()
top.shapes(metal).insert(pya.Box(0, 0, 100, 100))
made.prop_id = made.properties_id([[1, 'a firm']])
save(made, 'file properties', gds2_write_file_properties=True)
save(made, 'no file properties', gds2_write_file_properties=False)

made = pya.Layout()
made.read(f'{folder}/pitch.gds')
made.write(f'{folder}/pitch, saved again.gds')
"""

GDSPY = """
import sys
import gdspy

folder = sys.argv[1]

def save(name, add):
    library = gdspy.GdsLibrary('lib', unit=1e-6, precision=1e-9)
    top = gdspy.Cell('TOP', exclude_from_current=True)
    others = add(top) or []
    for cell in [top, *others]:
        library.add(cell)
    library.write_gds(f'{folder}/{name}.gds')

def wire(name, width, **options):
    save(name, lambda top: top.add(gdspy.FlexPath([(0, 0), (10, 0)], width, layer=1, **options)) and None)

wire('round ends', 1, ends='round', gdsii_path=True)
wire('round ends, gdsii_path=False', 1, ends='round', gdsii_path=False)
wire('flush ends', 1, ends='flush', gdsii_path=True)
wire('extended ends', 1, ends='extended', gdsii_path=True)
wire('an odd width', 1.001, gdsii_path=True)
wire('an odd width, gdsii_path=False', 1.001, gdsii_path=False)

def steps(count):
    points = []
    for i in range(count):
        points += [(0.02 * i, 0.1), (0.02 * i, 0.2), (0.02 * i + 0.01, 0.2), (0.02 * i + 0.01, 0.1)]
    return points + [(0.02 * count, 0.1), (0.02 * count, 0), (0, 0)]

def great(top, fractured):
    polygon = gdspy.Polygon(steps(2500), layer=1)
    top.add(polygon.fracture(max_points=8190) if fractured else polygon)

save('a great polygon', lambda top: great(top, False))
save('a great polygon, fractured', lambda top: great(top, True))

def placed(top, flat, **options):
    arm = gdspy.Cell('ARM', exclude_from_current=True)
    arm.add(gdspy.Rectangle((0, 0), (1, 2), layer=1))
    top.add(gdspy.CellReference(arm, (5, 5), **options))
    if flat:
        top.flatten()
    return [arm]

save('a reference turned by 45', lambda top: placed(top, False, rotation=45))
save('a reference turned by 45, flattened', lambda top: placed(top, True, rotation=45))
save('a magnified reference', lambda top: placed(top, False, magnification=2))
save('a magnified reference, flattened', lambda top: placed(top, True, magnification=2))
"""

BY_KLAYOUT = {
    "round": "roundpath",
    "round, as a polygon": "notmanhattan",
    "flush": None,
    "odd": "oddwidth",
    "odd, as a polygon": None,
    "even": None,
    "turned by 45": "angle",
    "turned by 45, flattened": "notmanhattan",
    "turned by 90": None,
    "magnified": "mag",
    "magnified, flattened": None,
    "several XY records": "notmanhattan",
    "one XY record each": None,
    "half a nanometre": "unit",
    "a nanometre": None,
    "file properties": "unexpected",
    "no file properties": None,
    "pitch": "pitch",
    "pitch, saved again": None,
}
BY_GDSPY = {
    "round ends": "roundpath",
    "round ends, gdsii_path=False": "notmanhattan",
    "flush ends": None,
    "extended ends": None,
    "an odd width": "oddwidth",
    "an odd width, gdsii_path=False": None,
    "a great polygon": "notmanhattan",
    "a great polygon, fractured": None,
    "a reference turned by 45": "angle",
    "a reference turned by 45, flattened": "notmanhattan",
    "a magnified reference": "mag",
    "a magnified reference, flattened": None,
}


def record(kind, data_type, data=b""):
    return struct.pack(">HBB", 4 + len(data), kind, data_type) + data


def uneven_pitch():
    """Three columns over 100 nm."""
    units = bytes([62, 65, 137, 55, 75, 198, 167, 240, 57, 68, 184, 47, 160, 155, 90, 84])
    square = struct.pack(">10i", 0, 0, 10, 0, 10, 10, 0, 10, 0, 0)
    grid = struct.pack(">6i", 0, 0, 100, 0, 0, 50)
    head = record(0, 2, struct.pack(">H", 600)) + record(1, 2, bytes(24)) + record(2, 6, b"LIB\0") + record(3, 5, units)
    arm = record(8, 0) + record(13, 2, b"\0\1") + record(14, 2, bytes(2)) + record(16, 3, square) + record(17, 0)
    array = record(11, 0) + record(18, 6, b"ARMS") + record(19, 2, struct.pack(">2H", 3, 1)) + record(16, 3, grid) + record(17, 0)
    structures = [record(5, 2, bytes(24)) + record(6, 6, name) + body + record(7, 0) for name, body in ((b"ARMS", arm), (b"TOP\0", array))]
    return head + b"".join(structures) + record(4, 0)


def code_of(program, folder, name):
    """The code that a cell is refused with, or none."""
    ended = subprocess.run([program, "check", "--deck", "deck", "--top", "TOP", f"{name}.gds"], cwd=folder, capture_output=True, text=True)
    if ended.returncode in (0, 1) and ended.stdout.startswith("OK "):
        return None
    told = [line for line in ended.stderr.splitlines() if line.startswith("error: ")]
    return told[0].split(": ")[2].split(" ")[0] if told else f"status {ended.returncode}"


def are_all(program, folder, table):
    same = True
    for name, wanted in table.items():
        code = code_of(program, folder, name)
        same &= code == wanted
        print(f"{name}: {code or 'checked'}{'' if code == wanted else f', expected {wanted}'}")
    return same


def by_klayout(folder):
    script = os.path.join(folder, "draw.py")
    with open(script, "w", encoding="ascii") as file:
        file.write(KLAYOUT)
    environment = {**os.environ, "QT_QPA_PLATFORM": "offscreen"}
    subprocess.run(["klayout", "-b", "-r", script, "-rd", f"folder={folder}"], env=environment, check=True)


def python_with_gdspy():
    for python in PYTHONS:
        if os.path.exists(python) and subprocess.run([python, "-c", "import gdspy"], stderr=subprocess.DEVNULL).returncode == 0:
            return python
    return None


def main(words):
    program, python, same = words[0] if words else MPW, python_with_gdspy(), True
    with tempfile.TemporaryDirectory() as folder:
        with open(os.path.join(folder, "deck"), "w", encoding="ascii") as file:
            file.write(DECK)
        with open(os.path.join(folder, "pitch.gds"), "wb") as file:
            file.write(uneven_pitch())
        if shutil.which("klayout"):
            by_klayout(folder)
            same &= are_all(program, folder, BY_KLAYOUT)
        else:
            print("KLayout isn't installed, so nothing of it was tried")
        if python:
            subprocess.run([python, "-c", GDSPY, folder], check=True, stderr=subprocess.DEVNULL)
            same &= are_all(program, folder, BY_GDSPY)
        else:
            print("gdspy isn't installed, so nothing of it was tried")
    return 0 if same else 1


if __name__ == "__main__":
    sys.exit(main(sys.argv[1:]))
