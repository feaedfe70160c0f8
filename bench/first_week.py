#!/usr/bin/env python3
"""What a firm meets in its first week, over files of KLayout, gdspy and Magic, each of which draws the same cells by its own means.

  bench/first_week.py [PROGRAM]

Each tool draws a library of sound cells, TOP with a structure ARM that it places once, and a second one that has edges at 45 degrees besides, in TOP and in
ARM. Over these are tried: outputs that are inputs, rules that look at nothing, markers rule by rule as KLayout finds them, all faults and their report,
layers that are left out, tiles of another side, a structure that isn't named, parts that are stitched, limits, pictures, and the times of a check's parts.
bench/remedies.py tries the remedies with the tools that they name. PROGRAM is run in the place of ./mpw. A tool that isn't installed is told, and left out.
The exit status is 0 where all is as expected, else 1."""
import os
import re
import shutil
import subprocess
import sys
import tempfile

HERE = os.path.dirname(os.path.abspath(__file__))
MPW = os.path.join(os.path.dirname(HERE), "mpw")
PROGRAM = os.path.abspath(sys.argv[1]) if sys.argv[1:] else MPW
PYTHONS = [sys.executable, "/usr/bin/python3"]
# In micrometres, of the first layer and of the second: in TOP, and in ARM, which is placed at 20, 0.
BARS = [(0, 0, 4, 40), (6, 0, 10, 40)]
ARM = [(0, 0, 4, 40)]
DOTS = [(1, 1, 3, 3), (11, 10, 13, 12), (7, 20, 9, 22)]
# The lower left corners of triangles with sides of 10, whose edge is at 45 degrees.
IN_TOP = [(0, 100), (40, 100), (80, 100)]
IN_ARM = [(100, 200), (140, 200)]

KLAYOUT = """
import pya

def box(x0, y0, x1, y1):
    return pya.Box(1000 * x0, 1000 * y0, 1000 * x1, 1000 * y1)

def draw(name, is_faulty):
    layout = pya.Layout()
    layout.dbu = 0.001
    top, arm = layout.create_cell('TOP'), layout.create_cell('ARM')
    first, second, logo = layout.layer(1, 0), layout.layer(2, 0), layout.layer(5, 0)
    for cell, layer, boxes in (top, first, bars), (arm, first, arms), (top, second, dots):
        for it in boxes:
            cell.shapes(layer).insert(box(*it))
    top.insert(pya.CellInstArray(arm.cell_index(), pya.Trans(20000, 0)))
    if is_faulty:
        for cell, corners in (top, in_top), (arm, in_arm):
            for x, y in corners:
                x, y = 1000 * x, 1000 * y
                cell.shapes(logo).insert(pya.Polygon([pya.Point(x, y), pya.Point(x, y + 10000), pya.Point(x + 10000, y)]))
    layout.write(folder + '/' + name)

draw('plain.gds', False)
draw('faulty.gds', True)
"""

GDSPY = """
import sys
import gdspy

folder = sys.argv[1]

def draw(name, is_faulty):
    library = gdspy.GdsLibrary('lib', unit=1e-6, precision=1e-9)
    top, arm = (gdspy.Cell(it, exclude_from_current=True) for it in ('TOP', 'ARM'))
    for cell, layer, boxes in (top, 1, bars), (arm, 1, arms), (top, 2, dots):
        for x0, y0, x1, y1 in boxes:
            cell.add(gdspy.Rectangle((x0, y0), (x1, y1), layer=layer))
    top.add(gdspy.CellReference(arm, (20, 0)))
    if is_faulty:
        for cell, corners in (top, in_top), (arm, in_arm):
            for x, y in corners:
                cell.add(gdspy.Polygon([(x, y), (x, y + 10), (x + 10, y)], layer=5))
    library.add(top)
    library.add(arm)
    library.write_gds(folder + '/' + name)

draw('plain.gds', False)
draw('faulty.gds', True)
"""


class Folder:
    def __init__(self):
        self.path = tempfile.mkdtemp(prefix="mpw-first-week-")

    def __enter__(self):
        return self

    def __exit__(self, *_):
        shutil.rmtree(self.path)

    def write(self, name, text):
        with open(os.path.join(self.path, name), "w", encoding="ascii") as file:
            file.write(text)

    def bytes_of(self, name):
        with open(os.path.join(self.path, name), "rb") as file:
            return file.read()

    def text_of(self, name):
        return self.bytes_of(name).decode()

    def run(self, *words):
        ended = subprocess.run([PROGRAM, *words], cwd=self.path, stdin=subprocess.DEVNULL, capture_output=True, text=True)
        return ended.returncode, ended.stdout.splitlines(), ended.stderr.splitlines()

    def klayout(self, script, *words):
        given = [it for word in words for it in ("-rd", word)]
        environment = {**os.environ, "QT_QPA_PLATFORM": "offscreen"}
        ended = subprocess.run(["klayout", "-b", "-r", script, *given], cwd=self.path, env=environment, stdout=subprocess.PIPE, check=True, text=True)
        return ended.stdout


def cells():
    """The cells as a line of Python."""
    return f"bars, arms, dots, in_top, in_arm = {BARS}, {ARM}, {DOTS}, {IN_TOP}, {IN_ARM}\n"


def by_klayout(folder):
    folder.write("draw.py", cells() + KLAYOUT)
    folder.klayout("draw.py", f"folder={folder.path}")
    return "1/0", "2/0", "5/0"


def by_gdspy(folder):
    python = python_with_gdspy()
    subprocess.run([python, "-c", cells() + GDSPY, folder.path], check=True, stderr=subprocess.DEVNULL)
    return "1/0", "2/0", "5/0"


def painted(layer, boxes):
    return [line for box in boxes for line in ("box " + " ".join(map(str, box)), f"paint {layer}")]


def split(corners):
    """A tile that is split by a diagonal, of which the lower left half is painted."""
    return [line for x, y in corners for line in (f"box {x} {y} {x + 10} {y + 10}", "splitpaint sw polysilicon")]


def by_magic(folder):
    """A square of the technology scmos is a micrometre. Of its layers metal1 and metal2 stand for the first two, and polysilicon for the third."""
    for name, in_top, in_arm in ("plain", [], []), ("faulty", IN_TOP, IN_ARM):
        lines = ["drc off", "load ARM", *painted("metal1", ARM), *split(in_arm), "save ARM"]
        lines += ["load TOP", *painted("metal1", BARS), *painted("metal2", DOTS), *split(in_top)]
        # The lower left corner of ARM's box is 0, 0, so it is placed by that.
        lines += ["box 20 0 20 0", "getcell ARM", f"gds write {name}", "quit -noprompt"]
        below = os.path.join(folder.path, f"magic-{name}")
        os.mkdir(below)
        with open(os.path.join(below, "draw.tcl"), "w", encoding="ascii") as file:
            file.write("\n".join(lines) + "\n")
        words = ["magic", "-dnull", "-noconsole", "-T", "scmos", "draw.tcl"]
        subprocess.run(words, cwd=below, stdin=subprocess.DEVNULL, stdout=subprocess.DEVNULL, stderr=subprocess.DEVNULL, timeout=120, check=False)
        shutil.copy(os.path.join(below, f"{name}.gds"), folder.path)
    return "49/1", "51/1", "46/1"


def python_with_gdspy():
    for python in PYTHONS:
        if os.path.exists(python) and subprocess.run([python, "-c", "import gdspy"], stderr=subprocess.DEVNULL).returncode == 0:
            return python
    return None


def rules(first, second):
    return [f"width w {first} 5000", f"space s {first} 3000", f"separation p {second} {first} 3000", f"enclosing e {first} {second} 3000"]


def counts_in(listing, names):
    return {name: sum(line.startswith(f"{name}:") for line in listing) for name in names}


def outputs(folder, *_):
    """No output is written over the library or the deck, by whatever name."""
    os.symlink("plain.gds", os.path.join(folder.path, "link"))
    os.link(os.path.join(folder.path, "deck"), os.path.join(folder.path, "other"))
    before = folder.bytes_of("plain.gds"), folder.bytes_of("deck")
    for option, name in ("--report", "./plain.gds"), ("--report", "link"), ("--picture", "other"), ("--report", os.path.join(folder.path, "plain.gds")):
        status, printed, told = folder.run("check", "--deck", "deck", "--top", "TOP", option, name, "plain.gds")
        yield f"{option} over an input", (status, printed, "are one file" in told[0]), (2, [], True)
    yield "the inputs", (folder.bytes_of("plain.gds"), folder.bytes_of("deck")) == before, True


def looks(folder, first, second, *_):
    """A rule that looks at nothing is told, on the standard error and in the report."""
    folder.write("idle", f"tile 20000\nspace s {first} 3000\nspace t 99/0 100\n")
    status, _, told = folder.run("check", "--deck", "idle", "--top", "TOP", "--report", "idle.lyrdb", "plain.gds")
    notes = [line for line in told if line.startswith("note: ")]
    idle = "rule t looks at nothing: layer 99/0 has no shapes"
    unnamed = f"no rule names layer {second}, which has {len(DOTS)} shapes"
    yield "notes", (status, notes), (1, [f"note: {idle}", f"note: {unnamed}"])
    yield "the report's description", f"<description>Markers of TOP; {idle}; {unnamed}</description>" in folder.text_of("idle.lyrdb"), True
    status, printed, _ = folder.run("check", "--deck", "idle", "--top", "TOP", "--strict", "plain.gds")
    yield "--strict", (status, printed), (4, [])


def markers(folder, *_):
    """Rule by rule as many markers as KLayout finds, and in the same boxes; those of a report are read by KLayout."""
    status, listing, _ = folder.run("check", "--deck", "deck", "--top", "TOP", "--report", "plain.lyrdb", "plain.gds")
    counts = counts_in(listing, "wspe")
    yield "status", status, 1
    if shutil.which("klayout"):
        theirs = folder.klayout(os.path.join(HERE, "klayout_deck.py"), "deck=deck", "library=plain.gds")
        yield "counts by KLayout", counts, {line.split()[0]: int(line.split()[1]) for line in theirs.splitlines()}
        read = folder.klayout(os.path.join(HERE, "report.rb"), "report=plain.lyrdb").strip()
        yield "the report by KLayout", read, f"{sum(counts.values())} markers, " + ", ".join(f"{name} {count}" for name, count in counts.items())
    for words in ["--tile", "7001"], ["--tile", "1000000"]:
        yield " ".join(words), folder.run("check", "--deck", "deck", "--top", "TOP", *words, "plain.gds")[:2], (1, listing)
    yield "without --top", folder.run("check", "--deck", "deck", "plain.gds")[:2], (1, listing)
    for share in "12":
        _, part, _ = folder.run("check", "--deck", "deck", "--top", "TOP", "--tiles", f"{share}/2", "plain.gds")
        folder.write(f"part.{share}", "\n".join(part) + "\n")
    yield "stitched", folder.run("stitch", "part.2", "part.1")[:2], (1, listing)
    first = {name: next((line for line in listing if line.startswith(f"{name}:")), None) for name in "wspe"}
    one = [line for line in first.values() if line]
    for words in ["check", "--deck", "deck", "--top", "TOP", "--limit", "1", "plain.gds"], ["stitch", "--limit", "1", "part.1", "part.2"]:
        status, printed, told = folder.run(*words)
        left = [line for line in told if line.endswith("markers left out")]
        wanted = [f"note: rule {name}: {count - 1} of {count} markers left out" for name, count in counts.items() if count > 1]
        yield f"{words[0]} --limit 1", (status, sorted(printed[1:]), left), (1, sorted(one), wanted)


def times(folder, *_):
    """How long the parts of a check took."""
    _, _, told = folder.run("check", "--deck", "deck", "--top", "TOP", "plain.gds")
    yield "times", re.sub(r"\d+", "N", told[-1]), "times: read N ms, cut N ms, check N ms, stitch N ms, write N ms"


def faults(folder, first, second, logo):
    """Each triangle is told once, with its first point in its structure and in TOP, and reported with the box of its points."""
    status, printed, told = folder.run("check", "--deck", "deck", "--top", "TOP", "--faults", "--report", "faulty.lyrdb", "faulty.gds")
    told_of = re.compile(r"fault: faulty\.gds: notmanhattan at byte (\d+) in (TOP|ARM), layer ([\d/]+), at (-?\d+),(-?\d+)(?:, in TOP at (-?\d+),(-?\d+))?")
    lines = [told_of.fullmatch(line) for line in told if line.startswith("fault: ")]
    places = [(structure, 1000 * x, 1000 * y) for structure, corners in (("TOP", IN_TOP), ("ARM", IN_ARM)) for x, y in corners]
    yield "faults", (status, printed, all(lines), len(lines)), (4, [], True, len(places))
    if not all(lines):
        return
    yield "their layers", {line[3] for line in lines}, {logo}
    moved = [line for line in lines if line[2] == "ARM" and (int(line[6]) - int(line[4]), int(line[7]) - int(line[5])) == (20000, 0)]
    yield "those below TOP in its coordinates", len(moved), len(IN_ARM)
    yield "the first one is told alone", told[-1].startswith(f"error: faulty.gds: notmanhattan at byte {lines[0][1]} in {lines[0][2]}: "), True
    report = folder.text_of("faulty.lyrdb")
    boxes = set(re.findall(r"<value>box: \(([-.\d]+),([-.\d]+);([-.\d]+),([-.\d]+)\)</value>", report))
    wanted = {tuple(map(str, (x, y, x + 10, y + 10))) for x, y in [*IN_TOP, *((x + 20, y) for x, y in IN_ARM)]}
    yield "their boxes", boxes, wanted
    yield "the report tells that nothing is checked", "; the library has faults, so nothing is checked</description>" in report, True
    if shutil.which("klayout"):
        read = folder.klayout(os.path.join(HERE, "report.rb"), "report=faulty.lyrdb").strip()
        yield "the report by KLayout", read, f"{len(places)} markers, w 0, s 0, p 0, e 0, faults of elements {len(places)}"
    _, listing, _ = folder.run("check", "--deck", "deck", "--top", "TOP", "plain.gds")
    status, printed, told = folder.run("check", "--deck", "deck", "--top", "TOP", "--skip-layers", logo, "faulty.gds")
    left = f"note: faulty.gds: elements left out, on skipped layers: {len(places)}; the desk reads them too, and refuses the file if one of them has a fault"
    yield "--skip-layers", (status, printed, left in told), (1, listing, True)


def pictures(folder, first, *_):
    """A picture of a marker has its ring, and its titles; one of the whole has as many looks as layers."""
    _, listing, _ = folder.run("check", "--deck", "deck", "--top", "TOP", "--picture", "whole.svg", "plain.gds")
    whole = folder.text_of("whole.svg")
    yield "a picture of the whole", (">TOP<" in whole, len(set(re.findall(r'class="l (l\d+)"', whole)))), (True, 2)
    key = listing[1].split()[0]
    status, _, _ = folder.run("check", "--deck", "deck", "--top", "TOP", "--picture", "one.svg", "--marker", key, "plain.gds")
    one = folder.text_of("one.svg")
    yield "a picture of a marker", (status, f">{key}" in one, one.count('<rect class="w"')), (1, True, 1)


POINTS = [outputs, looks, markers, times, faults, pictures]


def try_tool(name, draw):
    with Folder() as folder:
        layers = draw(folder)
        folder.write("deck", "\n".join(["tile 20000", *rules(*layers[:2])]) + "\n")
        same, tried = True, 0
        for point in POINTS:
            for what, found, wanted in point(folder, *layers):
                tried += 1
                if found != wanted:
                    same = False
                    print(f"{name}: {point.__name__}: {what}: {found!r}, expected {wanted!r}")
        print(f"{name}: {tried} runs, {'all as expected' if same else 'of which some differ'}")
        return same


def great_libraries(folder):
    """A library of KLayout's above 2^24 bytes is checked, with a note."""
    folder.write("great.py", "import pya\nl = pya.Layout()\nt = l.create_cell('TOP')\nm = l.layer(1, 0)\nfor i in range(300000):\n"
                 "    t.shapes(m).insert(pya.Box(100 * i % 1000000, i // 10000 * 100, 100 * i % 1000000 + 60, i // 10000 * 100 + 60))\nl.write('great.gds')\n")
    folder.klayout("great.py")
    folder.write("deck", "tile 100000\nwidth w 1/0 50\n")
    size = os.path.getsize(os.path.join(folder.path, "great.gds"))
    status, printed, told = folder.run("check", "--deck", "deck", "--top", "TOP", "great.gds")
    note = f"note: great.gds has {size} bytes, and the desk takes no library of more than 16777216"
    return status == 0 and printed == ["OK 0"] and note in told and size > 1 << 24


def main():
    same = True
    tools = [("KLayout", by_klayout, shutil.which("klayout")), ("gdspy", by_gdspy, python_with_gdspy()), ("Magic", by_magic, shutil.which("magic"))]
    for name, draw, is_there in tools:
        if is_there:
            same &= try_tool(name, draw)
        else:
            print(f"{name} isn't installed, so nothing of it was tried")
    if shutil.which("klayout"):
        with Folder() as folder:
            great = great_libraries(folder)
            print(f"KLayout: a library above 2^24 bytes: {'as expected' if great else 'differs'}")
            same &= great
    return 0 if same else 1


if __name__ == "__main__":
    sys.exit(main())
