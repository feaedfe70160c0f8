#!/usr/bin/env python3
"""Draws the pictures of docs/klayout.md, one for each form of a path that KLayout draws otherwise than `mpw` reads it.

  examples/paths.py            writes docs/images/path-NAME.svg
  examples/paths.py --check    compares, and prints what differs; scripts/cited.py does so too

FORMS has what each of both covers. examples/check.py compares it with what `./mpw check` finds, and bench/klayout_paths.py with what KLayout draws.
"""
import os
import subprocess
import sys
import tempfile
from typing import NamedTuple, Optional

from make import library, path, structure

HERE = os.path.dirname(os.path.abspath(__file__))
TOP = os.path.dirname(HERE)
MPW = os.environ.get("MPW", f"{TOP}/mpw")
# A panel has this part of the layout across, and so much beside the shapes above and below, in nm; a pixel is 2 nm.
LEFT, RIGHT, BESIDE, SCALE = -120, 540, 40, 2
HEAD, TEXT = 28, 44
SHAPE, DIFFERENCE, LINE = "#a9c7e8", "#c0182b", "#1f3f66"
# The greatest distance of a rule.
FARTHEST = 65535


class Form(NamedTuple):
    """A path, and for mpw and for KLayout the corners of what it covers, counterclockwise and in nm, and the words below it."""

    kind: int
    width: int
    points: tuple
    lengthened: Optional[tuple]
    ours: tuple
    theirs: tuple
    words: tuple

    def element(self):
        return path(1, self.kind, self.width, [number for point in self.points for number in point], self.lengthened)

    def heights(self):
        """The least and the greatest y of a panel."""
        found = [y for _, y in self.ours + self.theirs]
        return min(found) - BESIDE, max(found) + BESIDE

    def title(self):
        begin, *inner, end = self.points
        given = "" if self.lengthened is None else "BGNEXTN {}, ENDEXTN {}, ".format(*self.lengthened)
        through = "".join(f"via {point} " for point in inner)
        return f"PATHTYPE {self.kind}, WIDTH {self.width}, {given}from {begin} {through}to {end}"


def bar(left, low, right, high):
    return ((left, low), (right, low), (right, high), (left, high))


FORMS = {
    "short-end": Form(
        0, 200, ((0, 0), (400, 0), (400, 40)), None,
        bar(0, -100, 500, 100), ((0, -100), (500, -100), (500, 40), (300, 40), (300, 100), (0, 100)),
        ("the corner is whole", "the corner is cut at the path's end")),
    "extension": Form(
        0, 100, ((0, 0), (300, 0)), (80, 40), bar(0, -50, 300, 50), bar(-80, -50, 340, 50), ("it ends at its points", "80 and 40 nm longer")),
    "negative-width": Form(
        2, -100, ((0, 0), (300, 0)), None, bar(-50, -50, 350, 50), bar(50, -50, 250, 50), ("50 nm longer at each end", "50 nm shorter at each end")),
    "turned": Form(
        4, 200, ((0, 0), (120, 0)), (-100, -100), (), bar(20, -100, 100, 100), ("no area", "from 100 back to 20 nm")),
}


def is_inside(outline, x, y):
    """Whether an outline goes round a point that lies on none of its lines."""
    edges = zip(outline, outline[1:] + outline[:1])
    return sum(left < x and min(low, high) < y < max(low, high) for (left, low), (right, high) in edges if left == right) % 2 == 1


def rectangles(*outlines):
    """The rectangles into which the lines through all corners cut the plane, each with whether each of these outlines has it."""
    corners = {corner for outline in outlines for corner in outline}
    across, up = (sorted({corner[axis] for corner in corners}) for axis in (0, 1))
    for x0, x1 in zip(across, across[1:]):
        for y0, y1 in zip(up, up[1:]):
            yield (x0, y0, x1, y1), tuple(is_inside(outline, (x0 + x1) / 2, (y0 + y1) / 2) for outline in outlines)


def panel_of(number, form, name, outline):
    """A panel: what one of both covers, the centre line, and a frame around what only one covers."""
    low, high = form.heights()
    wide = (RIGHT - LEFT) // SCALE
    left, bottom = number * wide, HEAD + (high - low) // SCALE

    def at(x, y):
        return f"{left + (x - LEFT) / SCALE:g}", f"{bottom - (y - low) / SCALE:g}"
    lines = [f'<rect x="{left + 4}" y="{HEAD}" width="{wide - 8}" height="{bottom - HEAD + TEXT - 4}" fill="none" stroke="#d0d0d0"/>']
    if outline:
        corners = " ".join(",".join(at(*corner)) for corner in outline)
        lines.append(f'<polygon points="{corners}" fill="{SHAPE}"/>')
    for (x0, y0, x1, y1), (is_ours, is_theirs) in rectangles(form.ours, form.theirs):
        if is_ours != is_theirs:
            x, y = at(x0, y1)
            lines.append(f'<rect x="{x}" y="{y}" width="{(x1 - x0) / SCALE:g}" height="{(y1 - y0) / SCALE:g}" fill="none" '
                         f'stroke="{DIFFERENCE}" stroke-width="2" stroke-dasharray="5 3"/>')
    for start, end in zip(form.points, form.points[1:]):
        (a, b), (c, d) = at(*start), at(*end)
        lines.append(f'<line x1="{a}" y1="{b}" x2="{c}" y2="{d}" stroke="{LINE}" stroke-width="1.5"/>')
    for point in form.points:
        x, y = at(*point)
        lines.append(f'<circle cx="{x}" cy="{y}" r="3" fill="{LINE}"/>')
    for row, text in enumerate((name, form.words[number])):
        weight = "" if row else ' font-weight="bold"'
        lines.append(f'<text x="{left + wide // 2}" y="{bottom + 12 + 18 * row}" text-anchor="middle"{weight}>{text}</text>')
    return lines


def picture_of(form):
    """The picture of a form, as SVG."""
    low, high = form.heights()
    wide, high = 2 * (RIGHT - LEFT) // SCALE, HEAD + (high - low) // SCALE + TEXT
    lines = [f'<svg xmlns="http://www.w3.org/2000/svg" viewBox="0 0 {wide} {high}" width="{wide}" height="{high}" font-family="sans-serif" font-size="13">',
             f"<title>{form.title()}</title>", f'<rect width="{wide}" height="{high}" fill="white"/>',
             f'<text x="{wide // 2}" y="18" text-anchor="middle">{form.title()}</text>']
    lines += panel_of(0, form, "mpw checks", form.ours) + panel_of(1, form, "KLayout draws", form.theirs)
    return "\n".join([*lines, "</svg>"]) + "\n"


def library_of(form):
    return library(structure("TOP", form.element()))


def differing(name):
    """What differs from the picture that is there."""
    with open(f"{TOP}/docs/images/path-{name}.svg", encoding="utf-8") as file:
        return [] if file.read() == picture_of(FORMS[name]) else [f"docs/images/path-{name}.svg isn't what examples/paths.py draws"]


def covered(form):
    """What `mpw check` takes a path to cover: the markers of a width that finds all, each as its corners."""
    with tempfile.TemporaryDirectory(prefix="mpw-paths-") as folder:
        with open(f"{folder}/path.gds", "wb") as file:
            file.write(library_of(form))
        with open(f"{folder}/path.deck", "w", encoding="ascii") as file:
            file.write(f"tile 4096\nwidth w 1/0 {FARTHEST}\n")
        asked = [MPW, "check", "--deck", f"{folder}/path.deck", "--top", "TOP", f"{folder}/path.gds"]
        printed = subprocess.run(asked, stdout=subprocess.PIPE, stderr=subprocess.PIPE, text=True, check=False)
    if printed.returncode > 1:
        raise OSError(printed.stderr)
    keys = [line.split()[0].split(":") for line in printed.stdout.splitlines()[1:]]
    return [bar(*(int(number) for number in (x1, y0, x2, y1))) for _, axis, _, x1, x2, y0, y1 in keys if axis == "V"]


def uncovered(name):
    """What `mpw check` covers otherwise than FORMS says."""
    form, found = FORMS[name], covered(FORMS[name])
    wrong = [place for place, (is_there, *others) in rectangles(form.ours, *found) if is_there != any(others)]
    return [f"mpw check covers {found}, and FORMS of examples/paths.py says {form.ours}"] if wrong else []


def faults():
    """The pictures that differ."""
    return [fault for name in FORMS for fault in differing(name)]


CASES = {
    **{f"the picture of the path {name}": lambda name=name: differing(name) for name in FORMS},
    **{f"what the path {name} covers": lambda name=name: uncovered(name) for name in FORMS},
}


def main(words):
    if words not in ([], ["--check"]):
        print(__doc__, file=sys.stderr)
        return 2
    if words:
        found = faults()
        print("".join(f"{fault}\n" for fault in found), end="")
        return 1 if found else 0
    for name, form in FORMS.items():
        with open(f"{TOP}/docs/images/path-{name}.svg", "w", encoding="utf-8") as file:
            file.write(picture_of(form))
    return 0


if __name__ == "__main__":
    sys.exit(main(sys.argv[1:]))
