#!/usr/bin/env python3
"""Makes the pictures of docs/deck.md, one for each rule: small layouts, with the markers that `./mpw check` finds in them.

  examples/rules.py            writes docs/images/rule-NAME.svg
  examples/rules.py --check    compares, and prints what differs

Each panel is a part of one layout. The markers are those of a check under the rule, so a picture shows what is found.
"""
import os
import subprocess
import sys
import tempfile

from make import box, library, structure

HERE = os.path.dirname(os.path.abspath(__file__))
TOP = os.path.dirname(HERE)
MPW = os.environ.get("MPW", f"{TOP}/mpw")
FIRST, SECOND = 1, 2
# A panel is this wide and high, in nm; a pixel is 2 nm.
WIDE, HIGH, SCALE, TEXT = 420, 400, 2, 44
COLOURS = {FIRST: "#7aa6da", SECOND: "#e0a33b"}
FOUND = "#c0182b"
# For each rule its line of the deck, and its panels: a caption, and boxes as layer, left, bottom, right, top.
RULES = {
    "width": ("width w 1/0 100", (
        ("80 nm wide", ((FIRST, 170, 60, 250, 340),)),
        ("100 nm wide", ((FIRST, 160, 60, 260, 340),)),
        ("a U: the gap counts for space", ((FIRST, 60, 60, 160, 340), (FIRST, 160, 60, 260, 180), (FIRST, 260, 60, 360, 340))),
        ("a short step of 60 nm", ((FIRST, 100, 60, 320, 200), (FIRST, 180, 200, 240, 260))),
    )),
    "space": ("space s 1/0 100", (
        ("80 nm apart", ((FIRST, 60, 60, 170, 340), (FIRST, 250, 60, 360, 340))),
        ("100 nm apart", ((FIRST, 50, 60, 160, 340), (FIRST, 260, 60, 370, 340))),
        ("a notch of 80 nm", ((FIRST, 60, 60, 170, 340), (FIRST, 170, 60, 250, 160), (FIRST, 250, 60, 360, 340))),
        ("corner to corner", ((FIRST, 60, 60, 200, 190), (FIRST, 230, 220, 360, 340))),
    )),
    "separation": ("separation p 1/0 2/0 100", (
        ("80 nm apart", ((FIRST, 60, 60, 170, 340), (SECOND, 250, 60, 360, 340))),
        ("100 nm apart", ((FIRST, 50, 60, 160, 340), (SECOND, 260, 60, 370, 340))),
        ("they touch", ((FIRST, 60, 60, 210, 340), (SECOND, 210, 60, 360, 340))),
        ("they overlap", ((FIRST, 60, 60, 240, 340), (SECOND, 120, 120, 360, 280))),
    )),
    "enclosing": ("enclosing e 1/0 2/0 100", (
        ("80 nm on the left", ((FIRST, 40, 60, 360, 340), (SECOND, 120, 160, 260, 240))),
        ("100 nm on each side", ((FIRST, 40, 60, 360, 340), (SECOND, 140, 160, 260, 240))),
        ("the edges coincide", ((FIRST, 60, 40, 360, 360), (SECOND, 60, 150, 260, 250))),
        ("it reaches out", ((FIRST, 120, 40, 380, 360), (SECOND, 60, 150, 270, 250))),
    )),
}


def shifted(panels):
    """The boxes of all panels in one layout."""
    return [(layer, x0 + WIDE * n * 2, y0, x1 + WIDE * n * 2, y1) for n, (_, boxes) in enumerate(panels) for layer, x0, y0, x1, y1 in boxes]


def markers_of(rule, boxes):
    """The markers of a layout: axis and coordinates."""
    with tempfile.TemporaryDirectory(prefix="mpw-rules-") as folder:
        with open(f"{folder}/rule.gds", "wb") as file:
            file.write(library(structure("TOP", *(box(*given) for given in boxes))))
        with open(f"{folder}/rule.deck", "w", encoding="ascii") as file:
            file.write(f"tile 4096\n{rule}\n")
        asked = [MPW, "check", "--deck", f"{folder}/rule.deck", f"{folder}/rule.gds"]
        printed = subprocess.run(asked, stdout=subprocess.PIPE, stderr=subprocess.DEVNULL, text=True, check=False).stdout
    keys = [line.split()[0].split(":") for line in printed.splitlines()[1:]]
    return [(axis, *map(int, numbers)) for _, axis, _, *numbers in keys]


def edges_of(marker):
    """Both edges of a marker, each as its two ends."""
    axis, x1, x2, y0, y1 = marker
    return [((x, y0), (x, y1)) if axis == "V" else ((y0, x), (y1, x)) for x in (x1, x2)]


def panel_of(number, caption, boxes, markers):
    """A panel: its shapes, its markers, the distance of each, and what came of it."""
    left, base = WIDE * number // SCALE, HIGH // SCALE

    def at(x, y):
        return left + x / SCALE, base - y / SCALE
    lines = [f'<rect x="{left + 4}" y="4" width="{WIDE // SCALE - 8}" height="{base + TEXT - 8}" fill="none" stroke="#d0d0d0"/>']
    for layer, x0, y0, x1, y1 in boxes:
        x, y = at(x0, y1)
        lines.append(f'<rect x="{x:g}" y="{y:g}" width="{(x1 - x0) / SCALE:g}" height="{(y1 - y0) / SCALE:g}" fill="{COLOURS[layer]}" fill-opacity="0.8"/>')
    for marker in markers:
        (first, second), (third, fourth) = edges_of(marker)
        corners = " ".join("{:g},{:g}".format(*at(*point)) for point in (first, second, fourth, third))
        lines.append(f'<polygon points="{corners}" fill="{FOUND}" fill-opacity="0.25"/>')
        for start, end in edges_of(marker):
            (a, b), (c, d) = at(*start), at(*end)
            lines.append(f'<line x1="{a:g}" y1="{b:g}" x2="{c:g}" y2="{d:g}" stroke="{FOUND}" stroke-width="3"/>')
    sides = sorted({marker[2] - marker[1] for marker in markers})
    result = f"found: {', '.join(map(str, sides))} nm" if sides else "not found"
    middle = left + WIDE / SCALE / 2
    lines.append(f'<text x="{middle:g}" y="{base + 12}" text-anchor="middle">{caption}</text>')
    lines.append(f'<text x="{middle:g}" y="{base + 28}" text-anchor="middle" fill="{FOUND if sides else "#2b7a2b"}">{result}</text>')
    return lines


def picture_of(name):
    """The picture of a rule, as SVG."""
    rule, panels = RULES[name]
    markers = markers_of(rule, shifted(panels))
    wide, high = WIDE * len(panels) // SCALE, HIGH // SCALE + TEXT
    lines = [f'<svg xmlns="http://www.w3.org/2000/svg" viewBox="0 0 {wide} {high}" width="{wide}" height="{high}" font-family="sans-serif" font-size="13">',
             f"<title>{rule}</title>", f'<rect width="{wide}" height="{high}" fill="white"/>']
    for number, (caption, boxes) in enumerate(panels):
        own = [moved(marker, -WIDE * number * 2) for marker in markers if is_in(marker, number)]
        lines += panel_of(number, caption, boxes, own)
    return "\n".join([*lines, "</svg>"]) + "\n"


def is_in(marker, number):
    """Whether a marker is one of that panel."""
    first = marker[1] if marker[0] == "V" else marker[3]
    return first // (WIDE * 2) == number


def moved(marker, by):
    axis, x1, x2, y0, y1 = marker
    return (axis, x1 + by, x2 + by, y0, y1) if axis == "V" else (axis, x1, x2, y0 + by, y1 + by)


def differing(name):
    """What differs from the picture that is there."""
    with open(f"{TOP}/docs/images/rule-{name}.svg", encoding="utf-8") as file:
        return [] if file.read() == picture_of(name) else [f"docs/images/rule-{name}.svg isn't what examples/rules.py makes"]


CASES = {f"the picture of the rule {name}": lambda name=name: differing(name) for name in RULES}


def main(words):
    if words not in ([], ["--check"]):
        print(__doc__, file=sys.stderr)
        return 2
    if words:
        faults = [fault for name in RULES for fault in differing(name)]
        print("".join(f"{fault}\n" for fault in faults), end="")
        return 1 if faults else 0
    for name in RULES:
        with open(f"{TOP}/docs/images/rule-{name}.svg", "w", encoding="utf-8") as file:
            file.write(picture_of(name))
    return 0


if __name__ == "__main__":
    sys.exit(main(sys.argv[1:]))
