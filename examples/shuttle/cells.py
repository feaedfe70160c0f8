#!/usr/bin/env python3
"""Makes the cells of the tutorials.

  examples/shuttle/cells.py

writes amp.gds, amp-fixed.gds, osc.gds and ram.gds next to this file. All lengths are in nanometres. docs/tutorial-firm.md and
docs/tutorial-shuttle.md use these cells. The deck, the policy and the placements are written by hand.
"""
import os
import sys

HERE = os.path.dirname(os.path.abspath(__file__))
sys.path.insert(0, os.path.dirname(HERE))

from make import box, library, path, placed, structure  # noqa: E402

METAL1, METAL2, VIA1 = 1, 2, 11
SEAL = 400  # the width of the seal ring at a cell's edge
VIA = 100  # the side of a via


def seal(width, height):
    """The seal ring of a cell from (0, 0) to (width, height)."""
    return [
        box(METAL1, 0, 0, width, SEAL),
        box(METAL1, 0, height - SEAL, width, height),
        box(METAL1, 0, SEAL, SEAL, height - SEAL),
        box(METAL1, width - SEAL, SEAL, width, height - SEAL),
    ]


def via(x, y):
    """A via with its lower left corner at (x, y)."""
    return box(VIA1, x, y, x + VIA, y + VIA)


# Two combs whose teeth lie between each other.

TOOTH, PITCH, TEETH = 300, 900, 8
THIN = 80  # fault: a tooth of this width, where the deck asks for 100
LOW_VIA = 1210  # fault: a via 10 above the lower edge of its metal, where the deck asks for 40
GOOD_VIA = 1350


def amp(is_fixed):
    lower = [box(METAL1, 1400 + PITCH * n, 1600, 1400 + PITCH * n + TOOTH, 5600) for n in range(TEETH)]
    if not is_fixed:
        lower[3] = box(METAL1, 1400 + PITCH * 3, 1600, 1400 + PITCH * 3 + THIN, 5600)
    upper = [box(METAL1, 1850 + PITCH * n, 2400, 1850 + PITCH * n + TOOTH, 6400) for n in range(TEETH)]
    vias = [via(1500 + PITCH * n, GOOD_VIA if is_fixed or n != 5 else LOW_VIA) for n in range(TEETH)]
    vias += [via(1950 + PITCH * n, 6550) for n in range(TEETH)]
    rails = [box(METAL1, 1200, 1200, 8800, 1600), box(METAL1, 1200, 6400, 8800, 6800)]
    straps = [box(METAL2, 1200, 900, 8800, 1600), box(METAL2, 1200, 6400, 8800, 7100)]
    return library(structure("AMP", *seal(10000, 8000), *rails, *lower, *upper, *vias, *straps))


# A coil: one path, inwards.


def osc():
    left, low, right, high = 1200, 1200, 7800, 6800
    points = [left, low]
    for _ in range(3):
        points += [right, low, right, high, left, high, left, low + 800]
        left, low, right, high = left + 800, low + 800, right - 800, high - 800
        points += [left, low]
    coil = path(METAL1, 2, 400, points)
    x, y = points[-2:]
    under = [box(METAL2, x - 200, 800, x + 200, y + 200), via(x - 50, y - 50)]
    return library(structure("OSC", *seal(9000, 8000), coil, *under))


# An array of memory bits. Each has a space of 110, where the deck asks for 120: the markers that get a waiver.

COLUMNS, ROWS = 3, 2
BIT_X, BIT_Y = 2000, 2900


def ram():
    bit = structure(
        "BIT",
        box(METAL1, 0, 0, 600, 2300),
        box(METAL1, 710, 0, 1500, 900),
        box(METAL1, 900, 1100, 1500, 2300),
        via(250, 1100), via(1150, 400), via(1150, 1600),
        box(METAL2, 1050, 200, 1350, 1900),
    )
    bits = [placed("BIT", 1200 + BIT_X * column, 1300 + BIT_Y * row) for row in range(ROWS) for column in range(COLUMNS)]
    words = [box(METAL2, 1200, 1300 + BIT_Y * row + 2500, 6800, 1300 + BIT_Y * row + 2700) for row in range(ROWS)]
    return library(structure("RAM", *seal(8000, 8000), *bits, *words), bit)


def main():
    for name, data in ("amp", amp(False)), ("amp-fixed", amp(True)), ("osc", osc()), ("ram", ram()):
        with open(os.path.join(HERE, f"{name}.gds"), "wb") as file:
            file.write(data)
        print(f"{name}.gds: {len(data)} bytes")


if __name__ == "__main__":
    main()
