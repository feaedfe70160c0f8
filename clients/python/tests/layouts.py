"""Libraries and decks for the tests, written by examples/make.py."""
import os
import sys

from stand_in import TOP

sys.path.append(os.path.join(TOP, "examples"))

from make import box, library, path, placed, structure  # noqa: E402


def pad():
    """A bar of 10 by 100 on layer 1, and a path of three points."""
    return library(structure("PAD", box(1, 0, 0, 10, 100), path(7, 4, 20, (0, 300, 200, 300, 200, 500), (5, -10))))


def chip():
    """A bar 10 from that of the cell pad, which it shows."""
    return library(structure("CHIP", box(1, 20, 0, 30, 100), placed("pad", 0, 0)))
