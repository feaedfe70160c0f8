"""Markers of a desk in the coordinates of a placed cell, as a report for KLayout's marker browser.

A desk's markers have the wafer's coordinates. Who knows where a cell was placed gets them in the cell's own coordinates.
"""
import re
from typing import List, NamedTuple, Optional, Sequence, Tuple
from xml.etree import ElementTree

from mpw_desk import Axis, Key, Marker, Markers, Waiver
from mpw_report import quoted, report_of

TURNS = {"R0": 0, "R90": 1, "R180": 2, "R270": 3, "M0": 0, "M90": 1, "M180": 2, "M270": 3}


class Placement(NamedTuple):
    """Where a cell is placed: first it is mirrored about the x axis, if its orientation has M, then turned, then moved."""

    is_mirrored: bool
    turns: int
    x: int
    y: int

    def in_cell(self, point: Tuple[int, int]) -> Tuple[int, int]:
        """A point of the wafer in the cell's coordinates."""
        x, y = point[0] - self.x, point[1] - self.y
        for _ in range(self.turns):
            x, y = y, -x
        return x, -y if self.is_mirrored else y


def placement_of(text: str) -> Optional[Placement]:
    """A placement by its words ORIENTATION X Y, alone or at the end of `place CELL LABEL ORIENTATION X Y`; none if there are
    no words. Raises ValueError if it is none."""
    if not text.strip():
        return None
    found = re.fullmatch(r"(?:(?:place )?[!-~]+ [!-~]+ )?([RM](?:0|90|180|270)) (-?[0-9]{1,10}) (-?[0-9]{1,10})", text.strip())
    if not found:
        raise ValueError(f"{text.strip()}: no placement: it is ORIENTATION X Y, such as R90 12000 -500, in nm")
    return Placement(found[1][0] == "M", TURNS[found[1]], int(found[2]), int(found[3]))


def key_in_cell(key: Key, placement: Placement) -> Key:
    """A marker's key in a cell's coordinates. It is for drawing: its side is the desk's."""
    left, bottom, right, top = key.box
    corners = placement.in_cell((left, bottom)), placement.in_cell((right, top))
    along_x, along_y = (tuple(sorted(numbers)) for numbers in zip(*corners))
    if (key.axis is Axis.V) == (placement.turns % 2 == 0):
        return Key(key.rule, Axis.V, key.side, *along_x, *along_y)
    return Key(key.rule, Axis.H, key.side, *along_y, *along_x)


def of_cell(markers: Markers, cell: str) -> Markers:
    """The markers that touch a cell; all of them if no cell is named."""
    return Markers([it for it in markers.full if not cell or cell in it.cells], markers.masked)


def near(markers: Markers, placement: Placement, box: Sequence[int]) -> Markers:
    """The markers that touch a box in a cell's coordinates. Those at another placement of the cell don't touch the cell's."""

    def touches(marker):
        left, bottom, right, top = key_in_cell(marker.key, placement).box
        return left <= box[2] and box[0] <= right and bottom <= box[3] and box[1] <= top

    return Markers([it for it in markers.full if touches(it)], markers.masked)


def desk_report(markers: Markers, waivers: List[Waiver], top: str, deck: str = "", placement: Optional[Placement] = None) -> str:
    """A report under a cell's name. Each item has as its text the line of the desk's listing, whose key a waiver needs."""
    moved, known = markers.full, waivers
    if placement is not None:
        moved = [Marker(key_in_cell(it.key, placement), it.cells) for it in markers.full]
        known = [Waiver(key_in_cell(it.key, placement), it.asker, it.signer) for it in waivers]
    tree = ElementTree.fromstring(report_of(Markers(moved, markers.masked), known, deck, top))
    for item, marker in zip(tree.iterfind("items/item"), markers.full):
        line = " ".join([str(marker.key), *marker.cells])
        ElementTree.SubElement(item.find("values"), "value").text = f"text: {quoted(line)}"
    return ElementTree.tostring(tree, encoding="unicode")


def summary(markers: Markers, run: str) -> str:
    """What a window shows of the markers."""
    masked = [f"{it.number} of rule {it.rule}" for it in markers.masked if it.number]
    text = f"Run: {run}. Markers that you may see in full: {len(markers.full)}."
    return text + (f" Masked: {', '.join(masked)}." if masked else "")
