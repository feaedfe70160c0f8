"""The wafer: what is placed on it, its deck, and the checking run over both."""
from dataclasses import dataclass, field
from typing import NamedTuple

from checks import markers_of
from deck import Deck, deck_of
from geometry import joined, lies_within_limits, placed_box, placing_of
from replies import Refused, test
from shelf import MOST_SHAPES, Submission, flat_list

MOST_PLACEMENTS = 4096
MOST_TILES = 4096


class Root(NamedTuple):
    """A placed submission: the submission, an orientation by its word, and the displacement."""

    submission: Submission
    orientation: str
    x: int
    y: int

    @property
    def placing(self):
        """The orientation, then the displacement."""
        return placing_of(self.orientation, self.x, self.y)

    @property
    def extent(self):
        """The extent of what the submission shows, placed; none where it shows nothing."""
        extent = self.submission.whole.extent
        return None if extent is None else placed_box(self.placing, extent)


class Placement(NamedTuple):
    """A root with the name of its cell and a label."""

    cell: str
    label: str
    root: Root


@dataclass(eq=False)
class Run:
    """A finished run: its number, the snapshot that it looked at, its markers, and the waivers of these by key."""

    number: int
    deck: Deck
    roots: list
    markers: list
    waivers: dict = field(default_factory=dict)


def shapes_of(roots):
    """How many shapes placed submissions show together."""
    return sum(root.submission.whole.count for root in roots)


def tiles_over(roots, side):
    """How many squares of a side the grid over the extent of all that is shown has."""
    extent = None
    for root in roots:
        extent = joined(extent, root.extent)
    columns = (extent.right - extent.left) // side + 1
    rows = (extent.top - extent.bottom) // side + 1
    return columns * rows


class Wafer:
    """The placements in order, the deck, and the last run; none of either at first."""

    def __init__(self, policy, shelf):
        self.policy = policy
        self.shelf = shelf
        self.placements = []
        self.deck = None
        self.run = None

    @property
    def roots(self):
        """The placed submissions in order, without labels."""
        return [placement.root for placement in self.placements]

    def placement_at(self, cell, label):
        """The place of a cell's placement with a label; none where there is none."""
        for place, placement in enumerate(self.placements):
            if (placement.cell, placement.label) == (cell, label):
                return place
        return None

    def place(self, cell, label, orientation, x, y):
        """A cell's present submission, where its extent lies within the limits, and all shapes together do."""
        self.policy.need("place", cell)
        test(cell in self.shelf.present, "nocell")
        test(self.placement_at(cell, label) is None, "known")
        root = Root(self.shelf.present[cell], orientation, x, y)
        test(lies_within_limits(root.extent), "extent")
        test(shapes_of([*self.roots, root]) <= MOST_SHAPES, "shapes")
        test(len(self.placements) < MOST_PLACEMENTS, "full")
        self.placements.append(Placement(cell, label, root))
        return [f"version {root.submission.version}"]

    def unplace(self, cell, label):
        """A placement is taken away, by its cell and label."""
        self.policy.need("place", cell)
        place = self.placement_at(cell, label)
        test(place is not None, "unknown")
        del self.placements[place]

    def bring_deck(self, text):
        """A deck's text takes the place of the last deck; one with a fault leaves it."""
        self.policy.need("deck", "desk")
        self.deck = deck_of(text)

    def begin_run(self):
        """Checks what is placed by the deck. The run is finished by the next request, and takes the last one's place;
        its tiles are counted, but what it finds doesn't depend on them."""
        self.policy.need("run", "desk")
        test(self.deck is not None, "nodeck")
        roots = self.roots
        test(shapes_of(roots) > 0, "empty")
        test(tiles_over(roots, self.deck.tile) <= MOST_TILES, "tiles")
        items = (item for root in roots for item in flat_list(root.submission, root.placing))
        number = self.run.number + 1 if self.run else 1
        self.run = Run(number, self.deck, roots, markers_of(self.deck, items))
        return [f"run {number}"]

    def cancel(self):
        """Of one connection no run goes on where it asks: each has finished before."""
        self.policy.need("run", "desk")
        raise Refused("norun")

    def status(self):
        """Idle before the first run, then finished: a run ends before the next request."""
        self.policy.need_session()
        return [f"finished {self.run.number}" if self.run else "idle"]
