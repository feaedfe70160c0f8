"""What `mpw check --skip-faulty` leaves out: the lines that it prints of these elements, and the library without them."""
import re
from bisect import bisect_left
from typing import Iterable, Iterator, List, Optional, Tuple

from mpw_gdsii import AREF, BOUNDARY, BOX, ENDEL, ENDLIB, NODE, PATH, SREF, TEXT, records

# A line of an element that has a fault: the file, and then the fault with its byte in the file, and its place.
LINE = re.compile(rb"fault: (?:.*?: )?([a-z]+ at byte ([0-9]+)(?:(?: in|,) .*)?)\n?")
BEGINS, WHOLE = (BOUNDARY, PATH, SREF, AREF, TEXT, NODE, BOX), (TEXT, NODE)


class LeftOut:
    """The elements that a check left out, as it prints them: the text of each, and the byte of its fault in the file."""

    def __init__(self):
        self.lines: List[str] = []
        self.bytes: List[int] = []

    def __len__(self):
        return len(self.lines)

    def hear(self, line: bytes):
        """Takes a line of the check's standard error."""
        found = LINE.fullmatch(line)
        if found:
            self.lines.append(found[1].decode("ascii", "replace"))
            self.bytes.append(int(found[2]))

    def without(self, library: bytes) -> bytes:
        """The library without the elements that have these bytes."""
        places = sorted(self.bytes)
        return b"".join(pieces(library, [span for span in elements_of(library) if has_one(span, places)]))


def has_one(span: Tuple[int, int], places: List[int]) -> bool:
    """Whether one of these places, which are in order, is in a span."""
    next_one = bisect_left(places, span[0])
    return next_one < len(places) and places[next_one] < span[1]


def elements_of(library: bytes) -> Iterator[Tuple[int, int]]:
    """Where each element of a library begins and ends. A text or a node goes on to its ENDEL, whatever is in it."""
    begun: Optional[Tuple[int, int]] = None
    for at, kind, end in records(library, 0):
        if kind == ENDLIB:
            return
        if kind == ENDEL:
            if begun is not None:
                yield begun[0], end
            begun = None
        elif kind in BEGINS and not (begun is not None and begun[1] in WHOLE):
            begun = at, kind


def pieces(library: bytes, spans: Iterable[Tuple[int, int]]) -> Iterator[bytes]:
    """What is between these spans."""
    reached = 0
    for begin, end in spans:
        yield library[reached:begin]
        reached = end
    yield library[reached:]
