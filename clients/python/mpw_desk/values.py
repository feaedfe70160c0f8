"""What requests name, and what replies say."""
import enum
import re
from typing import List, NamedTuple, Optional, Tuple, Union

from .faults import BadWord, shortened

DESK = "desk"  # the object of the operations on the desk


class Operation(enum.Enum):
    """What is granted: the first four on a cell, the others on the object `desk`."""

    SUBMIT, USE, READ, PLACE = "submit", "use", "read", "place"
    ADMIN, DECK, RUN, WAIVE, SIGN, VERDICT, AUDIT = "admin", "deck", "run", "waive", "sign", "verdict", "audit"

    @property
    def is_on_desk(self):
        return self not in (Operation.SUBMIT, Operation.USE, Operation.READ, Operation.PLACE)


class Orientation(enum.Enum):
    """R turns counterclockwise by so many degrees, M mirrors about the x axis and then turns."""

    R0, R90, R180, R270 = "R0", "R90", "R180", "R270"
    M0, M90, M180, M270 = "M0", "M90", "M180", "M270"


class Axis(enum.Enum):
    """Of a marker: V if its two edges are vertical, H if they are horizontal."""

    V, H = "V", "H"


class State(enum.Enum):
    """How far the run is."""

    IDLE, CUTTING, CHECKING, FINISHED = "idle", "cutting", "checking", "finished"


class Ruling(enum.Enum):
    """What a verdict says."""

    CLEAN, OPEN, STALE = "clean", "open", "stale"


class Reply(NamedTuple):
    """A reply as it came: its first line, and the lines that belong to it."""

    first_line: str
    lines: List[str]

    @property
    def is_accepted(self):
        return self.first_line.startswith("OK ")

    @property
    def text(self):
        return "".join(line + "\n" for line in [self.first_line, *self.lines])


class Key(NamedTuple):
    """A marker's key. On axis V its edges are at x = x1 and x2, from y = y0 to y1; on axis H with x for y."""

    rule: str
    axis: Axis
    side: int
    x1: int
    x2: int
    y0: int
    y1: int

    @classmethod
    def of(cls, word):
        """The key that a word of a request or a reply is; it is read from its end."""
        found = re.fullmatch(r"([!-~]{1,255}):([VH]):([01])" + r":(0|-?[1-9][0-9]{0,9})" * 4, word)
        if not found:
            raise BadWord(f"{shortened(word)}: no key: it is rule:axis:side:x1:x2:y0:y1")
        rule, axis, *numbers = found.groups()
        return cls(rule, Axis(axis), *map(int, numbers))

    def __str__(self):
        return ":".join([self.rule, self.axis.value, *map(str, self[2:])])

    @property
    def distance(self):
        """From edge to edge."""
        return self.x2 - self.x1

    @property
    def box(self):
        """Between the edges: left, bottom, right and top."""
        if self.axis is Axis.V:
            return self.x1, self.y0, self.x2, self.y1
        return self.y0, self.x1, self.y1, self.x2


class Cell(NamedTuple):
    """A cell that the session may read, with the version and the submitter of its present submission."""

    name: str
    version: int
    submitter: str


class Boundary(NamedTuple):
    """A boundary, with the cell and the version from which it comes, and its corners without the closing one."""

    cell: str
    version: int
    layer: int
    datatype: int
    points: Tuple[Tuple[int, int], ...]


class Path(NamedTuple):
    """A path: its width, how far it is lengthened at its begin and its end, and the points of its centre line."""

    cell: str
    version: int
    layer: int
    datatype: int
    width: int
    begin: int
    end: int
    points: Tuple[Tuple[int, int], ...]


Shape = Union[Boundary, Path]


class Marker(NamedTuple):
    """A marker that the session sees in full, with the cells that it touches, in alphabetical order."""

    key: Key
    cells: Tuple[str, ...]


class Masked(NamedTuple):
    """How many markers of a rule the session may see in part."""

    rule: str
    number: int


class Markers(NamedTuple):
    """What a session sees of a finished run's markers, in the order of the deck's rules."""

    full: List[Marker]
    masked: List[Masked]


class Waiver(NamedTuple):
    """Who asked for a marker's waiver, and who signed it; None if nobody did."""

    key: Key
    asker: str
    signer: Optional[str]


class Carried(NamedTuple):
    """What became of earlier markers after a new run. `again` has the waivers of those that were found again, `asked` the
    keys among these whose waiver was asked for just now, and `left` the markers for which the connection has no line
    left. `gone` has the keys that the session doesn't see any more: the marker isn't there, or isn't shown in full.
    `new` has the markers that weren't there before, and `masked` what the session sees in part."""

    again: List[Waiver]
    asked: List[Key]
    left: List[Marker]
    gone: List[Key]
    new: List[Marker]
    masked: List[Masked]


class Status(NamedTuple):
    """How far the run is: its number, None if it is idle; and while it is checked, how many of its tiles are done."""

    state: State
    run: Optional[int] = None
    done: Optional[int] = None
    total: Optional[int] = None

    def __str__(self):
        return " ".join(str(part) for part in (self.state.value, *self[1:]) if part is not None)


class Verdict(NamedTuple):
    """What the verdict is, and how many markers have no signed waiver."""

    ruling: Ruling
    number: int = 0


class TrailRow(NamedTuple):
    """A request that was answered: its number, the user (`-` if there was none), its first word, its object (`-` if it has
    none), and the first line of its reply."""

    number: int
    user: str
    verb: str
    object: str
    first_line: str


class Whoami(NamedTuple):
    """The session's user, its active roles, and those that the user is authorized for."""

    user: str
    active: Tuple[str, ...]
    authorized: Tuple[str, ...]
