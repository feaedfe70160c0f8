"""The lines of replies. Each parser takes a line, and raises ValueError if the line has another form."""
import csv
import re

from .faults import Denied, NotADesk, Refused, shortened
from .values import Boundary, Cell, Key, Marker, Masked, Path, Ruling, State, Status, TrailRow, Verdict, Waiver


def number(word):
    """A decimal without sign or leading zero."""
    if not re.fullmatch(r"0|[1-9][0-9]{0,17}", word):
        raise ValueError(word)
    return int(word)


def after(first_word):
    """The parser of a line of a word and a number."""

    def parser(line):
        word, value = line.split(" ")
        if word != first_word:
            raise ValueError(line)
        return number(value)

    return parser


def cell_of(line):
    called, version, submitter = line.split(" ")
    return Cell(called, number(version), submitter)


POINTS = r"((?: -?[0-9]{1,16} -?[0-9]{1,16})+)"
ORIGIN = r"([!-~]+) ([0-9]{1,16}) ([0-9]{1,5})/([0-9]{1,5}) "
BOUNDARY = re.compile(ORIGIN + "boundary" + POINTS)
PATH = re.compile(ORIGIN + "path ([0-9]{1,16}) (-?[0-9]{1,16}) (-?[0-9]{1,16})" + POINTS)


def shape_of(line):
    kind, found = Boundary, BOUNDARY.fullmatch(line)
    if found is None:
        kind, found = Path, PATH.fullmatch(line)
    if found is None:
        raise ValueError(line)
    cell, *numbers, points = found.groups()
    values = list(map(int, points.split()))
    return kind(cell, *map(int, numbers), tuple(zip(values[::2], values[1::2])))


def marker_of(line):
    """A marker that the session sees in full, or the number of a rule's masked ones."""
    first, *words = line.split(" ")
    if first == "masked":
        rule, masked = words
        return Masked(rule, number(masked))
    if not words:
        raise ValueError(line)
    return Marker(Key.of(first), tuple(words))


def waiver_of(line):
    key, word, asker, *signer = line.split(" ")
    if (word, len(signer)) not in (("asked", 0), ("signed", 1)):
        raise ValueError(line)
    return Waiver(Key.of(key), asker, signer[0] if signer else None)


def status_of(line):
    word, *numbers = line.split(" ")
    state = State(word)
    if len(numbers) != {State.IDLE: 0, State.CHECKING: 3}.get(state, 1):
        raise ValueError(line)
    return Status(state, *map(number, numbers))


def verdict_of(line):
    word, *numbers = line.split(" ")
    ruling = Ruling(word)
    if len(numbers) != (1 if ruling is Ruling.OPEN else 0):
        raise ValueError(line)
    return Verdict(ruling, *map(number, numbers))


def trail_row_of(line):
    try:
        (row,) = csv.reader([line], strict=True)
    except csv.Error as error:
        raise ValueError(line) from error
    numbered, user, verb, about, first_line = row
    return TrailRow(number(numbered), user, verb, about, first_line)


def role_of(line):
    kind, called = line.split(" ")
    if kind not in ("user", "active", "authorized"):
        raise ValueError(line)
    return kind, called


def count_of(line):
    """How many lines belong to a reply, by its first line. Raises if that is a denial, a refusal, or no reply of a desk."""
    accepted = re.fullmatch(r"OK (0|[1-9][0-9]{0,9})", line)
    if accepted:
        return int(accepted[1])
    denied = re.fullmatch(r"DENIED ([!-~]+(?: [!-~]+)*)", line)
    if denied:
        raise Denied(denied[1].split(" "))
    refused = re.fullmatch(r"REFUSED ([1-9][0-9]{0,3}) ([!-~]+)(?: ([!-~]+))?", line)
    if refused:
        raise Refused(int(refused[1]), refused[2], refused[3] or "")
    raise NotADesk(f"the other end is no desk: it sent {shortened(line)}")
