"""The records of a GDSII text, in turn, and the values of their data."""
from typing import NamedTuple

from forms import is_name
from replies import Refused, test

HEADER, BGNLIB, LIBNAME, UNITS, ENDLIB, BGNSTR, STRNAME, ENDSTR = range(0x00, 0x08)
BOUNDARY, PATH, SREF, AREF, TEXT, LAYER, DATATYPE, WIDTH = range(0x08, 0x10)
XY, ENDEL, SNAME, COLROW = range(0x10, 0x14)
NODE, STRANS, MAG, ANGLE, PATHTYPE, ELFLAGS = 0x15, 0x1A, 0x1B, 0x1C, 0x21, 0x26
PROPATTR, PROPVALUE, BOX, BOXTYPE, PLEX, BGNEXTN, ENDEXTN = range(0x2B, 0x32)
STRCLASS = 0x34

SOME, SOME_PAIRS = "at least 2 bytes", "points of 8 bytes each, at least one"
# Of the records that are read: the data type that each has to have, and the size of its data.
FORMATS = {
    UNITS: (5, 16), STRNAME: (6, SOME), LAYER: (2, 2), DATATYPE: (2, 2), WIDTH: (3, 4), XY: (3, SOME_PAIRS),
    SNAME: (6, SOME), COLROW: (2, 4), STRANS: (1, 2), MAG: (5, 8), ANGLE: (5, 8), PATHTYPE: (2, 2), BOXTYPE: (2, 2),
    BGNEXTN: (3, 4), ENDEXTN: (3, 4),
}


class Record(NamedTuple):
    """A record: the offset at which it stands in its text, its type and its data."""

    offset: int
    kind: int
    data: bytes


def has_size(data, size):
    """Whether data has the size that its record has to have."""
    if size is SOME:
        return len(data) >= 2
    if size is SOME_PAIRS:
        return len(data) > 0 and len(data) % 8 == 0
    return len(data) == size


class Reader:
    """Reads the records of a text one by one."""

    def __init__(self, text):
        self.text = text
        self.offset = 0

    def next(self):
        """The next record: four bytes of length, type and data type, and its data. The first fault refuses it."""
        text, offset = self.text, self.offset
        test(len(text) - offset >= 4, "short", offset)
        length = int.from_bytes(text[offset:offset + 2], "big")
        test(length >= 4 and length % 2 == 0, "badlength", offset)
        test(offset + length <= len(text), "short", offset)
        kind, data_type = text[offset + 2:offset + 4]
        data = text[offset + 4:offset + length]
        if kind in FORMATS:
            wanted, size = FORMATS[kind]
            test(data_type == wanted, "badtype", offset)
            test(has_size(data, size), "badsize", offset)
        self.offset = offset + length
        return Record(offset, kind, data)

    def next_of_element(self):
        """The next record of an element but for flags, plex and properties, which are skipped anywhere in one."""
        while True:
            record = self.next()
            if record.kind not in (ELFLAGS, PLEX, PROPATTR, PROPVALUE):
                return record

    def need(self, *kinds):
        """The next record, which has to be of one of these types."""
        return of_kind(self.next(), *kinds)

    def need_of_element(self, kind):
        """The next record of an element, which has to be of this type."""
        return of_kind(self.next_of_element(), kind)


def of_kind(record, *kinds):
    """The record, which has to be of one of these types; another one is unexpected."""
    test(record.kind in kinds, "unexpected", record.offset)
    return record


def unsigned(data):
    """The number of bytes, the first of most weight."""
    return int.from_bytes(data, "big")


def signed(data, size=4):
    """The numbers of so many bytes each, in two's complement."""
    return [int.from_bytes(data[start:start + size], "big", signed=True) for start in range(0, len(data), size)]


def name_in(record):
    """The name of a record's data, without the zeros at its end."""
    found = record.data.rstrip(b"\0")
    test(is_name(found), "badname", record.offset)
    return found.decode("ascii")


# A real is kept as a whole number of 2^-312: the least that its exponent, of 16 less 64, and 56 bits can tell apart.
SCALE = 312


def real(data):
    """The exact value of an 8-byte real, in units of 2^-312: a sign, an exponent of 16 and 56 bits of a fraction."""
    value = int.from_bytes(data[1:], "big") * 16 ** (data[0] & 0x7F)
    return -value if data[0] & 0x80 else value


def is_whole(data, number):
    """Whether a real is exactly this whole number, however it is spelled."""
    return real(data) == number << SCALE


def nanometres(record):
    """The database unit in whole nm, of UNITS: from 1 to 1000, and the real is within a part in 10^9 of it."""
    value = real(record.data[8:]) * 10**9
    below = value >> SCALE
    for number in (below, below + 1):
        whole = number << SCALE
        if 1 <= number <= 1000 and abs(value - whole) * 10**9 <= whole:
            return number
    raise Refused("unit", record.offset)
