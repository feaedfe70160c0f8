"""GDSII records and libraries as a writer makes them, from whole numbers."""
import struct
from typing import NamedTuple

import records as kinds

UNIT_USER = bytes.fromhex("3E4189374BC6A7F0")


class Written(NamedTuple):
    """A record to be written: its type, its data type and its data."""

    kind: int
    data_type: int
    data: bytes = b""


def two_bytes(*values):
    """Numbers of two bytes each."""
    return b"".join(struct.pack(">H", value & 0xFFFF) for value in values)


def four_bytes(*values):
    """Numbers of four bytes each, in two's complement."""
    return b"".join(struct.pack(">i", value) for value in values)


def even(data):
    """Data of an even length, by a zero at its end where it has to be."""
    return data + b"\0" if len(data) % 2 else data


def encoded(records):
    """The bytes of records."""
    written = bytearray()
    for kind, data_type, data in records:
        data = even(data)
        written += struct.pack(">HBB", 4 + len(data), kind, data_type) + data
    return bytes(written)


def real_bytes(numerator, denominator=1, aside=0):
    """The 8-byte real next to a fraction, in its usual spelling, and so many steps of its mantissa aside."""
    sign, numerator = (0x80, -numerator) if numerator < 0 else (0, numerator)
    if numerator == 0:
        return bytes(8)
    exponent = 64
    while numerator >= denominator:
        denominator *= 16
        exponent += 1
    while numerator * 16 < denominator:
        numerator *= 16
        exponent -= 1
    mantissa = (numerator * (1 << 56) + denominator // 2) // denominator + aside
    if mantissa >= 1 << 56:
        mantissa >>= 4
        exponent += 1
    return bytes([sign | exponent]) + mantissa.to_bytes(7, "big")


def nanometre_bytes(number):
    """The real of so many nm in metres."""
    return real_bytes(number, 10**9)


HEADER = Written(kinds.HEADER, 2, two_bytes(600))
BGNLIB = Written(kinds.BGNLIB, 2, bytes(24))
BGNSTR = Written(kinds.BGNSTR, 2, bytes(24))
ENDSTR = Written(kinds.ENDSTR, 0)
ENDEL = Written(kinds.ENDEL, 0)
ENDLIB = Written(kinds.ENDLIB, 0)


def libname(name):
    """A library's name."""
    return Written(kinds.LIBNAME, 6, even(name))


def strname(name):
    """A structure's name."""
    return Written(kinds.STRNAME, 6, even(name))


def sname(name):
    """The name of a reference's target."""
    return Written(kinds.SNAME, 6, even(name))


def units(user, database):
    """The two units, as reals."""
    return Written(kinds.UNITS, 5, user + database)


def layer(number):
    """A layer's number."""
    return Written(kinds.LAYER, 2, two_bytes(number))


def datatype(number):
    """A datatype's number."""
    return Written(kinds.DATATYPE, 2, two_bytes(number))


def xy(*points):
    """Points."""
    return Written(kinds.XY, 3, b"".join(four_bytes(*point) for point in points))


def rectangle(of_layer, left, bottom, right, top):
    """A boundary of four corners."""
    corners = xy((left, bottom), (right, bottom), (right, top), (left, top), (left, bottom))
    return [Written(kinds.BOUNDARY, 0), layer(of_layer[0]), datatype(of_layer[1]), corners, ENDEL]


def single(target, x, y):
    """A reference of one instance."""
    return [Written(kinds.SREF, 0), sname(target.encode()), xy((x, y)), ENDEL]


def array(target, columns, rows, origin=(0, 0), behind_columns=(0, 0), behind_rows=(0, 0)):
    """A reference of columns and rows, with the points behind the last of each."""
    size = Written(kinds.COLROW, 2, two_bytes(columns, rows))
    points = xy(origin, behind_columns, behind_rows)
    return [Written(kinds.AREF, 0), sname(target.encode()), size, points, ENDEL]


def library(structures, unit=1):
    """The text of a library: structures by name, each with its elements, in so many nm."""
    written = [HEADER, BGNLIB, libname(b"LB"), units(UNIT_USER, nanometre_bytes(unit))]
    for name, elements in structures.items():
        written += [BGNSTR, strname(name.encode())]
        for element in elements:
            written += element
        written.append(ENDSTR)
    return encoded([*written, ENDLIB])
