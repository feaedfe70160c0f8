"""Reads the structures of GDSII libraries that a desk accepted, and writes them into one library under other names.

The new library has the elements that the desk reads, in nm: boundaries, boxes, paths and references. Texts, nodes,
properties, element flags and the dates of structures are left out. `docs/specification/gdsii.md` has the format.
"""
import struct
from typing import NamedTuple

HEADER, BGNLIB, LIBNAME, UNITS, ENDLIB, BGNSTR, STRNAME, ENDSTR = range(0x00, 0x08)
BOUNDARY, PATH, SREF, AREF, TEXT, LAYER, DATATYPE, WIDTH = range(0x08, 0x10)
XY, ENDEL, SNAME, COLROW = range(0x10, 0x14)
NODE, STRANS, MAG, ANGLE, ELFLAGS = 0x15, 0x1A, 0x1B, 0x1C, 0x26
PROPATTR, PROPVALUE, BOX, BOXTYPE, PLEX, BGNEXTN, ENDEXTN, STRCLASS = 0x2B, 0x2C, 0x2D, 0x2E, 0x2F, 0x30, 0x31, 0x34

NUMBERS, REALS, WORDS = 2, 5, 6  # data types
UNSEEN = (TEXT, NODE)
BETWEEN_ELEMENTS = (PROPATTR, PROPVALUE, STRCLASS)
IN_ELEMENTS = (ELFLAGS, PLEX, PROPATTR, PROPVALUE)
LENGTHS = (XY, WIDTH, BGNEXTN, ENDEXTN)
# Records that carry nothing, as they are written.
PLAIN = {kind: struct.pack(">HBB", 4, kind, 0) for kind in (BOUNDARY, PATH, SREF, AREF, BOX, ENDEL, ENDSTR)}
# Of an orientation's quarter turns, as reals in degrees.
TURNS = {90: bytes([0x42, 0x5A]) + bytes(6), 180: bytes([0x42, 0xB4]) + bytes(6), 270: bytes([0x43, 0x10, 0xE0]) + bytes(5)}
UNIT = bytes.fromhex("3E4189374BC6A7F0" "3944B82FA09B5A54")  # 0.001 user units, and 10^-9 m
HEAD = struct.Struct(">HBB")


class GdsiiFault(Exception):
    """A text isn't a library that a desk accepts, or a length doesn't fit into four bytes in nm."""


# Reading.


class Structure(NamedTuple):
    """A structure of a library: its name, where its elements begin, and the names that they refer to."""

    name: str
    begin: int
    targets: list


class Library(NamedTuple):
    """A library: its unit in nm, and its structures, each under its name, in their order."""

    unit: int
    structures: dict


def records(text, at):
    """The records from a place on: where each begins, its kind, and where it ends."""
    try:
        while True:
            length, kind, _ = HEAD.unpack_from(text, at)
            end = at + length
            if length < 4 or end > len(text):
                break
            yield at, kind, end
            at = end
    except struct.error:
        pass
    raise GdsiiFault(f"no library: its record at byte {at} isn't whole")


def element_records(text, at):
    """The records of the elements that the desk reads of a structure, and at last its ENDSTR."""
    reading = records(text, at)
    for begin, kind, end in reading:
        if kind in BETWEEN_ELEMENTS:
            continue
        is_seen = kind not in UNSEEN
        if is_seen:
            yield begin, kind, end
        if kind == ENDSTR:
            return
        for begin, kind, end in reading:
            if is_seen and kind not in IN_ELEMENTS:
                yield begin, kind, end
            if kind == ENDEL:
                break


def name_in(text, begin, end):
    """The name that a record has."""
    return text[begin + 4:end].rstrip(b"\0").decode("ascii")


def sixteenths(data):
    """A real, times 2^312."""
    value = int.from_bytes(data[1:8], "big") << 4 * (data[0] & 0x7F)
    return -value if data[0] & 0x80 else value


def head_of(text):
    """The unit of a library in nm, and where its first structure begins."""
    for begin, kind, end in records(text, 0):
        if kind == UNITS and end - begin == 20:
            unit = (sixteenths(text[begin + 12:end]) * 10**9 + (1 << 311)) >> 312
            if 1 <= unit <= 1000:
                return unit, end
            break
    raise GdsiiFault("no library: its unit isn't 1 to 1000 nm")


def structure_of(text, at):
    """The structure that begins at a place, and where it ends."""
    reading = records(text, at)
    next(reading)
    begin, kind, at = next(reading)
    if kind != STRNAME:
        raise GdsiiFault(f"no library: its structure at byte {begin} has no name")
    name, targets = name_in(text, begin, at), {}
    for begin, kind, end in element_records(text, at):
        if kind == SNAME:
            targets[name_in(text, begin, end)] = None
    return Structure(name, at, list(targets)), end


def library_of(text):
    """The library of a text. Its cost grows with the bytes."""
    try:
        unit, at = head_of(text)
        structures = {}
        while next(records(text, at))[1] == BGNSTR:
            structure, at = structure_of(text, at)
            structures[structure.name] = structure
    except UnicodeDecodeError:
        raise GdsiiFault("no library: a name has other bytes than ASCII") from None
    return Library(unit, structures)


def reached(library, top):
    """The structures that the top reaches, in the library's order, and the names outside the library in alphabetical
    (byte) order."""
    if top not in library.structures:
        raise GdsiiFault(f"no structure of its library is {top}")
    found, outside, ahead = {top}, set(), [top]
    while ahead:
        for target in library.structures[ahead.pop()].targets:
            if target not in library.structures:
                outside.add(target)
            elif target not in found:
                found.add(target)
                ahead.append(target)
    return [it for it in library.structures.values() if it.name in found], sorted(outside)


# Writing.


def record(kind, data_type, data=b""):
    return HEAD.pack(len(data) + 4, kind, data_type) + data


def name_record(kind, name):
    """A record with a name, which ends with a NUL if its length is odd."""
    data = name.encode("ascii")
    return record(kind, WORDS, data + b"\0" * (len(data) % 2))


def orientation_records(is_mirrored, degrees):
    """The records of an orientation: none of one that neither mirrors nor turns."""
    if not is_mirrored and degrees == 0:
        return b""
    mirrored = record(STRANS, 1, b"\x80\0" if is_mirrored else b"\0\0")
    return mirrored + (record(ANGLE, REALS, TURNS[degrees]) if degrees else b"")


def scaled(data, unit):
    """Lengths in nm."""
    count = len(data) // 4
    try:
        return struct.pack(f">{count}i", *(unit * number for number in struct.unpack(f">{count}i", data)))
    except struct.error:
        raise GdsiiFault("a length doesn't fit into four bytes in nm") from None


class Orientation:
    """The orientation of the reference that is being written. Its records come after SNAME."""

    def __init__(self):
        self.is_mirrored, self.degrees = False, 0

    def note(self, kind, data):
        """Notes what a record says. A magnification is always 1."""
        if kind == STRANS:
            self.is_mirrored = data[:1] >= b"\x80"
        elif kind == ANGLE:
            degrees, rest = divmod(sixteenths(data), 1 << 312)
            self.degrees = degrees % 360
            if rest or self.degrees % 90:
                raise GdsiiFault("no library: an angle isn't a multiple of 90 degrees")

    def records(self):
        """The records of the orientation; the next element has none at first."""
        found = orientation_records(self.is_mirrored, self.degrees)
        self.is_mirrored, self.degrees = False, 0
        return found


def write_structure(out, text, structure, name, names, unit):
    """Writes a structure under a name. `names` has the new name of each structure that it refers to."""
    out.write(record(BGNSTR, NUMBERS, bytes(24)) + name_record(STRNAME, name))
    orientation = Orientation()
    for begin, kind, end in element_records(text, structure.begin):
        if kind in PLAIN:
            out.write(PLAIN[kind])
        elif kind == SNAME:
            out.write(name_record(SNAME, names[name_in(text, begin, end)]))
        elif kind in (STRANS, MAG, ANGLE):
            orientation.note(kind, text[begin + 4:end])
        else:
            if kind in (COLROW, XY):
                out.write(orientation.records())
            is_scaled = unit != 1 and kind in LENGTHS
            out.write(text[begin:begin + 4] + scaled(text[begin + 4:end], unit) if is_scaled else text[begin:end])


def write_head(out, name):
    """Writes the records before the first structure: a unit of 1 nm, and no date."""
    out.write(record(HEADER, NUMBERS, struct.pack(">h", 600)) + record(BGNLIB, NUMBERS, bytes(24)))
    out.write(name_record(LIBNAME, name) + record(UNITS, REALS, UNIT))


def write_top(out, name, placed):
    """Writes a structure that places others: each by its name, its orientation's word and its displacement."""
    out.write(record(BGNSTR, NUMBERS, bytes(24)) + name_record(STRNAME, name))
    for target, orientation, x, y in placed:
        out.write(PLAIN[SREF] + name_record(SNAME, target))
        out.write(orientation_records(orientation[0] == "M", int(orientation[1:])))
        out.write(record(XY, 3, struct.pack(">2i", x, y)) + PLAIN[ENDEL])
    out.write(PLAIN[ENDSTR])


def write_end(out):
    out.write(record(ENDLIB, 0))
