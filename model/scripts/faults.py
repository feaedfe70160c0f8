"""Libraries with a fault, or with one by chance: records that lack, are too many or of another kind, values that aren't
taken, and texts that are cut off or have other bytes."""
import struct

import records as kinds

from .written import ENDEL, ENDLIB, ENDSTR, HEADER, Written, encoded, even, four_bytes, real_bytes, two_bytes

STRANGE = [
    HEADER, Written(1, 2, bytes(24)), Written(2, 6, b"LB"), Written(3, 5, bytes(16)), ENDLIB, Written(5, 2, bytes(24)),
    Written(6, 6, b"ZZ"), ENDSTR, Written(8, 0), Written(9, 0), Written(10, 0), Written(11, 0), Written(12, 0),
    Written(0x0D, 2, two_bytes(1)), Written(0x0E, 2, two_bytes(1)), Written(0x0F, 3, four_bytes(10)),
    Written(0x10, 3, four_bytes(0, 0)), ENDEL, Written(0x12, 6, b"AA"), Written(0x13, 2, two_bytes(1, 1)),
    Written(0x15, 0), Written(0x1A, 1, two_bytes(0)), Written(0x1B, 5, real_bytes(1)), Written(0x1C, 5, real_bytes(90)),
    Written(0x21, 2, two_bytes(2)), Written(0x26, 1, two_bytes(0)), Written(0x2B, 2, two_bytes(0)),
    Written(0x2C, 6, b"aa"), Written(0x2D, 0), Written(0x2E, 2, two_bytes(0)), Written(0x2F, 3, four_bytes(0)),
    Written(0x30, 3, four_bytes(3)), Written(0x31, 3, four_bytes(3)), Written(0x34, 6), Written(0x16, 2, two_bytes(0)),
    Written(0x99, 9, b"zz"),
]
BAD_NAMES = [
    b"\0\0", b"a b\0", b"\x80a", b"A\0B\0", b"x" * 256, b"x" * 254, even(b"x" * 255), b"\0A", b"AA", b"\x7fa", b"!~",
    b"- ",
]
BAD_UNITS = [
    bytes(8), real_bytes(1001, 10**9), real_bytes(5, 2 * 10**9), real_bytes(1), real_bytes(-1, 10**9),
    b"\x7f" + b"\xff" * 7, real_bytes(1, 10**10), b"\xb9" + real_bytes(1, 10**9)[1:],
]
BAD_SIZES = [(0, 1), (1, 0), (0xFFFF, 1), (1, 0x8000), (2, 3), (0, 0)]


def other_name(random, _):
    """Another name, which is mostly none."""
    return random.choice(BAD_NAMES)


def other_point(random, data):
    """One coordinate beside what it was."""
    start = random.randrange(0, len(data), 4)
    value = int.from_bytes(data[start:start + 4], "big", signed=True) + random.choice([1, -1, 5])
    return data[:start] + four_bytes(max(-2**31, min(2**31 - 1, value))) + data[start + 4:]


OTHER_VALUES = {
    kinds.STRNAME: other_name,
    kinds.SNAME: other_name,
    kinds.PATHTYPE: lambda random, _: two_bytes(random.choice([1, 3, 5, 0xFFFF])),
    kinds.WIDTH: lambda random, _: four_bytes(random.choice([5, -5, 1, 2**31 - 1])),
    kinds.XY: other_point,
    kinds.COLROW: lambda random, _: two_bytes(*random.choice(BAD_SIZES)),
    kinds.STRANS: lambda random, _: two_bytes(random.choice([2, 0x8002, 0xFFFF])),
    kinds.ANGLE: lambda random, _: real_bytes(random.choice([45, 91, 450, 720, -91, 1])),
    kinds.MAG: lambda random, _: real_bytes(random.choice([2, -1, 3]), 2),
    kinds.UNITS: lambda random, _: bytes(8) + random.choice(BAD_UNITS),
}


# Each of these changes a list of records, at a place that was drawn before.

def leave_out(_, records, place):
    """A record that lacks."""
    del records[place]


def put_in(random, records, place):
    """A record too many."""
    records.insert(place, random.choice(STRANGE))


def put_other(random, records, place):
    """A record in the place of another."""
    records[place] = random.choice(STRANGE)


def other_data_type(random, records, place):
    """Another data type."""
    records[place] = records[place]._replace(data_type=random.choice([0, 1, 2, 3, 4, 5, 6, 7, 255]))


def other_size(random, records, place):
    """Less data, or more."""
    data = records[place].data
    if random.random() < .5:
        data = data[:random.randrange(0, len(data) + 1, 2)]
    else:
        data = data + bytes(random.choice([2, 4, 8]))
    records[place] = records[place]._replace(data=data)


def exchange(random, records, place):
    """Two records in each other's place."""
    other = random.randrange(len(records))
    records[place], records[other] = records[other], records[place]


def repeat(random, records, place):
    """A record of another place once more."""
    records.insert(place, records[random.randrange(len(records))])


def other_value(random, records, _):
    """A value that isn't taken, of a record that has one, where one is found soon."""
    for _ in range(40):
        place = random.randrange(len(records))
        record = records[place]
        if record.kind in OTHER_VALUES:
            records[place] = record._replace(data=OTHER_VALUES[record.kind](random, record.data))
            return


def same_name(random, records, _):
    """The first structure's name for the last one too, or a record that isn't looked for behind the last name."""
    places = [place for place, record in enumerate(records) if record.kind == kinds.STRNAME]
    first, last = places[0], places[-1]
    if first != last:
        data = records[first].data + random.choice([b"", b"\0\0"])
        records[last] = records[last]._replace(data=data)
    if random.random() < .3:
        kind = random.choice([kinds.BOUNDARY, kinds.STRCLASS, kinds.PROPATTR, kinds.ELFLAGS, kinds.PLEX])
        records.insert(last + 1, Written(kind, 0))


CHANGES = [
    leave_out, put_in, put_in, put_other, other_data_type, other_size, exchange, repeat, other_value, same_name,
]


# Each of these changes the bytes of a text.

def cut_off(random, text, _):
    """A text that ends anywhere."""
    return text[:random.randrange(len(text) + 1)]


def other_length(random, text, records):
    """Another length in a record's first two bytes."""
    starts, start = [], 0
    for record in records:
        starts.append(start)
        start += 4 + len(record.data)
    start = random.choice(starts)
    length = random.choice([0, 1, 2, 3, 4, 5, 7, 6, 8, 65534, 65535, 2000])
    return text[:start] + struct.pack(">H", length) + text[start + 2:]


def other_bytes(random, text, _):
    """Some bytes are others."""
    changed = bytearray(text)
    for _ in range(random.choice([1, 1, 2, 4])):
        changed[random.randrange(len(changed))] = random.randrange(256)
    return bytes(changed)


DAMAGES = [cut_off, other_length, other_bytes]


def spoilt(random, records):
    """The text of a library's records, with one change of the records or of the bytes."""
    records = list(records)
    change = random.choice(CHANGES + DAMAGES)
    if change in DAMAGES:
        return change(random, encoded(records), records)
    change(random, records, random.randrange(len(records)))
    return encoded(records)
