#!/usr/bin/env python3
"""Makes the layouts of this folder, and the script of a whole shuttle.

  examples/make.py

writes pad-ring.gds, via-farm.gds, orientations.gds and shuttle.txt beside this file. All lengths
are in nanometres. README.md says where each fault is and derives each marker. The decks, the
expected markers and the expected replies come from elsewhere: this script doesn't write them.
"""
import os
import struct

HERE = os.path.dirname(os.path.abspath(__file__))

# Layers: a metal has its number, and the via from metal n to metal n + 1 has n + 10. Metal 8 and
# metal 9 are the thick ones.
METAL1, METAL2, METAL8, METAL9 = 1, 2, 8, 9
VIA1, VIA2, VIA8 = 11, 12, 18

# Record types of the GDSII Stream Format Manual, release 6, each with its data type: 0 none,
# 1 bits, 2 two-byte and 3 four-byte numbers, 5 eight-byte reals, 6 text.
HEADER, BGNLIB, LIBNAME, UNITS, ENDLIB = (0x00, 2), (0x01, 2), (0x02, 6), (0x03, 5), (0x04, 0)
BGNSTR, STRNAME, ENDSTR = (0x05, 2), (0x06, 6), (0x07, 0)
BOUNDARY, PATH, SREF, AREF, ENDEL = (0x08, 0), (0x09, 0), (0x0A, 0), (0x0B, 0), (0x11, 0)
LAYER, DATATYPE, WIDTH, XY = (0x0D, 2), (0x0E, 2), (0x0F, 3), (0x10, 3)
SNAME, COLROW, STRANS, ANGLE = (0x12, 6), (0x13, 2), (0x1A, 1), (0x1C, 5)
PATHTYPE, BGNEXTN, ENDEXTN = (0x21, 2), (0x30, 3), (0x31, 3)


# The stream.


def record(kind, data=b""):
    return struct.pack(">HBB", len(data) + 4, *kind) + data


def short(*numbers):
    return struct.pack(f">{len(numbers)}h", *numbers)


def long(*numbers):
    return struct.pack(f">{len(numbers)}i", *numbers)


def text(word):
    """A name, with a NUL after an odd number of bytes."""
    return word.encode() + b"\0" * (len(word) % 2)


def real(value):
    """A positive real: an exponent to the base 16, from 64, and 56 bits of a mantissa from 1/16."""
    exponent = 64
    while value >= 1:
        value, exponent = value / 16, exponent + 1
    while value < 1 / 16:
        value, exponent = value * 16, exponent - 1
    return bytes([exponent]) + round(value * 2**56).to_bytes(7, "big")


def box(layer, x0, y0, x1, y1):
    """A boundary: the four corners counterclockwise, and the first again."""
    corners = long(x0, y0, x1, y0, x1, y1, x0, y1, x0, y0)
    head = record(BOUNDARY) + record(LAYER, short(layer)) + record(DATATYPE, short(0))
    return head + record(XY, corners) + record(ENDEL)


def path(layer, kind, width, points, lengthened=None):
    """A path of the type 0, 2 or 4; type 4 is lengthened by given numbers at its begin and end."""
    body = record(PATH) + record(LAYER, short(layer)) + record(DATATYPE, short(0))
    body += record(PATHTYPE, short(kind)) + record(WIDTH, long(width))
    if lengthened:
        body += record(BGNEXTN, long(lengthened[0])) + record(ENDEXTN, long(lengthened[1]))
    return body + record(XY, long(*points)) + record(ENDEL)


def placed(name, x, y, orientation="R0"):
    """A reference; R turns counterclockwise by so many degrees, M mirrors first."""
    body = record(SREF) + record(SNAME, text(name))
    if orientation != "R0":
        body += record(STRANS, struct.pack(">H", 0x8000 if orientation[0] == "M" else 0))
        if orientation[1:] != "0":
            body += record(ANGLE, real(int(orientation[1:])))
    return body + record(XY, long(x, y)) + record(ENDEL)


def array(name, x, y, columns, rows, pitch):
    """Columns and rows of a structure as one element.

    Its second and third point are one pitch after the last column and the last row."""
    points = long(x, y, x + columns * pitch, y, x, y + rows * pitch)
    body = record(AREF) + record(SNAME, text(name)) + record(COLROW, short(columns, rows))
    return body + record(XY, points) + record(ENDEL)


def structure(name, *elements):
    head = record(BGNSTR, bytes(24)) + record(STRNAME, text(name))
    return head + b"".join(elements) + record(ENDSTR)


def library(*structures):
    """Release 6 is version 600. A unit is 0.001 micrometres, and 10^-9 metres. Dates are zeros."""
    head = record(HEADER, short(600)) + record(BGNLIB, bytes(24))
    head += record(LIBNAME, text("EXAMPLE")) + record(UNITS, real(0.001) + real(1e-9))
    return head + b"".join(structures) + record(ENDLIB)


# The pad ring.

DIE = 400000  # the side of the die, whose corner is at the origin
GUARD_LINE = 5000  # from the edge of the die to the centre line of the guard ring
GUARD_WIDTH = 4000  # so the guard ring is from 3000 to 7000 from the edge of the die
SUPPLY_OUTER = 85000  # from the edge of the die to the outer and the inner edge of the supply ring
SUPPLY_INNER = 95000
PAD_HALF = 30000  # half the side of a pad
PAD_LINE = 45000  # from the edge of the die to the centres of the pads
PAD_PLACES = (120000, 200000, 280000)  # along an edge: a signal pad, a supply pad, a signal pad
VIA8_SIDE, VIA8_PITCH, VIA8_COUNT = 6000, 14000, 4  # a pad's vias: 4 by 4, spaces of 8000
VIA8_FIRST = -24000  # the lower left corner of the first via, so they reach from -24000 to 24000
STRAP_HALF = 10000  # half the width of a supply pad's strap, which ends at the supply ring
LOWERED = 6000  # fault: the lower edge's last pad stands so much nearer to the guard ring
CUT = 5000  # fault: of the last pad of the left edge, metal 9 is so much shorter on one side


def pad(name, metal9_left, *more):
    """A pad around the origin, whose metal 9 begins at metal9_left."""
    return structure(
        name,
        box(METAL8, -PAD_HALF, -PAD_HALF, PAD_HALF, PAD_HALF),
        box(METAL9, metal9_left, -PAD_HALF, PAD_HALF, PAD_HALF),
        array("VIA8", VIA8_FIRST, VIA8_FIRST, VIA8_COUNT, VIA8_COUNT, VIA8_PITCH),
        *more,
    )


def pads():
    """The pads are drawn as on the lower edge; each other edge turns them by 90 degrees more."""
    signal, supply, last = PAD_PLACES
    far = DIE - PAD_LINE
    return [
        placed("PAD", signal, PAD_LINE),
        placed("SUPPLY", supply, PAD_LINE),
        placed("PAD", last, PAD_LINE - LOWERED),
        placed("PAD", far, signal, "R90"),
        placed("SUPPLY", far, supply, "R90"),
        placed("PAD", far, last, "R90"),
        placed("PAD", signal, far, "R180"),
        placed("SUPPLY", supply, far, "R180"),
        placed("PAD", last, far, "R180"),
        placed("PAD", PAD_LINE, signal, "R270"),
        placed("SUPPLY", PAD_LINE, supply, "R270"),
        placed("CUTPAD", PAD_LINE, last, "R270"),
    ]


def pad_ring():
    low, high = GUARD_LINE, DIE - GUARD_LINE
    guard = path(METAL8, 2, GUARD_WIDTH, (low, low, high, low, high, high, low, high, low, low))
    low, high = SUPPLY_OUTER, DIE - SUPPLY_OUTER
    inner_low, inner_high = SUPPLY_INNER, DIE - SUPPLY_INNER
    supply = [
        box(METAL9, low, low, high, inner_low),
        box(METAL9, low, inner_high, high, high),
        box(METAL9, low, inner_low, inner_low, inner_high),
        box(METAL9, inner_high, inner_low, high, inner_high),
    ]
    strap = box(METAL9, -STRAP_HALF, PAD_HALF, STRAP_HALF, SUPPLY_OUTER - PAD_LINE)
    return library(
        structure("TOP", guard, *supply, *pads()),
        pad("PAD", -PAD_HALF),
        pad("SUPPLY", -PAD_HALF, strap),
        pad("CUTPAD", CUT - PAD_HALF),
        structure("VIA8", box(VIA8, 0, 0, VIA8_SIDE, VIA8_SIDE)),
    )


# The via farm.

VIA1_SIDE, VIA1_PITCH = 50, 100  # vias with spaces of 50
COLUMNS, ROWS = 20, 10  # so the vias reach from 0 to 1950 across and from 0 to 950 upwards
ENCLOSED = 30  # by both metals, to the left, below and above
PLATE_RIGHT, PLATE_TOP = 1980, 980  # of metal 1
CORNER = 880  # from here upwards metal 1 may end earlier
CORNER_RIGHT = 1960  # fault: it encloses the last via by 10 instead of 30
VIA2_LEFT, VIA2_BOTTOM, VIA2_SIDE = 1975, 890, 50  # fault: 25 from the last via and not 40
MENDED_VIA2_LEFT = 1990  # just 40 from it
VIA2_ENCLOSED = 35  # by metal 2 to the right of via 2; 30 are asked for


def via_farm(is_mended=False):
    left = MENDED_VIA2_LEFT if is_mended else VIA2_LEFT
    right = PLATE_RIGHT if is_mended else CORNER_RIGHT
    return library(
        structure(
            "TOP",
            array("VIA1", 0, 0, COLUMNS, ROWS, VIA1_PITCH),
            box(METAL1, -ENCLOSED, -ENCLOSED, PLATE_RIGHT, CORNER),
            box(METAL1, -ENCLOSED, CORNER, right, PLATE_TOP),
            box(METAL2, -ENCLOSED, -ENCLOSED, left + VIA2_SIDE + VIA2_ENCLOSED, PLATE_TOP),
            box(VIA2, left, VIA2_BOTTOM, left + VIA2_SIDE, VIA2_BOTTOM + VIA2_SIDE),
        ),
        structure("VIA1", box(VIA1, 0, 0, VIA1_SIDE, VIA1_SIDE)),
    )


# One block in all orientations.

STEP = 2000  # from one block's origin to the next; a block reaches at most 600 from its origin
TURNS = ("R0", "R90", "R180", "R270")  # in the lower row
MIRRORED = ("M0", "M90", "M180", "M270")  # in the upper row


def orientations():
    places = [placed("BLOCK", STEP * k, 0, turn) for k, turn in enumerate(TURNS)]
    places += [placed("BLOCK", STEP * k, STEP, turn) for k, turn in enumerate(MIRRORED)]
    return library(
        structure("TOP", *places),
        structure(
            "BLOCK",
            # From (0, 0) to (400, 100): width 100, lengthened by 100 and by 50.
            path(METAL1, 4, 100, (100, 50, 350, 50), (100, 50)),
            # Fault: it stands 50 above the path, where 60 are asked for.
            box(METAL1, 0, 150, 100, 600),
            # Fault: metal 1 encloses this via by 10 on its left side, where 30 are asked for.
            box(VIA1, 10, 500, 60, 550),
        ),
    )


# A whole shuttle: the pad ring is a cell of the firm alpha, and the via farm one of the firm beta.

POLICY = """open root abc
activate officer
adduser ann token-of-ann
adduser bob token-of-bob
adduser carl token-of-carl
adduser dora token-of-dora
adduser erik token-of-erik
addrole alpha
addrole beta
addrole reading
addrole shuttle
addrole signing
addrole auditing
grant submit ring alpha
grant read ring alpha
grant waive desk alpha
grant submit farm beta
grant read farm beta
grant waive desk beta
grant read ring reading
grant read farm reading
inherit shuttle reading
inherit signing reading
grant place ring shuttle
grant place farm shuttle
grant deck desk shuttle
grant run desk shuttle
grant verdict desk shuttle
grant waive desk shuttle
grant sign desk signing
grant verdict desk signing
grant audit desk auditing
ssd firms 2 alpha beta signing
ssd office 2 officer signing auditing
dsd duties 2 shuttle signing
assign ann alpha
assign bob beta
assign carl shuttle
assign carl signing
assign dora signing
assign erik auditing
assign ann signing
close
"""

# What the ring's five markers are called: the first word of each line of pad-ring.markers.
KEYS = (
    "metal8.space:H:0:7000:9000:250000:310000",
    "metal9.via8:H:1:304000:305000:21000:27000",
    "metal9.via8:H:1:304000:305000:35000:41000",
    "metal9.via8:H:1:304000:305000:49000:55000",
    "metal9.via8:H:1:304000:305000:63000:69000",
)


def session(user, role, *requests):
    """The lines of a session; a request with a payload has it after its line."""
    lines = [f"open {user} token-of-{user}", f"activate {role}", *requests, "close"]
    return b"".join(line if isinstance(line, bytes) else line.encode() + b"\n" for line in lines)


def with_payload(words, payload):
    return f"{words} {len(payload)}\n".encode() + payload


def shuttle_deck():
    """The rules of both libraries under one tile line."""
    rules = []
    for name in ("pad-ring", "via-farm"):
        with open(os.path.join(HERE, f"{name}.deck"), "rb") as file:
            rules += file.readlines()[1:]
    return b"tile 50000\n" + b"".join(rules)


def shuttle():
    place_farm = "place farm centre R90 200000 200000"
    place_all = ["place ring frame R0 0 0", place_farm]
    # Between the guard ring and the lower edge's last pad, where the ring's first marker lies.
    place_gap = "place farm gap R0 300000 7500"
    waive, sign = ([f"{word} {key}" for key in KEYS] for word in ("waive", "sign"))
    return b"".join([
        POLICY.encode(),
        session("ann", "alpha", with_payload("submit ring TOP", pad_ring())),
        session("bob", "beta", with_payload("submit farm TOP", via_farm()), "cells"),
        session("carl", "shuttle", *place_all, with_payload("deck", shuttle_deck()),
                "run", "status", "verdict", "activate signing"),
        session("ann", "alpha", "markers"),
        session("bob", "beta", "markers", with_payload("submit farm TOP", via_farm(True))),
        session("carl", "shuttle", "unplace farm centre", place_farm, place_gap, "verdict",
                "run", "status", "verdict"),
        session("bob", "beta", "markers"),
        session("ann", "alpha", "markers", *waive),
        session("carl", "shuttle", "markers", waive[0]),
        session("dora", "signing", "waivers", *sign, "verdict"),
        session("erik", "auditing", "trail"),
    ])


def main():
    files = {
        "pad-ring.gds": pad_ring(),
        "via-farm.gds": via_farm(),
        "orientations.gds": orientations(),
        "shuttle.txt": shuttle(),
    }
    for name, data in files.items():
        with open(os.path.join(HERE, name), "wb") as file:
            file.write(data)
        print(f"{name}: {len(data)} bytes")


if __name__ == "__main__":
    main()
