"""Random libraries: structures that refer to each other and to names outside, with or without faults."""
import records as kinds

from .drawn import Drawing
from .faults import spoilt
from .written import (
    BGNLIB, BGNSTR, ENDLIB, ENDSTR, HEADER, UNIT_USER, Written, encoded, libname, nanometre_bytes, strname, two_bytes,
    units,
)

STRUCTURES = ["A", "B", "C", "D", "TOP1", "~", "-", "pad", "chip", "x" * 64, "n" * 31]
BEFORE_NAME = [
    Written(0x1F, 6, b"lib1"), Written(0x22, 2, two_bytes(3)), Written(0x33, 2, b"\0\0"),
    Written(0x2B, 2, two_bytes(1)), Written(0x08, 0), Written(0x34, 6), Written(0x11, 0), Written(0x07, 0),
]
BEHIND_NAME = [
    Written(0x20, 6, b"f" * 4), Written(0x22, 2, two_bytes(3)), Written(0x26, 1), Written(0x34, 6),
]
BETWEEN_ELEMENTS = [
    Written(kinds.PROPATTR, 2, two_bytes(1)), Written(kinds.PROPVALUE, 6, b"zz"), Written(kinds.STRCLASS, 6, b"q"),
    Written(kinds.STRCLASS, 9),
]


def beside(data, steps):
    """The real so many steps of its mantissa aside."""
    mantissa = int.from_bytes(data[1:], "big") + steps
    return data[:1] + max(0, min((1 << 56) - 1, mantissa)).to_bytes(7, "big")


class Libraries(Drawing):
    """Draws libraries of elements with a few coordinates and layers, that refer to a few cells."""

    def text(self, top, unit=1, faulty=.3):
        """A library's text with a structure of a name; a part of them is spoilt, and some have bytes behind."""
        records = self.records(top, unit)
        if faulty and self.chance(faulty):
            return spoilt(self.random, records)
        text = encoded(records)
        if self.chance(.05):
            text += self.choice([b"\0" * 100, b"x", b"\0\4\4\0"])
        return text

    def records(self, top, unit=1, numbers=(1, 1, 2, 3, 3, 4, 5)):
        """The records of a library, with so many structures; the top stands anywhere among them."""
        records = self.head(unit)
        number = self.choice(numbers)
        names = list(dict.fromkeys([top, *self.random.sample(STRUCTURES, number - 1)]))
        order = list(range(len(names)))
        if self.chance(.4):
            self.random.shuffle(order)
        for place in order:
            records += self.structure(names, place)
        return [*records, ENDLIB]

    def head(self, unit):
        records = [HEADER, BGNLIB]
        if self.chance(.1):
            records.append(self.choice(BEFORE_NAME))
        records.append(libname(self.choice([b"LB", b"A", b"", b"any"])))
        if self.chance(.1):
            records.append(self.choice(BEHIND_NAME))
        user = self.choice([UNIT_USER, bytes(8), b"\xff" * 8])
        return [*records, units(user, self.unit_bytes(unit))]

    def unit_bytes(self, unit):
        """The real of so many nm, or one some steps of its mantissa aside, up to a part in 10^9 or just beyond."""
        data = nanometre_bytes(unit)
        drawn = self.random.random()
        if drawn < .88:
            return data
        if drawn < .94:
            return beside(data, self.choice([-1, 1, -2, 2, 5, -5]))
        part = int.from_bytes(data[1:], "big") // 10**9
        return beside(data, self.choice([-1, 1]) * (part + self.choice([-2, -1, 0, 1, 2])))

    def structure(self, names, place):
        """A structure refers to those behind it in the list of names; seldom to any, so that there may be a cycle."""
        targets = names[place + 1:]
        if self.chance(.015):
            targets = names
        elements = []
        for _ in range(self.choice([0, 1, 1, 2, 3, 4, 6] if place else [1, 2, 3, 4, 6])):
            elements += self.element(targets)
            if self.chance(.03):
                elements.append(self.choice(BETWEEN_ELEMENTS))
        name = names[place].encode()
        if self.chance(.03):
            name += b"\0" * self.choice([1, 2, 5])
        return [BGNSTR, strname(name), *elements, ENDSTR]
