#!/usr/bin/env python3
"""Compares the readers of libraries, decks and request lines with the model of model/, on random texts.

  fuzz.py [libraries N] [decks N] [requests N] [--first K] [--jobs J] [--program PROGRAM]
  fuzz.py --write FOLDER     the first texts of each kind as FOLDER/texts, and what the model returns for them as FOLDER/texts.stdout

Texts are made by their grammar, and most are changed then: bytes, records that are cut, doubled, exchanged or left out, lengths, numbers at their
limits, words. A library is read whole, and as up to three of its fronts; a request line with its payload as a connection reads it. PROGRAM is
crates/gate_bench/out/gate_bench (`scripts/build.py gate_bench`). A text is made of its kind and its number alone, so it is the same each time. Texts
that the program reads otherwise than the model are stored in bench/out, and then the exit status is 1.
"""
import argparse
import hashlib
import multiprocessing
import os
import struct
import subprocess
import sys
import time
from collections import Counter
from fractions import Fraction
from random import Random

HERE = os.path.dirname(os.path.abspath(__file__))
TOP = os.path.dirname(HERE)
sys.path.insert(0, os.path.join(TOP, "model"))

import desk  # noqa: E402
import elements  # noqa: E402
import forms  # noqa: E402
import records as kinds  # noqa: E402
from deck import deck_of  # noqa: E402
from geometry import ORIENTATIONS, placing_of  # noqa: E402
from library import library_of  # noqa: E402
from replies import Refused  # noqa: E402

# What an element covers isn't compared here, and takes the model long.
elements.boxes_of_boundary = elements.boxes_of_path = lambda *_: []
elements.box_of_points = lambda *_: None

PROGRAM = os.path.join(TOP, "crates", "gate_bench", "out", "gate_bench")
CHUNK = 2000
MODULUS = 2**64


# Libraries.

DATA_TYPES = {0x00: 2, 0x01: 2, 0x02: 6, 0x03: 5, 0x04: 0, 0x05: 2, 0x06: 6, 0x07: 0, 0x08: 0, 0x09: 0, 0x0A: 0, 0x0B: 0, 0x0C: 0, 0x0D: 2, 0x0E: 2,
              0x0F: 3, 0x10: 3, 0x11: 0, 0x12: 6, 0x13: 2, 0x15: 0, 0x16: 2, 0x19: 6, 0x1A: 1, 0x1B: 5, 0x1C: 5, 0x1F: 6, 0x21: 2, 0x26: 1, 0x2A: 2,
              0x2B: 2, 0x2C: 6, 0x2D: 0, 0x2E: 2, 0x2F: 3, 0x30: 3, 0x31: 3, 0x34: 2}
COORDINATES = [0, 0, 1, -1, 2, 5, 10, 10, 20, 100, 4096, 2**30, -2**30, 2**30 + 1, 2**31 - 1, -2**31, 2**31 - 2, 2147484]
NAMES = [b"TOP", b"A", b"B", b"PAD", b"via", b"~", b"!", b"-", b"desk", b"x" * 32, b"y" * 255]
ODD_NAMES = [b"", b"\0", b"\0\0", b"a b", b"\x7f", b"z" * 256, b"a\0b", b"\x80", b"a" * 65528]


class Chance(Random):
    """Random numbers of a text, and whether its values may be odd ones, at which a reader finds faults."""

    is_odd = False

    def odd(self, part):
        return self.is_odd and self.random() < part


def record(kind, data=b""):
    return struct.pack(">HBB", len(data) + 4, kind, DATA_TYPES.get(kind, 0)) + data


def real(value, shift=0):
    """Eight bytes of a real: of a fraction, normalized, and then so many digits of its mantissa to the right where these are zeros."""
    sign, value = (0x80, -value) if value < 0 else (0, Fraction(value))
    if value == 0:
        return bytes([sign | 64]) + bytes(7)
    exponent = 64
    while value >= 1:
        value, exponent = value / 16, exponent + 1
    while value < Fraction(1, 16):
        value, exponent = value * 16, exponent - 1
    mantissa = int(value * 2**56)
    while shift and mantissa % 16 == 0 and exponent < 127:
        mantissa, exponent, shift = mantissa // 16, exponent + 1, shift - 1
    return bytes([sign | exponent]) + mantissa.to_bytes(7, "big")


def near(data, by):
    """The real whose mantissa is greater by so much."""
    return data[:1] + ((int.from_bytes(data[1:], "big") + by) % 2**56).to_bytes(7, "big")


def units(random):
    """The data of UNITS: whole nm mostly, and reals about the bounds of those."""
    nm = random.choice([1, 1, 1, 1, 2, 5, 10, 1000, 999, 25])
    if random.odd(.05):
        nm = random.choice([0, 1001, Fraction(1, 2), Fraction(3, 2), 10**6])
    part = random.choice([1, -1, Fraction(1, 2), 2]) if random.odd(.2) else 0
    value = real(Fraction(nm) / 10**9 * (1 + Fraction(part) / 10**9), random.randrange(3))
    if random.odd(.2):
        value = near(value, random.choice([1, -1, 2, -2, 1 << 20, -(1 << 20)]))
    if random.odd(.02):
        value = random.choice([real(0), bytes(8), b"\xff" * 8, b"\x80" + bytes(7), bytes([value[0] | 0x80]) + value[1:]])
    return real(Fraction(1, 1000)) + value


def number(random, wide=.2):
    return random.choice(COORDINATES) if random.random() < wide else random.randrange(-50, 51) * random.choice([1, 2, 10])


def points(*numbers):
    return struct.pack(f">{len(numbers)}i", *(max(-2**31, min(2**31 - 1, it)) for it in numbers))


def layers(random, second):
    return record(0x0D, struct.pack(">H", random.choice([0, 1, 2, 65535, 32768, random.randrange(65536)]))) + record(
        second, struct.pack(">H", random.choice([0, 0, 1, 65535])))


def steps(random, count):
    """Points of which each is straight beside the one before it."""
    x, y = number(random), number(random)
    found = [(x, y)]
    for _ in range(count):
        if random.random() < .5:
            x = number(random)
        else:
            y = number(random)
        found.append((x, y))
    return found


def boundary(random):
    is_box = random.random() < .2
    if random.random() < .7:
        x0, y0, x1, y1 = (number(random) for _ in range(4))
        corners = [(x0, y0), (x1, y0), (x1, y1), (x0, y1)]
    else:
        corners = steps(random, random.randrange(8))
        corners.append((corners[-1][0], corners[0][1]))
    if random.random() < .8:
        corners.append(corners[0])
    if random.odd(.05):
        corners.append((number(random), number(random)))
    first, second = (0x2D, 0x2E) if is_box else (0x08, 0x0E)
    return [record(first), *skipped(random), layers(random, second), record(0x10, points(*(it for pair in corners for it in pair)))]


def path(random):
    parts = [record(0x09), *skipped(random), layers(random, 0x0E)]
    if random.random() < .5:
        parts.append(record(0x21, struct.pack(">h", random.choice([1, 3, -1, 32767] if random.odd(.1) else [0, 2, 4]))))
    if random.random() < .7:
        parts.append(record(0x0F, points(random.choice([3, -3, 2**31 - 1] if random.odd(.1) else [0, 2, 10, -10, 100, -2**31, 2**31 - 2]))))
    for kind in (0x30, 0x31):
        if random.random() < .3:
            parts.append(record(kind, points(number(random))))
    found = steps(random, 0 if random.odd(.1) else random.choice([1, 1, 2, 3, 6]))
    if random.random() < .2:
        place = random.randrange(len(found))
        found.insert(place, random.choice(found) if random.odd(.5) else found[place])
    return [*parts, record(0x10, points(*(it for pair in found for it in pair)))]


def orientation(random):
    if random.random() < .5:
        return []
    bits = random.choice([0x0002, 0x8006, 0xFFFF, random.randrange(65536)] if random.odd(.1) else [0, 0x8000, 0x8000, 0x0004, 0xFFFD])
    found = [record(0x1A, struct.pack(">H", bits))]
    if random.random() < .3:
        value = real(1, random.randrange(16))
        found.append(record(0x1B, random.choice([near(value, 1), near(value, -1), real(2), real(-1), real(0)]) if random.odd(.1) else value))
    if random.random() < .6:
        value = real(90 * random.randrange(-4, 5), random.randrange(14))
        odd = [near(value, 1), near(value, -1), real(45), real(450), real(-450), bytes([value[0] ^ 0x80]) + value[1:]]
        found.append(record(0x1C, random.choice(odd) if random.odd(.1) else value))
    return found


def target(random):
    return padded(random, random.choice(ODD_NAMES[:-1] if random.odd(.05) else NAMES))


def padded(random, name):
    return name + b"\0" * (len(name) % 2) + b"\0\0" * (random.random() < .1) + b"\0\0" * (len(name) == 0)


def reference(random):
    is_array = random.random() < .5
    parts = [record(0x0B if is_array else 0x0A), *skipped(random), record(0x12, target(random)), *orientation(random)]
    x, y = number(random), number(random)
    if not is_array:
        return [*parts, record(0x10, points(x, y))]
    columns, rows = (random.choice([0, -1, -32768] if random.odd(.05) else [1, 1, 2, 3, 7, 10, 32767]) for _ in range(2))
    dx, dy, ux, uy = (random.choice([0, 1, 5, -3, 65536, 131074]) for _ in range(4))
    odd = random.choice([1, -1]) if random.odd(.1) else 0
    second, third = (x + columns * dx + odd, y + columns * dy), (x + rows * ux, y + rows * uy)
    return [*parts, record(0x13, struct.pack(">2h", columns, rows)), record(0x10, points(x, y, *second, *third))]


def other(random):
    """A text or a node, of which nothing is looked at but where it ends."""
    return [record(random.choice([0x0C, 0x15])), layers(random, 0x16), record(0x10, points(1, 2)), record(0x19, b"some text ")]


def skipped(random):
    """Properties, which may stand anywhere in a structure; rarely flags and plex, which stand in elements alone, or a class, which stands outside."""
    if random.random() < .9:
        return []
    return [record(random.choice([0x26, 0x2F, 0x34] if random.odd(.3) else [0x2B, 0x2C]), bytes(2 * random.randrange(1, 4)))]


MAKERS = [boundary, boundary, path, reference, reference, other]


def some_records(random):
    """The records of a library as the grammar has them."""
    found = [record(0x00, struct.pack(">h", 600)), record(0x01, bytes(24))]
    if random.random() < .2:
        found.append(record(random.choice([0x1F, 0x20, 0x22, 0x23, 0x36, 0x7F]), bytes(random.choice([2, 4, 44]))))
    found += [record(0x02, b"LIB\0"), record(0x03, units(random))]
    names = random.sample(NAMES, random.choice([0, 1, 1, 2, 2, 3, 4]))
    if names and random.odd(.05):
        names.append(random.choice(names + ODD_NAMES))
    for name in names:
        found += [record(0x05, bytes(24)), record(0x06, padded(random, name)), *skipped(random)]
        for _ in range(random.choice([0, 1, 1, 2, 3, 5])):
            found += random.choice(MAKERS)(random)
            found += [*skipped(random), record(0x11), *skipped(random)]
        found.append(record(0x07))
    return [*found, record(0x04)]


def change_records(random, found):
    """One change of the list of records."""
    place, kind = random.randrange(len(found)), random.randrange(11)
    if kind == 0:
        del found[place]
    elif kind == 1:
        found.insert(place, found[place])
    elif kind == 2:
        other_place = random.randrange(len(found))
        found[place], found[other_place] = found[other_place], found[place]
    elif kind == 3:
        found.insert(random.randrange(len(found) + 1), found.pop(place))
    elif kind == 4:
        changed = random.choice([0, 1, 2, 3, 4, 5, 6, len(found[place]) + 2, len(found[place]) - 2, 0x8000, 0xFFFE, 0xFFFF, random.randrange(65536)])
        found[place] = struct.pack(">H", changed % 65536) + found[place][2:]
    elif kind == 5:
        found[place] = found[place][:2] + bytes([random.choice([*DATA_TYPES, random.randrange(256)])]) + found[place][3:]
    elif kind == 6:
        found[place] = found[place][:3] + bytes([random.randrange(8)]) + found[place][4:]
    elif kind == 7:
        data = found[place][4:]
        data = random.choice([data[:-2], data[:len(data) // 4 * 2], data + bytes(2), data + data, b"", bytes(4), bytes(8)])[:65530]
        found[place] = struct.pack(">H", len(data) + 4) + found[place][2:4] + data
    elif kind == 8 and len(found[place]) >= 6:
        data = bytearray(found[place])
        data[random.randrange(4, len(data))] = random.choice([0, 1, 2, 0x7F, 0x80, 0xFF, random.randrange(256)])
        found[place] = bytes(data)
    elif kind == 9 and len(found[place]) >= 8:
        data = bytearray(found[place])
        at = 4 + 4 * random.randrange((len(data) - 4) // 4)
        data[at:at + 4] = points(random.choice(COORDINATES))
        found[place] = bytes(data)
    else:
        made = random.choice([record(random.choice(list(DATA_TYPES)), bytes(random.choice([0, 2, 4, 8, 16]))), b"".join(random.choice(MAKERS)(random))])
        found.insert(place, made)
    return found or [b""]


def change_bytes(random, text):
    """One change of the bytes."""
    text = bytearray(text)
    kind, place = random.randrange(5), random.randrange(len(text) + 1)
    if kind == 0:
        return bytes(text[:place])
    if kind == 1 and place < len(text):
        text[place] = random.randrange(256)
    elif kind == 2:
        text[place:place] = bytes(random.randrange(1, 5))
    elif kind == 3:
        del text[place:place + random.randrange(1, 9)]
    else:
        return bytes(text) + random.choice([b"\0", bytes(2048), bytes(text), b"\xff" * 6])
    return bytes(text)


def a_library(random):
    random.is_odd = random.random() < .5
    found = some_records(random)
    for _ in range(random.choice([0, 0, 0, 1, 1, 1, 2, 4])):
        found = change_records(random, found)
    text = b"".join(found)
    for _ in range(random.choice([0, 0, 0, 0, 0, 1, 2])):
        text = change_bytes(random, text)
    return text


class Sum:
    """One number of many, as `gate_bench texts` makes it."""

    def __init__(self):
        self.value = 0

    def add(self, *numbers):
        value = self.value
        for it in numbers:
            value = (value * 1000003 + it) % MODULUS
        self.value = value

    def add_name(self, name):
        self.add(len(name), *name.encode("ascii"))

    def add_points(self, found):
        self.add(len(found), *(it for point in found for it in point))


ORIENTATION_NUMBERS = {placing_of(word, 0, 0)[:4]: place for place, word in enumerate(ORIENTATIONS)}


def add_element(total, found):
    if isinstance(found, elements.Boundary):
        total.add(1, *found.layer)
        total.add_points(found.points)
    elif isinstance(found, elements.Path):
        total.add(2, *found.layer, found.width, found.begin, found.end)
        total.add_points(found.points)
    else:
        total.add(3)
        total.add_name(found.target)
        placing = found.placing
        total.add(ORIENTATION_NUMBERS[placing[:4]], found.columns, found.rows, *placing[4:], *found.column_step, *found.row_step)


def library_outcome(text):
    """What the model tells of a library's text."""
    try:
        structures = library_of(text)
    except Refused as answer:
        return " ".join(answer.first_line.split(" ")[2:])
    total = Sum()
    for name, found in structures.items():
        total.add_name(name)
        total.add(len(found))
        for element in found:
            add_element(total, element)
    return f"read {len(structures)} {sum(map(len, structures.values()))} {total.value}"


def library_case(random):
    """A library with some of its fronts, as the program reads them, and what the model tells."""
    text = a_library(random)
    ends = [random.randrange(len(text) + 1) for _ in range(random.choice([0, 1, 1, 2, 3]))]
    head = " ".join(map(str, ["library", len(text), *ends]))
    return head.encode() + b"\n" + text, [library_outcome(text), *(library_outcome(text[:end]) for end in ends)]


# Decks.

CHECK_NUMBERS = {"width": 1, "space": 2, "separation": 3, "enclosing": 4}
DECK_NUMBERS = [b"0", b"1", b"2", b"10", b"50", b"255", b"256", b"257", b"8192", b"65535", b"65536", b"1073741824", b"1073741825", b"00", b"01", b"+1",
                b"-1", b"", b"1.5", b"18446744073709551616", b"9" * 40, b"0x10", b"1 ", b"\xc2\xb2"]
DECK_NAMES = [b"w", b"s", b"metal1.width", b"tile", b"width", b"~" * 255, b"-", b"!"]
ODD_DECK_NAMES = [b"", b"a:b", b":", b"x" * 256, b"a\tb", b"a\r", b"\x7f", b"\x80", b"\0"]
LAYER_WORDS = [b"1/0", b"2/0", b"3/5", b"65535/65535", b"0/0"]
ODD_LAYER_WORDS = [b"1", b"1/", b"/0", b"1/0/0", b"65536/0", b"0/65536", b"01/0", b"1/00", b"-1/0", b"1 /0", b"/", b"", b"a/b"]
DECK_WORDS = {"word": "word", "number": "number", "layer": "layer", "samelayer": "two equal layers", "doublerule": "a rule's name used twice",
              "tile": "the tile line stands first, and once", "rules": "more than 256 rules"}


def rule_line(random, place):
    check = random.choice([b"width", b"space", b"separation", b"enclosing"])
    name = random.choice(DECK_NAMES) if random.random() < .1 else b"r%d" % place
    if random.random() < .03:
        name = random.choice(ODD_DECK_NAMES)
    count = 1 if check in (b"width", b"space") else 2
    found = [random.choice(LAYER_WORDS) if random.random() < .97 else random.choice(ODD_LAYER_WORDS) for _ in range(count)]
    if count == 2 and found[0] == found[1] and random.random() < .8:
        found[1] = b"7/7"
    distance = b"%d" % random.randrange(1, 65536) if random.random() < .95 else random.choice(DECK_NUMBERS)
    return b" ".join([check, name, *found, distance])


def a_deck(random):
    tile = random.choice([b"256", b"1024", b"8192", b"1073741824"]) if random.random() < .9 else random.choice(DECK_NUMBERS)
    count = random.choice([0, 1, 1, 2, 3, 5, 8])
    if random.random() < .005:
        count = random.choice([255, 256, 257, 300])
    lines = [b"tile " + tile] + [rule_line(random, place) for place in range(count)]
    for _ in range(random.choice([0, 0, 0, 1, 1, 2])):
        place, kind = random.randrange(len(lines)), random.randrange(8)
        if kind == 0:
            del lines[place]
            lines = lines or [b""]
        elif kind == 1:
            lines.insert(place, random.choice(lines))
        elif kind == 2:
            lines.insert(place, random.choice([b"", b" ", b"tile 256", b"# remark", b"width", b"widths a 1/0 1", b"\r"]))
        elif kind == 3:
            lines[place] = lines[place].replace(b" ", b"  ", 1)
        elif kind == 4:
            words = lines[place].split(b" ")
            words[random.randrange(len(words))] = random.choice(DECK_NUMBERS + ODD_DECK_NAMES + ODD_LAYER_WORDS + [b"width", b"enclosing"])
            lines[place] = b" ".join(words)
        elif kind == 5:
            lines[place] = random.choice([b" " + lines[place], lines[place] + b" ", lines[place] + b"\r", lines[place] + b" 1", lines[place].upper()])
        elif kind == 6:
            random.shuffle(lines)
        else:
            words = lines[place].split(b" ")
            del words[random.randrange(len(words))]
            lines[place] = b" ".join(words)
    text = b"\n".join(lines) + random.choice([b"", b"\n", b"\n", b"\n\n"])
    return change_bytes(random, text) if random.random() < .15 else text


def deck_outcome(text):
    """What the model tells of a deck's text."""
    try:
        found = deck_of(text)
    except Refused as answer:
        word, line = answer.first_line.split(" ")[2:]
        return f"{line}: {DECK_WORDS[word]}"
    total = Sum()
    for rule in found.rules:
        total.add_name(rule.name)
        total.add(CHECK_NUMBERS[rule.check], *(it for layer in rule.layers for it in layer), rule.distance)
    return f"deck {found.tile} {len(found.rules)} {total.value}"


def deck_case(random):
    text = a_deck(random)
    return b"deck %d\n" % len(text) + text, [deck_outcome(text)]


# Request lines.

REQUEST_NAMES = [b"ann", b"root", b"r1", b"chip", b"desk", b"officer", b"x" * 255, b"~", b"a:b", b'a,"b', b"-", b"", b"y" * 256, b"\x7f", b"a\tb", b"\xc3\xa4"]
LENGTHS = [b"0", b"1", b"7", b"13", b"16777216", b"16777217", b"18446744073709551616", b"01", b"-0", b"+1", b"", b"9" * 300, b"1e3"]
NUMBERS = [b"0", b"1", b"-1", b"-0", b"2", b"10", b"1073741824", b"-1073741824", b"1073741825", b"-1073741825", b"00", b"01", b"-01", b"+1", b"--1", b"",
           b"-", b"9" * 40, b"2147483648", b"18446744073709551615"]
VERBS = [*forms.FORMS, "ssd", "dsd"]


def name_word(random):
    return random.choice(REQUEST_NAMES[:10]) if random.random() < .93 else random.choice(REQUEST_NAMES)


def whole_word(random):
    return b"%d" % random.randrange(-5000, 5001) if random.random() < .8 else random.choice(NUMBERS)


def length_word(random):
    return b"%d" % random.randrange(40) if random.random() < .85 else random.choice(LENGTHS)


def operation_word(random):
    return random.choice(forms.CELL_OPERATIONS + forms.DESK_OPERATIONS + ("Read", "activate", "")).encode()


def orientation_word(random):
    return random.choice(ORIENTATIONS + ("R45", "r0", "MX", "")).encode() if random.random() < .3 else random.choice(ORIENTATIONS).encode()


def key_word(random):
    parts = [name_word(random) or b"w", random.choice([b"V", b"H", b"H", b"v", b""] if random.random() < .2 else [b"V", b"H"]),
             random.choice([b"0", b"1", b"2", b"00"] if random.random() < .2 else [b"0", b"1"]), *(whole_word(random) for _ in range(4))]
    if random.random() < .05:
        del parts[random.randrange(len(parts))]
    return b":".join(parts)


WORDS = {forms.name: name_word, forms.token: name_word, forms.operation: operation_word, forms.orientation: orientation_word,
         forms.coordinate: whole_word, forms.length: length_word, forms.key: key_word}


def request_words(random):
    verb = random.choice(VERBS)
    if verb in ("ssd", "dsd"):
        roles = [b"r%d" % random.randrange(9 if random.random() < .2 else 10**6) for _ in range(random.choice([1, 2, 3, 5, 20]))]
        return [verb.encode(), name_word(random), random.choice([b"2", b"2", b"%d" % len(roles), b"%d" % (len(roles) + 1), *NUMBERS[:4]]), *roles]
    words = [verb.encode(), *(WORDS[form](random) for form in forms.FORMS[verb])]
    if verb in ("grant", "revoke") and random.random() < .5:
        words[2] = b"desk"
    return words


def a_request(random):
    words = request_words(random)
    change = random.randrange(20)
    if change == 0:
        del words[random.randrange(len(words))]
    elif change == 1:
        words.insert(random.randrange(len(words) + 1), random.choice([b"", b"extra", words[0]]))
    elif change == 2:
        words[0] = random.choice([words[0].upper(), words[0] + b"s", b"", b"trail", words[0] + b"\r"])
    elif change == 3:
        words += [b"p" * random.choice([4080, 4090, 4095, 4096, 5000])]
    line = b" ".join(words)
    if change == 4:
        line = (line + b" " * 4096)[:random.choice([4095, 4096, 4097])]
    if change == 5 and line:
        place = random.randrange(len(line))
        line = line[:place] + bytes([random.randrange(256)]) + line[place + 1:]
    end = random.choice([b"\n"] * 12 + [b"", b"\r\n"])
    return line + end + bytes(random.randrange(256) for _ in range(random.choice([0, 0, 3, 40, 41])))


def request_outcome(text):
    """What the model tells of the first line of a connection's input, with its payload."""
    given = desk.Input(text)
    try:
        line = given.line()
        if line is None:
            return f"end {given.at}"
        request = forms.request_of(line)
        if request.length is not None:
            given.payload(request.length)
    except Refused as answer:
        return f"form {given.at}" if answer.word == "form" else answer.word
    words = line.split(b" ")
    if request.verb in ("open", "adduser"):
        words[2] = hashlib.sha256(words[2]).hexdigest().encode()
    length = "-" if request.length is None else request.length
    return f"asked {given.at} {length} {b' '.join(words).decode('ascii')}"


def request_case(random):
    text = a_request(random)
    return b"request %d\n" % len(text) + text, [request_outcome(text)]


# Comparing.

CASES = {"libraries": library_case, "decks": deck_case, "requests": request_case}


def keep(kind, place, text, wanted, told):
    folder = os.path.join(HERE, "out")
    os.makedirs(folder, exist_ok=True)
    path_of = os.path.join(folder, f"{kind}-{place}")
    with open(path_of, "wb") as file:
        file.write(text)
    return f"{path_of}: expected {wanted}, found {told}"


def compare(task):
    """Compares the texts of a kind from a number on: how many lines there were, what the model told by its first words, and which differ."""
    program, kind, first, count = task
    cases = [CASES[kind](Chance(f"{kind}-{place}")) for place in range(first, first + count)]
    ended = subprocess.run([program, "texts"], input=b"".join(text for text, _ in cases), stdout=subprocess.PIPE, check=True)
    told = ended.stdout.decode("ascii").splitlines()
    differing, tally, at = [], Counter(), 0
    for place, (text, wanted) in enumerate(cases, first):
        found = told[at:at + len(wanted)]
        at += len(wanted)
        if found != wanted:
            differing.append(keep(kind, place, text, wanted, found))
        tally.update(first_words(outcome) for outcome in wanted)
    return len(told), tally, differing + ([] if at == len(told) else [f"{kind} from {first}: {len(told)} lines in place of {at}"])


def first_words(outcome):
    """What is counted of an outcome: its code, or its kind with the first word that was asked."""
    words = outcome.split(" ")
    if words[0] == "asked":
        return f"asked {words[3]}"
    return outcome.partition(": ")[2] or words[0]


def run(pool, program, kind, first, count):
    begun = time.monotonic()
    tasks = [(program, kind, start, min(CHUNK, first + count - start)) for start in range(first, first + count, CHUNK)]
    lines, tally, differing = 0, Counter(), []
    for told, counted, found in pool.imap_unordered(compare, tasks):
        lines, tally = lines + told, tally + counted
        differing += found
        for it in found[:3]:
            print(it, flush=True)
    print(f"{count} {kind}, {lines} outcomes in {time.monotonic() - begun:.0f} s: {len(differing)} differ")
    print("  " + ", ".join(f"{number} {word}" for word, number in tally.most_common()), flush=True)
    return len(differing)


def write(folder, count=8):
    """Writes texts as the input of a golden test, and what the model returns for them as its output."""
    by_hand = [(b"library 0\n", ["short 0"]), (b"library 4 2\n\0\x06\0\x02", ["short 0", "short 0"]), (b"deck 0\n", [f"1: {DECK_WORDS['tile']}"]),
               (b"deck 9\ntile 256\n", ["deck 256 0 0"]), (b"request 0\n", ["end 0"]), (b"request 7\nwhoami\n", ["asked 7 - whoami"])]
    cases = by_hand + [CASES[kind](Chance(f"{kind}-{place}")) for kind in CASES for place in range(count)]
    with open(os.path.join(folder, "texts"), "wb") as file:
        file.write(b"".join(text for text, _ in cases))
    with open(os.path.join(folder, "texts.stdout"), "w", encoding="ascii") as file:
        file.write("".join(f"{outcome}\n" for _, wanted in cases for outcome in wanted))


def main(words):
    parser = argparse.ArgumentParser(description=__doc__, formatter_class=argparse.RawDescriptionHelpFormatter)
    parser.add_argument("asked", nargs="*", metavar="KIND N", help=", ".join(CASES))
    parser.add_argument("--first", type=int, default=0, metavar="K")
    parser.add_argument("--jobs", type=int, default=1, metavar="J")
    parser.add_argument("--program", default=PROGRAM)
    parser.add_argument("--write", metavar="FOLDER")
    given = parser.parse_intermixed_args(words)
    if given.write:
        return write(given.write)
    asked = list(zip(given.asked[::2], given.asked[1::2])) or [(kind, "10000") for kind in CASES]
    if len(given.asked) % 2 or not all(kind in CASES and count.isdigit() for kind, count in asked):
        parser.error("a kind and a number of texts")
    with multiprocessing.Pool(given.jobs) as pool:
        return 1 if sum(run(pool, given.program, kind, given.first, int(count)) for kind, count in asked) else 0


if __name__ == "__main__":
    sys.exit(main(sys.argv[1:]))
