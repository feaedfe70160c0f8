"""Which lines are requests: the form of each, word by word.

The words of a line are what its spaces part. A line of no form is refused as `40 form`; a length above 2^24 is refused
as `41 long`, which ends the connection.
"""
from dataclasses import dataclass
from typing import NamedTuple

from geometry import LIMIT, ORIENTATIONS
from replies import test

CELL_OPERATIONS = ("submit", "use", "read", "place")
DESK_OPERATIONS = ("admin", "deck", "run", "waive", "sign", "verdict", "audit")
LONGEST_PAYLOAD = 1 << 24


class Key(NamedTuple):
    """A marker's key: rule, axis, side, x1, x2, y0 and y1. As a word: these, parted by colons."""

    rule: str
    axis: str
    side: int
    x1: int
    x2: int
    y0: int
    y1: int

    @property
    def word(self):
        """The key as a word of a request or a reply."""
        return ":".join(map(str, self))


@dataclass(frozen=True)
class Request:
    """A request: its first word, its arguments, what the trail tells as its object, and its payload's length."""

    verb: str
    arguments: tuple = ()
    about: str = "-"
    length: int | None = None


def is_name(word):
    """A name is 1 to 255 bytes of 21 to 7E hex."""
    return 1 <= len(word) <= 255 and all(0x21 <= byte <= 0x7E for byte in word)


def is_decimal(word):
    """Digits without a leading zero, of any number."""
    return word != b"" and all(0x30 <= byte <= 0x39 for byte in word) and (word[:1] != b"0" or word == b"0")


def whole_number(word, least, greatest):
    """The number of a decimal word within bounds, or none; `-` stands only before a number that isn't 0."""
    is_below_zero = least < 0 and word[:1] == b"-"
    digits = word[1:] if is_below_zero else word
    if not is_decimal(digits) or len(digits) > 30 or (is_below_zero and digits == b"0"):
        return None
    value = -int(digits) if is_below_zero else int(digits)
    return value if least <= value <= greatest else None


def name(word):
    """In a request the word `-` is no name."""
    test(is_name(word) and word != b"-", "form")
    return word.decode("ascii")


def token(word):
    """A token has the bytes of a name, and may be `-`."""
    test(is_name(word), "form")
    return word


def operation(word):
    """An operation is on a cell or on the desk."""
    found = word.decode("latin1")
    test(found in CELL_OPERATIONS + DESK_OPERATIONS, "form")
    return found


def orientation(word):
    """An orientation: R or M, and the degrees of its turn."""
    found = word.decode("latin1")
    test(found in ORIENTATIONS, "form")
    return found


def coordinate(word):
    """A coordinate lies within -2^30 to 2^30."""
    found = whole_number(word, -LIMIT, LIMIT)
    test(found is not None, "form")
    return found


def length(word):
    """A payload's length: a decimal without sign or leading zero; too great a one is long, of any number of digits."""
    test(is_decimal(word), "form")
    test(len(word) <= 8 and int(word) <= LONGEST_PAYLOAD, "long")
    return int(word)


def key(word):
    """A key is read from its end: six fields, each after a colon; all before them is the rule's name."""
    fields = word.split(b":")
    test(len(fields) >= 7, "form")
    rule = name(b":".join(fields[:-6]))
    axis, side = fields[-6:-4]
    test(axis in (b"V", b"H") and side in (b"0", b"1"), "form")
    return Key(rule, axis.decode("ascii"), int(side), *map(coordinate, fields[-4:]))


FORMS = {
    "open": (name, token),
    "close": (),
    "activate": (name,),
    "drop": (name,),
    "whoami": (),
    "adduser": (name, token),
    "deluser": (name,),
    "addrole": (name,),
    "delrole": (name,),
    "assign": (name, name),
    "deassign": (name, name),
    "grant": (operation, name, name),
    "revoke": (operation, name, name),
    "inherit": (name, name),
    "uninherit": (name, name),
    "unssd": (name,),
    "undsd": (name,),
    "submit": (name, name, length),
    "cells": (),
    "shapes": (name,),
    "place": (name, name, orientation, coordinate, coordinate),
    "unplace": (name, name),
    "deck": (length,),
    "run": (),
    "cancel": (),
    "status": (),
    "markers": (),
    "waive": (key,),
    "sign": (key,),
    "waivers": (),
    "verdict": (),
    "trail": (),
}


def request_of(line):
    """The request of a line; a line of none is refused."""
    first, *words = line.split(b" ")
    verb = first.decode("latin1")
    if verb in ("ssd", "dsd"):
        return set_of(verb, words)
    test(verb in FORMS and len(words) == len(FORMS[verb]), "form")
    arguments = tuple(form(word) for form, word in zip(FORMS[verb], words))
    if verb in ("grant", "revoke"):
        return grant_of(verb, arguments)
    if verb in ("submit", "deck"):
        *arguments, payload = arguments
        return Request(verb, tuple(arguments), arguments[0] if arguments else "-", payload)
    if verb in ("waive", "sign"):
        return Request(verb, arguments, arguments[0].word)
    return Request(verb, arguments, arguments[0] if arguments else "-")


def grant_of(verb, arguments):
    """The operations on the desk have the word `desk` as their object; those on a cell any name."""
    granted, about, _ = arguments
    test(granted in CELL_OPERATIONS or about == "desk", "form")
    return Request(verb, arguments, about)


def set_of(verb, words):
    """A separation set: a name, a number from 2 to that of its roles, and the roles, none twice."""
    test(len(words) >= 3, "form")
    called, number, *roles = words
    called, roles = name(called), tuple(map(name, roles))
    test(len(set(roles)) == len(roles), "form")
    number = whole_number(number, 2, len(roles))
    test(number is not None, "form")
    return Request(verb, (called, number, roles), called)
