"""The deck: the side of tiles, and rules with their layers and distance."""
from typing import NamedTuple

from forms import is_name, whole_number
from geometry import LIMIT
from replies import test

LAYERS_OF = {b"width": 1, b"space": 1, b"separation": 2, b"enclosing": 2}
LEAST_TILE = 256
GREATEST_LAYER = GREATEST_DISTANCE = 65535
MOST_RULES = 256


class Rule(NamedTuple):
    """A check by its word, the rule's name, one or two layers with their datatypes, and the distance."""

    check: str
    name: str
    layers: tuple
    distance: int


class Deck(NamedTuple):
    """The side of tiles, and the rules in the order of their lines."""

    tile: int
    rules: tuple


def deck_of(text):
    """The deck of a text: a line `tile SIDE`, then a rule a line. The first fault refuses it, with the line's number.
    The last line may end with a line feed."""
    lines = text.split(b"\n")
    if len(lines) > 1 and lines[-1] == b"":
        lines.pop()
    tile = tile_of(lines[0].split(b" "))
    rules = []
    for number, line in enumerate(lines[1:], 2):
        rule = rule_of(line.split(b" "), number)
        test(all(rule.name != other.name for other in rules), "doublerule", number)
        test(len(rules) < MOST_RULES, "rules", number)
        rules.append(rule)
    return Deck(tile, tuple(rules))


def tile_of(words):
    """The side of tiles, from 256 to 2^30."""
    test(words[0] == b"tile", "tile", 1)
    test(len(words) == 2, "word", 1)
    tile = whole_number(words[1], LEAST_TILE, LIMIT)
    test(tile is not None, "number", 1)
    return tile


def rule_of(words, number):
    """The rule of a line: its words, then layers, the distance, and whether two layers are different."""
    check = words[0]
    test(check != b"tile", "tile", number)
    test(check in LAYERS_OF and len(words) == 3 + LAYERS_OF[check], "word", number)
    test(is_name(words[1]) and b":" not in words[1], "word", number)
    layers = tuple(layer_of(word) for word in words[2:-1])
    test(None not in layers, "layer", number)
    distance = whole_number(words[-1], 1, GREATEST_DISTANCE)
    test(distance is not None, "number", number)
    test(len(set(layers)) == len(layers), "samelayer", number)
    return Rule(check.decode("ascii"), words[1].decode("ascii"), layers, distance)


def layer_of(word):
    """Layer and datatype, parted by a slash; none of another word."""
    fields = word.split(b"/")
    numbers = tuple(whole_number(field, 0, GREATEST_LAYER) for field in fields)
    return numbers if len(fields) == 2 and None not in numbers else None
