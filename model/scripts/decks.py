"""Random decks, with or without faults, and scripts that bring many of them and run over a small layout."""
from forms import CELL_OPERATIONS

from .pools import LAYERS
from .script import Script, Spent
from .written import library, rectangle

NAMES = ["sp", "w", "se", "en", "~", "-", "!", "r,1", 'q"', "sp2", "a", "R" * 64, "b", "c"]
TILES = [256, 256, 256, 257, 300, 512, 1000, 1 << 30]
STRANGE_WORDS = [
    "", "-", "0", "-0", "05", "+5", "65536", "65535", "1/", "/1", "1/2/3", "1/65536", "01/0", "a", "x:y", "tile",
    "width", "255", "1073741825", "99999999999999999999", "\t", "\xff", "x" * 256, "x" * 255, "1/-1", "-1/1",
]
BOXES = [((1, 0), 0, 0, 10, 50), ((1, 0), 15, 0, 22, 40), ((2, 0), 2, 3, 20, 9), ((65535, 65535), -4, 0, -1, 99)]
STRANGE_LINES = [
    "tile 256", "tile", "width w", "space sp 1/0 5", "separation s 1/0 1/0 5", "enclosing s 1/0 1/0 0", "Width a 1/0 5",
    "", "width sp 1/0 70000", "separation sp 1/0 1/0 5", "tile 255",
]
STRANGE_FIRST_LINES = [
    "tile 255", "tile 256 1", "tile", "tile x", "space a 1/0 5", "", "TILE 256", "tile 1073741824", "tile 0256",
    "tile 1073741825",
]
DAMAGED_WORDS = [
    b"1/0", b"2/0", b"1/65536", b"1/00", b"5", b"0", b"65536", b"a:b", b"sp", b"w", b"\xc3", b"", b"tile", b"width",
    b"space", b"enclosing", b"separation", b"1", b"1/0/0", b"/",
]


def rule_line(random, name, layers):
    """A line of one of the four checks."""
    check = random.choice(["width", "space", "separation", "enclosing"])
    near = [1, 2, 5, 6, 10, 11, 16, 20, 31, 40, 100, random.randrange(1, 120), 255, 256, 300]
    distance = random.choice(near) if random.random() < .97 else 65535
    one = "%d/%d" % random.choice(layers)
    if check in ("width", "space"):
        return f"{check} {name} {one} {distance}"
    others = [f"{number}/{datatype}" for number, datatype in layers if f"{number}/{datatype}" != one]
    return f"{check} {name} {one} {random.choice(others or ['9/9'])} {distance}"


def deck_text(random, layers, good=.9):
    """A deck over some layers; a part of them has a fault or two, or looks as if."""
    names = random.sample(NAMES, random.choice([1, 2, 3, 4, 6]))
    lines = [f"tile {random.choice(TILES)}", *(rule_line(random, name, layers) for name in names)]
    if random.random() < good:
        return ("\n".join(lines) + ("\n" if random.random() < .7 else "")).encode()
    for _ in range(random.choice([1, 1, 1, 2])):
        if lines:
            random.choice(CHANGES)(random, lines, random.randrange(len(lines)))
    return ("\n".join(lines) + random.choice(["", "\n", "\n", "\n\n"])).encode("latin1")


# Each of these changes the lines of a deck, at a place.

def empty_line(_, lines, place):
    """Nothing between two line feeds."""
    lines[place] = ""


def other_word(random, lines, place):
    """Another word in its place."""
    words = lines[place].split(" ")
    words[random.randrange(len(words))] = random.choice(STRANGE_WORDS)
    lines[place] = " ".join(words)


def longer_line(random, lines, place):
    """More at a line's end."""
    lines[place] += random.choice([" ", " 5", "\r", "\0"])


def no_line(_, lines, place):
    """A line that lacks."""
    del lines[place]


def strange_line(random, lines, place):
    """Another line before it."""
    lines.insert(place, random.choice(STRANGE_LINES))


def repeated_line(random, lines, place):
    """Any of the lines once more."""
    lines.insert(place, random.choice(lines))


def shorter_line(random, lines, place):
    """A word that lacks."""
    words = lines[place].split(" ")
    if len(words) > 1:
        del words[random.randrange(len(words))]
        lines[place] = " ".join(words)


def wider_line(_, lines, place):
    """Two spaces in place of one."""
    lines[place] = lines[place].replace(" ", "  ", 1)


def other_first_line(random, lines, _):
    """A first line that may be none of tiles."""
    lines[0] = random.choice(STRANGE_FIRST_LINES)


CHANGES = [
    empty_line, other_word, longer_line, no_line, strange_line, repeated_line, shorter_line, wider_line,
    other_first_line,
]


def text_of(random, deck):
    """A deck as it stands on the wafer, as a text; seldom with its rules in another order, or other tiles."""
    lines = [f"tile {deck.tile}"]
    for rule in deck.rules:
        layers = ["%d/%d" % layer for layer in rule.layers]
        lines.append(" ".join([rule.check, rule.name, *layers, str(rule.distance)]))
    if random.random() < .15:
        lines[1:] = lines[:0:-1]
    if random.random() < .1:
        lines[0] = "tile 999"
    return ("\n".join(lines) + ("\n" if random.random() < .5 else "")).encode()


def damaged(random, text):
    """Other words in any lines, so that there are often two faults."""
    lines = text.split(b"\n")
    for _ in range(random.choice([1, 2, 3])):
        place = random.randrange(len(lines))
        words = lines[place].split(b" ")
        words[random.randrange(len(words))] = random.choice(DAMAGED_WORDS)
        lines[place] = b" ".join(words)
    return b"\n".join(lines)


def deck_script(random):
    """Many decks, most with faults; a run over some shows what was taken of one."""
    script = Script(random)
    try:
        script.begin()
        script.grant_to_officer("desk", "deck", "run", "verdict", "audit")
        script.grant_to_officer("pad", *CELL_OPERATIONS)
        script.submit("pad", "T", library({"T": [rectangle(*box) for box in BOXES]}))
        script.line("place", "pad", "c1", "R0", 0, 0)
        for _ in range(random.choice([20, 40])):
            text = deck_text(random, random.choice(LAYERS), .25)
            reply = script.deck(damaged(random, text) if script.chance(.3) else text)
            if reply == ["OK 0"] and script.chance(.5):
                for verb in ("run", "markers", "verdict"):
                    script.line(verb)
        script.line("trail")
    except Spent:
        pass
    return script
