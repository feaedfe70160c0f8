"""The words, coordinates and layers from which scripts choose."""
CELLS = ["pad", "chip", "left", "right", "via", "desk", "TOP", "x,y", 'c"c', "-p", "w" * 70]
USERS = [
    "ann", "bob", "carl", "dan", "eve", "root", "desk", "officer", "a,b", 'q"t', "~", "!", "-x", "x" * 64, "x" * 65,
    "y" * 255, "0", "ann.", "Ann", "an",
]
ROLES = [
    "a", "b", "c", "d", "e", "f", "g", "officer", "desk", "root", "r,s", '"', "~~", "z" * 64, "z" * 255, "-1", "A",
    "aa",
]
NO_NAMES = ["-", "", "x" * 256, "a\x7f", "\xe9", "a\tb", "a\x00", "\r", "a\r", "x" * 300]

COORDINATES = [
    list(range(0, 61, 5)),
    [*range(-20, 41, 3), 0, 10, 20],
    [-512, -257, -256, -255, -1, 0, 1, 5, 10, 250, 254, 255, 256, 257, 260, 270, 511, 512, 513, 600, 768],
    list(range(0, 40)),
    [0, 10, 20, 30, 40, 50, 100, 255, 256, 300, 512, 700, 1024],
    [-300, -100, 0, 100, 101, 103, 110, 200, 255, 256],
]
LAYERS = [
    [(1, 0), (2, 0)],
    [(1, 0), (1, 0), (2, 0), (3, 1)],
    [(1, 0)],
    [(65535, 65535), (1, 0), (32768, 0)],
    [(1, 0), (2, 0), (5, 0)],
]


def name_of(script, pool, no_name=.01):
    """A name of a pool, or with a small probability a word that is none."""
    return script.choice(NO_NAMES if script.chance(no_name) else pool)
