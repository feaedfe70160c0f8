"""Scripts at the limits of tables, the deck, the shelf, the wafer, a run and a connection. Each tries one of them."""
from forms import CELL_OPERATIONS
from geometry import LIMIT, ORIENTATIONS

from .script import Script, Spent
from .written import array, library, rectangle, single

LAYER = (1, 0)
SQUARE = rectangle(LAYER, 0, 0, 1, 1)


def write(script, *lines):
    """Lines as they stand."""
    for line in lines:
        script.line(*line.split(" "))


def submit(script, cell, *elements):
    """A library of one structure as a version of a cell."""
    return script.submit(cell, "T", library({"T": list(elements)}))


def users(script):
    """512 users and one more; who is deleted makes room."""
    for number in range(513):
        script.line("adduser", f"u{number}", "abc")
    write(script, "adduser u3 abc", "deluser u4", "adduser zz abc", "adduser zy abc")


def roles(script):
    """Those added last are as good as the first, and what is deleted makes room."""
    for number in range(513):
        script.line("addrole", f"r{number}")
    write(
        script, "addrole r3", f"ssd s 2 r1 r{script.choice([510, 511, 600])}", "inherit r510 r1", "inherit r509 r510",
        "inherit r1 r509", "assign root r509", "whoami", "delrole r5", "addrole new", "inherit new r509",
        "assign root new", "whoami", "deassign root r509", "whoami", "uninherit r509 r510", "whoami",
    )


def sets(script):
    """A set that would be broken is denied before the limit refuses it."""
    for role in "abcd":
        script.line("addrole", role)
    kind = script.choice(["ssd", "dsd"])
    for number in range(66):
        script.line(kind, f"s{number}", 2, *script.random.sample("abcd", script.choice([2, 3])))
    write(
        script, "assign root a", "activate a", "assign root b", "activate b", f"{kind} zz 2 officer a",
        f"{kind} zz 2 c d", f"un{kind} s0", f"{kind} zz 2 officer a", f"{kind} zz 2 c d", f"{kind} zz 2 c d",
        f"{kind} zy 2 c nope", f"{kind} zy 2 c d",
    )


def long_chain(script):
    """A chain of 60 roles, and what is left of it where it is cut."""
    for number in range(60):
        script.line("addrole", f"r{number}")
    for number in range(59):
        script.line("inherit", f"r{number}", f"r{number + 1}")
    write(script, "inherit r59 r0", f"assign root r{script.choice([0, 30])}", "whoami")
    for _ in range(40):
        ends = [f"r{script.random.randrange(60)}" for _ in range(2)]
        script.line(script.choice(["inherit", "uninherit"]), *ends)
    for _ in range(10):
        number = script.random.randrange(59)
        write(script, f"uninherit r{number} r{number + 1}", "whoami")


def tiles(script):
    """Extents of as many tiles as a run may have, and of some more."""
    script.grant_to_officer("chip", *CELL_OPERATIONS)
    script.grant_to_officer("desk", "deck", "run")
    width, height = script.choice([
        (16383, 16383), (16384, 16383), (16384, 16384), (1048575, 10), (1048576, 10), (16383, 16384),
    ])
    submit(script, "chip", rectangle(LAYER, 0, 0, width, height))
    script.line("place", "chip", "c1", script.choice(ORIENTATIONS), script.choice([0, 5, -100]), 0)
    script.deck(b"tile 256\nwidth w 1/0 11")
    write(script, "run", "markers", "status", "run")
    script.deck(b"tile 1073741824\nwidth w 1/0 65535")
    write(script, "run", "markers")


def shapes_together(script):
    """2^20 shapes on the wafer and one more, and extents at the limits of the plane."""
    script.grant_to_officer("chip", *CELL_OPERATIONS)
    for rows, labels in ((512, ("c0", "c1", "c2")), (1024, ())):
        squares = array("E", 1024, rows, (0, 0), (1024, 0), (0, rows))
        script.submit("chip", "T", library({"T": [squares], "E": [SQUARE]}))
        for place, label in enumerate(labels):
            script.line("place", "chip", label, "R0", place, 0)
    again = "place chip c5 R0 0 0"
    write(script, again, "unplace chip c0", again, "unplace chip c1", again, "place chip c0 R0 0 0", "unplace chip c5")
    submit(script, "chip", rectangle(LAYER, 0, 0, 100, 50))
    write(
        script, "place chip c9 R0 0 0", "unplace chip c0", "place chip c9 R0 0 0", f"place chip c8 R0 {LIMIT} 0",
        f"place chip c8 R0 {LIMIT - 100} {LIMIT - 50}", f"place chip c7 R90 {50 - LIMIT} {-LIMIT}",
        f"place chip c6 R90 {49 - LIMIT} {-LIMIT}", f"place chip c6 M90 {LIMIT - 50} {LIMIT - 101}",
    )


def lines_of_connection(script):
    """The connection ends after its 4096th line."""
    for _ in range(4096 - script.lines + script.choice([-1, 0, 1]) - 2):
        script.line(script.choice(["status", "whoami", "frob", ""]))
    script.line(*(["trail"] if script.chance(.5) else ["grant", "deck", "desk", "officer"]))
    script.deck(b"tile 256")
    write(script, "whoami", "whoami")


def rules(script):
    """256 rules and some more; another fault may stand behind them."""
    script.grant_to_officer("desk", "deck")
    lines = ["tile 256", *(f"width w{number} 1/0 5" for number in range(script.choice([255, 256, 257, 258])))]
    if script.chance(.3):
        lines.append(script.choice([
            "width w3 1/0 5", "width w 1/0 0", "frob", "tile 256", "separation q 1/0 1/0 5",
        ]))
    script.deck("\n".join(lines).encode())


def height_through_names(script):
    """A height of 64 and one more, by a cell that has its own name in it."""
    script.grant_to_officer("chip", *CELL_OPERATIONS)
    submit(script, "chip", SQUARE)
    for _ in range(66):
        submit(script, "chip", single("chip", 1, 0))
    write(script, "shapes chip")
    submit(script, "chip", single("chip", 1, 0))


def cells(script):
    """1024 cells, and of others refused in the order of the limits."""
    for number in range(1026):
        script.line("grant", "submit", f"k{number}", "officer")
    for number in range(1024):
        submit(script, f"k{number}", SQUARE)
    submit(script, "k1024", SQUARE)
    submit(script, "k7", SQUARE)
    submit(script, "k1025", rectangle(LAYER, 0, 0, LIMIT + 1, 1))
    submit(script, "k1025", SQUARE)
    submit(script, "k1023", SQUARE)


LIMITS = [
    users, roles, sets, long_chain, tiles, shapes_together, lines_of_connection, rules, height_through_names,
]


def limit_script(random):
    """One of these; that of the cells, which takes longest, less often."""
    script = Script(random, 5000)
    try:
        limit = script.choice(LIMITS) if script.chance(.95) else cells
        script.begin()
        script.grant_to_officer("desk", "audit")
        limit(script)
    except Spent:
        pass
    return script
