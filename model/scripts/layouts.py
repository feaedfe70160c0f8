"""Scripts that submit libraries as versions of cells and list what each user may see of them."""
from forms import CELL_OPERATIONS

from .extremes import submit_extreme
from .faults import spoilt
from .junk import write_junk
from .libraries import Libraries
from .pools import CELLS, COORDINATES, LAYERS, name_of
from .script import Script, Spent
from .written import library, rectangle

USERS = ["root", "ann", "bob"]
ROLES = {"officer": .93, "a": .75, "b": .5}


def begin_with_readers(script, cells):
    """Users and roles, each of which may do some of what can be done with the cells."""
    script.begin()
    for user in USERS[1:]:
        script.line("adduser", user, "abc")
    for role in ("a", "b"):
        script.line("addrole", role)
    script.line("assign", "ann", "a")
    script.line("assign", "bob", "b")
    if script.chance(.3):
        script.line("assign", "bob", "a")
    for cell in cells:
        for operation in CELL_OPERATIONS:
            for role, probability in ROLES.items():
                if script.chance(probability):
                    script.line("grant", operation, cell, role)


def submit_one(script, cells, coordinates, layers):
    """A library of random elements as a version of one of the cells, and listings behind it."""
    outside = cells if script.chance(.9) else [*CELLS, "-"]
    unit = script.choice([1, 1, 1, 1, 2, 3, 5, 7, 10, 100, 1000, script.random.randrange(1, 1001)])
    top = script.choice(["TOP", "TOP", "A", "x,y", "T" * 40])
    text = Libraries(script.random, outside, coordinates, layers).text(top, unit)
    if script.chance(.05):
        top = script.choice(["NOPE", "A", "pad"])
    cell = name_of(script, cells)
    reply = script.submit(cell, top, text)
    if script.chance(.8):
        script.line("shapes", script.choice(cells))
    if script.chance(.3):
        script.line("cells")
    if reply and reply[0] == "OK 1" and script.chance(.3):
        script.line("shapes", cell)


def layout_script(random):
    """Submissions of several users, some at the limits, and at the end what each user may see of all cells."""
    script = Script(random)
    cells = random.sample(CELLS, random.choice([2, 3, 4]))
    coordinates, layers = random.choice(COORDINATES), random.choice(LAYERS)
    try:
        begin_with_readers(script, cells)
        for _ in range(random.choice([3, 6, 10])):
            if script.chance(.5):
                script.switch(random.choice(USERS))
            if script.chance(.2):
                script.as_officer()
            submit_one(script, cells, coordinates, layers)
            if script.chance(.1):
                submit_extreme(script, random.choice(cells))
            if script.chance(.05):
                write_junk(script)
        for user in USERS:
            script.switch(user, None if script.chance(.5) else sorted(script.policy.authorized(user)))
            script.line("cells")
            for cell in cells:
                script.line("shapes", cell)
    except Spent:
        pass
    return script


def fault_script(random):
    """Many libraries with faults, each spoilt in one to three ways."""
    script = Script(random)
    try:
        script.begin()
        script.grant_to_officer("desk", "audit")
        for cell in ("pad", "chip"):
            script.grant_to_officer(cell, "submit", "use", "read")
        script.submit("pad", "T", library({"T": [rectangle((1, 0), 0, 0, 5, 5)]}))
        for _ in range(random.choice([20, 40])):
            drawing = Libraries(random, ["pad", "chip"], random.choice(COORDINATES), random.choice(LAYERS))
            records = drawing.records("TOP", random.choice([1, 1, 1, 2, 10, random.randrange(1, 1001)]), (1, 1, 2, 3))
            for _ in range(random.choice([1, 3])):
                script.submit(random.choice(["pad", "chip"]), "TOP", spoilt(random, records))
        script.line("shapes", "chip")
        script.line("trail")
    except Spent:
        pass
    return script
