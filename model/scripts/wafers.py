"""What scripts of runs and of sign-off share: a desk with users and grants, and keys to ask for."""
from forms import CELL_OPERATIONS

from .pools import CELLS, LAYERS
from .script import OFFICER

NO_KEYS = ["sp:V:0:10:20:0:100", "zz:V:0:10:20:0:100", "a:H:1:0:0:0:1", "sp:V:0:20:10:0:100"]
DESK_GRANTS = ("deck", "run", "verdict", "audit", "waive", "sign")
SOME_CELL_GRANTS = {"read": .5, "submit": .4, "use": .5, "place": .3}
SOME_DESK_GRANTS = {"deck": .2, "run": .2, "verdict": .2, "audit": .2, "waive": .6, "sign": .6}


def begin_with_wafer(script, cells, users, roles):
    """The officer may do all; the roles some of it each, the users act in some of them, and one may inherit another."""
    script.begin()
    for user in users:
        if user != OFFICER:
            script.line("adduser", user, "abc")
    for role in roles:
        script.line("addrole", role)
    script.grant_to_officer("desk", *DESK_GRANTS)
    for cell in cells:
        script.grant_to_officer(cell, *CELL_OPERATIONS)
    for role in roles:
        for cell in cells:
            grant_some(script, SOME_CELL_GRANTS, cell, role)
        grant_some(script, SOME_DESK_GRANTS, "desk", role)
    for user in users:
        for role in roles:
            if script.chance(.4):
                script.line("assign", user, role)
    if script.chance(.4) and len(roles) > 1:
        script.line("inherit", *script.random.sample(roles, 2))


def grant_some(script, operations, about, role):
    """Grants a role each of some operations with its probability."""
    for operation, probability in operations.items():
        if script.chance(probability):
            script.line("grant", operation, about, role)


def a_key(script, known=.9):
    """The key of a marker, mostly of one that the session sees in full; seldom of none."""
    markers = script.run.markers if script.run else []
    if not markers or not script.chance(known):
        return script.choice(NO_KEYS)
    in_full = [marker for marker in markers if script.desk.sign_off.sight_of(marker) == "full"]
    word = script.choice(in_full if in_full and script.chance(.8) else markers).key.word
    if script.chance(.93):
        return word
    fields = word.split(":")
    fields[-script.random.randrange(1, 7)] = script.choice(["0", "1", "V", "H", "-5", "9", "00", "x", *fields[-2:]])
    return ":".join(fields)


def waived_keys(script):
    """The keys of the run's waivers, in order."""
    return sorted(key.word for key in script.run.waivers) if script.run else []


def sign_some(script, waived=.8):
    """Signs mostly a waiver that there is."""
    keys = waived_keys(script)
    script.line("sign", script.choice(keys) if keys and script.chance(waived) else a_key(script))


def sign_all(script, signer, most=12):
    """Asks for waivers of the first markers, and signs them as another user."""
    words = [marker.key.word for marker in script.run.markers[:most]] if script.run else []
    for word in words:
        script.line("waive", word)
    script.switch(signer)
    for word in words:
        script.line("sign", word)


def all_that_is_seen(script, users):
    """At the end: what each of the users sees, the verdict and the trail."""
    for user in users:
        script.switch(user)
        script.line("markers")
        script.line("waivers")
    script.as_officer()
    script.line("verdict")
    script.line("trail")


def random_pools(random, coordinates):
    """Some cells, coordinates and layers; the first layer is chosen more often."""
    layers = random.choice(LAYERS)
    if random.random() < .5:
        layers = layers[:1] * 3 + layers
    return random.sample(CELLS, random.choice([2, 3, 4])), random.choice(coordinates), layers
