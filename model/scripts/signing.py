"""Scripts of sign-off: few markers, many users, and all ways of asking for waivers, signing and changing the wafer."""
from geometry import ORIENTATIONS

from .script import OFFICER, Script, Spent
from .wafers import a_key, all_that_is_seen, begin_with_wafer, grant_some, sign_all, sign_some
from .written import library, rectangle, single

LAYER = (1, 0)
USERS = [OFFICER, "ann", "bob", "carl", "dan"]
ROLES = ["a", "b", "c", "d"]


class SignLines:
    """Writes one line after another over a finished run."""

    def __init__(self, script):
        self.script = script
        self.cells = ["pad", "chip", "via"][:script.choice([2, 3])]

    def begin(self):
        """Each user has a role of its own, and most roles may ask, sign and look."""
        script = self.script
        begin_with_wafer(script, self.cells, USERS, ROLES)
        for user, role in zip(USERS[1:], ROLES):
            script.line("assign", user, role)
        for role in ROLES:
            grant_some(script, {"waive": .8, "sign": .8, "verdict": .8}, "desk", role)
            for cell in self.cells:
                grant_some(script, {"read": .75, "submit": .6}, cell, role)
        for place, cell in enumerate(self.cells):
            self.submit(place, cell)
        script.as_officer()
        for cell in self.cells:
            orientation = script.choice(ORIENTATIONS) if script.chance(.3) else "R0"
            script.line("place", cell, "c1", orientation, script.choice([0, 0, 7]), 0)
        self.bring_deck()
        script.line("run")

    def submit(self, place, cell):
        """Two bars beside each other, so that there is a marker of a space; some have the first cell in them."""
        script, left = self.script, 100 * place
        script.switch(script.choice(USERS))
        if not script.policy.permits("submit", cell):
            script.as_officer()
        one = rectangle(LAYER, left, 0, left + script.choice([10, 20]), script.choice([10, 50, 300]))
        elements = [one, rectangle(LAYER, left + script.choice([25, 30, 15]), 0, left + 40, 300)]
        if place and script.chance(.6):
            elements.append(single(self.cells[0], script.choice([0, 45, 50, -30]), script.choice([0, 20])))
        script.submit(cell, "T", library({"T": elements}))

    def bring_deck(self):
        tile, distance = self.script.choice([256, 300, 1000]), self.script.choice([6, 11, 21, 30])
        more = self.script.choice(["", "width w 1/0 11\n", "width - 1/0 21"])
        self.script.deck(f"tile {tile}\nspace sp 1/0 {distance}\n{more}".encode())

    def write_one(self):
        script = self.script
        drawn = script.random.random()
        for bound, write in (
            (.20, lambda: script.switch(script.choice(USERS))), (.27, self.switch_with_all_roles),
            (.45, lambda: script.line("waive", a_key(script, .97))), (.75, lambda: sign_some(script, .9)),
            (.81, lambda: script.line("waivers")), (.86, lambda: script.line("verdict")),
            (.90, lambda: script.line("markers")), (.92, self.seldom_run),
            (.95, self.delete_and_add), (.97, self.place_again), (1, self.sign_all),
        ):
            if drawn < bound:
                return write()

    def seldom_run(self):
        """A new run has no waivers."""
        if self.script.chance(.3):
            self.script.line("run")

    def switch_with_all_roles(self):
        user = self.script.choice(USERS)
        self.script.switch(user, sorted(self.script.policy.authorized(user)))

    def delete_and_add(self):
        user = self.script.choice(USERS[1:])
        self.script.as_administrator()
        self.script.line("deluser", user)
        if self.script.chance(.8):
            self.script.line("adduser", user, "abc")
            for _ in range(2):
                self.script.line("assign", user, self.script.choice(ROLES))

    def place_again(self):
        """A placement is taken away, and then the same again, under the same label or another; seldom of a new
        version. The verdict is stale until the placed submissions are those of the run, in their order."""
        script = self.script
        script.as_officer()
        if not script.wafer.placements:
            return
        cell, label, root = script.choice(script.wafer.placements)
        script.line("unplace", cell, label)
        script.line("verdict")
        if script.chance(.3):
            script.submit(cell, "T", library({"T": [rectangle(LAYER, 0, 0, 10, 10)]}))
        script.line("place", cell, script.choice(["c1", "new"]), root.orientation, root.x, root.y)
        script.line("verdict")

    def sign_all(self):
        self.script.as_administrator()
        sign_all(self.script, self.script.choice(USERS[1:]), 6)
        self.script.line("verdict")


def sign_script(random):
    """A run with some markers, lines of sign-off, and at the end what each user sees."""
    script = Script(random)
    lines = SignLines(script)
    try:
        lines.begin()
        for _ in range(random.choice([15, 30, 60])):
            lines.write_one()
        all_that_is_seen(script, USERS)
    except Spent:
        pass
    return script
