"""Scripts of runs: cells of random elements, placements, decks, and what each user is told of the markers."""
from geometry import LIMIT, ORIENTATIONS

from .decks import deck_text, text_of
from .junk import write_junk
from .libraries import Libraries
from .policies import PolicyLines
from .pools import CELLS, COORDINATES
from .script import OFFICER, Script, Spent
from .wafers import a_key, all_that_is_seen, begin_with_wafer, random_pools, sign_all, sign_some

LABELS = ["c1", "l,1", "~", 'l"', "c2"]
DISPLACEMENTS = [0, 0, 0, 1, -1, 5, 10, 15, 20, 60, -40, 256, 255, -256, 500]


class RunLines:
    """Writes one line after another over a wafer; some scripts sign off, the others change and look."""

    def __init__(self, script, signs_off, coordinates):
        random = script.random
        self.script = script
        self.signs_off = signs_off
        self.cells, self.coordinates, self.layers = random_pools(random, coordinates)
        self.users = [OFFICER, *random.sample(["ann", "bob", "carl", "u,v", 'd"d'], random.choice([1, 2, 3]))]
        self.roles = ["a", "b", "c"][:random.choice([1, 2, 3])]

    def write_one(self):
        """A line, or a few, each kind up to its bound of what was drawn."""
        script = self.script
        drawn = script.random.random()
        for bound, write in self.signing_steps() if self.signs_off else self.looking_steps():
            if drawn < bound:
                return write()

    def word(self, *verbs):
        return lambda: self.script.line(self.script.choice(verbs))

    def steps_of_both(self):
        script = self.script
        return [
            (.34, self.word("run")), (.37, self.word("status")), (.40, self.place), (.43, self.unplace),
            (.46, lambda: script.deck(deck_text(script.random, self.layers, .8))), (.49, self.same_deck),
            (.52, self.submit), (.54, self.word("cancel")), (.57, self.word("verdict")), (.59, self.trail_or_cells),
            (.61, lambda: script.line("shapes", script.choice(self.cells))), (.64, self.other_sight),
            (.66, lambda: write_junk(script)),
        ]

    def looking_steps(self):
        return [
            (.14, self.word("markers")), (.22, self.switch), (.30, self.script.as_officer), *self.steps_of_both(),
            (1, self.word("markers", "waivers", "status", "whoami")),
        ]

    def signing_steps(self):
        script = self.script
        return [
            (.14, self.word("markers")), (.22, self.switch), (.24, script.as_officer), *self.steps_of_both(),
            (.80, lambda: script.line("waive", a_key(script))), (.93, lambda: sign_some(script)),
            (.96, self.word("waivers")), (.975, self.sign_all), (1, self.delete_and_add),
        ]

    def switch(self):
        self.script.switch(self.script.choice(self.users))

    def submit(self):
        outside = self.cells if self.script.chance(.8) else []
        drawing = Libraries(self.script.random, outside, self.coordinates, self.layers)
        text = drawing.text("TOP", self.script.choice([1] * 8 + [2, 3, 5]), .3 if self.script.chance(.1) else 0)
        return self.script.submit(self.script.choice(self.cells), "TOP", text)

    def displacement(self):
        return self.script.choice(DISPLACEMENTS if self.script.chance(.99) else [LIMIT, -LIMIT, LIMIT - 100])

    def place(self):
        orientation = self.script.choice(ORIENTATIONS) if self.script.chance(.6) else "R0"
        x, y = self.displacement(), self.displacement()
        cell = self.script.choice((self.script.present or self.cells) if self.script.chance(.95) else self.cells)
        self.script.line("place", cell, self.script.choice(LABELS), orientation, x, y)

    def unplace(self):
        placements = self.script.wafer.placements
        if placements and self.script.chance(.8):
            placement = self.script.choice(placements)
            self.script.line("unplace", placement.cell, placement.label)
        else:
            self.script.line("unplace", self.script.choice(self.cells), self.script.choice(LABELS))

    def same_deck(self):
        if self.script.wafer.deck and self.script.chance(.7):
            self.script.deck(text_of(self.script.random, self.script.wafer.deck))

    def trail_or_cells(self):
        self.script.line("trail" if self.script.chance(.3) else "cells")

    def other_sight(self):
        """The officer changes who may read what; another user acts in another role."""
        if self.script.policy.user == OFFICER:
            for role in self.roles:
                verb = self.script.choice(["grant", "revoke"])
                self.script.line(verb, "read", self.script.choice(self.cells), self.script.choice(self.roles))
        elif self.script.policy.user:
            self.script.line(self.script.choice(["activate", "drop"]), self.script.choice(self.roles))

    def sign_all(self):
        sign_all(self.script, self.script.choice(self.users))
        self.script.line("waivers")
        self.script.line("verdict")

    def delete_and_add(self):
        """A user of the same name again: who submitted and asked is known by name."""
        user = self.script.choice(self.users[1:])
        self.script.as_administrator()
        self.script.line("deluser", user)
        if self.script.chance(.8):
            self.script.line("adduser", user, "abc")
            for role in self.roles:
                if self.script.chance(.7):
                    self.script.line("assign", user, role)
        self.switch()

    def submit_first(self):
        """Cells of several users, as far as they may; each has some tries, since many libraries have faults."""
        if self.script.chance(.7):
            self.script.switch(self.script.choice(self.users))
            if not any(self.script.policy.permits("submit", cell) for cell in self.cells):
                self.script.as_officer()
        for _ in range(3):
            if self.submit()[0] == "OK 1":
                break


def run_script(random, coordinates=COORDINATES):
    """A wafer of a few cells whose shapes have coordinates of one of these lists; more than half sign off."""
    script = Script(random)
    lines = RunLines(script, script.chance(.6), coordinates)
    try:
        begin_with_wafer(script, lines.cells, lines.users, lines.roles)
        for _ in range(random.choice([2, 3, 5])):
            lines.submit_first()
        if script.chance(.95):
            script.as_officer()
        for _ in range(random.choice([1, 2, 3, 4])):
            lines.place()
        script.deck(deck_text(random, lines.layers, .97))
        script.line("run")
        for _ in range(random.choice([8, 20, 40])):
            lines.write_one()
        all_that_is_seen(script, lines.users)
    except Spent:
        pass
    return script


def mixed_script(random):
    """A run, then turmoil of the policy, with looks at markers and waivers and signing meanwhile."""
    script = run_script(random)
    try:
        users, roles = ["root", "ann", "bob", "carl"], ["a", "b", "c", "officer"]
        lines = PolicyLines(script, users, roles, script.present or CELLS[:2])
        for _ in range(30):
            lines.write_one()
            drawn = random.random()
            for bound, words in (.2, ["markers"]), (.3, ["waivers"]), (.4, ["cells"]), (.5, ["waive"]), (.6, ["sign"]):
                if drawn < bound:
                    script.line(*words, *([a_key(script)] if words[0] in ("waive", "sign") else []))
                    break
    except Spent:
        pass
    return script
