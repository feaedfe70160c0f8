"""Scripts that administer users, roles, grants, the role hierarchy and sets, and open sessions meanwhile."""
from forms import CELL_OPERATIONS, DESK_OPERATIONS

from .junk import write_junk
from .pools import CELLS, NO_NAMES, ROLES, USERS, name_of
from .script import Script, Spent

WEIGHTS = {
    "adduser": 2, "deluser": 1, "addrole": 3, "delrole": 1, "assign": 7, "deassign": 3, "grant": 3, "revoke": 1,
    "inherit": 9, "uninherit": 3, "ssd": 3, "dsd": 4, "unssd": 1, "undsd": 1, "whoami": 3, "activate": 7, "drop": 2,
    "switch": 3, "administrator": 6, "close": 1, "open": 1, "status": 1, "cells": 1, "trail": 1, "junk": 1,
}
VERBS = [verb for verb, weight in WEIGHTS.items() for _ in range(weight)]
SET_NAMES = ["s1", "s2", "s0", "S", "a", "~s", 's,"']
NO_NUMBERS = ["02", "+2", "", 2**70, "-2", "x"]


class PolicyLines:
    """Writes one line of the policy after another, over a few users, roles and cells."""

    def __init__(self, script, users, roles, cells):
        self.script = script
        self.policy = script.policy
        self.user_names, self.role_names, self.cell_names = users, roles, cells

    def user(self):
        return name_of(self.script, self.user_names)

    def role(self):
        return name_of(self.script, self.role_names)

    def some(self, known, other):
        """Mostly one of what is known, in order; else what another choice gives."""
        known = sorted(known)
        return self.script.choice(known) if known and self.script.chance(.75) else other()

    def known_user(self):
        return self.some(self.policy.users, self.user)

    def known_role(self):
        return self.some(self.policy.roles, self.role)

    def write_one(self):
        verb = self.script.choice(VERBS)
        if verb in ("inherit", "assign", "activate", "drop", "uninherit", "addrole"):
            self.script.line(verb, *self.names_of(verb))
        elif hasattr(self, verb):
            getattr(self, verb)()
        else:
            self.script.line(verb)

    def names_of(self, verb):
        """The names of a line that has names alone."""
        if verb == "addrole":
            return [self.role()]
        if verb == "assign":
            return self.known_user(), self.known_role()
        if verb == "inherit":
            return self.known_role(), self.known_role()
        if verb == "uninherit":
            return self.some(self.policy.pairs, lambda: (self.role(), self.role()))
        return [self.some(self.script.authorized if verb == "activate" else self.script.active, self.role)]

    def adduser(self):
        user = self.user()
        tokens = ["abc", "abc", "-", "t" * 255, 'x:"y'] if self.script.chance(.97) else NO_NAMES
        self.script.line("adduser", user, self.script.choice(tokens))

    def deluser(self):
        """The officer, its role, its assignment and its grant are seldom taken away: little would be left to do."""
        user = self.known_user()
        self.script.line("deluser", "ann" if user == "root" and self.script.chance(.8) else user)

    def delrole(self):
        role = self.known_role()
        self.script.line("delrole", "a" if role == "officer" and self.script.chance(.85) else role)

    def deassign(self):
        pair = self.some(self.policy.assignments, lambda: (self.user(), self.role()))
        if pair != ("root", "officer") or not self.script.chance(.8):
            self.script.line("deassign", *pair)

    def grant(self):
        operation = self.script.choice([*CELL_OPERATIONS, *DESK_OPERATIONS, "audit"])
        is_on_desk = (operation in DESK_OPERATIONS) != self.script.chance(.03)
        about = "desk" if is_on_desk else name_of(self.script, self.cell_names)
        if self.script.chance(.01):
            operation = self.script.choice(["Read", "", "-", "open", "read:"])
        self.script.line("grant", operation, about, self.known_role())

    def revoke(self):
        grant = self.some(self.policy.grants, lambda: (
            self.script.choice(CELL_OPERATIONS), name_of(self.script, self.cell_names), self.role()))
        if grant != ("admin", "desk", "officer") or not self.script.chance(.85):
            self.script.line("revoke", *grant)

    def separation(self, verb):
        roles = [self.known_role() for _ in range(self.script.choice([1, 2, 2, 2, 3, 3, 4, 5]))]
        if self.script.chance(.9):
            roles = list(dict.fromkeys(roles))
        if self.script.chance(.93):
            number = self.script.choice([2, 2, 2, 3, len(roles), len(roles)])
        else:
            number = self.script.choice([0, 1, len(roles) + 1, *NO_NUMBERS])
        self.script.line(verb, self.script.choice(SET_NAMES), number, *roles)

    def ssd(self):
        self.separation("ssd")

    def dsd(self):
        self.separation("dsd")

    def no_separation(self, kind):
        name = self.some(self.policy.sets[kind], lambda: self.script.choice(["s1", "s2", "s0", "nope"]))
        self.script.line(f"un{kind}", name)

    def unssd(self):
        self.no_separation("ssd")

    def undsd(self):
        self.no_separation("dsd")

    def switch(self):
        self.script.switch(self.known_user())

    def administrator(self):
        self.script.as_administrator()

    def open(self):
        user = self.user()
        tokens = ["abc", "xyz", "-"] if self.script.chance(.95) else NO_NAMES
        self.script.line("open", user, self.script.choice(tokens))

    def trail(self):
        """A trail is long, so seldom."""
        if self.script.chance(.1):
            self.script.line("trail")

    def junk(self):
        write_junk(self.script)


def policy_script(random):
    """Turmoil of a policy, and at the end the whole trail of it."""
    script = Script(random)
    users = [*random.sample(USERS, random.choice([3, 5, 8])), "ann", "bob"]
    roles = [*random.sample(ROLES, random.choice([3, 5, 8, 10])), "a", "b", "c"]
    lines = PolicyLines(script, users, roles, random.sample(CELLS, 3))
    try:
        if script.chance(.97):
            script.begin()
        for role in roles[:random.randrange(len(roles) + 1)]:
            script.line("addrole", role)
        for user in users[:random.randrange(len(users) + 1)]:
            script.line("adduser", user, "abc")
        for _ in range(random.choice([15, 40, 80, 150])):
            lines.write_one()
        script.as_administrator()
        script.grant_to_officer("desk", "audit")
        script.line("trail")
    except Spent:
        pass
    return script
