"""Scripts of small desks full of sets: several broken at once, several tests that fail at once, and chains of roles
that are cut in the middle while a session acts in them."""
from .script import Script, Spent

SET_NAMES = ["s1", "s2", "S0", "~", "a", "zz"]
USERS = ["ann", "bob"]


class SetLines:
    """Writes one line after another that adds to or takes from sets, pairs, assignments and active roles."""

    def __init__(self, script, roles):
        self.script = script
        self.policy = script.policy
        self.roles = roles

    def role(self):
        return self.script.choice(self.roles if self.script.chance(.93) else ["officer", "nope"])

    def write_one(self):
        script = self.script
        if not script.policy.session or (not script.policy.permits("admin", "desk") and script.chance(.5)):
            script.as_administrator()
        drawn = script.random.random()
        for bound, write in (
            (.16, self.separation), (.19, self.no_separation), (.42, self.inherit), (.50, self.uninherit),
            (.62, self.assign), (.66, self.deassign), (.82, self.activate), (.85, self.drop), (.90, self.delete_role),
            (.93, lambda: script.line("whoami")), (.97, lambda: script.switch(script.choice([*USERS, "root", "root"]))),
            (1, self.delete_user),
        ):
            if drawn < bound:
                return write()

    def separation(self):
        roles = list(dict.fromkeys(self.role() for _ in range(self.script.choice([2, 3, 4]))))
        if len(roles) >= 2:
            verb, name = self.script.choice(["ssd", "dsd", "dsd"]), self.script.choice(SET_NAMES)
            self.script.line(verb, name, self.script.choice([2, 2, 3, len(roles)]), *roles)

    def no_separation(self):
        self.script.line(self.script.choice(["unssd", "undsd"]), self.script.choice(SET_NAMES))

    def inherit(self):
        self.script.line("inherit", self.role(), self.role())

    def uninherit(self):
        pairs = sorted(self.policy.pairs)
        pair = self.script.choice(pairs) if pairs and self.script.chance(.8) else (self.role(), self.role())
        self.script.line("uninherit", *pair)

    def assign(self):
        self.script.line("assign", self.script.choice([*USERS, "root"]), self.role())

    def deassign(self):
        pairs = [pair for pair in sorted(self.policy.assignments) if pair != ("root", "officer")]
        self.script.line("deassign", *self.script.choice(pairs or [("ann", "a")]))

    def activate(self):
        known = self.script.authorized
        role = self.script.choice(known) if known and self.script.chance(.85) else self.role()
        self.script.line("activate", role)

    def drop(self):
        self.script.line("drop", self.script.choice(sorted(self.script.active) or ["a"]))

    def delete_role(self):
        role = self.role()
        self.script.line("delrole", role)
        self.script.line("whoami")
        if self.script.chance(.7):
            self.script.line("addrole", role)

    def delete_user(self):
        self.script.line("deluser", self.script.choice(USERS))
        self.script.line("adduser", self.script.choice(USERS), "abc")


def separation_script(random):
    """A few roles, of which some may administer the policy, and many sets and pairs of them."""
    script = Script(random)
    roles = list("abcdef")[:random.choice([4, 5, 6])]
    lines = SetLines(script, roles)
    try:
        script.begin()
        script.grant_to_officer("desk", "audit")
        for role in roles:
            script.line("addrole", role)
        for user in USERS:
            script.line("adduser", user, "abc")
        for role in roles:
            if script.chance(.4):
                script.line("grant", "admin", "desk", role)
        for _ in range(random.choice([40, 80])):
            lines.write_one()
        script.line("whoami")
        script.as_administrator()
        script.line("trail")
    except Spent:
        pass
    return script
