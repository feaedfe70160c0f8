"""The policy: users, roles, the role hierarchy, grants, the one session, and separation of duty.

Each request is a method. It makes its tests in order; the first that fails denies or refuses it, and nothing changes.
"""
import hashlib
from dataclasses import dataclass, field
from typing import NamedTuple

from replies import Denied, NotAccepted, test

MOST_USERS = MOST_ROLES = 512
MOST_GRANTS = 4096
MOST_SETS = 64


class Grant(NamedTuple):
    """An operation on an object, granted to a role."""

    operation: str
    about: str
    role: str


class SeparationSet(NamedTuple):
    """Of a static set nobody is authorized for `number` of its roles; of a dynamic one no session acts in so many."""

    number: int
    roles: frozenset

    def is_broken(self, roles):
        """Whether somebody has as many of its roles among these."""
        return len(self.roles & roles) >= self.number


@dataclass
class Session:
    """A session: its user and active roles."""

    user: str
    active: set = field(default_factory=set)


def digest_of(token):
    """A token is known by its SHA-256 alone."""
    return hashlib.sha256(token).digest()


class Policy:
    """What is known of users and roles, with the session of the one connection."""

    def __init__(self, officer, digest):
        self.users = {officer: digest}
        self.roles = {"officer"}
        self.pairs = set()
        self.assignments = {(officer, "officer")}
        self.grants = {Grant("admin", "desk", "officer")}
        self.sets = {"ssd": {}, "dsd": {}}
        self.session = None

    @property
    def user(self):
        """The session's user; none where there is no session."""
        return self.session.user if self.session else None

    # What is asked of a policy.

    def at_or_below(self, roles):
        """The role order: these roles, and those to which chains of immediate pairs lead down from them."""
        found, ahead = set(roles), list(roles)
        while ahead:
            upper = ahead.pop()
            below = {junior for senior, junior in self.pairs if senior == upper} - found
            found |= below
            ahead.extend(below)
        return found

    def authorized(self, user):
        """The roles at or below one that is assigned to the user."""
        return self.at_or_below([role for known, role in self.assignments if known == user])

    def acting(self):
        """The roles at or below an active one of the session."""
        return self.at_or_below(self.session.active) if self.session else set()

    def permits(self, operation, about):
        """Whether some acting role was granted the operation on the object."""
        return any(Grant(operation, about, role) in self.grants for role in self.acting())

    def need_session(self):
        """That the connection has a session."""
        if self.session is None:
            raise Denied("session")

    def need(self, operation, about):
        """A session, and that it is permitted the operation on the object."""
        self.need_session()
        if not self.permits(operation, about):
            raise Denied(f"permission {operation} {about}")

    def need_admin(self):
        """That the session may administer the policy."""
        self.need("admin", "desk")

    # Separation of duty.

    def least_broken(self, kind, roles_of_each):
        """The least name of a set that is broken by the roles of somebody; none where none is."""
        broken = [name for name, separation in self.sets[kind].items() if any(map(separation.is_broken, roles_of_each))]
        return min(broken, default=None)

    def test_sets(self, *kinds):
        """Denies with the least name of a set that is broken, the kinds in this order."""
        for kind in kinds:
            if kind == "ssd":
                roles_of_each = [self.authorized(user) for user in self.users]
            else:
                roles_of_each = [self.acting()]
            name = self.least_broken(kind, roles_of_each)
            if name is not None:
                raise Denied(f"{kind} {name}")

    def add_tested(self, entries, entry, *kinds):
        """Adds an entry, and takes it back where a set is broken then."""
        entries.add(entry)
        try:
            self.test_sets(*kinds)
        except Denied:
            entries.remove(entry)
            raise

    def trim(self):
        """After a change of roles the session keeps the active ones for which its user is still authorized; that of a
        deleted user ends."""
        if self.session is None:
            return
        if self.user in self.users:
            self.session.active &= self.authorized(self.user)
        else:
            self.session = None

    # Sessions.

    def open(self, user, token):
        """An unknown user and another token are denied alike."""
        test(self.session is None, "opened")
        if self.users.get(user) != digest_of(token):
            raise Denied("login")
        self.session = Session(user)

    def close(self):
        """The session ends."""
        self.need_session()
        self.session = None

    def activate(self, role):
        """A role for which the user is authorized acts with all its juniors; dynamic sets are tested with them."""
        self.need_session()
        if role not in self.roles or role not in self.authorized(self.user):
            raise Denied(f"permission activate {role}")
        test(role not in self.session.active, "known")
        self.add_tested(self.session.active, role, "dsd")

    def drop(self, role):
        """An active role is active no more."""
        self.need_session()
        test(role in self.session.active, "unknown")
        self.session.active.remove(role)

    def whoami(self):
        """The session's user, and by name its active and its authorized roles."""
        self.need_session()
        active = [f"active {role}" for role in sorted(self.session.active)]
        return [f"user {self.user}", *active, *(f"authorized {role}" for role in sorted(self.authorized(self.user)))]

    # Users, roles and grants.

    def add_user(self, user, token):
        """A user without roles."""
        self.need_admin()
        test(user not in self.users, "known")
        test(len(self.users) < MOST_USERS, "full")
        self.users[user] = digest_of(token)

    def delete_user(self, user):
        """Its assignments are gone too, and its session ends."""
        self.need_admin()
        test(user in self.users, "unknown")
        del self.users[user]
        self.assignments = {pair for pair in self.assignments if pair[0] != user}
        self.trim()

    def add_role(self, role):
        """A role without pairs."""
        self.need_admin()
        test(role not in self.roles, "known")
        test(len(self.roles) < MOST_ROLES, "full")
        self.roles.add(role)

    def delete_role(self, role):
        """A role of a set stays; with another its pairs, assignments and grants are gone."""
        self.need_admin()
        test(role in self.roles, "unknown")
        in_sets = (role in separation.roles for sets in self.sets.values() for separation in sets.values())
        test(not any(in_sets), "used")
        self.roles.remove(role)
        self.assignments = {pair for pair in self.assignments if pair[1] != role}
        self.grants = {grant for grant in self.grants if grant.role != role}
        self.pairs = {pair for pair in self.pairs if role not in pair}
        self.trim()

    def assign(self, user, role):
        """A role for a user; static sets are tested with it and its juniors."""
        self.need_admin()
        test(user in self.users and role in self.roles, "unknown")
        test((user, role) not in self.assignments, "known")
        self.add_tested(self.assignments, (user, role), "ssd")

    def deassign(self, user, role):
        """An assignment is taken back."""
        self.need_admin()
        test((user, role) in self.assignments, "unknown")
        self.assignments.remove((user, role))
        self.trim()

    def grant(self, operation, about, role):
        """The cell of a grant need not exist."""
        self.need_admin()
        test(role in self.roles, "unknown")
        test(Grant(operation, about, role) not in self.grants, "known")
        test(len(self.grants) < MOST_GRANTS, "full")
        self.grants.add(Grant(operation, about, role))

    def revoke(self, operation, about, role):
        """A grant is taken back."""
        self.need_admin()
        test(Grant(operation, about, role) in self.grants, "unknown")
        self.grants.remove(Grant(operation, about, role))

    # The role hierarchy, and sets.

    def inherit(self, senior, junior):
        """No pair closes a loop; static sets are tested before dynamic ones."""
        self.need_admin()
        test(senior in self.roles and junior in self.roles, "unknown")
        test((senior, junior) not in self.pairs, "known")
        test(senior not in self.at_or_below([junior]), "loop")
        self.add_tested(self.pairs, (senior, junior), "ssd", "dsd")

    def uninherit(self, senior, junior):
        """An immediate pair is taken back; what chains through it gave is gone."""
        self.need_admin()
        test((senior, junior) in self.pairs, "unknown")
        self.pairs.remove((senior, junior))
        self.trim()

    def add_set(self, kind, name, number, roles):
        """A set's roles are there, and neither it nor another of its kind is broken; the limit is tested last."""
        self.need_admin()
        sets = self.sets[kind]
        test(name not in sets, "known")
        test(all(role in self.roles for role in roles), "unknown")
        sets[name] = SeparationSet(number, frozenset(roles))
        try:
            self.test_sets(kind)
            test(len(sets) <= MOST_SETS, "full")
        except NotAccepted:
            del sets[name]
            raise

    def delete_set(self, kind, name):
        """A set of a kind is gone."""
        self.need_admin()
        test(name in self.sets[kind], "unknown")
        del self.sets[kind][name]
