"""A script that grows line by line with a model that answers each line, so that the next can be chosen by its state."""
import hashlib

from desk import Desk
from forms import request_of
from replies import Refused

OFFICER = "root"
TOKEN = b"abc"
DIGEST = hashlib.sha256(TOKEN).digest()


class Spent(Exception):
    """A script has as many lines as it may have."""


class Script:
    """The bytes of a script so far, the model that has answered them, and the random numbers to go on by."""

    def __init__(self, random, most_lines=4000):
        self.random = random
        self.parts = []
        self.lines = 0
        self.most_lines = most_lines
        self.desk = Desk(OFFICER, DIGEST)
        self.tokens = {OFFICER: TOKEN}
        self.runs = []

    @property
    def text(self):
        return b"".join(self.parts)

    @property
    def policy(self):
        return self.desk.policy

    @property
    def wafer(self):
        return self.desk.wafer

    @property
    def run(self):
        """The last run; none where there is none."""
        return self.desk.wafer.run

    @property
    def present(self):
        """The cells that have submissions, by name."""
        return sorted(self.desk.shelf.present)

    @property
    def active(self):
        return self.policy.session.active if self.policy.session else set()

    @property
    def authorized(self):
        """The roles for which the session's user is authorized, by name; none where there is no session."""
        return sorted(self.policy.authorized(self.policy.user)) if self.policy.session else []

    def chance(self, probability):
        return self.random.random() < probability

    def choice(self, values):
        return self.random.choice(values)

    def raw(self, data):
        """Writes bytes that the model doesn't answer."""
        self.parts.append(data)

    def line(self, *words, payload=None):
        """Writes a line, and has the model answer it; the reply's lines, or none where it is no request."""
        line = b" ".join(word if isinstance(word, bytes) else str(word).encode("latin1") for word in words)
        self.lines += 1
        if self.lines > self.most_lines:
            raise Spent
        self.parts.append(line + b"\n" + (payload or b""))
        try:
            request = request_of(line)
        except Refused:
            return None
        reply = self.desk.ask(request, payload)
        if request.verb == "adduser" and reply[0] == "OK 0":
            self.tokens[request.arguments[0]] = request.arguments[1]
        if request.verb == "run" and reply[0] == "OK 1":
            self.runs.append(self.run)
        return reply

    def submit(self, cell, top, text):
        return self.line("submit", cell, top, len(text), payload=text)

    def deck(self, text):
        return self.line("deck", len(text), payload=text)

    def switch(self, user, roles=None):
        """Opens a session of another user, with these roles active, or with some of those that are authorized."""
        if self.policy.session:
            self.line("close")
        self.line("open", user, self.tokens.get(user, TOKEN))
        if not self.policy.session:
            return
        if roles is None:
            roles = [role for role in self.authorized if self.chance(.7)]
        for role in roles:
            self.line("activate", role)

    def as_officer(self):
        self.switch(OFFICER, ["officer"])

    def as_administrator(self):
        """Goes on as who may administer the policy: as now, or else as the officer."""
        if not (self.policy.session and self.policy.permits("admin", "desk")):
            self.as_officer()

    def begin(self):
        """The officer's session, with its role."""
        self.line("open", OFFICER, "abc")
        self.line("activate", "officer")

    def grant_to_officer(self, about, *operations):
        for operation in operations:
            self.line("grant", operation, about, "officer")
