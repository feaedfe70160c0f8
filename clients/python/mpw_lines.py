"""The lines that mpw-ask takes: requests, with a file in the place of a payload's length or of a token."""
from typing import NamedTuple, Optional

from mpw_desk import shortened

# The requests that have words after the first one. A line without them was meant to be quoted.
WITH_WORDS = (
    "open activate drop adduser deluser addrole delrole assign deassign grant revoke inherit uninherit"
    " ssd unssd dsd undsd submit shapes place unplace deck waive sign").split()
# Where a file may be named: the words before it.
FILES = {"submit": 3, "deck": 1, "open": 2, "adduser": 2}


class Unusable(Exception):
    """A command line or a line that isn't one: status 2."""


class Line(NamedTuple):
    """A request's line, without the file that it names, which is the payload's or the token's."""

    text: str
    verb: str
    path: Optional[str] = None

    @property
    def shown(self):
        """The line as it may be printed: without a token."""
        words = self.text.split(" ", 2)
        if self.path is not None:
            return f"{self.text} @{self.path}"
        return " ".join([*words[:2], "(token)"]) if self.verb in ("open", "adduser") and len(words) > 2 else self.text


def line_of(text):
    """A line by its text."""
    verb = text.split(" ")[0]
    words = text.split(" ", FILES.get(verb, 0))
    if verb in FILES and len(words) > FILES[verb] and words[-1].startswith("@"):
        return Line(" ".join(words[:-1]), verb, words[-1][1:])
    if verb in ("submit", "deck"):
        raise Unusable(f"{shortened(text)}: name the file that is sent, as @FILE in the place of its length")
    return Line(text, verb)


def argument_line(text):
    """A line of the command line, which has no token in it."""
    if text in WITH_WORDS:
        raise Unusable(f"{text}: words are missing: put the whole line between quotes")
    line = line_of(text)
    if line.verb in ("open", "adduser") and line.path is None:
        raise Unusable(f"{line.shown}: a token isn't taken from the command line: use --user, or @FILE in its place")
    return line
