"""A desk with a method for each request."""
import time
from operator import index
from typing import Callable, Iterable, List, Optional, Union

from .conversation import Conversation
from .decks import PlainDeck
from .faults import NotFinished, Refused
from .files import File, deck_of, library_bytes
from .replies import after, cell_of, marker_of, shape_of, status_of, trail_row_of, verdict_of, waiver_of
from .values import (
    Carried, Cell, Key, Marker, Markers, Masked, Operation, Orientation, Shape, State, Status, TrailRow, Verdict, Waiver)
from .words import granted, key_of, key_word, name, token_word


class Desk(Conversation):
    """A connection to a desk. It is one conversation: not for several threads at once."""

    # Sessions.

    def open(self, user: str, token: str) -> None:
        """Begins a session of the user, in which no role is active yet."""
        self.done("open", name(user), token_word(token))

    def close(self) -> None:
        """Ends the session; the connection stays (`hang_up` ends it)."""
        self.done("close")

    def activate(self, role: str) -> None:
        """Makes a role active in the session."""
        self.done("activate", name(role))

    def drop(self, role: str) -> None:
        """Makes an active role active no longer."""
        self.done("drop", name(role))

    # Users, roles and grants.

    def adduser(self, user: str, token: str) -> None:
        """Adds a user, without roles."""
        self.done("adduser", name(user), token_word(token))

    def deluser(self, user: str) -> None:
        """Deletes a user with its assignments, and ends its sessions."""
        self.done("deluser", name(user))

    def addrole(self, role: str) -> None:
        """Adds a role."""
        self.done("addrole", name(role))

    def delrole(self, role: str) -> None:
        """Deletes a role with its pairs, assignments and grants."""
        self.done("delrole", name(role))

    def assign(self, user: str, role: str) -> None:
        """Assigns a role to a user."""
        self.done("assign", name(user), name(role))

    def deassign(self, user: str, role: str) -> None:
        """Takes an assignment back."""
        self.done("deassign", name(user), name(role))

    def grant(self, operation: Union[Operation, str], about: str, role: str) -> None:
        """Grants an operation on an object, a cell or DESK, to a role."""
        self.done("grant", *granted(operation, about), name(role))

    def revoke(self, operation: Union[Operation, str], about: str, role: str) -> None:
        """Takes a grant back."""
        self.done("revoke", *granted(operation, about), name(role))

    # Hierarchy and separation of duty.

    def inherit(self, senior: str, junior: str) -> None:
        """Makes a role an immediate junior of another, which then acts with what the junior was granted."""
        self.done("inherit", name(senior), name(junior))

    def uninherit(self, senior: str, junior: str) -> None:
        """Takes an immediate pair back."""
        self.done("uninherit", name(senior), name(junior))

    def ssd(self, called: str, count: int, roles: Iterable[str]) -> None:
        """Makes a static set: nobody may be authorized for so many of its roles."""
        self.done("ssd", name(called), str(index(count)), *map(name, roles))

    def unssd(self, called: str) -> None:
        """Deletes a static set."""
        self.done("unssd", name(called))

    def dsd(self, called: str, count: int, roles: Iterable[str]) -> None:
        """Makes a dynamic set: in no session may so many of its roles act."""
        self.done("dsd", name(called), str(index(count)), *map(name, roles))

    def undsd(self, called: str) -> None:
        """Deletes a dynamic set."""
        self.done("undsd", name(called))

    # Cells, placements and the deck.

    def submit(self, cell: str, top: str, library: Union[File, bytes]) -> int:
        """Submits a GDSII library, given by its path or as bytes; the version that it became."""
        return self.told(after("version"), "submit", name(cell), name(top), payload=library_bytes(library))

    def cells(self) -> List[Cell]:
        """The cells that the session may read."""
        return self.listed(cell_of, "cells")

    def shapes(self, cell: str) -> List[Shape]:
        """The shapes of the cell's present submission in its own coordinates, as far as the session may see them."""
        return self.listed(shape_of, "shapes", name(cell))

    def place(self, cell: str, label: str, orientation: Union[Orientation, str], x: int, y: int) -> int:
        """Places the cell's present submission on the wafer under a label; the version that was placed."""
        words = Orientation(orientation).value, str(index(x)), str(index(y))
        return self.told(after("version"), "place", name(cell), name(label), *words)

    def unplace(self, cell: str, label: str) -> None:
        """Takes a placement away."""
        self.done("unplace", name(cell), name(label))

    def deck(self, deck: Union[File, bytes, PlainDeck]) -> None:
        """Uploads the deck of rules, given by its path or as its text: a string with a line feed is a text. It may have
        comments, CRLF, and lengths with a unit (decks.py). If the desk refuses a line, `line` of Refused counts them all."""
        plain = deck_of(deck)
        try:
            self.done("deck", payload=plain.text)
        except Refused as refused:
            line = plain.line_of(int(refused.rest)) if refused.rest.isdecimal() else None
            raise Refused(refused.code, refused.word, refused.rest, line) from None

    # The run, its waivers and the trail.

    def run(self) -> int:
        """Begins a run; its number. `wait` waits for its end."""
        return self.told(after("run"), "run", limit=self.run_limit)

    def cancel(self) -> None:
        """Leaves the run that goes on."""
        self.done("cancel")

    def status(self) -> Status:
        """How far the run is."""
        return self.told(status_of, "status")

    def wait(
            self, poll: float = 1.0, limit: float = 3600.0,
            progress: Optional[Callable[[Status], None]] = None) -> Status:
        """Asks for the status until the run is finished, and returns that status; `progress` is called with each.

        Each question is a line of the connection and a row of the trail, so the pauses grow from `poll` seconds to ten
        times that. Raises NotFinished after `limit` seconds, and at once if no run goes on."""
        end, pause = time.monotonic() + limit, poll
        while True:
            status = self.status()
            if progress is not None:
                progress(status)
            if status.state is State.FINISHED:
                return status
            if status.state is State.IDLE:
                raise NotFinished(status, "no run goes on")
            left = end - time.monotonic()
            if left <= 0:
                raise NotFinished(status, f"the run isn't finished after {limit:g} s: {status}")
            time.sleep(min(pause, left))
            pause = min(1.5 * pause, 10 * poll)

    def markers(self) -> Markers:
        """The markers of the finished run that the session sees in full, and how many more are masked."""
        found = self.listed(marker_of, "markers")
        return Markers([it for it in found if isinstance(it, Marker)], [it for it in found if isinstance(it, Masked)])

    def waive(self, key: Union[Key, Marker, str]) -> None:
        """Asks for a waiver of a marker."""
        self.done("waive", key_word(key))

    def sign(self, key: Union[Key, Marker, Waiver, str]) -> None:
        """Signs the waiver of a marker."""
        self.done("sign", key_word(key))

    def waivers(self) -> List[Waiver]:
        """The waivers of the markers that the session sees in full."""
        return self.listed(waiver_of, "waivers")

    def carry(self, earlier: Iterable[Union[Key, Marker, Waiver, str]]) -> Carried:
        """Asks again for the waivers of earlier markers, since a new run drops them all. It asks for those whose key the
        run found again. A key says where a marker is, and nothing of the shapes near it, so nothing is signed here."""
        keys, markers = dict.fromkeys(map(key_of, earlier)), self.markers()
        found = {marker.key: marker for marker in markers.full}
        known = {waiver.key for waiver in self.waivers()}
        wanted = [key for key in found if key in keys and key not in known]
        room = int(min(len(wanted), max(0, self.lines_left - 2)))  # without the listing below, and a line more
        asked = [key for key in wanted[:room] if self.is_asked(key)]
        again = [waiver for waiver in self.waivers() if waiver.key in keys]
        return Carried(
            again, asked, [found[key] for key in wanted[room:]], [key for key in keys if key not in found],
            [marker for key, marker in found.items() if key not in keys], markers.masked)

    def is_asked(self, key):
        """Asks for a waiver; returns whether nobody else has asked for it meanwhile."""
        try:
            self.waive(key)
            return True
        except Refused as refused:
            if refused.word != "known":
                raise
            return False

    def verdict(self) -> Verdict:
        """Whether each marker has a signed waiver."""
        return self.told(verdict_of, "verdict")

    def trail(self) -> List[TrailRow]:
        """The requests so far."""
        return self.listed(trail_row_of, "trail")
