"""Asks a sign-off desk: over TCP if `mpw serve` runs, or over a pipe to `mpw script`.

    from mpw_desk import Desk, read_token

    with Desk.connect("127.0.0.1", 7001) as desk:
        desk.open("ann", read_token("ann.token"))
        desk.activate("pads")
        print("version", desk.submit("pad", "PAD", "pad.gds"))
        for marker in desk.markers().full:
            print(marker.key, marker.key.distance, marker.cells)

`Desk` has a method for each request, of the request's name and with its words as arguments. It returns what the lines of the reply
say, and raises `Denied` or `Refused` if the request wasn't accepted. Nothing waits without a limit: `Lost` says that no reply came,
and `NotADesk` that what came is none. The connection is closed then. All coordinates and lengths are in nm.

A word that would break the line, as one with a blank or a line feed, is refused before anything is sent (`BadWord`).
This folder needs Python 3.7 or later, and nothing else.

In reading order: `values` (what requests name and replies say), `faults`, `words` (requests as text), `replies` (replies as text),
`decks` and `files` (what is sent from files), `channel` (the connection), `conversation` (requests and replies over
it), `desk` (a method for each request).
"""
from .channel import LARGEST_REPLY, LONGEST_REPLY_LINE, SLOWEST, Channel, Deadline, addresses_of, connected
from .conversation import MOST_LINES
from .decks import PlainDeck, plain_deck
from .desk import Desk
from .faults import (
    BadDeck, BadTokenFile, BadWord, Denied, DeskError, Lost, NotADesk, NotFinished, NotSent, Refused, shortened)
from .files import File, deck_bytes, deck_of, deck_text, digest_of, library_bytes, read_token
from .replies import (
    BOUNDARY, ORIGIN, PATH, POINTS, after, cell_of, count_of, marker_of, number, role_of, shape_of, status_of, trail_row_of,
    verdict_of, waiver_of)
from .values import (
    DESK, Axis, Boundary, Carried, Cell, Key, Marker, Markers, Masked, Operation, Orientation, Path, Reply, Ruling, Shape,
    State, Status, TrailRow, Verdict, Waiver, Whoami)
from .words import (
    LARGEST_PAYLOAD, LONGEST_LINE, check_payload, granted, is_visible, key_of, key_word, line_bytes, name, token_word)

__all__ = [
    "Axis", "BOUNDARY", "BadDeck", "BadTokenFile", "BadWord", "Boundary", "Carried", "Cell", "Channel", "DESK", "Deadline",
    "Denied", "Desk", "DeskError", "File", "Key", "LARGEST_PAYLOAD", "LARGEST_REPLY", "LONGEST_LINE", "LONGEST_REPLY_LINE",
    "Lost", "MOST_LINES", "Marker", "Markers", "Masked", "NotADesk", "NotFinished", "NotSent", "ORIGIN", "Operation",
    "Orientation", "PATH", "POINTS", "Path", "PlainDeck", "Refused", "Reply", "Ruling", "SLOWEST", "Shape", "State", "Status",
    "TrailRow", "Verdict", "Waiver", "Whoami", "addresses_of", "after", "cell_of", "check_payload", "connected", "count_of",
    "deck_bytes", "deck_of", "deck_text", "digest_of", "granted", "is_visible", "key_of", "key_word", "library_bytes",
    "line_bytes", "marker_of", "name", "number", "plain_deck", "read_token", "role_of", "shape_of", "shortened", "status_of",
    "token_word", "trail_row_of", "verdict_of", "waiver_of",
]
