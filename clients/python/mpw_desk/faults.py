"""What went wrong: every exception of this package is a `DeskError`."""


def shortened(text, length=120):
    """A text as an error may show it: without control characters, and not too long."""
    return ascii(text[:length])[1:-1] + ("..." if len(text) > length else "")


class DeskError(Exception):
    """What a desk or its connection may lead to."""


class Denied(DeskError):
    """The desk denied the request. `words` says why: session, login, permission, ssd, dsd, submitter or asker, and the words
    after it."""

    def __init__(self, words):
        super().__init__("DENIED " + " ".join(words))
        self.words = tuple(words)


class Refused(DeskError):
    """The desk refused the request: a code, its word, and the rest, which for a fault in a text is the byte or the line.
    `line` is the line of the deck as it was given, since the desk counts without comments (decks.py)."""

    def __init__(self, code, word, rest="", line=None):
        place = "" if line is None or str(line) == rest else f": line {line} of the deck"
        super().__init__(f"REFUSED {code} {word} {rest}".rstrip() + place)
        self.code, self.word, self.rest, self.line = code, word, rest, line


class BadWord(DeskError, ValueError):
    """A word or a line that this package doesn't send."""


class BadDeck(DeskError, ValueError):
    """A length of a deck that is no whole number of nm."""


class BadTokenFile(DeskError, ValueError):
    """A token file that others may read."""


class Lost(DeskError):
    """There is no connection, or it is gone, no reply came in time, or it was too large."""


class NotSent(Lost):
    """There is no connection any more, and nothing of this request was sent."""


class NotADesk(DeskError):
    """What came is no reply of a desk."""


class NotFinished(DeskError):
    """The run that was waited for isn't finished, or there is none. `status` is the last one."""

    def __init__(self, status, text):
        super().__init__(text)
        self.status = status
