"""The words and the lines of requests. A word that would break its line is refused before anything is sent."""
import re

from .faults import BadWord, shortened
from .values import DESK, Key, Marker, Operation, Waiver

LONGEST_LINE = 4096  # bytes of a request's line before its line feed
LARGEST_PAYLOAD = 1 << 24  # bytes


def is_visible(word):
    """Whether a word is one, of bytes of 21 to 7E hex."""
    return isinstance(word, str) and re.fullmatch("[!-~]+", word) is not None


def name(word):
    """A name as a request may have it."""
    if not is_visible(word) or len(word) > 255 or word == "-":
        raise BadWord(f"{shortened(str(word))}: no name: it has 1 to 255 visible ASCII characters, and isn't '-'")
    return word


def token_word(word):
    """A token, which no error shows."""
    if not is_visible(word) or len(word) > 255:
        raise BadWord("no token: it has 1 to 255 visible ASCII characters")
    return word


def key_of(key):
    """A key, which is given as such, or by its marker or its waiver, or as a word."""
    return key.key if isinstance(key, (Marker, Waiver)) else Key.of(str(key))


def key_word(key):
    """The word of a key."""
    return str(key_of(key))


def granted(operation, about):
    """The words of an operation and its object."""
    operation = Operation(operation)
    if operation.is_on_desk and about != DESK:
        raise BadWord(f"{shortened(str(about))}: {operation.value} is on the object {DESK}")
    return operation.value, name(about)


def line_bytes(line):
    """A line as it is sent, without its line feed. Errors show its first word alone, since a token may come after it."""
    data, verb = line.encode("utf-8", "surrogateescape"), shortened(line.split(" ")[0])
    if b"\n" in data:
        raise BadWord(f"{verb}: a line has no line feed")
    if len(data) > LONGEST_LINE:
        raise BadWord(f"{verb}: a line has at most {LONGEST_LINE} bytes, and this has {len(data)}")
    return data


def check_payload(line, payload):
    """Refuses a payload that the desk wouldn't take, and a line that would take the next lines for its payload.

    A line of another form takes no payload. The desk would then read the payload as lines, and execute what is in it."""
    verb, *words = line.split(" ")
    if payload is None:
        if verb in ("submit", "deck"):
            raise BadWord(f"{shortened(line)}: its payload is missing")
        return
    if (verb, len(words)) not in (("submit", 2), ("deck", 0)):
        raise BadWord(f"{shortened(line)}: only 'submit CELL TOP' and 'deck' have a payload")
    for word in words:
        name(word)
    if len(payload) > LARGEST_PAYLOAD:
        raise BadWord(f"{shortened(line)}: a payload has at most {LARGEST_PAYLOAD} bytes")
