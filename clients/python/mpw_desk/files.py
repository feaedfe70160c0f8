"""Libraries, decks and tokens, each from a file."""
import hashlib
import os
import shlex
import stat
from typing import Union

from .decks import PlainDeck, plain_deck
from .faults import BadDeck, BadTokenFile
from .words import LARGEST_PAYLOAD, LONGEST_LINE, token_word

File = Union[str, "os.PathLike[str]"]


def library_bytes(library):
    """The bytes of a library, which is given by its path or as such."""
    if isinstance(library, (bytes, bytearray, memoryview)):
        return bytes(library)
    with open(library, "rb") as file:
        return file.read(LARGEST_PAYLOAD + 1)


def deck_of(deck) -> PlainDeck:
    """A deck as it is sent. It is given by its path, as such, or as its text: bytes, or a string with a line feed."""
    if isinstance(deck, PlainDeck):
        return deck
    text = deck.encode("utf-8") if isinstance(deck, str) and "\n" in deck else library_bytes(deck)
    if len(text) > LARGEST_PAYLOAD:
        raise BadDeck(f"a deck has at most {LARGEST_PAYLOAD} bytes, with its comments")
    return plain_deck(text)


def deck_bytes(deck) -> bytes:
    """The bytes of a deck as it is sent."""
    return deck_of(deck).text


def deck_text(deck) -> str:
    """The text of a deck as it is sent."""
    return deck_bytes(deck).decode("ascii")


def read_token(path: File) -> str:
    """The token that a file has, without line feeds at its end. Raises BadTokenFile if others than its owner may use the
    file."""
    with open(path, encoding="utf-8", errors="surrogateescape") as file:
        need_secret(os.fstat(file.fileno()), path)
        return file.read(LONGEST_LINE).rstrip("\r\n")


def need_secret(found, path):
    """Refuses a token file of one's own that others may use, as ssh does with a private key. Pipes and files of another owner
    pass: their owner decides."""
    is_own = os.name == "posix" and stat.S_ISREG(found.st_mode) and found.st_uid == os.geteuid()
    if is_own and found.st_mode & 0o077:
        mode = stat.S_IMODE(found.st_mode)
        raise BadTokenFile(
            f"others may read this token file (its mode is {mode:04o}), so it isn't used: run chmod 600 {shlex.quote(os.fspath(path))}")


def digest_of(token: str) -> str:
    """The SHA-256 of a token, as the option --digest of `mpw script` takes it."""
    return hashlib.sha256(token_word(token).encode("ascii")).hexdigest()
