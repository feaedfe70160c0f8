"""A session on a desk, as the macros need it: by the class Desk of the Python client."""
import os
import re
from contextlib import contextmanager
from typing import Iterator, List, NamedTuple, Tuple

from mpw_desk import LARGEST_PAYLOAD, Denied, Desk, DeskError, Markers, Refused, Waiver, read_token

from mpw_klayout.check import Stopped


class Login(NamedTuple):
    """Who asks which desk: HOST:PORT, the user, the file of the user's token, and the roles, with blanks between them."""

    address: str
    user: str
    token_file: str
    roles: str


def address_of(text: str) -> Tuple[str, int]:
    """The host and the port of HOST:PORT; an IPv6 address is between brackets."""
    found = re.fullmatch(r"(?:\[([^\]]+)\]|([^:\s]+)):([0-9]{1,5})", text.strip())
    if not found or int(found[3]) > 65535:
        raise Stopped(f"{text}: no desk's address. It is HOST:PORT, such as desk.example:7001.")
    return found[1] or found[2], int(found[3])


def token_of(path: str) -> str:
    """The token of a file, or of the environment if no file is named."""
    if not path:
        token = os.environ.get("MPW_TOKEN")
        if token is None:
            raise Stopped("No token: name the file that has it, or set MPW_TOKEN before KLayout is started.")
        return token
    try:
        return read_token(os.path.expanduser(path))
    except OSError as error:
        raise Stopped(f"{path}: {error.strerror}") from None


@contextmanager
def session(login: Login) -> Iterator[Desk]:
    """A session with the roles active. What the desk denies or refuses is a sentence."""
    host, port = address_of(login.address)
    token = token_of(login.token_file)
    try:
        with Desk.connect(host, port) as desk:
            desk.open(login.user, token)
            for role in login.roles.split():
                desk.activate(role)
            yield desk
    except Denied as denied:
        raise Stopped(f"The desk denied it: {' '.join(denied.words)}") from None
    except Refused as refused:
        raise Stopped(f"The desk refused it: {refused.code} {refused.word} {refused.rest}".rstrip()
                      + f". `mpw help {refused.word}` says what that means.") from None
    except DeskError as error:
        raise Stopped(str(error)) from None


def submit(login: Login, cell: str, top: str, library: str) -> int:
    """Submits a library; the version that it became."""
    if os.path.getsize(library) > LARGEST_PAYLOAD:
        raise Stopped(f"The cell takes {os.path.getsize(library)} bytes as GDSII, and a desk accepts {LARGEST_PAYLOAD}.")
    with session(login) as desk:
        return desk.submit(cell, top, library)


def markers_of(login: Login) -> Tuple[str, Markers, List[Waiver]]:
    """How far the run is, its markers, and their waivers."""
    with session(login) as desk:
        return str(desk.status()), desk.markers(), desk.waivers()
