"""The connection: bytes to the desk, and lines from it, each with a limit of time.

A desk also executes a last line without a line feed. So a request is written with its line feed by one call; and if that can't be
finished, the connection is reset instead of ended, since a desk drops what came of a line before a reset. A connection that
breaks within `deluser annabel` never deletes `ann`.
"""
import queue
import re
import socket
import struct
import subprocess
import threading
import time
from collections import deque
from contextlib import suppress

from .faults import Lost, NotADesk, shortened

LONGEST_REPLY_LINE = 1 << 20  # bytes; that of a boundary of 8191 points has 200,000 at most
LARGEST_REPLY = 1 << 30  # bytes
SLOWEST = 1 << 14  # bytes a second: what is large has a second more for each of so many bytes
RESET = struct.pack("ii", 1, 0)  # of SO_LINGER: closing resets the connection


class Deadline:
    """When a reply has to be there whole: so many seconds from now, and one more for each SLOWEST bytes of it."""

    def __init__(self, seconds):
        self.seconds, self.begun, self.received = seconds, time.monotonic(), 0

    @property
    def left(self):
        """The seconds that are left; raises Lost if there are none."""
        left = self.begun + self.seconds + self.received / SLOWEST - time.monotonic()
        if left <= 0:
            raise Lost(f"no whole reply came within {self.seconds:g} s")
        return left


class Channel:
    """The lines that come from the other end of a socket, and the bytes that go there."""

    def __init__(self, end, process=None):
        self.end, self.process = end, process
        self.lines, self.begun = deque(), b""
        self.is_sending = False

    def send(self, data, seconds):
        """Sends whole lines. If the other end takes no more, it may have said why: that is read as the reply."""
        self.is_sending = True
        try:
            self.end.settimeout(seconds + len(data) / SLOWEST)
            self.end.sendall(data)
            self.is_sending = False
        except socket.timeout:
            raise Lost(f"the other end didn't take the request within {self.end.gettimeout():g} s") from None
        except OSError:
            pass

    def receive(self, deadline):
        """The next bytes."""
        try:
            self.end.settimeout(deadline.left)
            data = self.end.recv(1 << 18)
        except socket.timeout:
            raise Lost(f"no whole reply came within {deadline.seconds:g} s") from None
        except ConnectionError:
            data = b""
        except OSError as error:
            raise Lost(f"the connection is gone: {error.strerror or error}") from None
        if not data:
            where = " in the middle of a line" if self.begun else ""
            raise Lost(f"the other end closed the connection{where}{self.ended()}")
        deadline.received += len(data)
        if deadline.received > LARGEST_REPLY:
            raise Lost(f"a reply of more than {LARGEST_REPLY} bytes isn't read")
        return data

    def line(self, deadline):
        """The next line."""
        while not self.lines:
            *whole, self.begun = (self.begun + self.receive(deadline)).split(b"\n")
            if max(map(len, [*whole, self.begun])) > LONGEST_REPLY_LINE:
                raise NotADesk(f"the other end is no desk: it sent a line of more than {LONGEST_REPLY_LINE} bytes")
            self.lines.extend(whole)
        line = self.lines.popleft()
        if re.fullmatch(rb"[ -~]*", line) is None:
            raise NotADesk(f"the other end is no desk: it sent {shortened(line.decode('latin1'))}")
        return line.decode("ascii")

    def ended(self):
        """What is known of the program at the other end, if it was started here."""
        if self.process is None:
            return ""
        try:
            return f": the program ended with status {self.process.wait(2)}"
        except subprocess.TimeoutExpired:
            return ""

    def close(self):
        """Closes the connection. A program that was started here is given time to end."""
        if self.is_sending:
            with suppress(OSError):
                self.end.setsockopt(socket.SOL_SOCKET, socket.SO_LINGER, RESET)
        self.end.close()
        if self.process is None:
            return
        for end in (lambda: None, self.process.terminate, self.process.kill):
            end()
            try:
                self.process.wait(5)
                return
            except subprocess.TimeoutExpired:
                pass


def addresses_of(host, port, deadline):
    """The addresses of a host. Python has no limit of time for looking them up, so a thread does it."""
    found = queue.Queue()

    def look_up():
        try:
            found.put((socket.getaddrinfo(host, port, type=socket.SOCK_STREAM), None))
        except (OSError, UnicodeError, OverflowError) as error:
            found.put(([], error))

    threading.Thread(target=look_up, daemon=True).start()
    try:
        addresses, error = found.get(timeout=deadline.left)
    except queue.Empty:
        addresses, error = [], f"its address wasn't found within {deadline.seconds:g} s"
    if error is not None:
        raise Lost(f"no connection to {host}:{port}: {error}")
    return addresses


def connected(host, port, seconds):
    """A socket to the first address of a host that answers."""
    deadline, fault = Deadline(seconds), "it has no address"
    for family, kind, protocol, _, address in addresses_of(host, port, deadline):
        end = socket.socket(family, kind, protocol)
        try:
            end.settimeout(deadline.left)
            end.connect(address)
            return end
        except (OSError, Lost) as error:
            fault = getattr(error, "strerror", None) or f"no answer within {seconds:g} s"
            end.close()
    raise Lost(f"no connection to {host}:{port}: {fault}: check the address, and that the desk runs")
